//! The rounds of one call, and of lists of calls.

use crate::call::{shown, Call};
use crate::draw;
use crate::engine::Engine;
use crate::fault;
use crate::lent::Lent;
use crate::report::Counts;
use crate::rng::Rng;
use std::collections::BTreeMap;
use std::io::Write;
use std::process::{Command, Stdio};

/// Differences that are printed with their inputs; the others are only counted.
const MOST_SHOWN: u64 = 5;
/// A round may take so many seconds.
const PATIENCE: u32 = 60;

pub struct Plan {
    pub seed: u64,
    pub rounds: u64,
    /// One round alone, with its inputs printed before the call.
    pub only: Option<u64>,
    /// Print differences (a test counts them only).
    pub loud: bool,
    /// End with the first difference.
    pub first_only: bool,
}

impl Plan {
    fn numbers(&self) -> std::ops::Range<u64> {
        match self.only {
            Some(round) => round..round + 1,
            None => 0..u64::MAX,
        }
    }
}

fn tell(plan: &Plan, shown_before: u64, name: &str, round: u64, lines: &[String]) {
    if !plan.loud || shown_before >= MOST_SHOWN {
        return;
    }
    println!("DIFFERENCE call {name}, seed {}, round {round}", plan.seed);
    for line in lines {
        println!("  {line}");
    }
    println!("  again: compare --call {name} --seed {} --only {round}", plan.seed);
}

/// Rounds of one call, each on a book of its own.
pub fn single(engine: &impl Engine, plan: &Plan, name: &'static str) -> Counts {
    let mut lent = Lent::new();
    let mut counts = Counts::default();
    for round in plan.numbers() {
        if counts.compared >= plan.rounds || (plan.first_only && counts.failed > 0) {
            break;
        }
        let mut rng = Rng::of_round(plan.seed, name, round);
        let (book, call) = draw::round(&mut rng, name);
        fault::at_round(plan.seed, name, round);
        fault::limit(PATIENCE);
        if plan.only.is_some() {
            println!("round {round}: book {}\n  call {}", shown(&book), call.shown());
        }
        let mut model = book.clone();
        lent.lend_book(&mut rng, &book);
        match lent.compare(engine, &mut rng, &mut model, &call) {
            Ok(answer) => {
                counts.alike(&call, &book, &answer);
                fault::counted(false);
                if plan.only.is_some() {
                    println!("  both answer {}", answer.shown());
                }
            }
            Err(mut wrong) => {
                wrong.push(format!("book {}", shown(&book)));
                wrong.push(format!("call {}", call.shown()));
                tell(plan, counts.failed, name, round, &wrong);
                counts.different();
                fault::counted(true);
            }
        }
    }
    fault::limit(0);
    counts
}

/// Lists of calls on one book, compared after each call. A list ends with its
/// first difference. The counts are kept by call.
pub fn lists(engine: &impl Engine, plan: &Plan) -> BTreeMap<&'static str, Counts> {
    let mut lent = Lent::new();
    let mut counts: BTreeMap<&'static str, Counts> = BTreeMap::new();
    let (mut compared, mut failed) = (0, 0);
    for round in plan.numbers() {
        if compared >= plan.rounds || (plan.first_only && failed > 0) {
            break;
        }
        let mut rng = Rng::of_round(plan.seed, "list", round);
        fault::at_round(plan.seed, "list", round);
        fault::limit(PATIENCE);
        let (world, start) = draw::list_start(&mut rng);
        let mut model = start.clone();
        lent.lend_book(&mut rng, &start);
        if plan.only.is_some() {
            println!("round {round}: book {}", shown(&start));
        }
        let mut calls: Vec<Call> = Vec::new();
        let mut script = draw::list_script(&mut rng, &world).into_iter();
        for _ in 0..draw::list_length(&mut rng) {
            let scripted = if rng.percent(75) { script.next() } else { None };
            let call = match scripted {
                Some(call) => call,
                None => draw::list_call(&mut rng, &world, &model),
            };
            calls.push(call.clone());
            let before = model.clone();
            if plan.only.is_some() {
                println!("  call {}", call.shown());
            }
            let counts = counts.entry(call.name()).or_default();
            compared += 1;
            match lent.compare(engine, &mut rng, &mut model, &call) {
                Ok(answer) => {
                    counts.alike(&call, &before, &answer);
                    fault::counted(false);
                    if plan.only.is_some() {
                        println!("    both answer {}", answer.shown());
                    }
                }
                Err(mut wrong) => {
                    wrong.push(format!("step {} of this list", calls.len() - 1));
                    wrong.push(format!("book before it {}", shown(&before)));
                    wrong.push(format!("book at the list's start {}", shown(&start)));
                    for call in &calls {
                        wrong.push(format!("call {}", call.shown()));
                    }
                    tell(plan, failed, "list", round, &wrong);
                    counts.different();
                    fault::counted(true);
                    failed += 1;
                    break;
                }
            }
        }
    }
    fault::limit(0);
    counts
}

/// Files for a program, and arguments where it is "month": what it prints against what it should.
pub fn program(name: &'static str, path: &str, plan: &Plan) -> Counts {
    let mut counts = Counts::default();
    for round in plan.numbers() {
        if counts.compared >= plan.rounds {
            break;
        }
        let mut rng = Rng::of_round(plan.seed, name, round);
        let file = draw::lone_file(&mut rng);
        let (arguments, wanted) = if name == "balance" {
            (Vec::new(), second::balance_output(&file))
        } else {
            let arguments = draw::month_arguments(&mut rng, &file);
            let given: Vec<&str> = arguments.iter().map(String::as_str).collect();
            let wanted = second::month_output(&file, &given);
            (arguments, wanted)
        };
        if plan.only.is_some() {
            println!("round {round}: arguments {arguments:?}, file {}", shown(&file));
        }
        let got = output_of(path, &arguments, &file);
        if got.as_ref() == Ok(&wanted) {
            let text = String::from_utf8_lossy(&wanted);
            let cause = text.strip_prefix("refused ").and_then(|c| c.trim().parse().ok());
            counts.alike_output(cause.unwrap_or(0));
            fault::counted(false);
        } else {
            let got = got.map(|bytes| String::from_utf8_lossy(&bytes).into_owned());
            let wrong = [
                format!("printed {got:?}"),
                format!("second calculation {:?}", String::from_utf8_lossy(&wanted)),
                format!("arguments {arguments:?}, file {}", shown(&file)),
            ];
            tell(plan, counts.failed, name, round, &wrong);
            counts.different();
            fault::counted(true);
        }
    }
    counts
}

/// Runs the program with the file as its standard input.
fn output_of(path: &str, arguments: &[String], file: &[u8]) -> Result<Vec<u8>, String> {
    let mut child = Command::new(path)
        .args(arguments)
        .stdin(Stdio::piped())
        .stdout(Stdio::piped())
        .spawn()
        .map_err(|e| e.to_string())?;
    let mut input = child.stdin.take().expect("piped");
    let file = file.to_vec();
    // A program that refuses early need not read to the end.
    let writer = std::thread::spawn(move || drop(input.write_all(&file)));
    let output = child.wait_with_output().map_err(|e| e.to_string())?;
    let _ = writer.join();
    Ok(output.stdout)
}
