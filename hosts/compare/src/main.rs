//! Compares an engine with the second calculation on drawn inputs.

mod call;
mod draw;
mod engine;
mod fault;
mod guard;
mod lent;
mod met;
mod report;
mod rng;
mod rounds;
mod sizes;
#[cfg(test)]
mod tests;
mod worked;

use rounds::Plan;
use std::process::ExitCode;

const USAGE: &str =
    "compare [--seed N] [--rounds N] [--call NAME] [--only ROUND] [--program PATH] [--month PATH]
  --seed N       the draws' seed (default 1)
  --rounds N     comparisons a call (default 200000; 2000 for a program)
  --call NAME    one call only; list is lists of calls, worked the worked figures, balance and
                 month_program the programs
  --only ROUND   one round of that call, with its inputs and answers
  --program PATH also compare what the program balance prints
  --month PATH   also compare what the program month prints";

const ROUNDS: u64 = 200_000;
const PROGRAM_ROUNDS: u64 = 2_000;

/// The engine under test.
#[cfg(feature = "selftest")]
fn engine() -> Option<impl engine::Engine> {
    println!("selftest: the second calculation stands in for the engine");
    Some(engine::Second)
}

#[cfg(all(engine_linked, not(feature = "selftest")))]
fn engine() -> Option<impl engine::Engine> {
    Some(engine::linked::Linked::on_bytes())
}

#[cfg(all(not(engine_linked), not(feature = "selftest")))]
fn engine() -> Option<impl engine::Engine> {
    println!("no engine was linked: set FANZSOREB_LIB and FANZSOREB_NAME, and build again");
    None::<engine::Second>
}

struct Arguments {
    seed: u64,
    rounds: Option<u64>,
    call: Option<String>,
    only: Option<u64>,
    /// The programs by the names of their rounds, and their paths.
    programs: Vec<(&'static str, String)>,
}

fn arguments() -> Option<Arguments> {
    let programs = Vec::new();
    let mut arguments = Arguments { seed: 1, rounds: None, call: None, only: None, programs };
    let mut given = std::env::args().skip(1);
    while let Some(option) = given.next() {
        let value = given.next()?;
        match option.as_str() {
            "--seed" => arguments.seed = value.parse().ok()?,
            "--rounds" => arguments.rounds = Some(value.parse().ok()?),
            "--call" => arguments.call = Some(value),
            "--only" => arguments.only = Some(value.parse().ok()?),
            "--program" => arguments.programs.push(("balance", value)),
            "--month" => arguments.programs.push(("month_program", value)),
            _ => return None,
        }
    }
    if let Some(name) = &arguments.call {
        let program = arguments.programs.iter().any(|(program, _)| program == name);
        if !call::NAMES.contains(&name.as_str())
            && !["list", "worked"].contains(&name.as_str())
            && !program
        {
            return None;
        }
    }
    if arguments.only.is_some() && arguments.call.is_none() {
        return None;
    }
    Some(arguments)
}

fn main() -> ExitCode {
    let Some(arguments) = arguments() else {
        println!("{USAGE}");
        return ExitCode::from(2);
    };
    let Some(engine) = engine() else {
        println!("0 passed, 1 failed");
        return ExitCode::from(1);
    };
    let plan = |rounds: u64| Plan {
        seed: arguments.seed,
        rounds: arguments.rounds.unwrap_or(rounds),
        only: arguments.only,
        loud: true,
        first_only: false,
    };
    let asked = |name: &str| arguments.call.is_none() || arguments.call.as_deref() == Some(name);

    fault::watch();
    println!("seed {}", arguments.seed);
    let (mut passed, mut failed) = (0, 0);
    if asked("worked") {
        let worked = worked::figures(&engine);
        println!("worked figures: {} compared", worked.compared);
        passed += worked.compared - worked.failed;
        failed += worked.failed;
    }
    for name in call::NAMES {
        if asked(name) {
            let counts = rounds::single(&engine, &plan(ROUNDS), name);
            println!("{name}: {counts}");
            passed += counts.passed();
            failed += counts.failed;
        }
    }
    if asked("list") {
        for (name, counts) in rounds::lists(&engine, &plan(ROUNDS)) {
            println!("list, {name}: {counts}");
            passed += counts.passed();
            failed += counts.failed;
        }
    }
    for (name, path) in &arguments.programs {
        if asked(name) {
            let counts = rounds::program(name, path, &plan(PROGRAM_ROUNDS));
            println!("{name}: {counts}");
            passed += counts.passed();
            failed += counts.failed;
        }
    }
    println!("{passed} passed, {failed} failed");
    ExitCode::from(if failed > 0 { 1 } else { 0 })
}
