// The answers of include/fanzsoreb.h, of the engine and of plain Rust alike.

macro_rules! answers {
    ($($name:ident { $($field:ident: $kind:ty),* })*) => {$(
        #[repr(C)]
        #[derive(Clone, Copy, Default, PartialEq)]
        pub struct $name { $(pub $field: $kind),* }

        impl $name {
            pub fn refused(answer: u32) -> $name {
                $name { answer, ..Default::default() }
            }
        }
    )*};
}

answers! {
    Posted { answer: u32, number: u32 }
    Counted { answer: u32, count: u32 }
    EntryRead { answer: u32, party: u32, day: u32, entry_type: u32, counterparty: u32, status: u32, amount: u64 }
    Balance { answer: u32, balance: i64 }
    TallyAnswer { answer: u32, tally: Sums, bought: u64 }
    MonthAnswer { answer: u32, month: MonthFigures }
    Recordable { answer: u32, recordable: u32 }
    FirstDay { answer: u32, day: u32 }
    MonthReport { answer: u32, month: u32, first_day: u32, days: u32, lines: [[u64; 21]; 32] }
    Controlled { answer: u32, first: u32, second: u32, cancelled: u32 }
    FileRead { answer: u32, posted: u32 }
    Collateral { answer: u32, margin: u64, trading: u64, imbalance: u64, risk: u64, yek: u64, total: u64 }
}

#[repr(C)]
#[derive(Clone, Copy, Default, PartialEq)]
pub struct Sums {
    pub party: u32,
    pub sums: [u64; 17],
}

#[repr(C)]
#[derive(Clone, Copy, Default, PartialEq)]
pub struct MonthFigures {
    pub aosmf: u64,
    pub aedm: i64,
}
