//! The numbered refusals of documents 01 and 02.
use std::fmt;

/// Defines the refusals, each by its name, its number and its words.
macro_rules! refusals {
    ($($name:ident = $number:literal: $words:literal,)*) => {
        /// A refusal, under the name that include/lamp.h gives it.
        #[derive(Clone, Copy, Debug, PartialEq, Eq)]
        pub enum Refusal {
            $($name = $number,)*
        }

        impl Refusal {
            /// All refusals, in the order of their numbers.
            pub const ALL: &'static [Refusal] = &[$(Refusal::$name,)*];

            /// When the refusal is given, in words. No call gives 9, whose name stays because the header's does.
            pub fn words(self) -> &'static str {
                match self {
                    $(Refusal::$name => $words,)*
                }
            }
        }
    };
}

refusals! {
    // tests/words.py writes the lines from here on, from include/refusals.txt.
    NotACard = 1: "not a card: under 17 bytes, or wrong mark",
    WrongVersion = 2: "version not 1",
    RackSize = 3: "modules or top step outside 1 to 200",
    SlotCount = 4: "more than 1,024 slots",
    CardLength = 5: "length not 17 + 4(top + 1) + 2 slots",
    PriceRange = 6: "a price or a table entry above its bound",
    NotConvex = 7: "table not convex",
    LoadRange = 8: "a load above modules times top step",
    NotMonotone = 9: "never given; before release 2.0.0 a table that falls, coarse plan only",
    BufferTooShort = 10: "a lent area shorter than asked for",
    WrongLength = 11: "a handed-in plan or sheet of another length than the show has",
    EntryRange = 12: "a count above the modules, or a step above the top step",
    LoadNotServed = 13: "a slot has too little light, or a count cannot serve its load",
    ZeroStart = 14: "start 0 of a practice card",
    NotPermitted = 15: "an act that the caller has no right to, at all or as the sitting stands",
    SeatUnavailable = 16: "candidate 0, not seated, seated already, or no empty record in the first 32",
    AllowanceSpent = 17: "the allowance is used up, or outside 1 to 1,000 at an opening",
    CountList = 18: "list of counts or ratio against the rules",
    // tests/words.py writes the lines up to here.
}

impl Refusal {
    pub fn number(self) -> u64 {
        self as u64
    }

    pub fn of_number(number: u64) -> Option<Refusal> {
        Refusal::ALL.iter().copied().find(|refusal| refusal.number() == number)
    }
}

impl fmt::Display for Refusal {
    fn fmt(&self, f: &mut fmt::Formatter<'_>) -> fmt::Result {
        write!(f, "refused {}: {}", self.number(), self.words())
    }
}
