//! The rules of document 02, section 4, told from the history: the acts so far and what their callers were told. Nothing else is kept. Who
//! is seated, how many submissions were used, the lowest cost of a candidate and whether the sitting is closed are worked out afresh each
//! time. The sitting and the records that a library gives back are worked out in the same way.
use crate::acts::{Act, Outcome, Seat, Sitting, Told, SUPERVISOR};
use crate::boundary::Planner;
use crate::plain;

/// The most seats: 'at most 32'.
const MOST_SEATS: usize = 32;

/// The tests of an act in their order: whether a refusal applies, its number, and its reason.
type Tests = Vec<(bool, u64, &'static str)>;

struct Past {
    caller: u16,
    act: Act,
    told: Told,
}

impl Past {
    fn accepted(&self) -> bool {
        self.told.number == 0
    }

    /// 'A sheet refused by 11 to 13 uses up one hand-in too.'
    fn uses_submission(&self) -> bool {
        matches!(self.act, Act::Submit { .. }) && matches!(self.told.number, 0 | 11..=13)
    }
}

/// The sitting and the list as they were handed to the first act, and the acts since then. The first sitting counts as unopened, or else the
/// first act is an opening that is accepted.
pub struct History {
    sitting: Sitting,
    list: Vec<Seat>,
    past: Vec<Past>,
}

impl History {
    pub fn new(sitting: Sitting, list: &[Seat]) -> Self {
        History { sitting, list: list.to_vec(), past: Vec::new() }
    }

    /// The acts from the last accepted opening on: 'it lasts until the next accepted opening'. There are none before the first one.
    fn this_sitting(&self) -> &[Past] {
        let opening = |past: &Past| matches!(past.act, Act::Open { .. }) && past.accepted();
        match self.past.iter().rposition(opening) {
            Some(at) => &self.past[at..],
            None => &[],
        }
    }

    /// The accepted acts of this sitting.
    fn accepted(&self) -> impl Iterator<Item = &Past> {
        self.this_sitting().iter().filter(|past| past.accepted())
    }

    /// The allowance and the least cost of the opening.
    fn opening(&self) -> Option<(u64, u64)> {
        self.this_sitting().first().map(|past| match past.act {
            Act::Open { allowance, .. } => (allowance, past.told.cost),
            _ => unreachable!("a sitting begins with its opening"),
        })
    }

    pub fn opened(&self) -> bool {
        self.opening().is_some()
    }

    pub fn closed(&self) -> bool {
        self.accepted().any(|past| matches!(past.act, Act::Close))
    }

    pub fn open(&self) -> bool {
        self.opened() && !self.closed()
    }

    /// The candidates that were seated, in the order of their seating, which is that of their records.
    pub fn seated(&self) -> Vec<u16> {
        let candidate = |past: &Past| match past.act {
            Act::Seat { candidate } => Some(candidate),
            _ => None,
        };
        self.accepted().filter_map(candidate).collect()
    }

    /// The number of seats of the list.
    pub fn places(&self) -> usize {
        self.list.len().min(MOST_SEATS)
    }

    pub fn submissions(&self) -> u64 {
        self.this_sitting().iter().filter(|past| past.uses_submission()).count() as u64
    }

    /// The lowest cost among the sheets of a candidate that were marked.
    pub fn lowest(&self, candidate: u16) -> Option<u64> {
        let own = |past: &&Past| past.caller == candidate && matches!(past.act, Act::Submit { .. });
        self.accepted().filter(own).map(|past| past.told.cost).min()
    }

    fn opening_tests(&self, caller: u16, allowance: u64, planned: u64) -> Tests {
        vec![
            (planned != 0, planned, "the exact planner's"),
            (caller != SUPERVISOR, 15, "a candidate"),
            (allowance == 0, 17, "allowance 0"),
            (allowance > 1_000, 17, "allowance above 1,000"),
        ]
    }

    fn seating_tests(&self, caller: u16, candidate: u16) -> Tests {
        let seated = self.seated();
        vec![
            (caller != SUPERVISOR, 15, "a candidate"),
            (!self.opened(), 15, "unopened"),
            (self.closed(), 15, "closed"),
            (candidate == 0, 16, "candidate 0"),
            (seated.contains(&candidate), 16, "seated already"),
            (seated.len() >= self.list.len(), 16, "beyond the list"),
            (seated.len() >= MOST_SEATS, 16, "beyond the 32nd"),
        ]
    }

    fn submission_tests(&self, caller: u16, card: u64, sheet: u64) -> Tests {
        let used_up = self.opening().is_some_and(|(allowance, _)| self.submissions() >= allowance);
        vec![
            (card != 0, card, "of the card"),
            (caller == SUPERVISOR, 15, "the supervisor"),
            (!self.opened(), 15, "unopened"),
            (self.closed(), 15, "closed"),
            (!self.seated().contains(&caller), 16, "not seated"),
            (used_up, 17, "used up"),
            (card == 0 && sheet != 0, sheet, "of the sheet"),
        ]
    }

    /// The tests of the acts that read, and of closing.
    fn other_tests(&self, caller: u16, act: &Act) -> Tests {
        let (candidate, unopened) = (caller != SUPERVISOR, (!self.opened(), 15, "unopened"));
        let seated = self.seated();
        match act {
            Act::Least => vec![
                unopened,
                (candidate && self.open(), 15, "a candidate before closing"),
                (candidate && !seated.contains(&caller), 16, "not seated"),
            ],
            Act::Lowest { candidate: named } => vec![
                unopened,
                (candidate && caller != *named, 15, "another candidate"),
                (*named == 0, 16, "candidate 0"),
                (!seated.contains(named), 16, "not seated"),
            ],
            Act::Close => vec![(candidate, 15, "a candidate"), unopened, (self.closed(), 15, "closed already")],
            _ => vec![(candidate, 15, "a candidate"), unopened],
        }
    }

    /// All refusals that apply to an act, in the order in which they are tested, each with its reason. Of a card that is refused only the
    /// first of 1 to 8 is there, and no refusal that is looked up in the card.
    pub fn refusals(&self, caller: u16, act: &Act) -> Vec<(u64, &'static str)> {
        let tests = match act {
            Act::Open { allowance, card, plan, work } => {
                self.opening_tests(caller, *allowance, plain::plan(Planner::Exact, card, plan, work).answer.number)
            }
            Act::Seat { candidate } => self.seating_tests(caller, *candidate),
            Act::Submit { card, sheet } => {
                self.submission_tests(caller, plain::check_card(card).number, plain::mark(card, sheet).number)
            }
            _ => self.other_tests(caller, act),
        };
        tests.into_iter().filter(|(applies, ..)| *applies).map(|(_, number, reason)| (number, reason)).collect()
    }

    /// What an act tells its caller: the first refusal that applies, or what it gives.
    pub fn told(&self, caller: u16, act: &Act) -> Told {
        if let Some((number, _)) = self.refusals(caller, act).first() {
            return Told::refused(*number);
        }
        match act {
            Act::Open { card, plan, work, .. } => Told::cost(plain::plan(Planner::Exact, card, plan, work).answer.cost),
            Act::Seat { .. } | Act::Close => Told::cost(0),
            Act::Submit { card, sheet } => Told::cost(plain::mark(card, sheet).cost),
            Act::Least => Told::cost(self.opening().expect("an unopened sitting is refused").1),
            Act::Lowest { candidate } => match self.lowest(*candidate) {
                Some(cost) => Told { marked: 1, ..Told::cost(cost) },
                None => Told::cost(0),
            },
            Act::Used => Told::cost(self.submissions()),
        }
    }

    /// The sitting as the last act gave it back. Before the first accepted opening it is the one that was handed in.
    pub fn sitting(&self) -> Sitting {
        let given = |(allowance, least)| {
            let state = if self.closed() { 2 } else { 1 };
            Sitting { state, allowance, submissions: self.submissions(), least }
        };
        self.opening().map_or(self.sitting, given)
    }

    /// The list as the last act left it. The records of the seated candidates come first, then empty ones up to the 32nd, and then those
    /// that were there from the beginning.
    pub fn seats(&self) -> Vec<Seat> {
        if !self.opened() {
            return self.list.clone();
        }
        let record = |candidate: u16| {
            let lowest = self.lowest(candidate);
            Seat { lowest: lowest.unwrap_or(0), candidate, marked: lowest.is_some().into(), reserved: 0 }
        };
        let mut out: Vec<Seat> = self.seated().into_iter().map(record).collect();
        out.resize(self.places(), Seat::default());
        out.extend(&self.list[self.places()..]);
        out
    }

    /// The whole outcome that an act must have. The act becomes the last one of the history.
    pub fn next(&mut self, caller: u16, act: &Act) -> Outcome {
        let told = self.told(caller, act);
        let areas = match act {
            Act::Open { card, plan, work, .. } if told.number == 0 => plain::plan(Planner::Exact, card, plan, work).buffers,
            _ => act.areas(),
        };
        self.past.push(Past { caller, act: act.clone(), told });
        Outcome { reply: told.with(self.sitting()), seats: self.seats(), areas }
    }
}
