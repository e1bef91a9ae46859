//! The acts of a sitting (document 02, section 4): sequences beside rules that are told from the history, single acts on any sitting and any
//! list beside rules that work on the values, and what follows from the rules, seen on sequences without either of the two.
use lamp_tests::acts::{self, difference, Act, Outcome, Reply, Seat, Sitting, Told, SUPERVISOR};
use lamp_tests::boundary::Planner;
use lamp_tests::cards::card_a;
use lamp_tests::classes::{Classes, Table};
use lamp_tests::history::History;
use lamp_tests::plain::{self, OFF};
use lamp_tests::random::Random;
use lamp_tests::sequences::{self, Sequence, Start, Step, STARTS, SUBMISSIONS_ALONE, WEIGHTS};
use lamp_tests::values;
use std::collections::{BTreeMap, BTreeSet};
use std::mem::{align_of, offset_of, size_of};

/// The numbers of each act: 0, and its refusals in the order in which they are tested.
const NUMBERS: [(&str, &[u64]); 7] = [
    ("open", &[0, 1, 2, 3, 4, 5, 6, 7, 8, 10, 15, 17]),
    ("seat", &[0, 15, 16]),
    ("close", &[0, 15]),
    ("submit", &[0, 1, 2, 3, 4, 5, 6, 7, 8, 15, 16, 17, 11, 12, 13]),
    ("least", &[0, 15, 16]),
    ("lowest", &[0, 15, 16]),
    ("used", &[0, 15]),
];

/// The lengths of the lists of the sequences.
const RECORDS: [usize; 5] = [0, 1, 5, 32, 40];

fn list_name(records: usize) -> String {
    format!("list of {records}")
}

// The records have no padding, and their fields lie where C has them.
const _: () = assert!(size_of::<Seat>() == 16 && size_of::<Sitting>() == 32 && size_of::<Reply>() == 56);
const _: () = assert!(align_of::<Seat>() == 8 && align_of::<Sitting>() == 8 && align_of::<Reply>() == 8);
const _: () = assert!(offset_of!(Seat, lowest) == 0 && offset_of!(Seat, candidate) == 8);
const _: () = assert!(offset_of!(Seat, marked) == 10 && offset_of!(Seat, reserved) == 12);
const _: () = assert!(offset_of!(Sitting, state) == 0 && offset_of!(Sitting, allowance) == 8);
const _: () = assert!(offset_of!(Sitting, submissions) == 16 && offset_of!(Sitting, least) == 24);
const _: () = assert!(offset_of!(Reply, number) == 0 && offset_of!(Reply, cost) == 8);
const _: () = assert!(offset_of!(Reply, marked) == 16 && offset_of!(Reply, sitting) == 24);

/// A sitting on card A: each act with its caller, and what the caller is told. The submitted sheets differ in their last slot alone.
fn example_acts() -> Vec<(u16, Act, Told)> {
    let submit = |last: [u8; 3]| Act::Submit { card: card_a(), sheet: [&[2, 2, 2, OFF, 0, OFF], &last[..]].concat() };
    let open = |allowance| Act::Open { allowance, card: card_a(), plan: vec![7; 4], work: vec![7; 13] };
    let (seat, lowest) = (|candidate| Act::Seat { candidate }, |candidate| Act::Lowest { candidate });
    vec![
        (0, Act::Used, Told::refused(15)),
        (0, open(0), Told::refused(17)),
        (4, open(4), Told::refused(15)),
        (0, open(4), Told::cost(32)),
        (0, seat(4), Told::cost(0)),
        (0, seat(260), Told::cost(0)),
        (0, seat(4), Told::refused(16)),
        (0, seat(5), Told::refused(16)),
        (4, lowest(4), Told::cost(0)),
        (4, submit([2, OFF, 0]), Told::cost(43)),
        (4, submit([2, OFF, OFF]), Told::cost(37)),
        (4, submit([2, OFF, 1]), Told::cost(44)),
        (5, submit([2, OFF, OFF]), Told::refused(16)),
        (0, submit([2, OFF, OFF]), Told::refused(15)),
        (260, Act::Least, Told::refused(15)),
        (260, submit([1, OFF, OFF]), Told::refused(13)),
        (260, submit([2, OFF, OFF]), Told::refused(17)),
        (0, Act::Used, Told::cost(4)),
        (0, Act::Close, Told::cost(0)),
        (0, Act::Close, Told::refused(15)),
        (260, Act::Least, Told::cost(32)),
        (5, Act::Least, Told::refused(16)),
        (4, lowest(4), Told { marked: 1, ..Told::cost(37) }),
        (4, lowest(260), Told::refused(15)),
        (0, lowest(260), Told::cost(0)),
        (0, lowest(0), Told::refused(16)),
    ]
}

#[test]
fn example() {
    let (mut sitting, mut seats) = (Sitting::default(), vec![Seat::default(); 2]);
    for (caller, act, told) in example_acts() {
        let found = acts::act(sitting, caller, &act, &seats);
        assert_eq!(Told::from(found.reply), told, "{act:?} of {caller}");
        (sitting, seats) = (found.reply.sitting, found.seats);
    }
    assert_eq!(sitting, Sitting { state: 2, allowance: 4, submissions: 4, least: 32 });
    let second = Seat { candidate: 260, ..Seat::default() };
    assert_eq!(seats, [Seat { lowest: 37, candidate: 4, marked: 1, reserved: 0 }, second]);
}

/// Every list has as many seats as it has records, and at most 32. The seats are filled in their order.
#[test]
fn every_length() {
    for records in 0..=40u16 {
        let seats = vec![Seat { candidate: 9, ..Seat::default() }; records.into()];
        let card = card_a();
        let opening = Act::Open { allowance: 1, card, plan: vec![0; 3], work: vec![0; 12] };
        let opened = acts::act(Sitting::default(), SUPERVISOR, &opening, &seats);
        let (sitting, mut seats) = (opened.reply.sitting, opened.seats);
        for candidate in 1..=50 {
            let found = acts::act(sitting, SUPERVISOR, &Act::Seat { candidate }, &seats);
            let wanted = if candidate <= records.min(32) { Told::cost(0) } else { Told::refused(16) };
            assert_eq!(Told::from(found.reply), wanted, "candidate {candidate}, {records} records");
            seats = found.seats;
        }
        let candidates: Vec<u16> = seats.iter().map(|seat| seat.candidate).collect();
        let filled = (1..=records.min(32)).chain((32..records).map(|_| 9));
        assert!(filled.eq(candidates), "{records} records");
    }
}

/// The refusals of an act that can apply together, by their numbers: the first is tested before the second. Where the card is refused, or
/// an area is too short, the library looks at no sheet and at no further area.
fn pairs() -> Vec<String> {
    let together = |first: u64, second: u64| match (first, second) {
        (1..=10, 1..=13) | (11..=13, _) => false,
        _ => first != 0,
    };
    let mut out = Vec::new();
    for (act, numbers) in NUMBERS {
        for (at, first) in numbers.iter().enumerate() {
            let later = numbers[at + 1..].iter().filter(|second| together(*first, **second));
            out.extend(later.map(|second| format!("{act}: {first} where {second} applies too")));
        }
    }
    out
}

/// Why an act is refused.
const REASONS: [&str; 27] = [
    "open: 15, a candidate",
    "open: 17, allowance 0",
    "open: 17, allowance above 1,000",
    "seat: 15, a candidate",
    "seat: 15, unopened",
    "seat: 15, closed",
    "seat: 16, candidate 0",
    "seat: 16, seated already",
    "seat: 16, beyond the list",
    "seat: 16, beyond the 32nd",
    "close: 15, a candidate",
    "close: 15, unopened",
    "close: 15, closed already",
    "submit: 15, the supervisor",
    "submit: 15, unopened",
    "submit: 15, closed",
    "submit: 16, not seated",
    "submit: 17, used up",
    "least: 15, unopened",
    "least: 15, a candidate before closing",
    "least: 16, not seated",
    "lowest: 15, unopened",
    "lowest: 15, another candidate",
    "lowest: 16, candidate 0",
    "lowest: 16, not seated",
    "used: 15, a candidate",
    "used: 15, unopened",
];

/// What else comes up in the sequences.
const OPENED_AGAIN: &str = "an opening replaces a sitting that is open";
const OPENED_AFTER_CLOSING: &str = "an opening replaces a sitting that is closed";
const OLD_STANDS: &str = "an opening is refused and the old sitting stands";
const LOWEST_ZERO: &str = "a lowest cost of 0 is read";
const NO_LOWEST: &str = "a seat without a lowest cost is read";
const LOWEST_STAYS: &str = "a sheet that costs more leaves the lowest";
const LOWEST_FALLS: &str = "a sheet that costs less lowers the lowest";
const READ_AFTER_CLOSING: &str = "a lowest cost is read after closing";
const FULL: &str = "all 32 seats are taken";
const OTHERS: [&str; 9] = [
    OPENED_AGAIN,
    OPENED_AFTER_CLOSING,
    OLD_STANDS,
    LOWEST_ZERO,
    NO_LOWEST,
    LOWEST_STAYS,
    LOWEST_FALLS,
    READ_AFTER_CLOSING,
    FULL,
];

/// The classes of a sequence of acts, its table, and what an act began with.
struct Seen {
    classes: Classes,
    table: Table,
    before: (Sitting, Vec<Seat>),
}

impl Seen {
    fn new(title: &str) -> Self {
        let named = [pairs(), RECORDS.map(list_name).to_vec()].concat();
        let names: Vec<&str> =
            named.iter().map(String::as_str).chain(STARTS.map(Start::name)).chain(REASONS).chain(OTHERS).collect();
        Seen { classes: Classes::new(title, &names), table: Table::new(title, &NUMBERS), before: Default::default() }
    }

    /// Counts the number of an act, why it was refused, and which refusals apply besides.
    fn see_refusals(&mut self, step: &Step) {
        let (act, number) = (step.act.name(), step.found.reply.number);
        self.table.see(act, number);
        let Some((first, others)) = step.refusals.split_first() else { return };
        if !matches!(number, 1..=13) {
            self.classes.see(&format!("{act}: {number}, {}", first.1));
        }
        let later: BTreeSet<u64> = others.iter().map(|(later, _)| *later).filter(|later| *later != number).collect();
        later.iter().for_each(|later| self.classes.see(&format!("{act}: {number} where {later} applies too")));
    }

    /// Counts what an act did with the sitting and the seats.
    fn see_effects(&mut self, step: &Step) {
        let (reply, (sitting, seats)) = (step.found.reply, &self.before);
        let done = reply.number == 0;
        let opening = matches!(step.act, Act::Open { .. });
        let own = |seat: &&Seat| seat.candidate == step.caller;
        let lowest = |seats: &[Seat]| seats.iter().take(32).find(own).map(|seat| (seat.marked, seat.lowest));
        let (first, last) = (lowest(seats), lowest(&step.found.seats));
        let submitted = done && matches!(step.act, Act::Submit { .. }) && first.is_some_and(|(marked, _)| marked == 1);
        let read = done && matches!(step.act, Act::Lowest { .. });
        let classes = [
            (OPENED_AGAIN, opening && done && sitting.state == 1),
            (OPENED_AFTER_CLOSING, opening && done && sitting.state == 2),
            (OLD_STANDS, opening && !done && sitting.state == 1),
            (LOWEST_ZERO, read && (reply.cost, reply.marked) == (0, 1)),
            (NO_LOWEST, read && reply.marked == 0),
            (LOWEST_STAYS, submitted && first == last && Some((1, reply.cost)) > last),
            (LOWEST_FALLS, submitted && last < first),
            (READ_AFTER_CLOSING, read && sitting.state == 2 && reply.marked == 1),
            (FULL, reply.sitting.state == 1 && step.found.seats.iter().take(32).filter(|seat| seat.candidate != 0).count() == 32),
        ];
        classes.into_iter().filter(|(_, holds)| *holds).for_each(|(name, _)| self.classes.see(name));
    }

    /// Compares an act with the history, and counts it.
    fn compare(&mut self, step: &Step) {
        if let Err(text) = difference(&step.found, &step.wanted) {
            panic!("{text}; {:?} of {}, sitting {:?}, seats {:?}", step.act, step.caller, self.before.0, self.before.1);
        }
        self.see_refusals(step);
        self.see_effects(step);
        self.before = (step.found.reply.sitting, step.found.seats.clone());
    }
}

/// Sequences over lists of each length, from each start, with one of the weights.
fn all_sequences(seed: u64, rounds: u64) -> Vec<(usize, Start, Sequence)> {
    let mut random = Random::new(seed);
    let mut out = Vec::new();
    for _ in 0..rounds {
        for records in RECORDS {
            for start in STARTS {
                let (weights, own) = (random.pick(&WEIGHTS), Random::new(random.next()));
                out.push((records, start, Sequence::new(own, records, start, weights)));
            }
        }
    }
    out
}

/// The acts of each of these sequences.
const ACTS: u64 = 120;

/// Sequences of acts beside the rules told from the history: every number, every field of the sitting, every record and every byte.
#[test]
fn sequences_beside_the_history() {
    let mut seen = Seen::new("acts in sequences beside the history (seed 211)");
    for (records, start, mut sequence) in all_sequences(211, 120) {
        seen.classes.see(start.name());
        seen.classes.see(&list_name(records));
        seen.before = sequence.handed();
        (0..ACTS).for_each(|_| seen.compare(&sequence.next()));
    }
    seen.table.require_all();
    seen.classes.require_all();
    assert!(seen.table.sum() >= 200_000, "under 200,000 acts");
}

/// The largest allowance, used up to its end, by one candidate and by many.
#[test]
fn a_thousand_submissions() {
    let mut random = Random::new(221);
    for (records, start) in [(1, Start::Zero), (5, Start::AnyRecords), (32, Start::OtherState), (40, Start::Anything)] {
        let mut sequence = Sequence::new(Random::new(random.next()), records, start, SUBMISSIONS_ALONE);
        let (mut used, mut refused) = (0, 0);
        let mut step = sequence.open(1_000);
        while refused < 20 {
            assert_eq!(difference(&step.found, &step.wanted), Ok(()), "{:?} of {}", step.act, step.caller);
            match (&step.act, step.found.reply.number) {
                (Act::Submit { .. }, 0 | 11..=13) => used += 1,
                (Act::Submit { .. }, 17) => refused += 1,
                _ => {}
            }
            assert!(used <= 1_000 && (used == 1_000 || refused == 0), "{used} used, {refused} refused by 17");
            step = sequence.next();
        }
        assert_eq!((used, step.found.reply.sitting.submissions), (1_000, 1_000), "{records} records");
    }
}

/// What is seen of one sitting without the rules: what the library answered, and the least cost by the plain planner.
#[derive(Default)]
struct Observed {
    opened: bool,
    closed: bool,
    allowance: u64,
    used: u64,
    least: u64,
    costs: BTreeMap<u16, BTreeSet<u64>>,
}

/// What comes up while the consequences are looked for.
const ASKED: &str = "a seated candidate asks for the least cost before closing";
const TOLD: &str = "a seated candidate is told the least cost after closing";
const SUPERVISOR_TOLD: &str = "the supervisor is told the least cost before closing";
const AT_LEAST: &str = "a lowest cost is the least cost";
const ABOVE_LEAST: &str = "a lowest cost is above the least cost";
const SPENT: &str = "the allowance is used up";
const SPENT_BY_REFUSALS: &str = "the allowance is used up, and a refused sheet was the last";

impl Observed {
    /// Enters what an act did.
    fn enter(&mut self, step: &Step) {
        let number = step.found.reply.number;
        match &step.act {
            Act::Open { allowance, card, plan, work } if number == 0 => {
                let least = plain::plan(Planner::Exact, card, plan, work).answer.cost;
                *self = Observed { opened: true, allowance: *allowance, least, ..Observed::default() };
            }
            Act::Close if number == 0 => self.closed = true,
            Act::Submit { .. } if matches!(number, 0 | 11..=13) => self.used += 1,
            _ => {}
        }
        if matches!(step.act, Act::Submit { .. }) && number == 0 {
            self.costs.entry(step.caller).or_default().insert(step.found.reply.cost);
        }
    }

    /// Before closing no caller but the supervisor is told the least cost by the act that reads it, and no other cost than those of the own
    /// marked sheets by any act.
    fn least_is_kept(&self, step: &Step, classes: &mut Classes) {
        let told = Told::from(step.found.reply);
        let least = matches!(step.act, Act::Least);
        if step.caller == SUPERVISOR {
            if least && self.opened && !self.closed && told == Told::cost(self.least) {
                classes.see(SUPERVISOR_TOLD);
            }
            return;
        }
        if self.closed {
            if least && told == Told::cost(self.least) {
                classes.see(TOLD);
            }
            return;
        }
        assert!(!least || told == Told::refused(15), "{} is told {told:?}", step.caller);
        let own = self.costs.get(&step.caller).is_some_and(|costs| costs.contains(&told.cost));
        assert!(told.cost == 0 || own, "{} is told {told:?} by {:?}", step.caller, step.act);
        if least && step.found.seats.iter().take(32).any(|seat| seat.candidate == step.caller) {
            classes.see(ASKED);
        }
    }

    /// A lowest cost that is marked is at least the least cost, in every record and where it is read.
    fn lowest_is_at_least(&self, step: &Step, classes: &mut Classes) {
        let reply = step.found.reply;
        let records = step.found.seats.iter().take(32).filter(|seat| self.opened && seat.marked != 0).map(|seat| seat.lowest);
        for lowest in records.chain((reply.marked != 0).then_some(reply.cost)) {
            assert!(lowest >= self.least, "lowest {lowest}, least {}", self.least);
            classes.see(if lowest == self.least { AT_LEAST } else { ABOVE_LEAST });
        }
    }

    /// No more submissions are used than the allowance, by the answers and by the sitting.
    fn allowance_is_kept(&self, step: &Step, classes: &mut Classes) {
        if !self.opened {
            return;
        }
        let sitting = step.found.reply.sitting;
        assert!(self.used <= self.allowance, "{} used of {}", self.used, self.allowance);
        assert_eq!((sitting.submissions, sitting.allowance), (self.used, self.allowance));
        if self.used == self.allowance && matches!(step.act, Act::Submit { .. }) {
            classes.see(match step.found.reply.number {
                11..=13 => SPENT_BY_REFUSALS,
                _ => SPENT,
            });
        }
    }
}

/// The consequences that document 02 is read to have, on sequences and without the rules: no candidate is told the least cost before closing,
/// a marked lowest cost is at least the least cost, and no more submissions are used than the allowance.
#[test]
fn consequences() {
    let names = [ASKED, TOLD, SUPERVISOR_TOLD, AT_LEAST, ABOVE_LEAST, SPENT, SPENT_BY_REFUSALS];
    let mut classes = Classes::new("consequences on sequences of acts (seed 231)", &names);
    for (_, _, mut sequence) in all_sequences(231, 120) {
        let mut observed = Observed::default();
        for _ in 0..ACTS {
            let step = sequence.next();
            observed.enter(&step);
            observed.least_is_kept(&step, &mut classes);
            observed.lowest_is_at_least(&step, &mut classes);
            observed.allowance_is_kept(&step, &mut classes);
        }
    }
    classes.require_all();
}

/// The values of a sitting and a list that no act leaves, and an act on them.
struct Handed {
    sitting: Sitting,
    seats: Vec<Seat>,
    caller: u16,
    act: Act,
}

const CANDIDATES: [u16; 6] = [1, 257, 256, 2, 65_535, 3];

/// Any sitting: open, closed, unopened and every other state, and submissions around the allowance.
fn any_sitting(random: &mut Random) -> Sitting {
    let other = sequences::other_state(random);
    let allowance = match random.below(4) {
        0 => random.pick(&[0, 1, 1_000, 1_001, u64::MAX]),
        _ => 1 + random.below(9),
    };
    let (any, below) = (sequences::any_number(random), random.below(allowance.max(1)));
    let submissions = random.pick(&[below, below, allowance, allowance.saturating_add(1), allowance.saturating_sub(1), any]);
    Sitting { state: random.pick(&[1, 1, 1, 1, 2, 2, 0, other]), allowance, submissions, least: sequences::any_number(random) }
}

/// Any list. Now and then its first 32 records are taken by others, so that the first record for which an act looks comes after them.
fn any_list(random: &mut Random) -> Vec<Seat> {
    let records = random.pick(&[0, 1, 2, 5, 31, 32, 33, 40]);
    let mut seats: Vec<Seat> = (0..records).map(|_| sequences::any_record(random, &CANDIDATES)).collect();
    if random.below(3) == 0 {
        let taken = (7_000..).zip(seats.iter_mut().take(32));
        taken.for_each(|(candidate, seat)| seat.candidate = candidate);
        let (place, candidate) = (random.below(33) as usize, random.pick(&[0, 1, 257]));
        seats.iter_mut().skip(place).take(1).for_each(|seat| seat.candidate = candidate);
        seats.iter_mut().skip(32).for_each(|seat| seat.candidate = random.pick(&[0, 1, 257]));
    }
    seats
}

/// Any values, and an act on them. The callers and candidates are mostly of those that the records have.
fn any_handed(random: &mut Random) -> Handed {
    let (sitting, seats, card) = (any_sitting(random), any_list(random), sequences::small_card(random));
    let (named, other) = (random.pick(&CANDIDATES), random.next() as u16);
    let candidate = random.pick(&[named, named, named, named, named, named, 0, other]);
    let (mostly, any) = (random.pick(&[SUPERVISOR, SUPERVISOR, SUPERVISOR, candidate]), random.pick(&[candidate, named, other]));
    let (caller, act) = match random.below(8) {
        0 => (mostly, sequences::any_opening(random, card)),
        1 => (mostly, Act::Seat { candidate }),
        2 => (mostly, Act::Close),
        3 | 4 => (candidate, sequences::any_submission(random, &card)),
        5 => (any, Act::Least),
        6 => (random.pick(&[mostly, candidate, any]), Act::Lowest { candidate }),
        _ => (mostly, Act::Used),
    };
    Handed { sitting, seats, caller, act }
}

/// What is special in the values that a single act is handed.
const OTHER_STATE: &str = "a state above 2";
const NO_ALLOWANCE: &str = "open, and the allowance is 0";
const ABOVE_ALLOWANCE: &str = "open, and more submissions used than the allowance";
const LARGE_ALLOWANCE: &str = "submits with an allowance above 1,000";
const MARKED_TWO: &str = "submits where marked is 2 or more";
const UNMARKED_LOWEST: &str = "reads a lowest that is not marked";
const MARKED_READ: &str = "reads a lowest that is marked by 2 or more";
const KEPT_RESERVED: &str = "submits where reserved is not 0";
const TWO_SEATS: &str = "two records of the candidate";
const GAP: &str = "an empty record before that of the candidate";
const AFTER_32: &str = "the candidate in no record but after the 32nd";
const EMPTY_AFTER_32: &str = "seats where no record is empty but after the 32nd";
const FILLED_EMPTY: &str = "seats in an empty record that is not all zero";
const EMPTIED: &str = "opens over records of any kind";
const SPECIAL: [&str; 14] = [
    OTHER_STATE,
    NO_ALLOWANCE,
    ABOVE_ALLOWANCE,
    LARGE_ALLOWANCE,
    MARKED_TWO,
    UNMARKED_LOWEST,
    MARKED_READ,
    KEPT_RESERVED,
    TWO_SEATS,
    GAP,
    AFTER_32,
    EMPTY_AFTER_32,
    FILLED_EMPTY,
    EMPTIED,
];

/// Counts what is special in the values, where the act looks at it.
fn see_special(classes: &mut Classes, handed: &Handed, found: &Outcome) {
    let Handed { sitting, seats, caller, act } = handed;
    let (open, done) = (sitting.state == 1, found.reply.number == 0);
    let wanted = if let Act::Seat { candidate } | Act::Lowest { candidate } = act { *candidate } else { *caller };
    let (first, after) = seats.split_at(seats.len().min(32));
    let has = |list: &[Seat], candidate: u16| list.iter().any(|seat| seat.candidate == candidate);
    let place = |candidate: u16| first.iter().position(|seat| seat.candidate == candidate);
    let seat = place(wanted).map(|at| first[at]).unwrap_or_default();
    let [submits, seats_one, reads] =
        [matches!(act, Act::Submit { .. }), matches!(act, Act::Seat { .. }), matches!(act, Act::Lowest { .. })];
    let looks = wanted != 0 && open && (submits || seats_one || reads);
    let filled = place(0).map(|at| first[at]).unwrap_or_default();
    let special = [
        (OTHER_STATE, sitting.state > 2),
        (NO_ALLOWANCE, submits && open && sitting.allowance == 0),
        (ABOVE_ALLOWANCE, submits && open && sitting.submissions > sitting.allowance),
        (LARGE_ALLOWANCE, submits && done && sitting.allowance > 1_000),
        (MARKED_TWO, submits && done && seat.marked > 1),
        (UNMARKED_LOWEST, reads && done && seat.marked == 0 && seat.lowest != 0),
        (MARKED_READ, reads && done && seat.marked > 1),
        (KEPT_RESERVED, submits && done && seat.reserved != 0),
        (TWO_SEATS, looks && first.iter().filter(|seat| seat.candidate == wanted).count() > 1),
        (GAP, looks && place(0) < place(wanted) && place(0).is_some()),
        (AFTER_32, looks && !has(first, wanted) && has(after, wanted)),
        (EMPTY_AFTER_32, seats_one && looks && !has(first, 0) && has(after, 0)),
        (FILLED_EMPTY, seats_one && done && filled != Seat::default()),
        (EMPTIED, matches!(act, Act::Open { .. }) && done && seats.len() > 32),
    ];
    special.into_iter().filter(|(_, holds)| *holds).for_each(|(name, _)| classes.see(name));
}

/// Single acts on any sitting and any list, also such as no act leaves, beside the rules on values.
#[test]
fn any_values() {
    let title = "single acts on any values (seed 241)";
    let (mut classes, mut table) = (Classes::new(title, &SPECIAL), Table::new(title, &NUMBERS));
    let mut random = Random::new(241);
    for _ in 0..200_000 {
        let handed = any_handed(&mut random);
        let Handed { sitting, seats, caller, act } = &handed;
        let found = acts::act(*sitting, *caller, act, seats);
        if let Err(text) = difference(&found, &values::outcome(*sitting, *caller, act, seats)) {
            panic!("{text}; {act:?} of {caller}, {sitting:?}, {seats:?}");
        }
        table.see(act.name(), found.reply.number);
        see_special(&mut classes, &handed, &found);
    }
    table.require_all();
    classes.require_all();
    assert!(table.sum() >= 100_000, "under 100,000 acts");
}

/// The two plain rules agree where both speak: on what the acts of a sequence leave.
#[test]
fn history_and_values_agree() {
    for (records, start, mut sequence) in all_sequences(251, 6) {
        for _ in 0..ACTS {
            let (sitting, seats) = sequence.handed();
            let step = sequence.next();
            let wanted = values::outcome(sitting, step.caller, &step.act, &seats);
            assert_eq!(
                difference(&wanted, &step.wanted),
                Ok(()),
                "{start:?}, {records} records, {:?} of {}",
                step.act,
                step.caller
            );
        }
    }
}

/// A falsified outcome is reported: each number of the reply and of its sitting, each field of a record, a record too many, a byte.
#[test]
fn falsified_outcomes_are_reported() {
    let seats = [Seat::default(); 33];
    let opening = Act::Open { allowance: 3, card: card_a(), plan: vec![7; 4], work: vec![7; 13] };
    let expected = History::new(Sitting::default(), &seats).next(SUPERVISOR, &opening);
    assert_eq!(difference(&expected, &expected), Ok(()));
    let falsify: [fn(&mut Outcome); 14] = [
        |outcome| outcome.reply.number = 15,
        |outcome| outcome.reply.cost += 1,
        |outcome| outcome.reply.marked = 1,
        |outcome| outcome.reply.sitting.state = 2,
        |outcome| outcome.reply.sitting.allowance += 1,
        |outcome| outcome.reply.sitting.submissions += 1,
        |outcome| outcome.reply.sitting.least += 1,
        |outcome| outcome.seats[0].lowest = 1,
        |outcome| outcome.seats[31].candidate = 1,
        |outcome| outcome.seats[32].marked = 1,
        |outcome| outcome.seats[1].reserved = 1,
        |outcome| outcome.seats.push(Seat::default()),
        |outcome| outcome.areas[0][3] = 0,
        |outcome| outcome.areas[1][0] = 1,
    ];
    for (place, change) in falsify.iter().enumerate() {
        let mut outcome = expected.clone();
        change(&mut outcome);
        assert!(difference(&outcome, &expected).is_err(), "change {place}");
        assert!(difference(&expected, &outcome).is_err(), "change {place}");
    }
}
