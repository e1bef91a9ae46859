//! `lamp_practice_card`: the card of each start that is tried, its refusals and its area, and that the other calls take the card.
use lamp::show::Show;
use lamp_tests::boundary::{self, check_card, difference, Answer, Outcome, Planner};
use lamp_tests::cards::Card;
use lamp_tests::classes::Classes;
use lamp_tests::plain;
use lamp_tests::practice;
use lamp_tests::random::Random;
use lamp_tests::shows;

/// The bytes of the longest practice card: top step 200 and 64 slots.
const LONGEST: usize = 17 + 4 * 201 + 2 * 64;
/// A start that has such a card.
const LONGEST_START: u32 = 6_548;

/// An area whose bytes differ from place to place and from case to case.
fn area(length: usize, first: u32) -> Vec<u8> {
    (0..length).map(|at| (first as usize + 89 * at + at / 256) as u8).collect()
}

fn compare(start: u32, area: &[u8]) -> Outcome {
    let found = boundary::practice_card(start, area);
    if let Err(text) = difference(&found, &practice::practice_card(start, area)) {
        panic!("{text}; start {start}, area of {}", area.len());
    }
    found
}

/// The examples of include/lamp.h.
#[test]
fn examples() {
    let first = Card { modules: 96, top: 3, up: 446, down: 514, table: vec![426, 429, 434, 442], loads: vec![] };
    let second = Card { modules: 118, top: 2, up: 23, down: 635, table: vec![757, 762, 770], loads: vec![197] };
    for (start, card) in [(1_950, first.bytes()), (4_294_967_255, second.bytes())] {
        assert_eq!(compare(start, &area(card.len(), 1)), Outcome { answer: Answer::cost(0), buffers: vec![card] });
    }
}

/// Start 0 is 14 whatever the area, and 14 comes before 10.
#[test]
fn start_zero() {
    for length in 0..=1_000 {
        let lent = area(length, 3);
        assert_eq!(compare(0, &lent), Outcome { answer: Answer::refused(14), buffers: vec![lent] });
    }
}

#[test]
fn every_length() {
    let mut classes = Classes::new("each length of an area", &[]).with_numbers([0, 10, 14]);
    for start in [0, 1, 1_950, LONGEST_START, u32::MAX] {
        for length in 0..=1_000 {
            classes.see_number(compare(start, &area(length, length as u32)).answer.number);
        }
    }
    classes.require_all();
    assert_eq!(compare(LONGEST_START, &[9; LONGEST - 1]).answer, Answer::refused(10));
    assert_eq!(compare(LONGEST_START, &[9; LONGEST]).answer, Answer::cost(0));
}

/// The first starts, the last ones, and others.
fn starts(random: &mut Random, others: u64) -> Vec<u32> {
    let mut out: Vec<u32> = (0..=1_000).chain(u32::MAX - 999..=u32::MAX).chain([LONGEST_START]).collect();
    out.extend((0..others).map(|_| random.next() as u32));
    out
}

/// The card at the front of an area is accepted, its table never falls, and the tool reads it back with the plain fields.
fn read_back(card: &Card, bytes: &[u8]) {
    let show = Show::read(bytes).unwrap_or_else(|| panic!("no card is {bytes:?}"));
    let fields = (show.modules, show.top, show.warm_up, show.cool_down, &show.table, &show.loads);
    assert_eq!(fields, (card.modules, card.top, card.up, card.down, &card.table, &card.loads));
    assert_eq!(check_card(bytes), Answer::cost(0), "{card:?}");
    assert!(card.table.windows(2).all(|w| w[0] <= w[1]), "{card:?}");
}

#[test]
fn many_starts() {
    let mut names = vec!["area exact", "area one short", "area empty", "area longer"];
    names.extend(["rising table", "flat table", "T 0", "Q 1", "m 1", "m a power of two", "m no power of two"]);
    let mut classes = Classes::new("practice cards (seed 121)", &names).with_numbers([0, 10, 14]);
    let mut random = Random::new(121);
    let mut longest = 0;
    for start in starts(&mut random, 200_000) {
        let card = (start != 0).then(|| practice::card(start));
        let length = card.as_ref().map_or(LONGEST, |card| card.bytes().len());
        longest = longest.max(length);
        let longer = length + 1 + random.below(60) as usize;
        let lengths = [(length, "area exact"), (length - 1, "area one short"), (0, "area empty"), (longer, "area longer")];
        for (lent, class) in lengths {
            let found = compare(start, &area(lent, start));
            classes.see_number(found.answer.number);
            classes.see(class);
            if let (0, Some(card)) = (found.answer.number, &card) {
                read_back(card, &found.buffers[0][..length]);
            }
        }
        card.iter().flat_map(shows::classes).for_each(|name| classes.see(name));
    }
    classes.require_all();
    assert_eq!((longest, practice::card(LONGEST_START).bytes().len()), (LONGEST, LONGEST));
}

/// Plans a card in areas that are just long enough, and compares with the plain planner.
fn planned(planner: Planner, card: &Card) -> u64 {
    let (bytes, slots) = (card.bytes(), card.loads.len());
    let (plan, work) = (area(slots, 1), area(planner.work_bytes(card.modules.into(), slots), 2));
    let found = boundary::plan(planner, &bytes, &plan, &work);
    if let Err(text) = difference(&found, &plain::plan(planner, &bytes, &plan, &work)) {
        panic!("{planner:?}: {text}; {card:?}");
    }
    assert_eq!(found.answer.number, 0, "{planner:?}: {card:?}");
    found.answer.cost
}

#[test]
fn both_planners() {
    let mut classes = Classes::new("practice cards planned (seed 131)", &["coarse above exact", "coarse as exact", "T 0"]);
    let mut random = Random::new(131);
    let mut starts: Vec<u32> = (0..600).map(|_| 1 + random.below(u32::MAX.into()) as u32).collect();
    starts.extend([1, 1_950, LONGEST_START, u32::MAX]);
    for card in starts.into_iter().map(practice::card) {
        let (exact, coarse) = (planned(Planner::Exact, &card), planned(Planner::Coarse, &card));
        assert!(exact <= coarse && coarse <= 2 * exact, "{card:?}");
        classes.see(if exact < coarse { "coarse above exact" } else { "coarse as exact" });
        shows::classes(&card).into_iter().for_each(|name| classes.see(name));
    }
    classes.require_all();
}

/// A falsified outcome is reported: the cost, a byte of the card, a byte after it.
#[test]
fn falsified_outcomes_are_reported() {
    let expected = practice::practice_card(1_950, &area(34, 1));
    assert!(difference(&expected, &expected).is_ok());
    let mut cost = expected.clone();
    cost.answer.cost += 1;
    assert!(difference(&cost, &expected).is_err());
    for place in [0, 32, 33] {
        let mut byte = expected.clone();
        byte.buffers[0][place] ^= 1;
        assert!(difference(&byte, &expected).is_err());
    }
}
