//! `lamp_catalogue_table`: the table of each top that is tried, its refusals and its area, and that the other calls take a card with it.
use lamp::calls;
use lamp_tests::boundary::{self, check_card, difference, running_cost, Answer, Outcome, Planner, BOTH};
use lamp_tests::cards::Card;
use lamp_tests::catalogue;
use lamp_tests::classes::Classes;
use lamp_tests::plain;
use lamp_tests::random::Random;

/// The bytes of the table of top 200.
const LONGEST: usize = 4 * 201;

/// The bytes before the lent area and behind it, which no call may touch.
const GUARD: usize = 64;

/// Bytes that differ from place to place and from case to case.
fn painted(length: usize, first: u64) -> Vec<u8> {
    (0..length).map(|at| (first as usize).wrapping_add(89 * at + at / 256) as u8).collect()
}

/// Makes the call on an area with guard bytes before and behind it, and compares the answer and every byte. It does so twice, with other
/// bytes each time, since a byte that is written with the value it had is not seen.
fn compare(top: u64, length: usize) -> u64 {
    let numbers = [0, 0xFF].map(|flipped| {
        let whole: Vec<u8> = painted(length + 2 * GUARD, top).iter().map(|byte| byte ^ flipped).collect();
        let lent = GUARD..GUARD + length;
        let mut expected = catalogue::catalogue_table(top, &whole[lent.clone()]);
        expected.buffers[0].splice(0..0, whole[..GUARD].iter().copied());
        expected.buffers[0].extend(&whole[GUARD + length..]);
        let found = boundary::catalogue_table(top, &whole, lent);
        if let Err(text) = difference(&found, &expected) {
            panic!("{text}; top {top}, area of {length}");
        }
        found.answer.number
    });
    assert_eq!(numbers[0], numbers[1]);
    numbers[0]
}

/// The table that the call gives, in an area of just its length.
fn given(top: u64) -> Vec<u8> {
    let length = 4 * (top as usize + 1);
    let mut found = boundary::catalogue_table(top, &painted(length, 7), 0..length);
    assert_eq!(found.answer, Answer::cost(0), "top {top}");
    found.buffers.swap_remove(0)
}

/// The examples of include/lamp.h and of the paragraph: the first entries and the last one.
#[test]
fn examples() {
    assert_eq!([0, 1, 2, 200].map(catalogue::entry), [400, 403, 407, 20_900]);
    assert_eq!((0..=8).map(catalogue::entry).collect::<Vec<_>>(), [400, 403, 407, 412, 418, 425, 433, 442, 452]);
    assert_eq!(given(1), [0x90, 1, 0, 0, 0x93, 1, 0, 0]);
    assert_eq!(given(2), [0x90, 1, 0, 0, 0x93, 1, 0, 0, 0x97, 1, 0, 0]);
    assert_eq!(given(200)[800..], [0xA4, 0x51, 0, 0]);
}

/// The plain rule beside its differences: the first is 3, and each later one is larger by 1.
#[test]
fn the_rule_by_differences() {
    let mut entry = 400;
    for k in 0..=catalogue::MOST_TOP {
        assert_eq!(catalogue::entry(k), entry, "F({k})");
        entry += 3 + k;
    }
}

/// Tops from 0 to 300, and large ones: the powers of two and their neighbours, and numbers of which some low bits are a top from 1 to 200.
fn tops() -> Vec<u64> {
    let mut out: Vec<u64> = (0..=300).collect();
    for power in (8..64).map(|exponent| 1u64 << exponent) {
        out.extend([power - 1, power, power + 1, power + 2, power + 100, power + 199, power + 200, power + 201]);
        out.extend([power.wrapping_neg(), power.wrapping_neg() + 1, power.wrapping_neg() + 200]);
    }
    for bits in [8, 16, 32, 63] {
        out.extend((1..=200).map(|top| (1u64 << bits) + top));
    }
    out.extend((0..=300).map(|less| u64::MAX - less));
    out
}

#[test]
fn many_tops() {
    let names = ["area exact", "area one short", "area one longer", "area empty", "area much longer", "area of another top"];
    let mut classes = Classes::new("tops and areas", &names).with_numbers([0, 3, 10]);
    let mut random = Random::new(151);
    for top in tops() {
        let exact = if top <= 300 { 4 * (top as usize + 1) } else { LONGEST };
        let others = [exact + 2 + random.below(4_000) as usize, 4 * (1 + random.below(201) as usize)];
        let lengths = [exact, exact - 1, exact + 1, 0, others[0], others[1]];
        for (length, name) in lengths.into_iter().zip(names) {
            classes.see_number(compare(top, length));
            classes.see(name);
        }
    }
    classes.require_all();
}

#[test]
fn every_length() {
    let mut classes = Classes::new("each length of an area", &[]).with_numbers([0, 3, 10]);
    for top in [0, 1, 2, 3, 63, 64, 100, 199, 200, 201, 256, 257, 456, (1 << 32) + 1, 1 << 63, u64::MAX] {
        for length in 0..=900 {
            classes.see_number(compare(top, length));
        }
    }
    classes.require_all();
}

/// An area of length 0 gets 10, and 3 is given with every area.
#[test]
fn no_area() {
    assert_eq!(Answer::from(calls::catalogue_table(0, &mut [])), Answer::refused(3));
    assert_eq!(Answer::from(calls::catalogue_table(201, &mut [])), Answer::refused(3));
    assert_eq!(Answer::from(calls::catalogue_table(1, &mut [])), Answer::refused(10));
}

/// A card whose table the call writes in its place, behind the header. The loads stand behind it already and are as they were.
fn with_table(card: &Card) -> Vec<u8> {
    let table = vec![0xEEEE_EEEE; usize::from(card.top) + 1];
    let mut bytes = Card { table, ..card.clone() }.bytes();
    assert_eq!(calls::catalogue_table(card.top.into(), &mut bytes[17..]), Ok(0));
    bytes
}

/// A card of the catalogue module. All its fields are in order.
fn random_card(random: &mut Random) -> Card {
    let top = if random.below(4) == 0 { random.pick(&[1, 2, 3, 199, 200]) } else { 1 + random.below(200) };
    let modules = if random.below(4) == 0 { random.pick(&[1, 2, 128, 200]) } else { 1 + random.below(200) };
    let slots = if random.below(50) == 0 { random.pick(&[0, 1_023, 1_024]) } else { random.below(12) };
    let price = |random: &mut Random| random.pick(&[0, 1, 900, 40_000, 500_000_000]);
    let load = |random: &mut Random| {
        let any = random.below(modules * top + 1);
        random.pick(&[0, modules * top, any])
    };
    let loads = (0..slots).map(|_| load(random) as u16).collect();
    let table = (0..=top).map(|k| catalogue::entry(k) as u32).collect();
    Card { modules: modules as u8, top: top as u8, up: price(random), down: price(random), table, loads }
}

/// Puts a fault into a field that is not the table. The top step stays, since it says which bytes are the table.
fn spoil(random: &mut Random, top: u8, bytes: &mut Vec<u8>) {
    let loads_at = 17 + 4 * (usize::from(top) + 1);
    let mut put = |at: usize, value: u64| {
        if at < bytes.len() {
            bytes[at] = value as u8;
        }
    };
    match random.below(10) {
        0 => put(random.below(3) as usize, random.below(256)),
        1 => put(3 + random.below(2) as usize, random.below(3)),
        2 => put(5, random.pick(&[0, 1, 200, 201, 255])),
        3 => put(8, random.pick(&[4, 5, 255])),
        4 => put(7, random.below(256)),
        5 => bytes.truncate(random.below(17) as usize),
        6 => bytes.truncate(random.below(bytes.len() as u64) as usize),
        7 => bytes.extend(painted(1 + random.below(4) as usize, 3)),
        8 => put(random.pick(&[12, 16]), random.pick(&[0x1D, 0x1E, 0xFF])),
        _ => put(loads_at + 1 + 2 * random.below(12) as usize, 0xFF),
    }
}

/// Whatever stands around the table, the card is answered as by a check that does not look at the table: 7 is never given, and 6 for a
/// price alone.
#[test]
fn cards_with_faults_around_the_table() {
    let mut classes = Classes::new("cards with the table and faults around it (seed 152)", &["several faults", "no fault"]);
    classes = classes.with_numbers([0, 1, 2, 3, 4, 5, 6, 8]);
    let mut random = Random::new(152);
    for _ in 0..200_000 {
        let card = random_card(&mut random);
        let mut bytes = with_table(&card);
        assert_eq!(bytes, card.bytes());
        let faults = random.below(4);
        for _ in 0..faults {
            if !bytes.is_empty() {
                spoil(&mut random, card.top, &mut bytes);
            }
        }
        let found = check_card(&bytes);
        assert_eq!(found, Answer::refused(catalogue::check_around_table(&bytes)), "{bytes:?}");
        classes.see_number(found.number);
        if faults != 1 {
            classes.see(if faults == 0 { "no fault" } else { "several faults" });
        }
    }
    classes.require_all();
}

/// An accepted card with the table, beside the plain planner where it is small.
fn planned(planner: Planner, card: &Card) -> u64 {
    let (cost, plan) = boundary::planned(planner, card);
    if card.loads.len() <= 6 {
        let work = vec![7; planner.work_bytes(card.modules.into(), card.loads.len())];
        let expected = plain::plan(planner, &card.bytes(), &vec![7; card.loads.len()], &work);
        assert_eq!((Answer::cost(cost), &plan), (expected.answer, &expected.buffers[0]), "{planner:?}: {card:?}");
    }
    cost
}

/// Both planners plan every accepted card with the table, and a running cost reads the table as it stands, because it never falls.
#[test]
fn accepted_cards_are_planned() {
    let mut classes = Classes::new("cards with the table, planned (seed 153)", &["coarse above exact", "coarse as exact", "T 0"]);
    let mut random = Random::new(153);
    for _ in 0..1_500 {
        let card = random_card(&mut random);
        let bytes = with_table(&card);
        assert_eq!((&bytes, check_card(&bytes)), (&card.bytes(), Answer::cost(0)));
        let [exact, coarse] = BOTH.map(|planner| planned(planner, &card));
        assert!(exact <= coarse && coarse <= 2 * exact, "{card:?}");
        let step = random.below(u64::from(card.top) + 1);
        assert_eq!(running_cost(&bytes, 1, step), Answer::cost(catalogue::entry(step)), "{card:?}");
        classes.see(if exact < coarse { "coarse above exact" } else { "coarse as exact" });
        if card.loads.is_empty() {
            classes.see("T 0");
        }
    }
    classes.require_all();
}

/// The table of every top, as the call gives it: convex, never falling, and no entry above its bound.
#[test]
fn every_table_is_convex_and_never_falls() {
    for top in 1..=catalogue::MOST_TOP {
        let table: Vec<u64> = given(top).chunks(4).map(|f| u64::from(u32::from_le_bytes([f[0], f[1], f[2], f[3]]))).collect();
        assert_eq!(table.len() as u64, top + 1);
        assert!(table.windows(3).all(|f| f[0] + f[2] >= 2 * f[1]), "top {top}");
        assert!(table.windows(2).all(|f| f[0] <= f[1]), "top {top}");
        assert!(table.iter().all(|entry| *entry <= 1_000_000), "top {top}");
    }
}

/// A falsified outcome is reported: the cost, a byte of the table, a byte after it.
#[test]
fn falsified_outcomes_are_reported() {
    let expected = catalogue::catalogue_table(2, &painted(13, 1));
    assert!(difference(&expected, &expected).is_ok());
    let cost = Outcome { answer: Answer::cost(1), ..expected.clone() };
    assert!(difference(&cost, &expected).is_err());
    for place in [0, 11, 12] {
        let mut byte = expected.clone();
        byte.buffers[0][place] ^= 1;
        assert!(difference(&byte, &expected).is_err());
    }
}
