//! `lamp_sheet`: the sheet of a handed-in plan, its cost, its refusals and its buffer.
use lamp_tests::boundary::{self, difference, mark, Answer, Outcome};
use lamp_tests::cards::{card_a, largest, lowest_at, small, Card};
use lamp_tests::classes::Classes;
use lamp_tests::plain::{self, Show, OFF};
use lamp_tests::random::Random;
use lamp_tests::shows;

fn compare(card: &[u8], plan: &[u8], area: &[u8]) -> Outcome {
    let found = boundary::sheet(card, plan, area);
    if let Err(text) = difference(&found, &plain::sheet(card, plan, area)) {
        panic!("{text}; card {card:?}, plan {plan:?}, area of {}", area.len());
    }
    found
}

#[test]
fn example_a() {
    let found = compare(&card_a(), &[3, 1, 1], &[7; 11]);
    assert_eq!(found.answer, Answer::cost(32));
    assert_eq!(found.buffers[0], [2, 2, 2, 0, 255, 255, 2, 255, 255, 7, 7]);
}

/// A slot with count 0 is all 255; modules above the load's share stand at step 0 where the table does not fall.
#[test]
fn off_and_step_zero() {
    let card = small(3, &[1, 2, 4], &[0, 1]).bytes();
    assert_eq!(compare(&card, &[0, 3], &[9; 6]).buffers[0], [255, 255, 255, 1, 0, 0]);
}

/// What a plan of a single slot on three modules is filled with, and its cost without switching.
fn filled(table: &[u32], load: u16, count: u8) -> (Vec<u8>, u64) {
    let card = Card { up: 0, down: 0, ..small(3, table, &[load]) };
    let found = compare(&card.bytes(), &[count], &[9; 3]);
    assert_eq!(found.answer.number, 0);
    assert_eq!(mark(&card.bytes(), &found.buffers[0]), found.answer);
    (found.buffers[0].clone(), found.answer.cost)
}

/// Each active module is at the smallest of the cheapest steps from its own to Q, and for load 0 it is so too.
#[test]
fn active_steps() {
    let v_shaped = [5, 1, 9];
    assert_eq!(filled(&v_shaped, 0, 0), (vec![OFF, OFF, OFF], 0));
    assert_eq!(filled(&v_shaped, 0, 2), (vec![1, 1, OFF], 2));
    assert_eq!(filled(&v_shaped, 1, 2), (vec![1, 1, OFF], 2));
    assert_eq!(filled(&v_shaped, 2, 2), (vec![1, 1, OFF], 2));
    assert_eq!(filled(&v_shaped, 3, 2), (vec![2, 1, OFF], 10));
    assert_eq!(filled(&v_shaped, 4, 2), (vec![2, 2, OFF], 18));
    assert_eq!(filled(&v_shaped, 4, 3), (vec![2, 1, 1], 11));

    // steps 1 to 3 are equally cheap: step 1 is the active step of 0, and from there on each is its own
    let flat_bottom = [4, 1, 1, 1, 3];
    assert_eq!(filled(&flat_bottom, 0, 3), (vec![1, 1, 1], 3));
    assert_eq!(filled(&flat_bottom, 2, 3), (vec![1, 1, 1], 3));
    assert_eq!(filled(&flat_bottom, 4, 3), (vec![2, 1, 1], 3));
    assert_eq!(filled(&flat_bottom, 8, 3), (vec![3, 3, 2], 3));
    assert_eq!(filled(&flat_bottom, 10, 3), (vec![4, 3, 3], 5));

    // nothing is gained by more light
    for table in [[2, 2, 2], [2, 3, 5]] {
        assert_eq!(filled(&table, 0, 1).0, [0, OFF, OFF]);
        assert_eq!(filled(&table, 3, 2).0, [2, 1, OFF]);
        assert_eq!(filled(&table, 1, 3).0, [1, 0, 0]);
    }

    // every active module is at Q, where the table is lowest
    for load in 0..=4 {
        assert_eq!(filled(&[9, 4, 2], load, 2), (vec![2, 2, OFF], 4));
    }
    // steps 1 and 2 are equally cheap: a module is active at Q only for its share of 2
    assert_eq!(filled(&[9, 2, 2], 1, 2), (vec![1, 1, OFF], 4));
    assert_eq!(filled(&[9, 2, 2], 3, 2), (vec![2, 1, OFF], 4));
}

/// The lowest number anywhere in the plan wins: a 12 in the last slot beats a 13 in the first.
#[test]
fn twelve_beats_thirteen() {
    let card = small(3, &[1, 2, 4], &[6, 0]).bytes();
    assert_eq!(compare(&card, &[0, 4], &[9; 6]).answer, Answer::refused(12));
    assert_eq!(compare(&card, &[0, 3], &[9; 6]).answer, Answer::refused(13));
    assert_eq!(compare(&card, &[0], &[9; 6]).answer, Answer::refused(11));
    assert_eq!(compare(&card, &[0], &[9; 5]).answer, Answer::refused(10));
}

#[test]
fn largest_show() {
    let card = largest(40_000).bytes();
    let plan = [200; 1_024];
    let found = compare(&card, &plan, &[1; 200 * 1_024 + 3]);
    assert_eq!(found.answer.number, 0);
    assert_eq!(mark(&card, &found.buffers[0][..200 * 1_024]), found.answer);
    assert_eq!(compare(&card, &plan, &[1; 200 * 1_024 - 1]).answer, Answer::refused(10));
}

/// The full rack through the largest show, on tables whose lowest step is 0, within the table, and Q.
#[test]
fn largest_falling_tables() {
    let mut random = Random::new(32);
    for lowest in [0, 1, 120, 199, 200] {
        let mut card = lowest_at(lowest, largest(0));
        card.loads.iter_mut().for_each(|load| *load = random.below(40_001) as u16);
        let found = compare(&card.bytes(), &[200; 1_024], &[1; 200 * 1_024]);
        assert_eq!(mark(&card.bytes(), &found.buffers[0]), found.answer);
        assert_eq!(found.buffers[0].iter().min(), Some(&lowest));
    }
}

/// Draws the length of an area, mostly the one asked for, and names its class.
fn random_area(random: &mut Random, asked: usize) -> (usize, &'static str) {
    match random.below(8) {
        0 if asked > 0 => (asked - 1, "area one short"),
        1 => (0, "area empty"),
        2 | 3 => (asked + 1 + random.below(5) as usize, "area longer"),
        _ => (asked, "area exact"),
    }
}

/// Makes a plan with the least counts that serve or one more, and now and then a plan of another length or with any counts.
fn random_plan(random: &mut Random, card: &Card) -> Vec<u8> {
    let (modules, top) = (u64::from(card.modules), u64::from(card.top));
    let mut plan: Vec<u8> =
        card.loads.iter().map(|load| (u64::from(*load).div_ceil(top) + random.below(2)).min(modules) as u8).collect();
    match random.below(12) {
        0 => plan.push(0),
        1 => plan.truncate(plan.len() / 2),
        2 => plan.iter_mut().for_each(|count| *count = random.below(modules + 1) as u8),
        3 => plan.iter_mut().for_each(|count| *count = random.below(256) as u8),
        _ => {}
    }
    plan
}

const FOR_NO_LOAD: &str = "active above step 0 for load 0";

/// Counts the classes of a sheet that was made.
fn count_made(classes: &mut Classes, show: &Show, made: &[u8]) {
    let more = show.lights(made) != show.loads;
    classes.see(if more { "more light than a load" } else { "just the loads" });
    if show.lights(made).iter().zip(&show.loads).any(|(light, load)| *load == 0 && *light > 0) {
        classes.see(FOR_NO_LOAD);
    }
}

#[test]
fn random_plans() {
    let mut names = shows::ALL_CLASSES.to_vec();
    names.extend(["area exact", "area one short", "area empty", "area longer"]);
    names.extend(["more light than a load", "just the loads", FOR_NO_LOAD]);
    let mut classes = Classes::new("sheet (seed 31)", &names).with_numbers((0..=8).chain(10..=13));
    let mut random = Random::new(31);
    for _ in 0..60_000 {
        let (modules, top, slots) = (1 + random.below(9), 1 + random.below(5), random.below(5));
        let card = shows::card(&mut random, modules, top, slots, 50);
        let bytes = shows::damaged(&mut random, &card);
        let asked = (modules * slots) as usize;
        let (area, class) = random_area(&mut random, asked);
        let plan = random_plan(&mut random, &card);
        let found = compare(&bytes, &plan, &vec![7; area]);
        classes.see_number(found.answer.number);
        classes.see(class);
        shows::classes(&card).into_iter().for_each(|name| classes.see(name));
        if found.answer.number == 0 {
            let made = &found.buffers[0][..asked];
            assert_eq!(mark(&bytes, made), found.answer);
            count_made(&mut classes, &plain::read_card(&bytes).unwrap(), made);
        }
    }
    classes.require_all();
}

/// The comparer reports a falsified cost and a falsified guard byte.
#[test]
fn falsified_outcomes_are_reported() {
    let expected = plain::sheet(&card_a(), &[3, 1, 1], &[7; 11]);
    let mut cost = expected.clone();
    cost.answer.cost += 1;
    assert!(difference(&cost, &expected).is_err());
    let mut guard = expected.clone();
    guard.buffers[0][10] = 8;
    assert!(difference(&guard, &expected).is_err());
    assert!(difference(&expected, &expected).is_ok());
}
