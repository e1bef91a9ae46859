//! `lamp_mark`: which sheets are accepted, and at what cost.
use lamp_tests::boundary::{mark, Answer};
use lamp_tests::cards::{card_a, largest, small, Card};
use lamp_tests::classes::Classes;
use lamp_tests::plain::{self, Show, OFF};
use lamp_tests::random::Random;
use lamp_tests::shows;
use std::cmp::Ordering;

const D: [u8; 9] = [2, 2, 2, OFF, 0, OFF, 2, OFF, OFF];

#[test]
fn example_d() {
    assert_eq!(mark(&card_a(), &D), Answer::cost(37));
    let mut active = D;
    active[8] = 0;
    assert_eq!(mark(&card_a(), &active), Answer::cost(43));
}

/// 01's plausible error: charging by counts, the swap of slot 3 would be free.
#[test]
fn swapped_modules_are_charged() {
    let kept = [2, 2, 2, 0, OFF, OFF, 2, OFF, OFF];
    assert_eq!(mark(&card_a(), &kept), Answer::cost(32));
    assert_eq!(mark(&card_a(), &D).cost - mark(&card_a(), &kept).cost, 5);
}

#[test]
fn entries() {
    let with = |place: usize, byte: u8| {
        let mut sheet = D;
        sheet[place] = byte;
        mark(&card_a(), &sheet).number
    };
    assert_eq!(with(3, 3), 12);
    assert_eq!(with(3, 254), 12);
    assert_eq!(with(3, 1), 0);
    assert_eq!(with(0, 1), 13);
    assert_eq!(with(4, OFF), 0);
    assert_eq!(with(0, OFF), 13);
    assert_eq!(mark(&card_a(), &D[..8]).number, 11);
    assert_eq!(mark(&card_a(), &[]).number, 11);
    assert_eq!(mark(&card_a(), &[254; 10]).number, 11);
    assert_eq!(mark(&small(3, &[1, 2], &[]).bytes(), &[]), Answer::cost(0));
}

/// A slot has at least its load. Every step is charged F as it is handed in, though a brighter one may cost less.
#[test]
fn at_least_the_load() {
    let marked = |load: u16, sheet: [u8; 2]| mark(&small(2, &[5, 1, 9], &[load]).bytes(), &sheet);
    // just the load
    assert_eq!(marked(2, [1, 1]), Answer::cost(1 + 1 + 10));
    assert_eq!(marked(2, [2, OFF]), Answer::cost(9 + 5));
    assert_eq!(marked(2, [2, 0]), Answer::cost(9 + 5 + 10));
    // more light
    assert_eq!(marked(2, [2, 1]), Answer::cost(9 + 1 + 10));
    assert_eq!(marked(2, [2, 2]), Answer::cost(9 + 9 + 10));
    assert_eq!(marked(1, [2, OFF]), Answer::cost(9 + 5));
    assert_eq!(marked(0, [0, 0]), Answer::cost(5 + 5 + 10));
    assert_eq!(marked(0, [1, OFF]), Answer::cost(1 + 5));
    assert_eq!(marked(0, [2, 2]), Answer::cost(9 + 9 + 10));
    assert_eq!(marked(0, [OFF, OFF]), Answer::cost(0));
    // too little light
    for sheet in [[1, 0], [1, OFF], [0, 1], [0, 0], [OFF, OFF]] {
        assert_eq!(marked(2, sheet), Answer::refused(13));
    }
    assert_eq!(marked(4, [2, 1]), Answer::refused(13));
}

/// The light of one slot is no help to another.
#[test]
fn each_slot_by_itself() {
    let card = small(2, &[5, 1, 9], &[1, 3, 2]).bytes();
    assert_eq!(mark(&card, &[1, OFF, 2, 1, 1, 1]).number, 0);
    assert_eq!(mark(&card, &[2, 2, 2, 1, 2, 2]).number, 0);
    for sheet in [[0, OFF, 2, 2, 2, 2], [2, 2, 1, 1, 2, 2], [2, 2, 2, 2, 1, OFF]] {
        assert_eq!(mark(&card, &sheet), Answer::refused(13));
    }
}

/// Makes a card and a sheet that has just its loads.
fn just_the_loads(random: &mut Random) -> (Card, Vec<u8>) {
    let (modules, top, slots) = (1 + random.below(4), 1 + random.below(5), 1 + random.below(3));
    let mut card = shows::card(random, modules, top, slots, 9);
    let sheet = random_sheet(random, modules, top, slots);
    card.loads = plain::read_card(&card.bytes()).unwrap().lights(&sheet).iter().map(|light| *light as u16).collect();
    (card, sheet)
}

/// Marks a sheet and counts the number of the answer.
fn marked(classes: &mut Classes, card: &Card, sheet: &[u8]) -> Answer {
    let found = mark(&card.bytes(), sheet);
    classes.see_number(found.number);
    found
}

/// One step up at a place of a sheet of that cost is accepted, and costs the difference of the two entries.
fn brighter(classes: &mut Classes, card: &Card, sheet: &[u8], cost: u64, place: usize) {
    let (mut changed, step) = (sheet.to_vec(), usize::from(sheet[place]));
    changed[place] += 1;
    let (now, before) = (card.table[step + 1], card.table[step]);
    let wanted = cost + u64::from(now) - u64::from(before);
    assert_eq!(marked(classes, card, &changed), Answer::cost(wanted), "{card:?}, sheet {changed:?}");
    classes.see(match now.cmp(&before) {
        Ordering::Less => "brighter and cheaper",
        Ordering::Equal => "brighter and as dear",
        Ordering::Greater => "brighter and dearer",
    });
}

/// One step down at a place of a sheet that has just the loads is refused.
fn darker(classes: &mut Classes, card: &Card, sheet: &[u8], place: usize) {
    let mut changed = sheet.to_vec();
    changed[place] -= 1;
    assert_eq!(marked(classes, card, &changed), Answer::refused(13), "{card:?}, sheet {changed:?}");
    classes.see("darker");
}

/// Sheets with just the loads, and each with one step up or down: brighter is accepted and costs the difference, darker is 13.
#[test]
fn one_step_brighter_or_darker() {
    let names = ["just the loads", "brighter and cheaper", "brighter and as dear", "brighter and dearer", "darker"];
    let mut classes = Classes::new("one step of a sheet changed (seed 42)", &names).with_numbers([0, 13]);
    let mut random = Random::new(42);
    for _ in 0..3_000 {
        let (card, sheet) = just_the_loads(&mut random);
        let cost = marked(&mut classes, &card, &sheet).cost;
        assert_eq!(marked(&mut classes, &card, &sheet).number, 0, "{card:?}, sheet {sheet:?}");
        classes.see("just the loads");
        for place in (0..sheet.len()).filter(|place| sheet[*place] != OFF) {
            if sheet[place] < card.top {
                brighter(&mut classes, &card, &sheet, cost, place);
            }
            if sheet[place] > 0 {
                darker(&mut classes, &card, &sheet, place);
            }
        }
    }
    classes.require_all();
}

#[test]
fn largest_sheet() {
    let card = largest(40_000).bytes();
    let sheet = vec![200; 200 * 1_024];
    assert_eq!(mark(&card, &sheet), plain::mark(&card, &sheet));
    assert_eq!(mark(&card, &sheet).number, 0);
    // one step too dark in the last slot alone
    let darker = [&sheet[1..], &[199]].concat();
    assert_eq!(mark(&card, &darker), Answer::refused(13));
    // all that light for no load
    assert_eq!(mark(&largest(0).bytes(), &sheet), mark(&card, &sheet));
}

/// A sheet with bytes from 0 to `top` and 255.
fn random_sheet(random: &mut Random, modules: u64, top: u64, slots: u64) -> Vec<u8> {
    (0..modules * slots).map(|_| if random.below(3) == 0 { OFF } else { random.below(top + 1) as u8 }).collect()
}

/// Makes each load the light of the sheet, or less, or now and then one step more.
fn fit_loads(random: &mut Random, card: &mut Card, sheet: &[u8]) {
    let most = u64::from(card.modules) * u64::from(card.top);
    let lights = plain::read_card(&card.bytes()).unwrap().lights(sheet);
    for (load, light) in card.loads.iter_mut().zip(lights) {
        *load = match random.below(8) {
            0 => (light + 1).min(most),
            1..=3 => random.below(light + 1),
            _ => light,
        } as u16;
    }
}

/// Now and then gives the sheet another length, or another byte at some place.
fn spoil(random: &mut Random, sheet: &mut Vec<u8>, top: u64) {
    match random.below(12) {
        0 => sheet.push(0),
        1 => sheet.truncate(sheet.len() / 2),
        2 if !sheet.is_empty() => {
            let place = random.below(sheet.len() as u64) as usize;
            sheet[place] = random.pick(&[top as u8 + 1, 254, 0, OFF]);
        }
        _ => {}
    }
}

/// Counts the classes of an accepted sheet.
fn count_accepted(classes: &mut Classes, show: &Show, sheet: &[u8]) {
    if sheet.chunks(show.modules as usize).any(|row| row.windows(2).any(|w| w[0] == OFF && w[1] != OFF)) {
        classes.see("accepted sheet of no plan");
    }
    let just = show.lights(sheet) == show.loads;
    classes.see(if just { "accepted with just the loads" } else { "accepted with more light than a load" });
    let above_least = |step: &u8| show.table[usize::from(*step)] > show.least_from(u64::from(*step));
    if sheet.iter().filter(|byte| **byte != OFF).any(above_least) {
        classes.see("accepted with F of a step above G of it");
    }
}

/// Counts a sheet that is refused by 13 if a single step is missing in the whole of it.
fn count_too_dark(classes: &mut Classes, show: &Show, sheet: &[u8]) {
    let lights = show.lights(sheet);
    if show.loads.iter().zip(&lights).map(|(load, light)| load.saturating_sub(*light)).sum::<u64>() == 1 {
        classes.see("13 for one step too little");
    }
}

#[test]
fn random_sheets() {
    let mut names = shows::ALL_CLASSES.to_vec();
    names.extend(["accepted sheet of no plan", "accepted with just the loads", "accepted with more light than a load"]);
    names.extend(["accepted with F of a step above G of it", "13 for one step too little"]);
    let mut classes = Classes::new("marking (seed 41)", &names).with_numbers((0..=8).chain(11..=13));
    let mut random = Random::new(41);
    for _ in 0..60_000 {
        let (modules, top, slots) = (1 + random.below(4), 1 + random.below(3), random.below(4));
        let mut card = shows::card(&mut random, modules, top, slots, 50);
        let mut sheet = random_sheet(&mut random, modules, top, slots);
        if random.below(4) != 0 {
            fit_loads(&mut random, &mut card, &sheet);
        }
        let bytes = shows::damaged(&mut random, &card);
        spoil(&mut random, &mut sheet, top);
        let found = mark(&bytes, &sheet);
        assert_eq!(found, plain::mark(&bytes, &sheet), "{card:?}, sheet {sheet:?}");
        classes.see_number(found.number);
        shows::classes(&card).into_iter().for_each(|name| classes.see(name));
        match (found.number, plain::read_card(&bytes)) {
            (0, Ok(show)) => count_accepted(&mut classes, &show, &sheet),
            (13, Ok(show)) => count_too_dark(&mut classes, &show, &sheet),
            _ => {}
        }
    }
    classes.require_all();
}

/// A falsified cost is told from the true one.
#[test]
fn falsified_cost_is_reported() {
    let mut expected = plain::mark(&card_a(), &D);
    expected.cost += 1;
    assert_ne!(mark(&card_a(), &D), expected);
}
