//! `lamp_running_cost` against document 01's formula with the G of document 02, and against the cheapest rows with enough light.
use lamp_tests::boundary::{running_cost, Answer};
use lamp_tests::cards::{card_a, small, Card};
use lamp_tests::classes::Classes;
use lamp_tests::plain::{self, Show};
use lamp_tests::random::Random;
use lamp_tests::shows;

#[test]
fn examples_b_c() {
    assert_eq!(running_cost(&card_a(), 3, 4), Answer::cost(8));
    assert_eq!(running_cost(&card_a(), 2, 5), Answer::refused(13));
    assert_eq!(running_cost(&card_a(), 0, 0), Answer::cost(0));
    assert_eq!(running_cost(&card_a(), 0, 1), Answer::refused(13));
    assert_eq!(running_cost(&card_a(), 4, 0), Answer::refused(12));
    assert_eq!(running_cost(&card_a(), 4, u64::MAX), Answer::refused(12));
    assert_eq!(running_cost(&card_a(), u64::MAX, 0), Answer::refused(12));
    assert_eq!(running_cost(&card_a(), 3, u64::MAX), Answer::refused(13));
    // a load above m times Q is no fault of the card
    assert_eq!(running_cost(&card_a(), 3, 7), Answer::refused(13));
}

/// The second term is 0 with no remainder, also at the top step, where there is no G(Q + 1).
#[test]
fn top_step_has_no_second_term() {
    let card = Card { table: vec![1, 2, 1_000_000], ..small(3, &[0, 0, 0], &[65_535 % 7]) };
    for count in 0..=3 {
        assert_eq!(running_cost(&card.bytes(), count, 2 * count), Answer::cost(count * 1_000_000));
    }
}

/// A count costs G of its steps: more light than the load where that costs less.
#[test]
fn more_light_where_it_costs_less() {
    // the table, and then the running cost of counts 1, 2 and 3 for the loads from 0 on
    let v_shaped = (vec![5, 1, 9], [vec![1, 1, 9], vec![2, 2, 2, 10, 18], vec![3, 3, 3, 3, 11, 19, 27]]);
    let flat = (vec![4, 4, 4], [vec![4; 3], vec![8; 5], vec![12; 7]]);
    let lowest_at_top = (vec![9, 4, 2], [vec![2; 3], vec![4; 5], vec![6; 7]]);
    let flat_bottom = (vec![4, 1, 1, 3], [vec![1, 1, 1, 3], vec![2, 2, 2, 2, 2, 4, 6], vec![3, 3, 3, 3, 3, 3, 3, 5, 7, 9]]);
    for (table, costs) in [v_shaped, flat, lowest_at_top, flat_bottom] {
        let card = small(3, &table, &[]).bytes();
        assert_eq!(running_cost(&card, 0, 0), Answer::cost(0));
        for (count, costs) in (1..).zip(costs) {
            for (load, cost) in (0..).zip(&costs) {
                assert_eq!(running_cost(&card, count, load), Answer::cost(*cost), "{table:?}, count {count}, load {load}");
            }
            assert_eq!(running_cost(&card, count, costs.len() as u64), Answer::refused(13), "{table:?}, count {count}");
        }
    }
}

/// The light and the cost of every row of `count` modules that are all active.
fn rows(show: &Show, count: u64) -> Vec<(u64, u64)> {
    let steps = || (0..).zip(&show.table);
    (0..count).fold(vec![(0, 0)], |rows, _| {
        rows.iter().flat_map(|(light, cost)| steps().map(move |(step, entry)| (light + step, cost + entry))).collect()
    })
}

/// Compares the running cost with the cheapest of the rows that have enough light, and counts the number and the class.
fn compare_row(classes: &mut Classes, card: &Card, rows: &[(u64, u64)], count: u64, load: u64) {
    let found = running_cost(&card.bytes(), count, load);
    let least = rows.iter().filter(|(light, _)| *light >= load).map(|(_, cost)| *cost).min();
    assert_eq!(found, least.map_or(Answer::refused(13), Answer::cost), "{card:?} count {count} load {load}");
    classes.see_number(found.number);
    let least_of_just = rows.iter().filter(|(light, _)| *light == load).map(|(_, cost)| *cost).min();
    if least < least_of_just {
        classes.see("every cheapest row has more light than the load");
    }
}

/// The running cost is that of the cheapest row with enough light.
#[test]
fn all_rows() {
    let mut names = shows::ALL_CLASSES.to_vec();
    names.retain(|name| !["T 0", "both prices 0"].contains(name));
    names.push("every cheapest row has more light than the load");
    let mut classes = Classes::new("running cost against all rows (seed 22)", &names).with_numbers([0, 13]);
    let mut random = Random::new(22);
    for _ in 0..400 {
        let (modules, top, steepest) = (1 + random.below(4), 1 + random.below(4), random.pick(&[1, 3, 50]));
        let card = shows::card(&mut random, modules, top, 1, steepest);
        let show = plain::read_card(&card.bytes()).unwrap();
        for count in 0..=modules {
            let rows = rows(&show, count);
            for load in 0..=count * top + 1 {
                compare_row(&mut classes, &card, &rows, count, load);
            }
        }
        shows::classes(&card).into_iter().for_each(|name| classes.see(name));
    }
    classes.require_all();
}

/// 01's plausible error: rounding L / n before looking up the table would give 3 or 6 here.
#[test]
fn quotient_is_not_rounded() {
    let card = small(3, &[1, 2, 4], &[]);
    assert_eq!(running_cost(&card.bytes(), 3, 5), Answer::cost(2 + 4 + 4));
}

#[test]
fn random_pairs() {
    let mut classes = Classes::new("running cost (seed 21)", &shows::ALL_CLASSES).with_numbers((0..=8).chain([12, 13]));
    let mut random = Random::new(21);
    for _ in 0..60_000 {
        let (modules, top, slots) = (1 + random.below(9), 1 + random.below(5), random.below(3));
        let (modules, top) = random.pick(&[(modules, top), (modules, 1), (1, top), (200, 200)]);
        let card = shows::card(&mut random, modules, top, slots, 50);
        let bytes = shows::damaged(&mut random, &card);
        let count = if random.below(9) == 0 { random.next() } else { random.below(modules + 2) };
        let most = count.saturating_mul(top).saturating_add(2);
        let load = if random.below(9) == 0 { random.next() } else { random.below(most) };
        let found = running_cost(&bytes, count, load);
        assert_eq!(found, plain::running_cost(&bytes, count, load), "{card:?} count {count} load {load}");
        classes.see_number(found.number);
        shows::classes(&card).into_iter().for_each(|name| classes.see(name));
    }
    classes.require_all();
}
