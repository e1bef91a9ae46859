//! Calls that run at the same time on one card and on areas of their own, and calls that write the same constant table.
use lamp::planning::{self, Planner};
use lamp_tests::boundary;
use lamp_tests::catalogue;
use lamp_tests::random::Random;
use lamp_tests::shows;
use std::thread;

#[test]
fn a_card_is_shared() {
    let mut random = Random::new(111);
    let cards: Vec<Vec<u8>> = (0..12).map(|_| shows::card(&mut random, 150, 60, 200, 90).bytes()).collect();
    let plan = |card: &[u8]| {
        [Planner::Exact, Planner::Coarse].map(|planner| {
            let planned = planning::plan(planner, card).expect("either planner plans every accepted card");
            (planned.cost, planned.plan, planned.sheet)
        })
    };
    let alone: Vec<_> = cards.iter().map(|card| plan(card)).collect();
    let repeated = || {
        for _ in 0..10 {
            assert!(cards.iter().map(|card| plan(card)).eq(alone.iter().cloned()));
        }
    };
    thread::scope(|scope| {
        for _ in 0..4 {
            scope.spawn(repeated);
        }
    });
}

#[test]
fn the_catalogue_table_is_written_by_all() {
    let area = [0xA5; 900];
    let repeated = || {
        for top in (0..=201).cycle().take(20_000) {
            assert_eq!(boundary::catalogue_table(top, &area, 0..area.len()), catalogue::catalogue_table(top, &area));
        }
    };
    thread::scope(|scope| {
        for _ in 0..4 {
            scope.spawn(repeated);
        }
    });
}
