//! `lamp_check_card` against the plain check.
use lamp_tests::boundary::{check_card, Answer};
use lamp_tests::cards::{card_a, largest, small, Card};
use lamp_tests::classes::Classes;
use lamp_tests::plain;
use lamp_tests::random::Random;

fn expected(card: &[u8]) -> Answer {
    match plain::read_card(card) {
        Ok(_) => Answer { number: 0, cost: 0 },
        Err(number) => Answer { number, cost: 0 },
    }
}

fn compare(card: &[u8], classes: &mut Classes) {
    let found = check_card(card);
    assert_eq!(found, expected(card), "card {card:02X?}");
    classes.see_number(found.number);
}

/// Valid cards of several shapes.
fn base_cards() -> Vec<Vec<u8>> {
    vec![
        card_a(),
        small(3, &[1, 2], &[3]).bytes(),
        small(200, &[5, 1, 9], &[]).bytes(),
        small(1, &[0, 0, 0, 1_000_000], &[0, 3]).bytes(),
        Card { up: 500_000_000, down: 500_000_000, ..small(2, &[1_000_000, 0, 0], &[4, 4, 4]) }.bytes(),
    ]
}

#[test]
fn examples_h_k_l() {
    let number = |card: &[u8]| check_card(card).number;
    assert_eq!(number(&small(3, &[0, 2, 3], &[1]).bytes()), 7);
    assert_eq!(number(&small(3, &[0, 2, 4], &[1]).bytes()), 0);

    assert_eq!(number(&largest(40_000).bytes()), 0);
    assert_eq!(number(&largest(40_001).bytes()), 8);
    assert_eq!(number(&Card { modules: 201, ..largest(0) }.bytes()), 3);
    let mut long = largest(0);
    long.loads.push(0);
    assert_eq!(number(&long.bytes()), 4);

    let a = card_a();
    assert_eq!(check_card(&a), Answer { number: 0, cost: 0 });
    assert_eq!(number(&a[..34]), 5);
    assert_eq!(number(&[a.as_slice(), &[0]].concat()), 5);
    assert_eq!(number(&a[..16]), 1);
    let mut both = a.clone();
    both[3] = 2;
    both[5] = 0;
    assert_eq!(number(&both), 2);
}

#[test]
fn every_byte_changed() {
    let mut classes = Classes::new("each byte changed", &[]).with_numbers(0..=8);
    for card in base_cards() {
        compare(&card, &mut classes);
        for place in 0..card.len() {
            for value in [0, 1, 2, 3, 4, 7, 0x44, 0x7F, 0x80, 199, 200, 201, 254, 255] {
                let mut changed = card.clone();
                changed[place] = value;
                compare(&changed, &mut classes);
            }
        }
    }
    classes.require_all();
}

#[test]
fn every_length() {
    let mut classes = Classes::new("each length", &[]).with_numbers([0, 1, 5]);
    for card in base_cards() {
        for length in 0..=card.len() {
            compare(&card[..length], &mut classes);
        }
        for more in 1..5 {
            compare(&[card.as_slice(), &vec![0; more]].concat(), &mut classes);
        }
    }
    classes.require_all();
}

/// Several faults at once, so that the lowest number must win.
#[test]
fn several_faults() {
    let mut classes = Classes::new("several faults (seed 11)", &[]).with_numbers(0..=8);
    let mut random = Random::new(11);
    for _ in 0..200_000 {
        let mut card = random_card(&mut random).bytes();
        for _ in 0..random.below(5) {
            let place = random.pick(&[0, 3, 5, 6, 7, 8, 9, 12, 16, 17, 20, 21, 24, card.len() as u64 - 1]) as usize;
            if place < card.len() {
                card[place] = random.pick(&[0, 1, 2, 3, 5, 44, 200, 201, 255]);
            }
        }
        match random.below(12) {
            0 => card.truncate(random.below(card.len() as u64 + 1) as usize),
            1 => card.push(random.below(256) as u8),
            _ => {}
        }
        compare(&card, &mut classes);
    }
    classes.require_all();
}

fn random_card(random: &mut Random) -> Card {
    let top = random.pick(&[1u8, 2, 3, 200]);
    let modules = random.pick(&[1u8, 2, 3, 127, 128, 200]);
    let mut difference = random.below(8) as i64 - 4;
    let mut entry = 400i64 * 200;
    let mut table = Vec::new();
    for _ in 0..=top {
        table.push(entry as u32);
        entry += difference;
        difference += random.below(3) as i64 - i64::from(random.below(40) == 0);
    }
    let most = u64::from(modules) * u64::from(top);
    let loads = (0..random.below(4)).map(|_| (random.below(most + 1) + u64::from(random.below(20) == 0)) as u16).collect();
    let price = |random: &mut Random| random.pick(&[0, 7, 500_000_000, 500_000_000, 500_000_001]);
    Card { modules, top, up: price(random), down: price(random), table, loads }
}
