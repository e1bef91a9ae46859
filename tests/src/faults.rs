//! Faults of a request on card A, each alone and together: which refusal each brings about.
use crate::cards::card_a;

/// Sets an item, if there is one at the place.
pub fn set<T>(items: &mut [T], at: usize, value: T) {
    if let Some(item) = items.get_mut(at) {
        *item = value;
    }
}

/// A change of what is handed in or lent.
pub type Change<T> = fn(&mut T);

/// The changes of card A for which refusals 1 to 8 are given. No change undoes another one.
const OF_CARD: [(u64, Change<Vec<u8>>); 13] = [
    (1, |card| card.truncate(16)),
    (1, |card| set(card, 2, 0)),
    (2, |card| set(card, 3, 2)),
    (2, |card| set(card, 4, 1)),
    (3, |card| set(card, 5, 0)),
    (3, |card| set(card, 6, 201)),
    (4, |card| set(card, 8, 4)),
    (5, |card| card.truncate(34)),
    (6, |card| set(card, 12, 255)),
    (6, |card| set(card, 16, 255)),
    (6, |card| set(card, 28, 255)),
    (7, |card| set(card, 21, 3)),
    (8, |card| set(card, 29, 7)),
];

/// A refusal, and the change of the card or of the rest of a request that brings it about.
pub struct Fault<R> {
    pub number: u64,
    card: Option<Change<Vec<u8>>>,
    rest: Option<Change<R>>,
}

/// The faults of a card and those of the rest of a request.
pub fn all<R>(of_rest: &[(u64, Change<R>)]) -> Vec<Fault<R>> {
    let cards = OF_CARD.iter().map(|(number, change)| Fault { number: *number, card: Some(*change), rest: None });
    let rests = of_rest.iter().map(|(number, change)| Fault { number: *number, card: None, rest: Some(*change) });
    cards.chain(rests).collect()
}

/// Card A and the rest of a request, with these faults.
pub fn request<R>(faults: &[&Fault<R>], mut rest: R) -> (Vec<u8>, R) {
    let mut card = card_a();
    for fault in faults {
        fault.card.into_iter().for_each(|change| change(&mut card));
        fault.rest.into_iter().for_each(|change| change(&mut rest));
    }
    (card, rest)
}

/// Every fault, every two of them and every three.
pub fn every_three<R>(faults: &[Fault<R>], mut each: impl FnMut([&Fault<R>; 3])) {
    for (first, one) in faults.iter().enumerate() {
        for (second, two) in faults.iter().enumerate().skip(first) {
            faults[second..].iter().for_each(|three| each([one, two, three]));
        }
    }
}

/// The numbers of some faults, each once.
pub fn numbers<R>(faults: &[&Fault<R>]) -> Vec<u64> {
    let mut numbers: Vec<u64> = faults.iter().map(|fault| fault.number).collect();
    numbers.sort_unstable();
    numbers.dedup();
    numbers
}

/// The names of the classes of `together`.
pub const TOGETHER: [&str; 3] = ["one number", "two numbers", "three numbers"];

/// How many numbers apply together.
pub fn together(numbers: &[u64]) -> &'static str {
    TOGETHER[numbers.len() - 1]
}
