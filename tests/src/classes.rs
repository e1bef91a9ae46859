//! Counts the cases of each class that a test saw and how often each number came up, prints them, and fails on an empty one. Number 9
//! is turned round: it fails if it came up at all. A table counts the numbers of several calls, and fails on one that a call does not list.
use std::collections::{BTreeMap, BTreeSet};

/// Since more light than the load is allowed no call gives it (document 02, section 2).
pub const NEVER_GIVEN: u64 = 9;

pub struct Classes {
    title: String,
    numbers: BTreeMap<u64, u64>,
    seen: BTreeMap<String, u64>,
}

impl Classes {
    pub fn new(title: &str, expected: &[&str]) -> Self {
        let seen = expected.iter().map(|name| (name.to_string(), 0)).collect();
        Classes { title: title.to_string(), numbers: BTreeMap::new(), seen }
    }

    /// The same, for a test that counts the numbers of answers.
    pub fn with_numbers(mut self, expected: impl IntoIterator<Item = u64>) -> Self {
        self.numbers = expected.into_iter().chain([NEVER_GIVEN]).map(|number| (number, 0)).collect();
        self
    }

    pub fn see(&mut self, name: &str) {
        *self.seen.entry(name.to_string()).or_insert(0) += 1;
    }

    pub fn see_number(&mut self, number: u64) {
        *self.numbers.entry(number).or_insert(0) += 1;
    }

    /// How often a class was seen.
    pub fn count(&self, name: &str) -> u64 {
        self.seen.get(name).copied().unwrap_or(0)
    }

    pub fn require_all(&self) {
        println!("{}:", self.title);
        for (number, count) in &self.numbers {
            println!("  number {number}: {count}");
        }
        for (name, count) in &self.seen {
            println!("  {name}: {count}");
        }
        let given = self.numbers.get(&NEVER_GIVEN).copied().unwrap_or(0);
        assert_eq!(given, 0, "{}: {NEVER_GIVEN} was given", self.title);
        let absent: Vec<_> = self.numbers.iter().filter(|(number, count)| **number != NEVER_GIVEN && **count == 0).collect();
        assert!(absent.is_empty(), "{}: no case of the numbers {absent:?}", self.title);
        let empty: Vec<_> = self.seen.iter().filter(|(_, count)| **count == 0).map(|(name, _)| name).collect();
        assert!(empty.is_empty(), "{}: no case of {empty:?}", self.title);
    }
}

/// How often each call gave each number.
pub struct Table {
    title: String,
    listed: Vec<(&'static str, &'static [u64])>,
    seen: BTreeMap<(&'static str, u64), u64>,
}

impl Table {
    /// A table with a line for each call and the numbers that it lists.
    pub fn new(title: &str, listed: &[(&'static str, &'static [u64])]) -> Self {
        Table { title: title.to_string(), listed: listed.to_vec(), seen: BTreeMap::new() }
    }

    pub fn see(&mut self, call: &'static str, number: u64) {
        *self.seen.entry((call, number)).or_insert(0) += 1;
    }

    /// How many answers were counted.
    pub fn sum(&self) -> u64 {
        self.seen.values().sum()
    }

    fn print(&self) {
        let numbers: BTreeSet<u64> = self.listed.iter().flat_map(|(_, numbers)| numbers.iter().copied()).collect();
        println!("{}, {} answers:", self.title, self.sum());
        let line = |name: &str, cells: Vec<String>| println!("  {name:<6} {}", cells.join(" "));
        line("number", numbers.iter().map(|number| format!("{number:>6}")).collect());
        for (call, listed) in &self.listed {
            let cell = |number: &u64| match (listed.contains(number), self.seen.get(&(*call, *number))) {
                (false, None) => format!("{:>6}", "-"),
                (_, count) => format!("{:>6}", count.unwrap_or(&0)),
            };
            line(call, numbers.iter().map(cell).collect());
        }
    }

    /// Prints the table. Each number that a call lists was given, and no other.
    pub fn require_all(&self) {
        self.print();
        let listed: BTreeSet<(&str, u64)> =
            self.listed.iter().flat_map(|(call, numbers)| numbers.iter().map(|number| (*call, *number))).collect();
        let seen: BTreeSet<(&str, u64)> = self.seen.keys().copied().collect();
        let absent: Vec<_> = listed.difference(&seen).collect();
        assert!(absent.is_empty(), "{}: no case of {absent:?}", self.title);
        let others: Vec<_> = seen.difference(&listed).collect();
        assert!(others.is_empty(), "{}: not listed, and given: {others:?}", self.title);
    }
}
