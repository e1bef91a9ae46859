//! `lamp_rounded_count` for every pair in reach, and far beyond it: beside a search in the allowed counts, and beside the course book's list.
use lamp_tests::boundary::{rounded_count, Answer};
use lamp_tests::classes::Classes;
use lamp_tests::plain;

#[test]
fn example_j() {
    assert_eq!(plain::allowed(1).len(), 2);
    assert_eq!(plain::allowed(128).len(), 9);
    assert_eq!(plain::allowed(200).len(), 10);
    let distinct = |modules: u64| {
        let mut seen: Vec<u64> = (0..=modules).map(|count| rounded_count(count, modules).cost).collect();
        seen.dedup();
        seen
    };
    assert_eq!(distinct(1), plain::allowed(1));
    assert_eq!(distinct(128), plain::allowed(128));
    assert_eq!(distinct(200), plain::allowed(200));
}

#[test]
fn every_pair() {
    let mut classes = Classes::new("rounded count", &[]).with_numbers([0, 3, 12]);
    let edges = [u64::MAX, u64::MAX - 1, 1 << 32, 1 << 63];
    let numbers = || (0..=300u64).chain(edges);
    for modules in numbers() {
        for count in numbers() {
            let found = rounded_count(count, modules);
            assert_eq!(found, plain::rounded_count(count, modules), "count {count}, modules {modules}");
            classes.see_number(found.number);
        }
    }
    classes.require_all();
    assert_eq!(rounded_count(5, 0), Answer::refused(3));
}

/// The course book's list as it is printed (document 02, section 6): the first and the last number of each case.
const LIST: [(u64, u64); 10] = [(0, 0), (1, 1), (2, 2), (3, 4), (5, 8), (9, 16), (17, 32), (33, 64), (65, 128), (129, 200)];

/// The case of a count that is on the list.
fn case_of(count: u64) -> usize {
    LIST.iter().position(|(first, last)| (*first..=*last).contains(&count)).expect("the list has every count up to 200")
}

/// The rounded count by the list: the last number of the count's case, then held to m.
fn by_the_list(count: u64, modules: u64) -> Answer {
    if modules == 0 || modules > 200 {
        Answer::refused(3)
    } else if count > modules {
        Answer::refused(12)
    } else {
        Answer::cost(LIST[case_of(count)].1.min(modules))
    }
}

fn class(case: usize, held: bool) -> String {
    let (first, last) = LIST[case];
    format!("case {case}, {first} to {last}{}", if held { ", held to m" } else { "" })
}

/// Every m from 0 to 201 with every n from 0 to 202. Only a case of several numbers can be held to m, since n is at most m.
#[test]
fn every_pair_by_the_list() {
    let cases = (0..LIST.len()).flat_map(|case| [(case, false), (case, true)]);
    let expected: Vec<String> =
        cases.filter(|(case, held)| !held || LIST[*case].0 < LIST[*case].1).map(|(case, held)| class(case, held)).collect();
    let expected: Vec<&str> = expected.iter().map(String::as_str).collect();
    let mut classes = Classes::new("rounded count by the list", &expected).with_numbers([0, 3, 12]);
    for modules in 0..=201 {
        for count in 0..=202 {
            let found = rounded_count(count, modules);
            assert_eq!(found, by_the_list(count, modules), "count {count}, modules {modules}");
            classes.see_number(found.number);
            if found.number == 0 {
                let case = case_of(count);
                classes.see(&class(case, found.cost < LIST[case].1));
            }
        }
    }
    classes.require_all();
}
