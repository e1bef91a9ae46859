//! The listing of `lamp key` beside what the program prints, card by card and byte for byte, both run as processes; what the key says of
//! slots that get more light than their load; and the coarse key beside it.
use lamp::show::Show;
use lamp::words::runs;
use lamp_tests::boundary::check_card;
use lamp_tests::cards::{largest, Card};
use lamp_tests::classes::Classes;
use lamp_tests::random::Random;
use lamp_tests::shows;
use std::io::Write;
use std::path::Path;
use std::process::{Command, Output, Stdio};

/// Runs a program of this repository on an input.
fn run(program: &str, words: &[&str], input: &[u8]) -> Output {
    let path = Path::new(env!("CARGO_MANIFEST_DIR")).join("..").join(program);
    let mut child = Command::new(&path)
        .args(words)
        .stdin(Stdio::piped())
        .stdout(Stdio::piped())
        .stderr(Stdio::piped())
        .spawn()
        .unwrap_or_else(|error| panic!("{program}: {error}; bin/build makes it"));
    child.stdin.take().unwrap().write_all(input).unwrap();
    child.wait_with_output().unwrap()
}

/// The listing after the show that was read back.
fn listing(output: &[u8]) -> &[u8] {
    let start = output.windows(6).position(|window| window == b"\ncost ").map_or(output.len(), |at| at + 1);
    &output[start..]
}

/// The cost of a listing.
fn cost(output: &[u8]) -> u64 {
    let first = String::from_utf8_lossy(listing(output)).lines().next().map(str::to_string);
    first.and_then(|line| line.strip_prefix("cost ")?.parse().ok()).expect("a listing begins with its cost")
}

/// The slots of a listing, from 1, whose steps sum to more than the load.
fn brighter(card: &[u8], output: &[u8]) -> Vec<usize> {
    let text = String::from_utf8_lossy(listing(output)).into_owned();
    let rows = text.lines().filter_map(|line| line.strip_prefix("slot ")?.split_once(": "));
    let lights = rows.map(|(_, steps)| steps.split(' ').filter_map(|step| step.parse::<u16>().ok()).sum::<u16>());
    let loads = Show::read(card).unwrap().loads;
    lights.zip(loads).enumerate().filter(|(_, (light, load))| light > load).map(|(slot, _)| slot + 1).collect()
}

/// Compares what a key says of slots that get more light than their load with its listing. Answers whether there are any.
fn brighter_told(card: &[u8], output: &[u8]) -> bool {
    let slots = brighter(card, output);
    let text = String::from_utf8_lossy(output).into_owned();
    let said = text.lines().find_map(|line| line.strip_prefix("# slots with more light than their load, which costs less at their counts: "));
    let wanted = (!slots.is_empty()).then(|| runs(&slots, 10));
    assert_eq!(said.map(str::to_string), wanted, "{text}");
    !slots.is_empty()
}

/// The coarse key of an accepted card is never refused, and its cost is at least the least cost and at most twice it.
fn compare_coarse(card: &[u8], least: u64) {
    let key = run("tool/target/release/lamp", &["key", "--coarse", "-"], card);
    assert_eq!((key.status.code(), key.stderr.is_empty()), (Some(0), true), "{card:?}");
    brighter_told(card, &key.stdout);
    assert!((least..=2 * least).contains(&cost(&key.stdout)), "{card:?}");
}

fn compare(card: &[u8], classes: &mut Classes) {
    let printed = run("target/bin/plan_program", &[], card);
    let key = run("tool/target/release/lamp", &["key", "-"], card);
    let number = check_card(card).number;
    if number == 0 {
        assert_eq!(String::from_utf8_lossy(listing(&key.stdout)), String::from_utf8_lossy(&printed.stdout), "{card:?}");
        assert_eq!(key.status.code(), Some(0));
        if brighter_told(card, &key.stdout) {
            classes.see("more light than the load");
        }
        compare_coarse(card, cost(&key.stdout));
    } else {
        assert_eq!(printed.stdout, format!("refused {number}\n").into_bytes());
        let reason = String::from_utf8_lossy(&key.stderr).into_owned();
        assert!(reason.contains(&format!("refused {number}: ")), "{reason}");
        assert_eq!((key.stdout.is_empty(), key.status.code()), (true, Some(1)));
    }
    assert_eq!(printed.stderr, b"");
    classes.see(if number == 0 { "listing" } else { "refusal" });
}

#[test]
fn key_prints_the_programs_listing() {
    let mut names = shows::ALL_CLASSES.to_vec();
    names.extend(["listing", "refusal", "more light than the load"]);
    let mut classes = Classes::new("listings beside the program (seed 101)", &names);
    let mut random = Random::new(101);
    for at in 0..3_000 {
        let wide = (1 + random.below(200), 1 + random.below(200), random.below(40));
        let small = (1 + random.below(12), 1 + random.below(9), random.below(14));
        let (modules, top, slots) = if at % 10 == 0 { wide } else { small };
        let card = shows::card(&mut random, modules, top, slots, 300);
        shows::classes(&card).into_iter().for_each(|name| classes.see(name));
        let bytes = if random.below(4) == 0 { shows::damaged(&mut random, &card) } else { card.bytes() };
        // bytes that are no card and no text either are taken for a card; a cut mark would be taken for text
        if bytes.starts_with(b"DLS") || bytes.is_empty() {
            compare(&bytes, &mut classes);
        }
    }
    classes.require_all();
}

/// Shows at the program's limit, and beyond it: there the program refuses by 10 and the tool plans.
#[test]
fn key_at_the_programs_limit() {
    let mut classes = Classes::new("at the limit", &["listing"]);
    for (modules, slots) in [(63, 1_024), (199, 327), (200, 326)] {
        let card = Card { modules, loads: vec![40; slots], ..largest(0) };
        compare(&card.bytes(), &mut classes);
    }
    classes.require_all();
    for (modules, slots) in [(64, 1_024), (200, 327), (200, 1_024)] {
        let card = Card { modules, loads: vec![u16::from(modules) * 3; slots], ..largest(0) }.bytes();
        assert_eq!(run("target/bin/plan_program", &[], &card).stdout, b"refused 10\n");
        let key = run("tool/target/release/lamp", &["key", "-"], &card);
        assert_eq!(key.status.code(), Some(0));
        assert_eq!(listing(&key.stdout).split(|byte| *byte == b'\n').count(), slots + 3);
    }
}
