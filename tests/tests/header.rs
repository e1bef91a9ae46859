//! What include/lamp.h says beside what the tool and the documents say.
use lamp::catalogue;
use lamp::input;
use lamp::practice;
use lamp::refusal::Refusal;
use std::fs;
use std::path::Path;

fn read(name: &str) -> String {
    let path = Path::new(env!("CARGO_MANIFEST_DIR")).join("..").join(name);
    fs::read_to_string(&path).unwrap_or_else(|error| panic!("{name}: {error}"))
}

/// The value of a `#define`.
fn defined(header: &str, name: &str) -> String {
    let start = format!("#define {name} ");
    let line = header.lines().find_map(|line| line.strip_prefix(&start)).unwrap_or_else(|| panic!("no {name}"));
    line.split_whitespace().next().unwrap().trim_matches('"').to_string()
}

/// A name of C in the form of Rust: `LAMP_NOT_A_CARD` is `NotACard`.
fn in_rust(name: &str) -> String {
    let words = name.strip_prefix("LAMP_").unwrap().split('_');
    words.map(|word| word[..1].to_string() + &word[1..].to_lowercase()).collect()
}

#[test]
fn refusals_have_the_headers_names_and_numbers() {
    let header = read("include/lamp.h");
    let body = header.split("enum lamp_refusal {").nth(1).unwrap().split('}').next().unwrap();
    let lines = body.lines().filter(|line| line.trim_start().starts_with("LAMP_"));
    let found: Vec<(String, u64)> = lines
        .map(|line| {
            let (name, rest) = line.trim().split_once(" = ").unwrap();
            (in_rust(name), rest.split(|c: char| !c.is_ascii_digit()).next().unwrap().parse().unwrap())
        })
        .collect();
    let bound: Vec<(String, u64)> = Refusal::ALL.iter().map(|refusal| (format!("{refusal:?}"), refusal.number())).collect();
    assert_eq!(found, bound);
}

/// Where no field of a card is named, the tool has the header's words.
#[test]
fn words_without_fields_are_the_headers() {
    let header = read("include/lamp.h");
    for refusal in Refusal::ALL.iter().filter(|refusal| (13..).contains(&refusal.number())) {
        let line = header.lines().find(|line| line.contains(&format!(" = {}", refusal.number())) && line.starts_with("    LAMP_")).unwrap();
        let words = line.split_once(": ").unwrap().1.trim_end_matches(" */");
        assert_eq!(words, refusal.words());
    }
}

/// 9 keeps its name and its number, and no call has it among its refusals.
#[test]
fn no_call_names_nine() {
    let header = read("include/lamp.h");
    let calls: Vec<&str> = header.split(" * Refusals: ").skip(1).map(|rest| rest.split("*/").next().unwrap()).collect();
    assert_eq!(calls.len(), 18);
    for refusals in calls {
        assert!(refusals.split(|c: char| !c.is_ascii_digit()).all(|number| number != "9"), "{refusals}");
    }
}

/// A parameter or a field of C as Rust writes it.
fn parameter(text: &str) -> String {
    let pointers = [("const uint8_t *", "*const u8"), ("uint8_t *", "*mut u8"), ("const uint16_t *", "*const u16")];
    let numbers = [("size_t ", "usize"), ("uint16_t ", "u16"), ("uint32_t ", "u32"), ("uint64_t ", "u64")];
    let records = [("struct lamp_sitting ", "Sitting"), ("const struct lamp_seat *", "*const Seat"), ("struct lamp_seat *", "*mut Seat")];
    let types = pointers.iter().chain(&numbers).chain(&records);
    let found = types.into_iter().find_map(|(c, rust)| text.strip_prefix(c).map(|name| format!("{name}: {rust}")));
    found.unwrap_or_else(|| panic!("no type for {text}"))
}

/// The text with one blank for each run of blanks and line breaks.
fn on_a_line(text: &str) -> String {
    text.split_whitespace().collect::<Vec<_>>().join(" ")
}

/// Every call of the header is declared in the binding with the same parameters, and has a safe function there.
#[test]
fn every_call_is_bound() {
    let (header, binding) = (read("include/lamp.h"), read("tool/src/calls.rs"));
    let declared = on_a_line(&binding).replace("( ", "(").replace(", )", ")");
    for (c, rust, count) in [("lamp_answer", "LampAnswer", 10), ("lamp_points", "Points", 1), ("lamp_reply", "Reply", 7)] {
        let start = format!("\nstruct {c} lamp_");
        let calls: Vec<&str> = header.split(start.as_str()).skip(1).collect();
        assert_eq!(calls.len(), count);
        for call in calls {
            let (name, rest) = call.split_once('(').unwrap();
            let parameters: Vec<String> = on_a_line(rest.split(')').next().unwrap()).split(", ").map(parameter).collect();
            let line = format!("fn lamp_{name}({}) -> {rust};", parameters.join(", "));
            assert!(declared.contains(&line), "the binding has no {line}");
            assert!(binding.contains(&format!("\npub fn {name}(")), "{name} has no safe function");
        }
    }
}

/// The records of the header have the same fields in the binding, in the same order.
#[test]
fn every_record_is_bound() {
    let (header, binding) = (read("include/lamp.h"), on_a_line(&read("tool/src/calls.rs")));
    for (c, rust) in [("lamp_points", "Points"), ("lamp_seat", "Seat"), ("lamp_sitting", "Sitting"), ("lamp_reply", "Reply")] {
        let body = header.split(&format!("\nstruct {c} {{\n")).nth(1).unwrap().split("\n};").next().unwrap();
        let fields = body.lines().map(|line| parameter(line.split(';').next().unwrap().trim()));
        let fields: Vec<String> = fields.map(|field| format!("pub {field},")).collect();
        let record = format!("#[repr(C)] #[derive(Clone, Copy, Debug, Default, PartialEq, Eq)] pub struct {rust} {{ {} }}", fields.join(" "));
        assert!(binding.contains(&record), "the binding has no {record}");
    }
}

#[test]
fn release_and_limits() {
    let header = read("include/lamp.h");
    let release = defined(&header, "LAMP_RELEASE");
    assert!(read("tool/Cargo.toml").contains(&format!("\nversion = \"{release}\"\n")));
    let newest = read("CHANGES.md").lines().find_map(|line| line.strip_prefix("## ").map(str::to_string));
    assert_eq!(newest.and_then(|line| line.split(',').next().map(str::to_string)), Some(release));
    assert_eq!(defined(&header, "LAMP_MAX_SHEET"), input::MOST_SHEET.to_string());
    assert!(defined(&header, "LAMP_MAX_CARD").parse::<usize>().unwrap() < input::MOST_CARD);
    assert_eq!(defined(&header, "LAMP_MAX_PRACTICE"), practice::LONGEST.to_string());
    assert_eq!(defined(&header, "LAMP_MAX_TABLE"), catalogue::LONGEST.to_string());
    assert_eq!(defined(&header, "LAMP_CARD_VERSION"), lamp::show::VERSION.to_string());
    assert_eq!(defined(&header, "LAMP_OFF"), lamp::show::OFF.to_string());
    assert_eq!((defined(&header, "LAMP_MAX_SEATS").as_str(), defined(&header, "LAMP_MAX_ALLOWANCE").as_str()), ("32", "1000"));
    assert_eq!((defined(&header, "LAMP_MAX_LIST").as_str(), defined(&header, "LAMP_MAX_RATIO").as_str()), ("201", "200"));
}
