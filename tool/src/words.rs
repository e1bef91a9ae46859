//! Numbers in sentences.

/// A number with a comma at the thousands, as the papers print it.
pub fn grouped(number: u64) -> String {
    let digits = number.to_string();
    let mut out = String::new();
    for (at, digit) in digits.chars().enumerate() {
        if at > 0 && (digits.len() - at).is_multiple_of(3) {
            out.push(',');
        }
        out.push(digit);
    }
    out
}

/// So many things of a name, as `1 slot`, `3 slots` or `3 entries`.
pub fn several(number: u64, name: &str) -> String {
    match name.strip_suffix('y') {
        _ if number == 1 => format!("1 {name}"),
        Some(stem) => format!("{} {stem}ies", grouped(number)),
        None => format!("{} {name}s", grouped(number)),
    }
}

/// Things of a name by their numbers, as `slot 21` or `slots 21 to 40`.
pub fn range(name: &str, first: usize, last: usize) -> String {
    let end = if first == last { "" } else { "s" };
    format!("{name}{end} {}", run_of(first, last))
}

/// Ascending numbers, with neighbours taken together, as `2 to 4, 7`. After so many of these it is said how many numbers follow.
pub fn runs(numbers: &[usize], most: usize) -> String {
    let runs: Vec<&[usize]> = numbers.chunk_by(|one, next| one + 1 == *next).collect();
    let mut shown: Vec<String> = runs.iter().take(most).map(|run| run_of(run[0], run[run.len() - 1])).collect();
    let left: usize = runs.iter().skip(most).map(|run| run.len()).sum();
    if left > 0 {
        shown.push(format!("and {} more", grouped(left as u64)));
    }
    shown.join(", ")
}

fn run_of(first: usize, last: usize) -> String {
    let (from, to) = (grouped(first as u64), grouped(last as u64));
    if first == last {
        from
    } else {
        format!("{from} to {to}")
    }
}

/// Numbers with a blank between two.
pub fn listed<T: ToString>(numbers: impl IntoIterator<Item = T>) -> String {
    numbers.into_iter().map(|number| number.to_string()).collect::<Vec<_>>().join(" ")
}
