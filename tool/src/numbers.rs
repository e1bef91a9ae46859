//! Numbers of the command line, and what is said of a word that is none.
use crate::typed::{self, NoNumber};
use crate::words::{grouped, several};
use std::ops::RangeInclusive;

/// A number of the command line by its name in messages.
pub fn number(name: &str, word: &str, most: u64) -> Result<u64, String> {
    typed::number(word, most).map_err(|fault| match fault {
        NoNumber::NotDigits if word.is_empty() => format!("{name} is empty"),
        NoNumber::NotDigits if has_comma(word) => no_number(name, word, ", without commas"),
        NoNumber::NotDigits => no_number(name, word, ""),
        NoNumber::NeedlessZero => format!("{name} {word} begins with a needless 0"),
        NoNumber::TooLarge => format!("{name} {word} is above {}", grouped(most)),
    })
}

/// What is said of a word that is not digits. One with blanks is quoted, so that they are seen.
fn no_number(name: &str, word: &str, hint: &str) -> String {
    let quote = if word.contains(char::is_whitespace) { "'" } else { "" };
    format!("{name} {quote}{word}{quote} is not a whole number in digits alone{hint}")
}

/// Whether a word has a comma between two digits.
fn has_comma(word: &str) -> bool {
    word.as_bytes().windows(3).any(|part| part[1] == b',' && part[0].is_ascii_digit() && part[2].is_ascii_digit())
}

/// How a list of counts is written.
pub const LIST_FORM: &str = "LIST is one word with commas, as 0,2,4,8";

/// The counts of a list with a comma between two, after which plain blanks may stand.
pub fn counts(word: &str) -> Result<Vec<u16>, String> {
    let entries = word.split(',').enumerate();
    entries.map(|(at, entry)| if at == 0 { count(1, entry) } else { count(at + 1, entry.trim_start_matches(' ')) }).collect()
}

/// A count by its place in a list.
fn count(at: usize, word: &str) -> Result<u16, String> {
    let hint = if typed::is_digits(word) { String::new() } else { format!("; {LIST_FORM}") };
    let found = number("COUNT", word, u16::MAX.into()).map_err(|message| format!("{message} (entry {at} of LIST){hint}"))?;
    Ok(found as u16)
}

/// The number of a practice card.
fn card_number(name: &str, word: &str) -> Result<u32, String> {
    number(name, word, u32::MAX.into()).map(|number| u32::try_from(number).expect("it is at most the largest"))
}

/// How many practice cards are written at a time.
const MOST_CARDS: u64 = 10_000;

/// What stands between the two numbers of a range.
pub const TO: &str = "..";

/// The numbers of practice cards, as NUMBER or as FIRST..LAST. A range is measured by its numbers: 0 has no card.
pub fn card_numbers(word: &str) -> Result<RangeInclusive<u32>, String> {
    if is_other_range(word) {
        return Err(no_number("NUMBER", word, "; a range is written 1..30"));
    }
    let Some((first, last)) = word.split_once(TO) else {
        return card_number("NUMBER", word).map(|number| number..=number);
    };
    let (first, last) = (card_number("FIRST", first)?, card_number("LAST", last)?);
    match (u64::from(last) + 1).saturating_sub(first.into()) {
        0 => Err(format!("FIRST {first} is above LAST {last}")),
        1..=MOST_CARDS => Ok(first..=last),
        numbers => {
            let most = grouped(MOST_CARDS);
            Err(format!("{word} has {}; at most {most} cards are written at a time", several(numbers, "number")))
        }
    }
}

/// Whether a word is two numbers with something between them that is read as a range elsewhere. A single dot is not.
fn is_other_range(word: &str) -> bool {
    let digit = |letter: char| letter.is_ascii_digit();
    let between = word.trim_matches(digit);
    let ends = word.starts_with(digit) && word.ends_with(digit);
    let marks = between.chars().all(|letter| letter.is_whitespace() || "-\u{2010}\u{2011}\u{2012}–—−:~.…".contains(letter));
    ends && marks && ![".", TO].contains(&between) && !between.trim().is_empty()
}
