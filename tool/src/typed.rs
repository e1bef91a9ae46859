//! Typed texts as words with their places. `#` begins a comment that ends with its line.
use std::fmt;

/// Line and column, both from 1; columns are counted in characters.
#[derive(Clone, Copy, Debug, PartialEq, Eq, PartialOrd, Ord)]
pub struct Place {
    pub line: usize,
    pub column: usize,
}

impl fmt::Display for Place {
    fn fmt(&self, f: &mut fmt::Formatter<'_>) -> fmt::Result {
        write!(f, "line {}, column {}", self.line, self.column)
    }
}

/// What is wrong in a text, and where.
#[derive(Clone, Debug, PartialEq, Eq)]
pub struct TextError {
    pub place: Place,
    pub message: String,
}

impl fmt::Display for TextError {
    fn fmt(&self, f: &mut fmt::Formatter<'_>) -> fmt::Result {
        write!(f, "{}: {}", self.place, self.message)
    }
}

/// A word of a text: a run of characters without a blank.
#[derive(Clone, Copy, Debug)]
pub struct Word<'a> {
    pub text: &'a str,
    pub place: Place,
}

impl Word<'_> {
    pub fn error<T>(&self, message: impl Into<String>) -> Result<T, TextError> {
        Err(TextError { place: self.place, message: message.into() })
    }

    /// The word as it is quoted in a message: what cannot be printed is escaped, and a long word is cut.
    pub fn quoted(&self) -> String {
        let shown: String = self.text.chars().take(30).flat_map(char::escape_debug).collect();
        format!("'{shown}{}'", if self.text.chars().count() > 30 { ".." } else { "" })
    }
}

/// Whether a word is digits alone.
pub fn is_digits(word: &str) -> bool {
    !word.is_empty() && word.bytes().all(|byte| byte.is_ascii_digit())
}

/// The decimal number that a word is, if it is at most `most`. A number does not begin with a needless 0: `000` is more likely the end of
/// a number that was typed with a blank inside.
pub fn number(word: &str, most: u64) -> Result<u64, NoNumber> {
    if !is_digits(word) {
        return Err(NoNumber::NotDigits);
    }
    if word.len() > 1 && word.starts_with('0') {
        return Err(NoNumber::NeedlessZero);
    }
    match word.parse() {
        Ok(number) if number <= most => Ok(number),
        _ => Err(NoNumber::TooLarge),
    }
}

/// Why a word is not a number in its range.
#[derive(Clone, Copy, Debug, PartialEq, Eq)]
pub enum NoNumber {
    NotDigits,
    NeedlessZero,
    TooLarge,
}

/// What is said of a number that begins with a needless 0.
pub const NEEDLESS_ZERO: &str = "begins with a needless 0; a number has no blank inside";

/// The lines of a text. A carriage return ends a line too, with a line feed after it or without, so that no comment hides what an
/// editor shows on a line of its own.
fn split(text: &str) -> impl Iterator<Item = &str> {
    let fed = text.matches('\n').count();
    let lines = text.split('\n').enumerate();
    lines.flat_map(move |(at, line)| if at < fed { line.strip_suffix('\r').unwrap_or(line) } else { line }.split('\r'))
}

/// The words of each line that has any. A character that is neither visible nor a plain blank is an error, in a comment too: it may
/// look like a line's end or like no blank at all.
pub fn lines(text: &str) -> Result<Vec<Vec<Word<'_>>>, TextError> {
    let mut out = Vec::new();
    for (at, line) in split(text).enumerate() {
        visible(at + 1, line)?;
        out.push(words(at + 1, line));
    }
    out.retain(|words: &Vec<Word>| !words.is_empty());
    Ok(out)
}

fn is_blank(letter: char) -> bool {
    letter == ' ' || letter == '\t'
}

/// Whether a character is seen as itself. Rust escapes what has no look of its own when it prints a text, but for these fillers, and
/// escapes quotes and the backslash besides.
fn is_visible(letter: char) -> bool {
    const FILLERS: [char; 5] = ['\u{115F}', '\u{1160}', '\u{2800}', '\u{3164}', '\u{FFA0}'];
    let shown: String = format!("a{letter}").escape_debug().collect();
    matches!(letter, '"' | '\'' | '\\')
        || (shown.chars().eq(['a', letter]) && !letter.is_whitespace() && !FILLERS.contains(&letter))
}

fn visible(line: usize, text: &str) -> Result<(), TextError> {
    match text.chars().enumerate().find(|(_, letter)| !is_blank(*letter) && !is_visible(*letter)) {
        None => Ok(()),
        Some((column, letter)) => {
            let message = format!("the character {} is no plain blank and not visible", letter.escape_unicode());
            Err(TextError { place: Place { line, column: column + 1 }, message })
        }
    }
}

fn words(line: usize, text: &str) -> Vec<Word<'_>> {
    let code = text.split('#').next().unwrap_or("");
    let mut out: Vec<Word> = Vec::new();
    let mut inside = false;
    for (column, (at, letter)) in code.char_indices().enumerate() {
        if !is_blank(letter) && !inside {
            out.push(Word { text: &code[at..], place: Place { line, column: column + 1 } });
        }
        if is_blank(letter) && inside {
            end_word(out.last_mut(), code, at);
        }
        inside = !is_blank(letter);
    }
    out
}

/// Cuts the last word where a blank follows it.
fn end_word<'a>(word: Option<&mut Word<'a>>, code: &'a str, end: usize) {
    if let Some(word) = word {
        let start = code.len() - word.text.len();
        word.text = &code[start..end];
    }
}

/// The place after the last character.
pub fn end(text: &str) -> Place {
    let (line, last) = split(text).enumerate().last().unwrap_or((0, ""));
    Place { line: line + 1, column: last.chars().count() + 1 }
}
