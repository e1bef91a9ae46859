//! Files and standard input, read up to a bound, and what a file of another kind is likely to be.
use crate::output;
use crate::show::MARK;
use crate::show_text::{self, ShowText};
use crate::typed;
use crate::words::grouped;
use std::ffi::OsStr;
use std::fs::File;
use std::io::{self, Read};
use std::path::Path;

/// The most bytes that are read of a card or of a show's text. The longest card has 2,869 bytes, and its text as `lamp show` writes it
/// at most some 11,000.
pub const MOST_CARD: usize = 65_536;
/// The most bytes that are read of a sheet's text. That of the largest sheet in a listing has about 830,000.
pub const MOST_SHEET_TEXT: usize = 2_097_152;
/// The bytes of the largest sheet.
pub const MOST_SHEET: usize = 204_800;

/// A card, with its name in messages and in titles, and the text that it was read from where it was text.
#[derive(Clone, Debug)]
pub struct Card {
    pub name: String,
    pub title: String,
    pub bytes: Vec<u8>,
    pub text: Option<ShowText>,
}

/// How a file is called in messages.
pub fn name(path: &OsStr) -> String {
    if path == "-" {
        return "standard input".to_string();
    }
    printable(path)
}

/// A word of the command line as it can be printed.
pub fn printable(path: &OsStr) -> String {
    path.to_string_lossy().chars().flat_map(|c| if c.is_control() { c.escape_debug().collect() } else { vec![c] }).collect()
}

/// How a file is called in the title of a page.
fn title(path: &OsStr) -> String {
    match Path::new(path).file_name() {
        Some(last) if path != "-" => printable(last),
        _ => name(path),
    }
}

/// All bytes of a file, or of standard input for `-`, if they are no more than `most`.
pub fn read(path: &OsStr, most: usize) -> Result<Vec<u8>, String> {
    let mut bytes = Vec::new();
    let bound = most as u64 + 1;
    let found = if path == "-" {
        (&*output::stream(0)).take(bound).read_to_end(&mut bytes)
    } else {
        File::open(path).and_then(|file| file.take(bound).read_to_end(&mut bytes))
    };
    found.map_err(|error| format!("{}: {}", name(path), reason(&error)))?;
    if bytes.len() > most {
        return Err(format!("{}: more than {} bytes", name(path), grouped(most as u64)));
    }
    Ok(bytes)
}

/// Why a file could not be read or written.
pub fn reason(error: &io::Error) -> String {
    const CLOSED: i32 = 9;
    if error.kind() == io::ErrorKind::IsADirectory {
        return "a directory, not a file".to_string();
    }
    if error.raw_os_error() == Some(CLOSED) {
        return "it is closed, or not open for reading".to_string();
    }
    let text = error.to_string();
    text.split(" (os error").next().unwrap_or("").to_string()
}

/// A control character that a text does not have.
fn is_strange(byte: u8) -> bool {
    byte.is_ascii_control() && !matches!(byte, b'\t' | b'\n' | b'\r')
}

/// Whether bytes were typed: at most one in ten is a control character that a text does not have, and there is no NUL where a card's
/// fields before its table are. A card has one there, in its version.
pub fn is_typed(bytes: &[u8]) -> bool {
    let strange = bytes.iter().filter(|byte| is_strange(**byte)).count();
    !bytes.is_empty() && 10 * strange <= bytes.len() && !bytes.iter().take(17).any(|byte| *byte == 0)
}

/// Whether bytes are text in UTF-16: they have its mark, or of the first ones every second is 0 and the others were typed.
fn is_utf16(bytes: &[u8]) -> bool {
    let half = |from: usize| bytes.iter().skip(from).step_by(2).take(16);
    let typed = |from: usize| half(from).all(|byte| byte.is_ascii() && !is_strange(*byte));
    let letters = |from: usize| bytes.len() >= 8 && typed(from) && half(1 - from).all(|byte| *byte == 0);
    bytes.starts_with(b"\xFF\xFE") || bytes.starts_with(b"\xFE\xFF") || letters(0) || letters(1)
}

/// Typed bytes as text, or the place from which on they are not UTF-8.
fn text(bytes: &[u8]) -> Result<&str, String> {
    let bytes = bytes.strip_prefix(b"\xEF\xBB\xBF").unwrap_or(bytes);
    std::str::from_utf8(bytes).map_err(|error| {
        let (before, after) = bytes.split_at(error.valid_up_to());
        let place = typed::end(std::str::from_utf8(before).unwrap_or(""));
        format!("{place}: the byte {:02X} is not UTF-8; save the text as UTF-8", after[0])
    })
}

const UTF16: &str = "this is text in UTF-16; save it as UTF-8";

/// Reads a card, as bytes if they begin with the mark or were not typed, and else as a show's text.
pub fn card(path: &OsStr) -> Result<Card, String> {
    let (name, title, bytes) = (name(path), title(path), read(path, MOST_CARD)?);
    if bytes.starts_with(MARK) || !(is_typed(&bytes) || is_utf16(&bytes)) {
        return Ok(Card { name, title, bytes, text: None });
    }
    let typed = typed_show(&bytes).map_err(|message| format!("{name}: {message}"))?;
    Ok(Card { name, title, bytes: typed.show.card(), text: Some(typed) })
}

fn typed_show(bytes: &[u8]) -> Result<ShowText, String> {
    if is_utf16(bytes) {
        return Err(UTF16.to_string());
    }
    let text = text(bytes)?;
    match no_card(text) {
        Some(hint) => Err(hint.to_string()),
        None => show_text::read(text).map_err(|error| error.to_string()),
    }
}

/// The words of each line, where a text can be split into words.
fn lines(text: &str) -> Vec<Vec<&str>> {
    let lines = typed::lines(text).unwrap_or_default();
    lines.into_iter().map(|words| words.into_iter().map(|word| word.text).collect()).collect()
}

/// Whether some line begins with a field's name.
fn has_field(lines: &[Vec<&str>]) -> bool {
    lines.iter().any(|words| show_text::Field::named(words[0]).is_some())
}

/// What a text is that is no show.
fn no_card(text: &str) -> Option<&'static str> {
    let lines = lines(text);
    if text.trim_start().starts_with('<') {
        return Some("this is a page or a picture, not a card");
    }
    match lines.first().map(|words| words[0]) {
        Some("cost" | "plan") => Some("this is a listing, not a card"),
        Some("refused") => Some("this is a refusal that a program printed, not a card"),
        Some(_) if is_key(&lines) => Some("this is a key, not a card; the show's text is its lines before the blank one"),
        Some(_) if is_hex(&lines) => Some("this is hex text; bin/card makes a card of it"),
        Some(word) if !has_field(&lines) && is_step(word) => Some("this looks like a sheet; the card is named before it"),
        _ => None,
    }
}

/// Whether the text is what `lamp key` prints: a show and a listing.
fn is_key(lines: &[Vec<&str>]) -> bool {
    has_field(lines) && lines.iter().any(|words| words[0] == "cost")
}

fn is_step(word: &str) -> bool {
    word == "slot" || word == "-" || typed::is_digits(word)
}

/// Pairs of hex digits alone, with the mark first or at least one digit that is a letter.
fn is_hex(lines: &[Vec<&str>]) -> bool {
    let digits = lines.concat().concat().to_ascii_lowercase();
    let pairs = lines.iter().flatten().all(|word| word.len() % 2 == 0 && word.bytes().all(|byte| byte.is_ascii_hexdigit()));
    pairs && (digits.starts_with("444c53") || digits.bytes().any(|byte| byte.is_ascii_alphabetic()))
}

/// Reads the text of a sheet.
pub fn sheet_text(path: &OsStr) -> Result<String, String> {
    let bytes = read(path, MOST_SHEET_TEXT)?;
    typed_sheet(&bytes).map_err(|message| format!("{}: {message}", name(path)))
}

fn typed_sheet(bytes: &[u8]) -> Result<String, String> {
    if bytes.starts_with(MARK) {
        return Err("this is a card, not a sheet".to_string());
    }
    if is_utf16(bytes) {
        return Err(UTF16.to_string());
    }
    if !bytes.is_empty() && !is_typed(bytes) {
        return Err("this is not text; a sheet as bytes is read with --bytes".to_string());
    }
    let text = text(bytes)?;
    no_sheet(text).map_or(Ok(text.to_string()), |hint| Err(hint.to_string()))
}

/// What a text is that is no sheet.
fn no_sheet(text: &str) -> Option<&'static str> {
    let lines = lines(text);
    if text.trim_start().starts_with('<') {
        return Some("this is a page or a picture, not a sheet");
    }
    if has_field(&lines) {
        return Some(if is_key(&lines) { "this is a key; a sheet is its lines from 'cost' on" } else { SHOW });
    }
    is_hex(&lines).then_some("this is hex text, not a sheet")
}

const SHOW: &str = "this is a show, not a sheet; a sheet has a line a slot, as '2 2 -' or 'slot 1: 2 2 -'";
