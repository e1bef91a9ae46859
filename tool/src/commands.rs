//! The commands. Each answers what goes to standard output, what to standard error, and the exit status: 0 done, 1 refused by a
//! number, 2 wrong use or a file that cannot be read or written whole. Files for a folder are written before the answer.
use crate::calls;
use crate::faults::{self, SheetFault};
use crate::input::{self, Card};
use crate::planning::{self, Groups, Planned, Planner};
use crate::refusal::Refusal;
use crate::sheet_text::{self, SheetText};
use crate::show::Show;
use crate::words::{grouped, several};
use crate::{catalogue, explanation, folder, help, listing, numbers, page, picture, practice, show_text};
use std::ffi::{OsStr, OsString};
use std::path::Path;

/// What a command ends with.
#[derive(Clone, Debug, PartialEq, Eq)]
pub struct Outcome {
    pub output: Vec<u8>,
    pub complaint: String,
    pub status: i32,
}

impl Outcome {
    fn done(output: impl Into<Vec<u8>>) -> Self {
        Outcome { output: output.into(), complaint: String::new(), status: 0 }
    }

    /// The command has nothing to give, and says why.
    fn refused(message: &str) -> Self {
        Outcome { output: Vec::new(), complaint: format!("lamp: {message}"), status: 1 }
    }

    /// The refusal is what the command was asked for.
    fn verdict(message: String) -> Self {
        Outcome { output: message.into(), complaint: String::new(), status: 1 }
    }

    pub fn error(message: &str) -> Self {
        Outcome { output: Vec::new(), complaint: format!("lamp: {message}\n"), status: 2 }
    }
}

/// A command's outcome, or the sentence of an error.
pub type Ended = Result<Outcome, String>;

/// The words of a command line after the command: its options, what some of them name, and what is left.
#[derive(Default)]
pub struct Words<'a> {
    plain: Vec<&'a OsStr>,
    options: Vec<&'static str>,
    into: Option<&'a Path>,
    counts: Option<Vec<u16>>,
    ratio: Option<u64>,
}

impl<'a> Words<'a> {
    fn planner(&self) -> Planner<'_> {
        match (&self.counts, self.ratio) {
            (Some(counts), Some(ratio)) => Planner::Groups(Groups { counts, ratio }),
            _ if self.is_coarse() => Planner::Coarse,
            _ => Planner::Exact,
        }
    }

    fn is_coarse(&self) -> bool {
        self.options.contains(&"--coarse")
    }

    /// Takes an option of a command, and the word after it where it names something. Another option is no such word.
    fn take(
        &mut self,
        command: &help::Command,
        option: &'static str,
        rest: &mut impl Iterator<Item = &'a OsString>,
    ) -> Result<(), String> {
        self.options.push(option);
        let Some((name, what)) = help::naming(option) else { return Ok(()) };
        let word = rest.next().filter(|word| !word.is_empty() && command.option(word).is_none());
        let word = word.ok_or_else(|| format!("{name} names no {what}"))?;
        let is_second = match option {
            help::GROUPS => self.counts.replace(numbers::counts(&input::printable(word))?).is_some(),
            help::RATIO => self.ratio.replace(numbers::number("RATIO", &input::printable(word), u64::MAX)?).is_some(),
            _ => self.into.replace(Path::new(word)).is_some(),
        };
        if is_second {
            return Err(format!("{name} names two {what}s"));
        }
        Ok(())
    }

    /// A list of counts and a ratio stand together, and not beside another planner.
    fn go_together(&self) -> Result<(), String> {
        match (&self.counts, self.ratio) {
            (Some(_), None) => Err(format!("--groups needs {} beside it", help::RATIO)),
            (None, Some(_)) => Err(format!("--ratio needs {} beside it", help::GROUPS)),
            (Some(_), Some(_)) if self.is_coarse() => Err("--coarse and --groups are different planners".to_string()),
            _ => Ok(()),
        }
    }

    /// A hint where words beside a list look like more of its counts.
    fn list_hint(&self) -> String {
        let is_part = |byte: u8| byte.is_ascii_digit() || byte == b',';
        let looks = |word: &str| !word.is_empty() && word.bytes().all(is_part);
        if self.counts.is_some() && self.plain.iter().any(|word| word.to_str().is_some_and(looks)) {
            return format!("; {}", numbers::LIST_FORM);
        }
        String::new()
    }
}

/// Runs a command line without its first word, the program's name.
pub fn run(words: &[OsString]) -> Outcome {
    let Some(first) = words.first() else { return Outcome::error(&format!("no command\n{}", help::USAGE)) };
    match first.to_str() {
        Some("--help" | "-h" | "help") => return Outcome::done(help::whole()),
        Some("--version") => return Outcome::done(format!("lamp {}\n", env!("CARGO_PKG_VERSION"))),
        _ => {}
    }
    let Some(command) = help::COMMANDS.iter().find(|command| first == command.name) else {
        return Outcome::error(&format!("'{}' is no command\n{}", input::printable(first), help::USAGE));
    };
    if words[1..].iter().take_while(|word| *word != "--").any(|word| word == "--help" || word == "-h") {
        return Outcome::done(command.help());
    }
    let ended = split(command, &words[1..]).and_then(|words| (command.run)(&words));
    ended.unwrap_or_else(|message| Outcome::error(&message))
}

/// Tells options from other words. `-` is standard input, and after `--` no word is an option.
fn split<'a>(command: &help::Command, words: &'a [OsString]) -> Result<Words<'a>, String> {
    let misuse = |message: String| format!("{}: {message}\n{}", command.name, command.usage());
    let mut out = Words::default();
    let mut rest = words.iter();
    while let Some(word) = rest.next() {
        if word == "--" {
            out.plain.extend(rest.by_ref().map(OsString::as_os_str));
        } else if word == "-" || !word.to_string_lossy().starts_with('-') {
            out.plain.push(word);
        } else {
            let option = command.option(word).ok_or_else(|| misuse(format!("no option {}", input::printable(word))))?;
            out.take(command, option, &mut rest).map_err(misuse)?;
        }
    }
    out.go_together().map_err(misuse)?;
    if out.plain.len() != command.takes.len() {
        let found = several(out.plain.len() as u64, "word");
        return Err(misuse(format!("{found} where it takes {}{}", command.takes.join(" and "), out.list_hint())));
    }
    if out.plain.iter().filter(|word| **word == "-").count() > 1 {
        return Err(format!("{}: standard input can be read once only", command.name));
    }
    Ok(out)
}

/// How many places of a refusal are listed.
const MOST_PLACES: usize = 10;

/// A refusal's first line and the places that it comes from.
fn lines(refusal: Refusal, places: &[String]) -> String {
    let mut out = format!("{refusal}\n");
    places.iter().take(MOST_PLACES).for_each(|place| out += &format!("  {place}\n"));
    if places.len() > MOST_PLACES {
        out += &format!("  and {} more\n", grouped((places.len() - MOST_PLACES) as u64));
    }
    out
}

/// A refusal of a card, with the places in the card and in the text that it was read from.
fn card_refusal(card: &Card, refusal: Refusal) -> String {
    let faults = faults::of_card(refusal, &card.bytes);
    let place = |fault: &faults::CardFault| match (&card.text, fault.field) {
        (Some(text), Some((field, index))) => format!("{} ({})", fault.text, text.place(field, index)),
        _ => fault.text.clone(),
    };
    lines(refusal, &faults.iter().map(place).collect::<Vec<_>>())
}

/// A card is refused, and the command has nothing to give.
fn refused_card(card: &Card, refusal: Refusal) -> Outcome {
    Outcome::refused(&format!("{}: {}", card.name, card_refusal(card, refusal)))
}

pub fn card(words: &Words) -> Ended {
    let card = input::card(words.plain[0])?;
    Ok(match calls::check_card(&card.bytes) {
        Ok(_) => Outcome::done(card.bytes),
        Err(refusal) => refused_card(&card, refusal),
    })
}

/// A card for standard output, or cards for a folder. All are made before the first is written.
pub fn practice(words: &Words) -> Ended {
    let word = input::printable(words.plain[0]);
    let numbers = numbers::card_numbers(&word)?;
    if words.into.is_none() && word.contains(numbers::TO) {
        return Err(format!("practice: the cards of {word} need a folder: --into DIR"));
    }
    let cards = match practice::cards(numbers) {
        Ok(cards) => cards,
        Err(refusal) => return Ok(Outcome::refused(&lines(refusal, &[practice::numbering()]))),
    };
    match words.into {
        Some(into) => folder::write(into, &cards).map(|()| Outcome::done("")),
        None => Ok(Outcome::done(cards.into_iter().flat_map(|file| file.bytes).collect::<Vec<_>>())),
    }
}

/// The catalogue module's table, as a show's text has it.
pub fn table(words: &Words) -> Ended {
    let top = number_at(words, 0, "TOP")?;
    Ok(match catalogue::table(top) {
        Ok(table) => Outcome::done(show_text::write_table(&table)),
        Err(refusal) => Outcome::refused(&lines(refusal, &[format!("top {}", grouped(top))])),
    })
}

/// A refused card is read back too, as far as its fields can be told apart, so that the fault can be looked at.
pub fn show(words: &Words) -> Ended {
    let card = input::card(words.plain[0])?;
    let text = Show::read(&card.bytes).map_or(String::new(), |show| show_text::write(&show));
    Ok(match calls::check_card(&card.bytes) {
        Ok(_) => Outcome::done(text),
        Err(refusal) => Outcome { output: text.into(), ..refused_card(&card, refusal) },
    })
}

pub fn check(words: &Words) -> Ended {
    let card = input::card(words.plain[0])?;
    Ok(match calls::check_card(&card.bytes) {
        Ok(_) => {
            let summary = Show::read(&card.bytes).map_or(String::new(), |show| show.summary());
            Outcome::done(format!("accepted: {summary}\n"))
        }
        Err(refusal) => Outcome::verdict(card_refusal(&card, refusal)),
    })
}

/// Plans the card, and gives what `write` makes of the plan and of the card's name.
fn with_plan(words: &Words, write: fn(&Planned, &str) -> String) -> Ended {
    let (card, planner) = (input::card(words.plain[0])?, words.planner());
    Ok(match planning::plan(planner, &card.bytes) {
        Ok(planned) => Outcome::done(write(&planned, &card.title)),
        Err(refusal @ Refusal::CountList) => Outcome::refused(&lines(refusal, &list_places(planner, &card))),
        Err(refusal) => refused_card(&card, refusal),
    })
}

/// The rules that a list of counts and its ratio break, for which they get 18.
fn list_places(planner: Planner, card: &Card) -> Vec<String> {
    match (planner.groups(), Show::read(&card.bytes)) {
        (Some(groups), Some(show)) => faults::groups(&groups, show.modules),
        _ => Vec::new(),
    }
}

pub fn key(words: &Words) -> Ended {
    with_plan(words, |planned, _| {
        let made = planned.beside.map(|beside| format!("made with {}", beside.groups.options()));
        let notes: String = planned.notes().chain(made).map(|sentence| format!("# {sentence}\n")).collect();
        format!("{}\n{notes}{}", show_text::write(&planned.show), listing::write(planned))
    })
}

pub fn page(words: &Words) -> Ended {
    with_plan(words, page::write)
}

pub fn picture(words: &Words) -> Ended {
    with_plan(words, picture::file)
}

/// A handed-in sheet: its bytes, and the text where it was typed.
struct HandedIn {
    bytes: Vec<u8>,
    text: Option<SheetText>,
}

fn handed_in(words: &Words, show: &Show) -> Result<HandedIn, String> {
    let path = words.plain[1];
    if words.options.contains(&"--bytes") {
        return Ok(HandedIn { bytes: input::read(path, input::MOST_SHEET)?, text: None });
    }
    let text = sheet_text::read(&input::sheet_text(path)?).map_err(|error| format!("{}: {error}", input::name(path)))?;
    Ok(HandedIn { bytes: text.bytes(show.modules.into(), show.slots()), text: Some(text) })
}

/// What is said of a sheet, given the exact plan, the card and the sheet.
type Judge = fn(&Planned, &[u8], &[u8]) -> Result<String, Refusal>;

/// Plans the card, and gives what `judge` says of the sheet that was handed in, or why the card or the sheet is refused.
fn with_sheet(words: &Words, judge: Judge) -> Ended {
    let card = input::card(words.plain[0])?;
    let planned = match planning::plan(Planner::Exact, &card.bytes) {
        Ok(planned) => planned,
        Err(refusal) => return Ok(Outcome::verdict(card_refusal(&card, refusal))),
    };
    let sheet = handed_in(words, &planned.show)?;
    Ok(match judge(&planned, &card.bytes, &sheet.bytes) {
        Ok(text) => Outcome::done(text),
        Err(refusal) => Outcome::verdict(lines(refusal, &sheet_places(refusal, &planned.show, &sheet))),
    })
}

pub fn mark(words: &Words) -> Ended {
    with_sheet(words, |planned, card, sheet| {
        let cost = calls::mark(card, sheet)?;
        Ok(format!("cost {cost}\nleast {}\nabove {}\n", planned.cost, cost - planned.cost))
    })
}

pub fn explain(words: &Words) -> Ended {
    with_sheet(words, |planned, card, sheet| Ok(explanation::of(planned, card, sheet)?.text()))
}

/// The places of a sheet for which it gets 11 to 13.
fn sheet_places(refusal: Refusal, show: &Show, sheet: &HandedIn) -> Vec<String> {
    let faults = match refusal {
        Refusal::EntryRange => faults::entries(show, &sheet.bytes),
        Refusal::LoadNotServed => faults::lights(show, &sheet.bytes),
        _ => return vec![length_fault(show, sheet)],
    };
    let place = |fault: &SheetFault| {
        let typed = sheet.text.as_ref().and_then(|text| text.place(fault.slot, fault.module));
        match (typed, fault.module) {
            (Some(place), Some(_)) => format!("{} ({place})", fault.text),
            (Some(place), None) => format!("{} (line {})", fault.text, place.line),
            (None, _) => fault.text.clone(),
        }
    };
    faults.iter().map(place).collect()
}

fn length_fault(show: &Show, sheet: &HandedIn) -> String {
    let (modules, slots) = (usize::from(show.modules), show.slots());
    if let Some(fault) = sheet.text.as_ref().and_then(|text| text.length_fault(modules, slots)) {
        return fault;
    }
    let asked = grouped((modules * slots) as u64);
    let (found, slots) = (several(sheet.bytes.len() as u64, "byte"), several(slots as u64, "slot"));
    let hint = if input::is_typed(&sheet.bytes) { "; it looks like typed text, which is read without --bytes" } else { "" };
    format!("{found} where {slots} and {} make {asked}{hint}", several(modules as u64, "module"))
}

/// A number by its place among the words.
fn number_at(words: &Words, at: usize, name: &str) -> Result<u64, String> {
    numbers::number(name, &input::printable(words.plain[at]), u64::MAX)
}

pub fn cost(words: &Words) -> Ended {
    let (count, load) = (number_at(words, 1, "COUNT")?, number_at(words, 2, "LOAD")?);
    let card = input::card(words.plain[0])?;
    let refusal = match calls::running_cost(&card.bytes, count, load) {
        Ok(cost) => return Ok(Outcome::done(format!("{cost}\n"))),
        Err(refusal) => refusal,
    };
    let place = match (refusal, Show::read(&card.bytes)) {
        (Refusal::EntryRange, Some(show)) => above_rack(count, show.modules.into()),
        (Refusal::LoadNotServed, Some(show)) => {
            let most = several(u64::from(show.top) * count, "step");
            format!("{} can give {most}, not {}", several(count, "module"), grouped(load))
        }
        _ => return Ok(refused_card(&card, refusal)),
    };
    Ok(Outcome::refused(&lines(refusal, &[place])))
}

fn above_rack(count: u64, modules: u64) -> String {
    format!("count {} in a rack of {}", grouped(count), several(modules, "module"))
}

pub fn round(words: &Words) -> Ended {
    let (count, modules) = (number_at(words, 0, "COUNT")?, number_at(words, 1, "MODULES")?);
    Ok(match calls::rounded_count(count, modules) {
        Ok(rounded) => Outcome::done(format!("{rounded}\n")),
        Err(refusal) => Outcome::refused(&lines(refusal, &[above_rack(count, modules)])),
    })
}
