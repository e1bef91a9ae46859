//! A show as text: fields by name, each at the start of a line, in any order, with decimal numbers. A list goes on over the lines of
//! numbers that follow it. In the place of the table's numbers the word `catalogue` may stand, for the catalogue module's table. `#` begins
//! a comment.
use crate::catalogue;
use crate::show::{Show, VERSION};
use crate::typed::{self, NoNumber, Place, TextError, Word, NEEDLESS_ZERO};
use crate::words::{grouped, listed, range, several};

/// The fields of a show's text.
#[derive(Clone, Copy, Debug, PartialEq, Eq)]
pub enum Field {
    Modules,
    Top,
    WarmUp,
    CoolDown,
    Table,
    Loads,
}

impl Field {
    /// In the order in which they are written.
    pub const ALL: [Field; 6] = [Field::Modules, Field::Top, Field::WarmUp, Field::CoolDown, Field::Table, Field::Loads];

    pub fn name(self) -> &'static str {
        match self {
            Field::Modules => "modules",
            Field::Top => "top",
            Field::WarmUp => "warm-up",
            Field::CoolDown => "cool-down",
            Field::Table => "table",
            Field::Loads => "loads",
        }
    }

    pub fn named(name: &str) -> Option<Field> {
        Field::ALL.into_iter().find(|field| field.name() == name)
    }

    fn is_list(self) -> bool {
        matches!(self, Field::Table | Field::Loads)
    }

    /// The bytes of each of its numbers in a card.
    fn bytes(self) -> u32 {
        match self {
            Field::Modules | Field::Top => 1,
            Field::WarmUp | Field::CoolDown | Field::Table => 4,
            Field::Loads => 2,
        }
    }

    /// The bound that document 01 sets.
    fn bound(self) -> &'static str {
        match self {
            Field::Modules => "modules is 1 to 200",
            Field::Top => "top is 1 to 200",
            Field::WarmUp | Field::CoolDown => "a price is at most 500,000,000",
            Field::Table => "an entry is at most 1,000,000",
            Field::Loads => "a load is at most modules times top, and so at most 40,000",
        }
    }
}

/// The word that stands for the numbers of the catalogue module's table.
pub const CATALOGUE: &str = "catalogue";

/// A field as it was typed: where its name stands, and its numbers with their places, or the place of the word that stands for them.
#[derive(Clone, Debug)]
struct Typed {
    name: Place,
    numbers: Vec<(u64, Place)>,
    catalogue: Option<Place>,
}

/// The fields typed so far.
type Fields = [Option<Typed>; 6];

/// A show with the places of its fields in the text.
#[derive(Clone, Debug)]
pub struct ShowText {
    pub show: Show,
    fields: [Typed; 6],
}

impl ShowText {
    /// Where a field's number stands, or the word for its numbers, or its name where it has no such number.
    pub fn place(&self, field: Field, index: usize) -> Place {
        let typed = &self.fields[field as usize];
        typed.numbers.get(index).map_or(typed.catalogue.unwrap_or(typed.name), |(_, place)| *place)
    }
}

/// Reads a show from its text.
pub fn read(text: &str) -> Result<ShowText, TextError> {
    let mut fields: Fields = Default::default();
    let mut last = None;
    for words in typed::lines(text)? {
        let numbers = match Field::named(words[0].text) {
            Some(field) => {
                begin(&mut fields, field, &words[0])?;
                last = Some(field);
                &words[1..]
            }
            None => {
                goes_on(last, &words[0])?;
                &words[..]
            }
        };
        add(&mut fields, last, numbers)?;
        one_number(&fields, last, &words[0])?;
    }
    whole(fields, typed::end(text))
}

/// Notes that a field begins here.
fn begin(fields: &mut Fields, field: Field, word: &Word) -> Result<(), TextError> {
    if let Some(first) = &fields[field as usize] {
        return word.error(format!("a second {}; the first is in line {}", field.name(), first.name.line));
    }
    fields[field as usize] = Some(Typed { name: word.place, numbers: Vec::new(), catalogue: None });
    Ok(())
}

/// Whether a line that begins with this word, no field's name, goes on with a list. A word of letters there is taken for a field's name,
/// but in a table for the word that stands for it, if it looks like that.
fn goes_on(last: Option<Field>, word: &Word) -> Result<(), TextError> {
    let for_table = last == Some(Field::Table) && like_catalogue(word);
    if begins_with_letter(word) && !for_table {
        return word.error(no_field(word));
    }
    match last {
        Some(field) if field.is_list() => Ok(()),
        _ if !typed::is_digits(word.text) => word.error(no_field(word)),
        Some(field) => word.error(format!("a second number for {}, which has one", field.name())),
        None => word.error("a number before the first field's name"),
    }
}

fn begins_with_letter(word: &Word) -> bool {
    word.text.starts_with(char::is_alphabetic)
}

/// Whether a word is likely meant as the word for a table's numbers: it has `catalog` in it, in small or capital letters.
fn like_catalogue(word: &Word) -> bool {
    word.text.to_lowercase().contains("catalog")
}

fn no_field(word: &Word) -> String {
    let line = if like_catalogue(word) { format!("; the line is '{} {CATALOGUE}'", Field::Table.name()) } else { String::new() };
    format!("{} is no field; the fields are modules, top, warm-up, cool-down, table and loads{line}", word.quoted())
}

/// Adds numbers to a field, or the word for a table's numbers.
fn add(fields: &mut Fields, field: Option<Field>, words: &[Word]) -> Result<(), TextError> {
    let Some(field) = field else { return Ok(()) };
    let Some(typed) = &mut fields[field as usize] else { return Ok(()) };
    for word in words {
        if Field::named(word.text).is_some() {
            return word.error(format!("{} stands inside a line; each field begins a line of its own", word.quoted()));
        }
        if word.text == CATALOGUE {
            add_catalogue(typed, field, word)?;
        } else {
            add_number(typed, field, word)?;
        }
    }
    Ok(())
}

/// Adds a number. What the field's bytes cannot hold is an error here; what they hold is judged by the library.
fn add_number(typed: &mut Typed, field: Field, word: &Word) -> Result<(), TextError> {
    if typed.catalogue.is_some() {
        let what = if typed::is_digits(word.text) { "number" } else { "word" };
        return word.error(format!("a {what} after '{CATALOGUE}', which stands for the whole table"));
    }
    let most = (1u64 << (8 * field.bytes())) - 1;
    let number = match typed::number(word.text, most) {
        Ok(number) => number,
        Err(NoNumber::TooLarge) => return word.error(format!("{} is too large: {}", word.quoted(), field.bound())),
        Err(NoNumber::NeedlessZero) => return word.error(format!("{} {NEEDLESS_ZERO}", word.quoted())),
        Err(NoNumber::NotDigits) => return not_digits(field, word),
    };
    typed.numbers.push((number, word.place));
    Ok(())
}

/// Adds the word for a table's numbers, which stands alone.
fn add_catalogue(typed: &mut Typed, field: Field, word: &Word) -> Result<(), TextError> {
    if field != Field::Table {
        return word.error(format!("'{CATALOGUE}' stands for a table, and this is the field {}", field.name()));
    }
    if typed.catalogue.is_some() {
        return word.error(format!("a second '{CATALOGUE}'; one stands for the whole table"));
    }
    if !typed.numbers.is_empty() {
        return word.error(format!("'{CATALOGUE}' after a number; it stands for the whole table"));
    }
    typed.catalogue = Some(word.place);
    Ok(())
}

/// A word that is neither a number nor a field's name, where a number may stand.
fn not_digits<T>(field: Field, word: &Word) -> Result<T, TextError> {
    let why = match field {
        Field::Table if like_catalogue(word) => {
            format!("; the catalogue module's table is typed as {CATALOGUE}, in small letters, without quotes")
        }
        Field::Table if begins_with_letter(word) => format!("; a table has numbers, or the word {CATALOGUE} alone"),
        _ if begins_with_letter(word) => return word.error(no_field(word)),
        _ => ": digits alone, with blanks between numbers".to_string(),
    };
    word.error(format!("{} is not a number{why}", word.quoted()))
}

/// A field that is no list has just one number.
fn one_number(fields: &Fields, field: Option<Field>, name: &Word) -> Result<(), TextError> {
    let Some(field) = field.filter(|field| !field.is_list()) else { return Ok(()) };
    let Some(typed) = &fields[field as usize] else { return Ok(()) };
    match typed.numbers.len() {
        0 => name.error(format!("{} has no number", field.name())),
        1 => Ok(()),
        _ => {
            Err(TextError { place: typed.numbers[1].1, message: format!("a second number for {}, which has one", field.name()) })
        }
    }
}

/// The show, if every field is there and the table has an entry for each step.
fn whole(fields: Fields, end: Place) -> Result<ShowText, TextError> {
    let missing: Vec<&str> = Field::ALL.into_iter().filter(|f| fields[*f as usize].is_none()).map(Field::name).collect();
    if !missing.is_empty() {
        return Err(TextError { place: end, message: format!("the text ends without {}", missing.join(", ")) });
    }
    let fields = fields.map(|field| field.expect("no field is missing"));
    let [modules, top, warm_up, cool_down, table, loads] = &fields;
    let table = entries_of(table, top.numbers[0].0)?;
    if let Some((_, place)) = loads.numbers.get(usize::from(u16::MAX)) {
        return Err(TextError { place: *place, message: "too many loads: the slots have 2 bytes".to_string() });
    }
    let show = Show {
        modules: modules.numbers[0].0 as u8,
        top: top.numbers[0].0 as u8,
        warm_up: warm_up.numbers[0].0 as u32,
        cool_down: cool_down.numbers[0].0 as u32,
        table,
        loads: loads.numbers.iter().map(|(load, _)| *load as u16).collect(),
    };
    Ok(ShowText { show, fields })
}

/// The entries of a table: those that were typed, or the catalogue module's. It has none for a top step outside 1 to 200; a card of such a
/// top step is refused for it, whatever its table.
fn entries_of(table: &Typed, top: u64) -> Result<Vec<u32>, TextError> {
    if table.catalogue.is_some() {
        return Ok(catalogue::table(top).unwrap_or_default());
    }
    table_size(table, top)?;
    Ok(table.numbers.iter().map(|(entry, _)| *entry as u32).collect())
}

fn table_size(table: &Typed, top: u64) -> Result<(), TextError> {
    let (found, asked) = (table.numbers.len() as u64, top + 1);
    if found == asked {
        return Ok(());
    }
    let at = if found > asked { table.numbers.get(asked as usize) } else { table.numbers.last() };
    let place = at.map_or(table.name, |(_, place)| *place);
    let message =
        format!("the table has {}, and top {top} asks for {}, F(0) to F({top})", several(found, "entry"), grouped(asked));
    Err(TextError { place, message })
}

/// The text of a show. Reading it gives the same show.
pub fn write(show: &Show) -> String {
    let mut out = format!("# show card, version {VERSION}, {}\n", several(show.slots() as u64, "slot"));
    out += &format!("modules {}\n", show.modules);
    out += &format!("top {}\n", show.top);
    out += &format!("warm-up {}\n", show.warm_up);
    out += &format!("cool-down {}\n", show.cool_down);
    out += &write_table(&show.table);
    out += &list("loads", &show.loads, |first, last| range("slot", first + 1, last + 1));
    out
}

/// The text of a show's table.
pub fn write_table(table: &[u32]) -> String {
    list(Field::Table.name(), table, entry_range)
}

fn entry_range(first: usize, last: usize) -> String {
    if first == last {
        format!("F({first})")
    } else {
        format!("F({first}) to F({last})")
    }
}

/// How many numbers of a list stand on a line.
const ON_A_LINE: usize = 10;

/// A list on one line, or ten numbers a line with a comment that says which they are.
fn list<T: ToString>(name: &str, numbers: &[T], which: fn(usize, usize) -> String) -> String {
    if numbers.len() <= ON_A_LINE {
        return format!("{name} {}", listed(numbers.iter().map(T::to_string))).trim_end().to_string() + "\n";
    }
    let width = numbers.iter().map(|number| number.to_string().len()).max().unwrap_or(0);
    let mut out = String::new();
    for (at, line) in numbers.chunks(ON_A_LINE).enumerate() {
        let first = at * ON_A_LINE;
        let padded = line.iter().map(|number| format!("{:>width$}", number.to_string()));
        let shown = format!("{} {}", if at == 0 { name } else { "     " }, listed(padded));
        let full = name.len() + ON_A_LINE * (width + 1);
        out += &format!("{shown:<full$}  # {}\n", which(first, first + line.len() - 1));
    }
    out
}
