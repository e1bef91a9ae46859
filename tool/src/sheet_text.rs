//! A sheet as text: a line a slot, with a step or `-` for each module. A line may begin with `slot 3:` as in a listing, and then has
//! to be that slot's. The `cost` and `plan` lines of a listing may stand before the first slot, and are read past.
use crate::show::OFF;
use crate::typed::{self, NoNumber, Place, TextError, Word, NEEDLESS_ZERO};
use crate::words::{grouped, several};

/// The line of a slot: where it begins, and each module's byte with its place.
#[derive(Clone, Debug)]
pub struct Row {
    start: Place,
    steps: Vec<(u8, Place)>,
}

impl Row {
    fn bytes(&self) -> impl Iterator<Item = u8> + '_ {
        self.steps.iter().map(|(step, _)| *step)
    }
}

/// A sheet as it was typed.
#[derive(Clone, Debug)]
pub struct SheetText {
    pub rows: Vec<Row>,
}

/// Reads the lines of a sheet. How many there are, and how long each is, is judged later.
pub fn read(text: &str) -> Result<SheetText, TextError> {
    let mut rows = Vec::new();
    for words in typed::lines(text)? {
        if matches!(words[0].text, "cost" | "plan") {
            before_slots(&words[0], &rows)?;
            continue;
        }
        let steps = after_label(&words, rows.len() + 1)?;
        let steps = steps.iter().map(|word| Ok((step(word)?, word.place))).collect::<Result<_, _>>()?;
        rows.push(Row { start: words[0].place, steps });
    }
    Ok(SheetText { rows })
}

/// A listing's first lines stand before its slots.
fn before_slots(word: &Word, rows: &[Row]) -> Result<(), TextError> {
    if rows.is_empty() {
        Ok(())
    } else {
        word.error(format!("{} after the first slot", word.quoted()))
    }
}

/// The steps of a line, without the label of the slot.
fn after_label<'a, 'b>(words: &'a [Word<'b>], slot: usize) -> Result<&'a [Word<'b>], TextError> {
    if words[0].text != "slot" {
        return Ok(words);
    }
    let Some(label) = words.get(1) else { return words[0].error("a slot without its number") };
    if label.text != format!("{slot}:") {
        return label.error(format!("{} where 'slot {slot}:' comes next", label.quoted()));
    }
    Ok(&words[2..])
}

/// The byte of a step. Steps above the top step are left to marking, as far as a byte holds them: 255 would mean off.
fn step(word: &Word) -> Result<u8, TextError> {
    if word.text == "-" {
        return Ok(OFF);
    }
    match typed::number(word.text, u64::from(OFF) - 1) {
        Ok(step) => Ok(step as u8),
        Err(NoNumber::NeedlessZero) => word.error(format!("{} {NEEDLESS_ZERO}", word.quoted())),
        Err(NoNumber::TooLarge) => {
            word.error(format!("{} is too large for a step; a module that is off is typed -", word.quoted()))
        }
        Err(NoNumber::NotDigits) => word.error(format!("{} is not a step: digits, or - for off", word.quoted())),
    }
}

impl SheetText {
    /// The first line that has not one step for each module.
    fn uneven(&self, modules: usize) -> Option<usize> {
        self.rows.iter().position(|row| row.steps.len() != modules)
    }

    /// The bytes that are marked. Where a line has not one step for each module, its steps belong to no module, and the sheet is
    /// taken up to that line. It is then shorter than the show's. Where the line comes after the last slot, the sheet is one byte too
    /// long.
    pub fn bytes(&self, modules: usize, slots: usize) -> Vec<u8> {
        let even = self.uneven(modules).unwrap_or(self.rows.len());
        let mut bytes: Vec<u8> = self.rows[..even].iter().flat_map(Row::bytes).collect();
        if even == slots && self.rows.len() > slots {
            bytes.push(OFF);
        }
        bytes
    }

    /// Why the text has not a line for each slot with a step for each module.
    pub fn length_fault(&self, modules: usize, slots: usize) -> Option<String> {
        if let Some(at) = self.uneven(modules).filter(|at| *at < slots) {
            let row = &self.rows[at];
            let found = several(row.steps.len() as u64, "step");
            let line = row.start.line;
            return Some(format!(
                "slot {}: {found} where the rack has {} (line {line})",
                at + 1,
                several(modules as u64, "module")
            ));
        }
        let found = self.rows.len();
        (found != slots).then(|| format!("{} where the show has {}", several(found as u64, "slot"), grouped(slots as u64)))
    }

    /// Where a slot's and module's step stands, both counted from 0; without a module, where the slot's line begins.
    pub fn place(&self, slot: usize, module: Option<usize>) -> Option<Place> {
        let row = self.rows.get(slot)?;
        module.map_or(Some(row.start), |module| Some(row.steps.get(module)?.1))
    }
}
