//! What the commands are called, what they take and what their `--help` says.
use crate::commands::{self, Ended, Words};
use std::ffi::OsStr;
use std::iter::once;

/// A command with the words that it takes and its options. An option that takes a word has the word's name after a blank.
pub struct Command {
    pub name: &'static str,
    pub takes: &'static [&'static str],
    pub options: &'static [&'static str],
    pub run: fn(&Words) -> Ended,
    does: &'static str,
    more: &'static str,
}

pub const USAGE: &str = "usage: lamp COMMAND ..; lamp --help lists the commands";

/// The option that names the folder for a command's files.
pub const INTO: &str = "--into DIR";

/// The options that name the counts that a plan is limited to, and the ratio that bounds its cost.
pub const GROUPS: &str = "--groups LIST";
pub const RATIO: &str = "--ratio RATIO";

/// The name of an option that takes a word, and what that word names.
pub fn naming(option: &str) -> Option<(&str, &'static str)> {
    let what = match option {
        INTO => "folder",
        GROUPS => "list",
        RATIO => "ratio",
        _ => return None,
    };
    Some((name(option), what))
}

/// An option without the word that it takes.
fn name(option: &str) -> &str {
    option.split(' ').next().unwrap_or(option)
}

const KEY: &str = "prints the show, the plan, its cost and the sheet; without an option the cost is the least";
const PLANNER: &[&str] = &["--coarse", GROUPS, RATIO];

/// What the options of PLANNER are, with COMMAND for the command's name.
const PLANNERS: &str = "\
--coarse  the coarse planner's plan in place of the exact one; it costs at most twice as much, on every accepted card.
--groups LIST --ratio RATIO  a plan limited to the counts of LIST, for a rack that switches in groups. It costs at
    most RATIO times the least cost of any sheet, which is named beside it.
    lamp COMMAND e.card --groups 0,2,4,8 --ratio 2    # the rack of e.card has 8 modules
    LIST is 2 to 201 counts with commas between them, as one word, so in quotes if blanks follow the commas. It
    ascends from 0 to the number of modules. The first count after 0 is at most RATIO, and each gap is at most
    RATIO times the gap before it. RATIO is 1 to 200. What breaks these rules is refused by 18, in words. A count
    above 65,535, a RATIO above 18,446,744,073,709,551,615 and what is not digits alone are wrong use, status 2.";

/// What stands where a plan may be limited to a list, and where a sheet is marked.
const ANY_COUNT: &str = "\
'lamp mark' and 'lamp explain' know no list of counts: marking accepts every count, and whoever allows only certain
counts has to look at the counts of a sheet as well.";

/// The word of a command that takes a card, and what it may be.
const CARD: &str = "CARD";
const A_CARD: &str = "\
CARD is a card's bytes or a show's text, as 'lamp card --help' describes it; - is standard input.";

const COSTS: &str = "\
The modules share LOAD as evenly as steps go. Each is at its share, or at a higher step if that costs less.";

const ROUND: &str = "gives the smallest count not below COUNT that the coarse planner allows";
const ALLOWED: &str = "\
The coarse planner allows 0, the powers of two up to MODULES, and MODULES. So COUNT is rounded to the last number
of its case in the course book's list: 0, 1, 2, 3 to 4, 5 to 8, 9 to 16, 17 to 32, 33 to 64, 65 to 128, 129 to
200; or to MODULES, if that number is above MODULES. MODULES is 1 to 200 and COUNT is 0 to MODULES, digits alone.
    lamp round 70 200    # 128
    lamp round 70 100    # 100";

const SHOW_TEXT: &str = "\
SHOW is a text with one field a line, in any order; - is standard input:
    modules 3       # 1 to 200
    top 2           # the top step, 1 to 200
    warm-up 3       # prices, at most 500,000,000
    cool-down 2
    table 1 2 4     # F(0) to F(top), each at most 1,000,000; may go on over several lines
    loads 6 0 2     # one a slot, at most 1,024; may go on over several lines
The line 'table catalogue' stands for the catalogue module's table, F(0) to F(top), which 'lamp table' prints.
A show that the library refuses is refused in words, with the place, and no card is written.";

const PRACTICE: &str = "\
NUMBER, FIRST and LAST are 1 to 4,294,967,295, digits alone. A number has the same card on every machine. Every
practice card is accepted, and can be planned by the exact and the coarse planner.
    lamp practice 1950 > 1950.card      # without --into the card goes to standard output
    lamp practice 1..30 --into cards    # the files 1.card to 30.card in the folder cards
--into DIR  writes the file NUMBER.card, or one for each number from FIRST to LAST, into the folder DIR, which
    has to be there; at most 10,000 at a time. No file that was there before is overwritten: one that holds
    the same card is left alone, and any other of such a name is an error, before the first card is written.
    A run that fails or stops halfway, as by Ctrl-C, removes what it wrote, or says what it could not remove.
    A run that is killed may leave whole cards under their names, and the folder lamp.part, which the next
    run into DIR removes, or says why not.";

const TABLE: &str = "\
Prints F(0) to F(TOP) as a show's text has them, so that the lines can be copied into a show's text. The line
'table catalogue' in a show's text stands for the same numbers. TOP is the top step, 1 to 200, digits alone.
    lamp table 8    # table 400 403 407 412 418 425 433 442 452";

/// The word of a command that takes a sheet, what it may be, and the option for a sheet of bytes.
const SHEET: &str = "SHEET";
const BYTES: &[&str] = &["--bytes"];
const A_SHEET: &str = "\
SHEET has a line a slot, with a step or - (off) for each module, as '2 2 -'. A line may begin with
'slot 3:', and the cost and plan of a listing may stand before the first slot.
--bytes  SHEET is a byte for each slot and module, 255 for off.";

const MARKS: &str = "\
Prints the sheet's cost, the least cost and the points above it, or why the sheet is refused. A slot may get
more light than its load, but not less, and each step is charged as it stands.";

const EXPLAINS: &str = "\
Prints the sheet's cost, the least cost and the points above it, the three numbers of 'lamp mark', and the three
parts of these points, each number with a sentence; or why the sheet is refused.
    spread  what other steps would save, with the same modules active in the same slots
    swaps   what another choice of modules would save on switching, with as many active in each slot
    counts  what even the cheapest sheet with as many active modules in each slot costs above the least
Spread and swaps are 0 exactly if nothing can be saved so, and counts is 0 exactly if no plan that serves costs
less than the sheet's counts do as a plan. All this tells the least cost, so it is for a candidate only after the
sitting.";

/// A command of the table below.
const fn command(
    name: &'static str,
    takes: &'static [&'static str],
    options: &'static [&'static str],
    run: fn(&Words) -> Ended,
    does: &'static str,
    more: &'static str,
) -> Command {
    Command { name, takes, options, run, does, more }
}

/// All commands, in the order of an examiner's day.
pub const COMMANDS: [Command; 12] = [
    command("card", &["SHOW"], &[], commands::card, "makes a card of a show typed as text", SHOW_TEXT),
    command("practice", &["NUMBER"], &[INTO], commands::practice, "makes practice cards by their numbers", PRACTICE),
    command("table", &["TOP"], &[], commands::table, "prints the catalogue module's table for a show's text", TABLE),
    command("show", &[CARD], &[], commands::show, "reads a card back as text", ""),
    command("check", &[CARD], &[], commands::check, "says whether the card is accepted, or where it is at fault", ""),
    command("key", &[CARD], PLANNER, commands::key, KEY, ""),
    command("page", &[CARD], PLANNER, commands::page, "prints the key as a page of HTML, with the picture", ""),
    command("picture", &[CARD], PLANNER, commands::picture, "draws the plan as SVG", ""),
    command("mark", &[CARD, SHEET], BYTES, commands::mark, "marks a sheet", MARKS),
    command("explain", &[CARD, SHEET], BYTES, commands::explain, "says where a sheet's points above the least went", EXPLAINS),
    command("cost", &[CARD, "COUNT", "LOAD"], &[], commands::cost, "gives the running cost of a count and a load", COSTS),
    command("round", &["COUNT", "MODULES"], &[], commands::round, ROUND, ALLOWED),
];

const STATUS: &str = "Exit status: 0 done, 1 refused by a number, 2 wrong use or a file that cannot be read or written whole.";

impl Command {
    fn form(&self) -> String {
        let options = self.options.iter().filter(|option| ![GROUPS, RATIO].contains(option));
        let options: String = options.map(|option| format!(" [{option}]")).collect();
        format!("lamp {} {}{options}", self.name, self.takes.join(" "))
    }

    /// A second form, and what it does: with a range of numbers, which only a folder can take, or with a list of counts.
    fn second_form(&self) -> Option<(String, &'static str)> {
        if self.options.contains(&INTO) {
            return Some((format!("lamp {} FIRST..LAST {INTO}", self.name), "makes those of a range, as files of a folder"));
        }
        let form = || format!("lamp {} {} {GROUPS} {RATIO}", self.name, self.takes.join(" "));
        self.options.contains(&GROUPS).then(|| (form(), "does so for a plan limited to LIST, whose cost may be above the least"))
    }

    /// The option that a word is.
    pub fn option(&self, word: &OsStr) -> Option<&'static str> {
        self.options.iter().copied().find(|option| word == name(option))
    }

    pub fn usage(&self) -> String {
        let second = self.second_form().map_or(String::new(), |(form, _)| format!("\n       {form}"));
        format!("usage: {}{second}", self.form())
    }

    pub fn help(&self) -> String {
        let card = self.takes.contains(&CARD).then_some(A_CARD);
        let sheet = self.takes.contains(&SHEET).then_some(A_SHEET);
        let more = (!self.more.is_empty()).then_some(self.more);
        let planners = (self.options == PLANNER).then(|| PLANNERS.replace("COMMAND", self.name));
        let counts = (planners.is_some() || sheet.is_some()).then_some(ANY_COUNT);
        let parts = card.into_iter().chain(sheet).chain(more).chain(planners.as_deref()).chain(counts);
        let lines: String = parts.map(|part| format!("{part}\n")).collect();
        format!("{}\n{}: {}.\n{lines}{STATUS}\n", self.usage(), self.name, self.does)
    }
}

/// What `lamp --help` prints.
pub fn whole() -> String {
    let rows = || COMMANDS.iter().flat_map(|command| once((command.form(), command.does)).chain(command.second_form()));
    let width = rows().map(|(form, _)| form.len()).max().unwrap_or(0);
    let mut out = String::from("lamp: the examiner's tool over the proved planner\n\n");
    rows().for_each(|(form, does)| out += &format!("  {form:<width$}  {does}\n"));
    out += &format!("\nlamp COMMAND --help says more; lamp --version prints the release.\n{A_CARD}\n{STATUS}\n");
    out
}
