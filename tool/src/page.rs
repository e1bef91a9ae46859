//! The key as it is printed before the sitting: one file of HTML that is well-formed XML too, without script or outside reference.
use crate::listing;
use crate::markup::escaped;
use crate::picture;
use crate::planning::Planned;
use crate::show_text;
use crate::words::{grouped, range};

/// How many modules stand on a line of the sheet.
const MODULES_ON_A_LINE: usize = 25;
/// How many counts stand on a line of the plan.
const COUNTS_ON_A_LINE: usize = 20;

const NO_SLOT: &str = "<p>The show has no slot.</p>\n";

const STYLE: &str = "\
@page { size: A4; margin: 14mm; @bottom-right { content: counter(page) \" of \" counter(pages); font: 9pt sans-serif; } }
body { font: 10pt sans-serif; color: #000; background: #fff; margin: 1em; }
h1 { font-size: 18pt; margin: 0 0 2mm 0; }
h2 { font-size: 12pt; margin: 5mm 0 2mm 0; break-after: avoid; }
p { margin: 2mm 0; }
pre { font: 9pt monospace; margin: 0; white-space: pre-wrap; }
svg { max-width: 100%; height: auto; }
figure { margin: 0; break-inside: avoid; }
table { border-collapse: collapse; font-size: 7.5pt; }
th, td { border: 0.2mm solid #999; padding: 0.4mm 0.8mm; text-align: right; min-width: 3.6mm; }
thead { display: table-header-group; }
tr, .sheet tbody { break-inside: avoid; }
.sheet tbody { border-top: 0.6mm solid #000; }
th { font-weight: normal; background: #eee; white-space: nowrap; }
@media print { body { margin: 0; } }
";

/// The page of a plan on a card of this name.
pub fn write(planned: &Planned, name: &str) -> String {
    let (heading, name_text) = (escaped(&picture::heading(planned)), escaped(name));
    let mut out = format!(
        "<!DOCTYPE html>\n<html xmlns=\"http://www.w3.org/1999/xhtml\" lang=\"en\">\n<head>\n<meta charset=\"utf-8\"/>\n\
         <title>{heading}: {name_text}</title>\n<style>\n{STYLE}</style>\n</head>\n<body>\n"
    );
    out += &format!("<h1>{heading}</h1>\n<p>{name_text}: {}.</p>\n", escaped(&planned.show.summary()));
    planned.notes().for_each(|sentence| out += &format!("<p>{}.</p>\n", escaped(&sentence)));
    out += &format!("<h2>Show</h2>\n<pre>{}</pre>\n", escaped(&show_text::write(&planned.show)));
    out += &format!("<h2>Plan</h2>\n{}", plan(planned));
    out += &format!("<h2>Picture</h2>\n<figure>\n{}</figure>\n", picture::draw(planned, name));
    out += &format!("<h2>Sheet</h2>\n{}", sheet(planned));
    out + &format!("<p>lamp {}</p>\n</body>\n</html>\n", env!("CARGO_PKG_VERSION"))
}

/// A cell of a heading.
fn th(text: &str) -> String {
    format!("<th>{text}</th>")
}

fn td(text: &str) -> String {
    format!("<td>{text}</td>")
}

/// The counts, so many a line, each line with the slots that it is about.
fn plan(planned: &Planned) -> String {
    if planned.plan.is_empty() {
        return NO_SLOT.to_string();
    }
    let mut out = String::from("<table>\n");
    for (at, line) in planned.plan.chunks(COUNTS_ON_A_LINE).enumerate() {
        let first = at * COUNTS_ON_A_LINE + 1;
        let counts: String = line.iter().map(|count| td(&count.to_string())).collect();
        out += &format!("<tr>{}{counts}</tr>\n", th(&range("slot", first, first + line.len() - 1)));
    }
    out + "</table>\n"
}

/// The sheet: a group of lines for each slot, which no page break divides.
fn sheet(planned: &Planned) -> String {
    if planned.plan.is_empty() {
        return NO_SLOT.to_string();
    }
    let modules = usize::from(planned.show.modules);
    let columns = columns(planned);
    let mut out = format!("<table class=\"sheet\">\n<thead>{}</thead>\n", sheet_heading(&columns, modules));
    for (slot, row) in planned.show.rows(&planned.sheet).enumerate() {
        out += "<tbody>";
        for (at, line) in row.chunks(MODULES_ON_A_LINE).enumerate() {
            let fact = |column: &Column| if at == 0 { th(&grouped(column.numbers[slot])) } else { th("") };
            let facts = columns.iter().map(fact).collect();
            out += &sheet_line(facts, modules, at * MODULES_ON_A_LINE, line);
        }
        out += "</tbody>\n";
    }
    out + "</table>\n"
}

/// A column before the steps: its name and a number for each slot.
struct Column {
    name: &'static str,
    numbers: Vec<u64>,
}

/// The columns before the steps. The light is among them only where some slot gets more than its load.
fn columns(planned: &Planned) -> Vec<Column> {
    let loads = planned.show.loads.iter().map(|load| u64::from(*load)).collect();
    let counts = planned.plan.iter().map(|count| u64::from(*count)).collect();
    let light = planned.brighter().map(|_| Column { name: "light", numbers: planned.lights() });
    let mut out = vec![Column { name: "slot", numbers: (1..=planned.plan.len() as u64).collect() }];
    out.push(Column { name: "load", numbers: loads });
    out.extend(light);
    out.push(Column { name: "count", numbers: counts });
    out
}

/// The heading of the sheet, which stands on every page. Where the modules of a slot take more than one line, a column says which they are.
fn sheet_heading(columns: &[Column], modules: usize) -> String {
    let facts: String = columns.iter().map(|column| th(column.name)).collect();
    let lines = if modules > MODULES_ON_A_LINE { th("modules") } else { String::new() };
    let numbers: String = (1..=modules.min(MODULES_ON_A_LINE)).map(|module| th(&module.to_string())).collect();
    format!("<tr>{facts}{lines}{numbers}</tr>")
}

/// Some modules of a slot, after the cells of the columns before them.
fn sheet_line(facts: String, modules: usize, before: usize, line: &[u8]) -> String {
    let label = format!("{} to {}", before + 1, before + line.len());
    let label = if modules > MODULES_ON_A_LINE { th(&label) } else { String::new() };
    let steps: String = line.iter().map(|byte| td(&listing::step(*byte))).collect();
    format!("<tr>{facts}{label}{steps}</tr>\n")
}
