//! The plan as a picture (SVG): slots across, modules down, a cell shaded by its step; above it the loads and the counts as lines, and the
//! light where some slot gets more than its load.
use crate::listing;
use crate::markup::escaped;
use crate::planning::{Planned, Planner};
use crate::show::OFF;
use crate::words::{grouped, several};

/// Sizes in the picture's units, which are pixels at its own size. A wide picture is scaled down where it is printed or shown whole, so
/// its text and margins are twice as large.
struct Layout {
    slots: usize,
    modules: usize,
    top: usize,
    title: usize,
    cell_width: usize,
    cell_height: usize,
    scale: usize,
}

const MARGIN: usize = 64;
const TITLE: usize = 66;
/// What the title of a group plan takes besides, for the second of its own two lines.
const MORE_TITLE: usize = 15;
const CHART: usize = 110;
const NUMBERS: usize = 40;
const LEGEND: usize = 74;
/// The size of most of the text.
const TEXT: usize = 11;
/// The narrowest picture, so that its title has room.
const NARROWEST: usize = 720;
/// The widest grid whose text has its plain size.
const WIDE: usize = 1_200;

impl Layout {
    fn of(planned: &Planned) -> Self {
        let (slots, modules) = (planned.show.slots(), usize::from(planned.show.modules));
        let cell_width = (960 / slots.max(1)).clamp(2, 48);
        Layout {
            slots,
            modules,
            top: planned.show.top.into(),
            title: if planned.beside.is_some() { TITLE + MORE_TITLE } else { TITLE },
            cell_width,
            cell_height: (600 / modules.max(1)).clamp(3, 32),
            scale: if slots * cell_width > WIDE { 2 } else { 1 },
        }
    }

    /// A size of text or of a margin.
    fn size(&self, plain: usize) -> usize {
        plain * self.scale
    }

    fn left(&self) -> usize {
        self.size(MARGIN)
    }

    fn grid_width(&self) -> usize {
        self.slots * self.cell_width
    }

    fn width(&self) -> usize {
        (self.grid_width() + 2 * self.size(MARGIN)).max(NARROWEST)
    }

    fn grid_top(&self) -> usize {
        self.size(self.title + CHART + NUMBERS)
    }

    fn grid_bottom(&self) -> usize {
        self.grid_top() + self.modules * self.cell_height
    }

    fn height(&self) -> usize {
        self.grid_bottom() + self.size(LEGEND)
    }

    /// The left edge of a slot, counted from 0.
    fn x(&self, slot: usize) -> usize {
        self.left() + slot * self.cell_width
    }

    /// The upper edge of a module, counted from 0.
    fn y(&self, module: usize) -> usize {
        self.grid_top() + module * self.cell_height
    }

    /// The middle of a slot.
    fn middle(&self, slot: usize) -> usize {
        self.x(slot) + self.cell_width / 2
    }

    /// The line of a text in the middle of a module.
    fn baseline(&self, module: usize) -> usize {
        self.y(module) + self.cell_height / 2 + self.size(4)
    }

    /// Whether a number fits into a cell.
    fn has_numbers(&self) -> bool {
        self.cell_width >= 24 && self.cell_height >= 14
    }
}

/// A picture as a file of its own.
pub fn file(planned: &Planned, name: &str) -> String {
    format!("<?xml version=\"1.0\" encoding=\"UTF-8\"?>\n{}", draw(planned, name))
}

/// The picture as an element.
pub fn draw(planned: &Planned, name: &str) -> String {
    let layout = Layout::of(planned);
    let (width, height, text) = (layout.width(), layout.height(), layout.size(TEXT));
    let mut out = format!(
        "<svg xmlns=\"http://www.w3.org/2000/svg\" width=\"{width}\" height=\"{height}\" viewBox=\"0 0 {width} {height}\" \
         font-family=\"sans-serif\" font-size=\"{text}\" fill=\"#000\">\n"
    );
    out += &format!("<title>{}</title>\n", escaped(&format!("{}. {name}: {}", heading(planned), planned.show.summary())));
    out += &format!("<rect width=\"{width}\" height=\"{height}\" fill=\"#fff\"/>\n");
    out += &titles(planned, name, &layout);
    out += &chart(planned, &layout);
    out += &cells(planned, &layout);
    out += &frame(&layout);
    if layout.has_numbers() {
        out += &numbers(planned, &layout);
    }
    out += &legend(planned, &layout);
    out + "</svg>\n"
}

/// The cost, and whose it is, with the least cost beside that of a group plan.
pub fn heading(planned: &Planned) -> String {
    let cost = grouped(planned.cost);
    match (&planned.beside, planned.planner) {
        (Some(beside), _) => format!("Group plan, cost {cost}; the least cost is {}", grouped(beside.least)),
        (None, Planner::Exact) => format!("Least cost {cost}"),
        (None, _) => format!("Coarse plan, cost {cost}"),
    }
}

/// How many runs of counts fit on a line of the narrowest picture.
const MOST_RUNS: usize = 6;

fn titles(planned: &Planned, name: &str, layout: &Layout) -> String {
    let shown: String = name.chars().take(60).collect();
    let line = |y: usize, size: usize, text: &str| {
        let (x, y, size) = (layout.left(), layout.size(y), layout.size(size));
        format!("<text x=\"{x}\" y=\"{y}\" font-size=\"{size}\">{}</text>\n", escaped(text))
    };
    let mut out = line(24, 17, &heading(planned)) + &line(42, 12, &shown) + &line(57, 12, &planned.show.summary());
    if let Some(beside) = &planned.beside {
        out += &line(72, 12, &beside.groups.limit(MOST_RUNS));
        out += &line(72 + MORE_TITLE, 12, &format!("{}; {}", beside.likeness(), beside.bound("the least")));
    }
    out
}

/// A text with its anchor: start, middle or end.
fn label(x: usize, y: usize, anchor: &str, colour: &str, text: &str) -> String {
    format!("<text x=\"{x}\" y=\"{y}\" text-anchor=\"{anchor}\" fill=\"{colour}\">{text}</text>\n")
}

const LIGHT_COLOUR: &str = "#d9a300";
const LOAD_COLOUR: &str = "#b35900";
const COUNT_COLOUR: &str = "#08306b";

/// Loads and counts over the slots, each from 0 to what the full rack has. A load of all modules at the top step and a count of all
/// modules are at the same height. The line of the light, if there is one, lies below that of the loads, which covers it where both are
/// the same.
fn chart(planned: &Planned, layout: &Layout) -> String {
    let (upper, lower) = (layout.size(layout.title + 14), layout.size(layout.title + CHART));
    let (left, right, gap) = (layout.left(), layout.x(layout.slots), layout.size(6));
    let (most_load, most_count) = (layout.modules * layout.top, layout.modules);
    let loads: Vec<usize> = planned.show.loads.iter().map(|load| usize::from(*load)).collect();
    let counts: Vec<usize> = planned.plan.iter().map(|count| usize::from(*count)).collect();
    let (width, height, text) = (layout.grid_width(), lower - upper, upper + layout.size(9));
    let mut out =
        format!("<rect x=\"{left}\" y=\"{upper}\" width=\"{width}\" height=\"{height}\" fill=\"none\" stroke=\"#999\"/>\n");
    let stroke = format!("stroke-width=\"{}\"", 1.5 * layout.scale as f64);
    if planned.brighter().is_some() {
        let lights: Vec<usize> = planned.lights().into_iter().map(|light| light as usize).collect();
        let dotted = format!("stroke=\"{LIGHT_COLOUR}\" {stroke} stroke-dasharray=\"2 2\"");
        out += &stairs(&lights, most_load, layout, upper, lower, &dotted);
    }
    out += &stairs(&loads, most_load, layout, upper, lower, &format!("stroke=\"{LOAD_COLOUR}\" {stroke}"));
    out += &stairs(
        &counts,
        most_count,
        layout,
        upper,
        lower,
        &format!("stroke=\"{COUNT_COLOUR}\" {stroke} stroke-dasharray=\"5 3\""),
    );
    out += &label(left - gap, text, "end", LOAD_COLOUR, &grouped(most_load as u64));
    out += &label(left - gap, lower, "end", LOAD_COLOUR, "load 0");
    out += &label(right + gap, text, "start", COUNT_COLOUR, &grouped(most_count as u64));
    out += &label(right + gap, lower, "start", COUNT_COLOUR, "count 0");
    out
}

/// A line with a level piece for each slot.
fn stairs(values: &[usize], most: usize, layout: &Layout, upper: usize, lower: usize, stroke: &str) -> String {
    if values.is_empty() {
        return String::new();
    }
    let height = |value: usize| lower as f64 - (lower - upper) as f64 * value as f64 / most.max(1) as f64;
    let mut points = String::new();
    for (slot, value) in values.iter().enumerate() {
        let y = height(*value);
        points += &format!("{},{y:.1} {},{y:.1} ", layout.x(slot), layout.x(slot + 1));
    }
    format!("<polyline points=\"{}\" fill=\"none\" {stroke}/>\n", points.trim_end())
}

/// The colour of a step, from light at step 0 to dark at the top step. A module that is off is white.
fn shade(step: usize, top: usize) -> String {
    const LIGHT: [usize; 3] = [214, 230, 244];
    const DARK: [usize; 3] = [8, 48, 107];
    let part = |at: usize| (LIGHT[at] * (top - step.min(top)) + DARK[at] * step.min(top)) / top.max(1);
    format!("#{:02x}{:02x}{:02x}", part(0), part(1), part(2))
}

/// The active modules of each slot, with one rectangle for neighbours at the same step.
fn cells(planned: &Planned, layout: &Layout) -> String {
    let mut out = String::from("<g shape-rendering=\"crispEdges\">\n");
    for (slot, row) in planned.show.rows(&planned.sheet).enumerate() {
        let mut module = 0;
        for run in row.chunk_by(|a, b| a == b) {
            if run[0] != OFF {
                out += &format!(
                    "<rect x=\"{}\" y=\"{}\" width=\"{}\" height=\"{}\" fill=\"{}\"/>\n",
                    layout.x(slot),
                    layout.y(module),
                    layout.cell_width,
                    run.len() * layout.cell_height,
                    shade(run[0].into(), layout.top)
                );
            }
            module += run.len();
        }
    }
    out + "</g>\n"
}

/// The smallest of 1, 2, 5, 10, 20, 50, .. by which numbers stand at least so many units apart.
fn spacing(unit: usize, apart: usize) -> usize {
    let mut sizes = (0..).flat_map(|power| [1, 2, 5].map(|digit| digit * 10usize.pow(power)));
    sizes.find(|size| size * unit >= apart).unwrap_or(1)
}

/// The numbers at an axis, from 1 up to the last.
fn ticks(most: usize, spacing: usize) -> impl Iterator<Item = usize> {
    (1..=most).filter(move |number| spacing == 1 || *number == 1 || number % spacing == 0)
}

/// The grid's frame, its lines where cells are large enough, and the numbers of slots and modules.
fn frame(layout: &Layout) -> String {
    let (left, right, upper, lower) = (layout.left(), layout.x(layout.slots), layout.grid_top(), layout.grid_bottom());
    let mut out = String::from("<g shape-rendering=\"crispEdges\" stroke=\"#999\" stroke-width=\"1\">\n");
    let line = |x1: usize, y1: usize, x2: usize, y2: usize| format!("<line x1=\"{x1}\" y1=\"{y1}\" x2=\"{x2}\" y2=\"{y2}\"/>\n");
    for slot in (0..=layout.slots).filter(|slot| layout.cell_width >= 6 || *slot == 0 || *slot == layout.slots) {
        out += &line(layout.x(slot), upper, layout.x(slot), lower);
    }
    for module in (0..=layout.modules).filter(|module| layout.cell_height >= 6 || *module == 0 || *module == layout.modules) {
        out += &line(left, layout.y(module), right, layout.y(module));
    }
    out + "</g>\n" + &axes(layout)
}

/// The numbers of slots below the grid, and of modules at its left.
fn axes(layout: &Layout) -> String {
    let (left, lower) = (layout.left() - layout.size(6), layout.grid_bottom() + layout.size(14));
    let mut out = label(left, lower, "end", "#000", "slot");
    for slot in ticks(layout.slots, spacing(layout.cell_width, layout.size(44))) {
        out += &label(layout.middle(slot - 1), lower, "middle", "#000", &grouped(slot as u64));
    }
    for module in ticks(layout.modules, spacing(layout.cell_height, layout.size(13))) {
        let name = if module == 1 { "module " } else { "" };
        out += &label(left, layout.baseline(module - 1), "end", "#000", &format!("{name}{module}"));
    }
    out
}

/// The size of text at which so many digits fit into a cell's width, at most the usual one.
fn fitting(layout: &Layout, digits: usize) -> usize {
    (10 * (layout.cell_width - 4) / (7 * digits.max(1))).min(TEXT)
}

/// Each cell's step, and each slot's load and count above it.
fn numbers(planned: &Planned, layout: &Layout) -> String {
    let (left, loads, counts) = (layout.left() - layout.size(6), layout.grid_top() - 22, layout.grid_top() - 8);
    let mut out = label(left, loads, "end", LOAD_COLOUR, "load") + &label(left, counts, "end", COUNT_COLOUR, "count");
    let longest = planned.show.loads.iter().map(|load| load.to_string().len()).max().unwrap_or(0);
    out += &format!("<g font-size=\"{}\">\n", fitting(layout, longest));
    for (slot, load) in planned.show.loads.iter().enumerate() {
        out += &label(layout.middle(slot), loads, "middle", LOAD_COLOUR, &load.to_string());
    }
    out += "</g>\n";
    for (slot, count) in planned.plan.iter().enumerate() {
        out += &label(layout.middle(slot), counts, "middle", COUNT_COLOUR, &count.to_string());
    }
    for (slot, row) in planned.show.rows(&planned.sheet).enumerate() {
        for (module, byte) in row.iter().enumerate() {
            let colour = if *byte != OFF && 2 * usize::from(*byte) > layout.top { "#fff" } else { "#000" };
            out += &label(layout.middle(slot), layout.baseline(module), "middle", colour, &listing::step(*byte));
        }
    }
    out
}

/// What the shades and the lines mean.
fn legend(planned: &Planned, layout: &Layout) -> String {
    let (left, y) = (layout.left(), layout.grid_bottom() + layout.size(30));
    let shown = (layout.top + 1).min(11);
    let mut out = swatch(layout, left, y, "#fff", "off");
    for at in 0..shown {
        let step = at * layout.top / (shown - 1).max(1);
        out += &swatch(layout, left + layout.size(48 * (at + 1)), y, &shade(step, layout.top), &step.to_string());
    }
    let light = if planned.brighter().is_some() { " Dotted line: light." } else { "" };
    let text = format!(
        "Shade: step, 0 to {}. Line: load. Broken line: count.{light} {} down, {} across.",
        layout.top,
        several(layout.modules as u64, "module"),
        several(layout.slots as u64, "slot")
    );
    out + &label(left, y + layout.size(34), "start", "#000", &text)
}

fn swatch(layout: &Layout, x: usize, y: usize, colour: &str, text: &str) -> String {
    let side = layout.size(14);
    let rect = format!("<rect x=\"{x}\" y=\"{y}\" width=\"{side}\" height=\"{side}\" fill=\"{colour}\" stroke=\"#999\"/>\n");
    rect + &label(x + layout.size(17), y + layout.size(11), "start", "#000", text)
}
