//! Lines, circles, characters and upright sides: inside the clip, half outside and all outside.

use crate::commands::{Commands, List};
use crate::consoles::{strewn_words, Pane, Runner};
use crate::contests::{best_times, cell, check, passes, ratio};

pub const SIDE: u32 = 1024;
const LAST: u16 = SIDE as u16 - 1;
/// Where strings and their font stand, and how many characters a string has.
const STRING: u32 = 0x4000;
const FONT: u32 = 0x8000;
const CHARACTERS: u16 = 60;
/// How many glyphs the font has.
const GLYPHS: u16 = 8;

/// A list that draws a figure again and again.
pub struct Shape {
    name: String,
    pub list: List,
    /// How many figures a pass of the loop draws.
    pub figures: u32,
    draws: bool,
}

pub fn pane(depth: u32) -> Pane {
    Pane { width: SIDE, height: SIDE, depth, store: 65536 }
}

/// The times of a figure, in nanoseconds.
pub struct Times {
    pub proved: f64,
    pub second: f64,
    pub peer: f64,
}

impl Shape {
    /// The commands of the loop draw one figure each.
    fn new(name: String, first: Commands, again: Commands) -> Shape {
        let figures = again.len();
        Shape { name, list: List { first, again, data: vec![] }, figures, draws: true }
    }

    fn clipped(mut self, part: &str, clip: [u16; 4]) -> Shape {
        self.name = format!("{}, {part}", self.name);
        self.draws = part != "all outside";
        self.list.first = self.list.first.def_clip(clip);
        self
    }

    /// The best times, after a check that all draw the same.
    pub fn times(&self, depth: u32) -> Times {
        let pane = pane(depth);
        check(&self.name, &self.list, &pane, self.draws);
        let runners = [Runner::Proved, Runner::Second, Runner::Peer];
        let times = best_times(runners.map(|runner| passes(&self.list, &pane, runner)).into());
        let figure = |k: usize| times[k] / f64::from(self.figures);
        Times { proved: figure(0), second: figure(1), peer: figure(2) }
    }
}

/// A line forth and back, again and again.
pub fn line(name: &str, [x, y]: [i16; 2], [dx, dy]: [i16; 2]) -> Shape {
    let pixels = dx.abs().max(dy.abs()) + 1;
    let again = Commands::new().line(dx, dy).line(-dx, -dy).times(8);
    Shape::new(format!("LINE, {name}, {pixels} pixels"), Commands::new().abs_mov(x, y), again)
}

fn lines() -> Vec<Shape> {
    let (half, all) = ("half outside", "all outside");
    let shallow = || line("shallow", [60, 100], [899, 200]);
    let steep = || line("steep", [100, 60], [200, 899]);
    let diagonal = || line("diagonal", [60, 60], [899, 899]);
    vec![
        line("shallow", [60, 100], [30, 7]),
        line("steep", [60, 100], [7, 30]),
        line("diagonal", [60, 100], [30, 30]),
        shallow(),
        shallow().clipped(half, [510, 0, LAST, LAST]),
        shallow().clipped(all, [700, 110, 900, 200]),
        steep(),
        steep().clipped(half, [0, 510, LAST, LAST]),
        steep().clipped(all, [110, 700, 200, 900]),
        diagonal(),
        diagonal().clipped(half, [510, 0, LAST, LAST]),
        diagonal().clipped(all, [700, 70, 900, 300]),
    ]
}

pub fn circle(radius: u16) -> Shape {
    let again = Commands::new().circle(radius).times(8);
    Shape::new(format!("CIRCLE, radius {radius}"), Commands::new().abs_mov(500, 500), again)
}

fn circles() -> Vec<Shape> {
    let mut shapes = Vec::new();
    for radius in [10, 100, 250] {
        shapes.push(circle(radius));
        shapes.push(circle(radius).clipped("half outside", [500, 0, LAST, LAST]));
        shapes.push(circle(radius).clipped("all outside", [800, 0, LAST, LAST]));
    }
    shapes
}

/// A string of square characters with so many cells a side, at a rotation in quarter turns.
fn text(cells: u16, rotation: u16, transparent: bool) -> Shape {
    let opaque = if transparent { "transparent" } else { "opaque" };
    let name = format!("CHAR, {cells} by {cells} cells, {} degrees, {opaque}", 90 * rotation);
    let first = Commands::new().def_font(FONT).def_rotation(rotation);
    let again = Commands::new().abs_mov(35, 300).char(STRING, CHARACTERS, transparent);
    let words = cells + 1;
    let selectors = (0..CHARACTERS).map(|k| k % GLYPHS * words).collect();
    let size = (cells - 1) << 8 | (cells - 1);
    let rows = strewn_words(usize::from(GLYPHS * cells));
    let glyphs = rows.chunks(cells.into()).flat_map(|rows| [&[size], rows].concat()).collect();
    Shape {
        figures: CHARACTERS.into(),
        list: List { first, again, data: vec![(STRING as usize, selectors), (FONT as usize, glyphs)] },
        name,
        draws: true,
    }
}

fn texts() -> Vec<Shape> {
    let mut shapes = Vec::new();
    for cells in [16, 8] {
        for transparent in [false, true] {
            shapes.extend((0..4).map(|rotation| text(cells, rotation, transparent)));
        }
    }
    shapes.push(text(16, 0, false).clipped("half outside", [0, 308, LAST, LAST]));
    shapes.push(text(16, 0, false).clipped("all outside", [0, 400, LAST, LAST]));
    shapes
}

fn outlines() -> Vec<Shape> {
    let outline = |wide: i16, tall: i16| {
        let again = Commands::new().rect(wide - 1, tall - 1).times(8);
        Shape::new(format!("RECT, {wide} by {tall} pixels"), Commands::new().abs_mov(100, 60), again)
    };
    vec![
        outline(2, 400),
        outline(2, 400).clipped("half outside", [0, 260, LAST, LAST]),
        outline(2, 400).clipped("all outside", [500, 0, LAST, LAST]),
        outline(400, 400),
    ]
}

pub fn print_table() {
    println!(
        "| figure | depth | proved, ns | second, ns | C peer, ns | second / proved | proved / peer |\n\
         |---|---|---|---|---|---|---|"
    );
    for depth in [1, 4, 8] {
        for shape in [lines(), circles(), texts(), outlines()].into_iter().flatten() {
            let Times { proved, second, peer } = shape.times(depth);
            let (faster, slower) = (ratio(second, Some(proved)), ratio(proved, Some(peer)));
            let (name, [proved, second, peer]) = (&shape.name, [proved, second, peer].map(cell));
            println!("| {name} | {depth} | {proved} | {second} | {peer} | {faster} | {slower} |");
        }
    }
}
