//! Lists that loop by LINK, run by all three from the same first screen and store. All end alike, which is checked.

use crate::commands::{Commands, List};
use crate::consoles::{Buffers, Pane, Runner};
use crate::contests::{best_times, compared, passes};

/// A list with its name, and how many commands of it are run to be compared.
pub struct Named {
    pub name: &'static str,
    pub list: List,
    budget: u32,
}

pub fn pane(depth: u32) -> Pane {
    Pane { width: 1024, height: 512, depth, store: 65536 }
}

fn named(name: &'static str, budget: u32, first: Commands, again: Commands) -> Named {
    Named { name, list: List { first, again, data: vec![] }, budget }
}

impl Named {
    fn with(mut self, at: usize, words: Vec<u16>) -> Named {
        self.list.data.push((at, words));
        self
    }
}

/// A piece of a page: a frame, a scale of five ticks by called lists, a dial, a text, a bar and a picture.
fn page() -> Named {
    let scale = [0x3040, 0x3060, 0x3060, 0x3060, 0x3040];
    let scale = scale.iter().fold(Commands::new(), |list, &tick| list.call(tick)).back();
    let tick = |long: i16| Commands::new().line(0, -long).rel_mov(10, long).back().words();
    let frame = Commands::new().abs_mov(20, 20).rect(200, 100).abs_mov(30, 60).call(0x3000);
    let dial = frame.abs_mov(160, 70).circle(40).abs_mov(30, 30).char(0x4000, 8, true);
    let bar = dial.abs_mov(30, 80).scan_lines(0x4100, 4);
    let picture = bar.abs_mov(30, 90).bit_blt_m(0x5000, [31, 31], [0, 0, 31, 31]);
    named("page, nested CALLs", 20_000, Commands::new().def_font(0x8000).def_space(1), picture)
        .with(0x3000, scale.words())
        .with(0x3040, tick(8))
        .with(0x3060, tick(4))
        .with(0x4000, vec![0; 8])
        .with(0x8000, [vec![0x0707], vec![0x005A; 8]].concat())
        .with(0x4100, [0, 1, 100].repeat(4))
        .with(0x5000, vec![0x5A3C; 512])
}

fn circles() -> [Named; 3] {
    let circle = Commands::new().abs_mov(500, 250).circle(100);
    let clip = |left| Commands::new().def_clip([left, 0, 1023, 511]);
    [
        named("CIRCLE", 12_000, Commands::new(), circle.clone()),
        named("CIRCLE, half outside the clip", 12_000, clip(500), circle.clone()),
        named("CIRCLE, outside the clip", 12_000, clip(700), circle),
    ]
}

fn arrays() -> [Named; 3] {
    let triples = [0, 1, 900].repeat(256);
    let steps = [25, 200, 25, -200i16 as u16].repeat(16);
    let polyline = Commands::new().abs_mov(10, 100).polyline(0x4000, 32);
    let runs = Commands::new().abs_mov(20, 20).scan_lines(0x4000, 256);
    let hatched = Commands::new().def_texture(0xF0F0, true);
    [
        named("POLYLINE", 1_000, Commands::new(), polyline).with(0x4000, steps),
        named("SCAN_LINES, solid", 120, Commands::new(), runs.clone()).with(0x4000, triples.clone()),
        named("SCAN_LINES, hatched", 120, hatched, runs).with(0x4000, triples),
    ]
}

pub fn lists() -> Vec<Named> {
    let start = Commands::new;
    let lines = start().abs_mov(10, 10).line(900, 400).abs_mov(900, 20).line(-512, 300);
    let copy = start().abs_mov(14, 13).bit_blt([10, 10, 600, 300]);
    let from_store = start().abs_mov(14, 13).bit_blt_m(0x4000, [255, 127], [3, 2, 250, 120]);
    let text = start().abs_mov(10, 10).char(0x4000, 60, false);
    let mut all = vec![
        named("NOP", 4_000_000, start(), start().nop().times(32)),
        named("LINE", 20_000, start(), lines),
        named("LINE, level, 31 pixels", 200_000, start(), start().abs_mov(20, 20).line(30, 0)),
        named("RECT, 40 by 20 pixels", 60_000, start(), start().abs_mov(20, 20).rect(39, 19)),
        named("RECT", 2_000, start(), start().abs_mov(10, 10).rect(900, 400)),
    ];
    all.extend(circles());
    all.extend(arrays());
    all.extend([
        named("BIT_BLT, overlapping", 120, start(), copy),
        named("BIT_BLT_M, from the store", 1_200, start(), from_store).with(0x4000, vec![0x5A3C; 0x4000]),
        named("CHAR", 2_000, start().def_font(0x8000), text)
            .with(0x4000, vec![0; 60])
            .with(0x8000, [vec![0x0F0F], vec![0x5A3C; 16]].concat()),
        page(),
    ]);
    all
}

/// The best times of a command, by turns, on buffers that each has drawn on before.
fn times(named: &Named, pane: &Pane) -> [f64; 3] {
    let runners = [Runner::Proved, Runner::Second, Runner::Peer];
    let times = best_times(runners.map(|runner| passes(&named.list, pane, runner)).into());
    let commands = f64::from(named.list.again.len() + 1);
    std::array::from_fn(|k| times[k] / commands)
}

pub fn print_table() {
    println!(
        "| list | depth | proved, ns a command | second, ns a command | C peer, ns a command | second / proved \
         | proved / peer |"
    );
    println!("|---|---|---|---|---|---|---|");
    for depth in [1, 4, 8] {
        for named in lists() {
            compared(named.name, &Buffers::blank(&pane(depth), named.list.store(&pane(depth))), &pane(depth), named.budget);
            let ([proved, second, peer], name) = (times(&named, &pane(depth)), named.name);
            let (faster, slower) = (second / proved, proved / peer);
            println!("| {name} | {depth} | {proved:.1} | {second:.1} | {peer:.1} | {faster:.2} | {slower:.2} |");
        }
    }
}
