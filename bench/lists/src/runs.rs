//! Horizontal runs (02, A.3) beside memset over the same bytes and pixman's fill: inside the clip, half outside and
//! all outside, long and short, solid and hatched.

use crate::commands::{Commands, List};
use crate::consoles::{Pane, Runner};
use crate::contests::{best_times, cell, cell_if, check, passes, ratio, Contestant};
use crate::pixman::{filling, Area};
use std::hint::black_box;

/// The column and the row before the first run, and how many runs a SCAN_LINES has, one under the other.
const COLUMN: u16 = 20;
const ROW: u16 = 20;
const RUNS: u16 = 256;

/// Where the runs lie: inside the clip, their first half outside, or all outside.
#[derive(Clone, Copy, PartialEq)]
pub enum Clip {
    Inside,
    Half,
    Outside,
}

/// How the runs are drawn: DEF_TEXTURE's pattern, and whether it is transparent.
pub struct Fill {
    name: &'static str,
    pattern: u16,
    transparent: bool,
}

pub const FILLS: [Fill; 3] = [
    Fill { name: "solid", pattern: 0xFFFF, transparent: false },
    Fill { name: "hatched", pattern: 0xF0C3, transparent: false },
    Fill { name: "hatched, transparent", pattern: 0xF0C3, transparent: true },
];

/// One row of the table.
pub struct Case<'a> {
    pub depth: u32,
    pub length: u16,
    pub clip: Clip,
    pub fill: &'a Fill,
}

/// The times of a run, in nanoseconds.
pub struct Times {
    pub proved: f64,
    pub peer: f64,
    pub memset: Option<f64>,
    pub pixman: Option<f64>,
}

impl Case<'_> {
    fn pane(&self) -> Pane {
        Pane { width: 4096, height: 512, depth: self.depth, store: 65536 }
    }

    /// SCAN_LINES again and again.
    fn list(&self) -> List {
        let edge = match self.clip {
            Clip::Inside => 0,
            Clip::Half => COLUMN + self.length / 2,
            Clip::Outside => 4088,
        };
        let start = if self.clip == Clip::Outside { i16::MIN } else { COLUMN as i16 };
        let texture = Commands::new().def_texture(self.fill.pattern, self.fill.transparent);
        List {
            first: texture.def_clip([edge, 0, 4095, 511]),
            again: Commands::new().abs_mov(start, ROW as i16).scan_lines(0x4000, RUNS),
            data: vec![(0x4000, [0, 1, self.length - 1].repeat(RUNS as usize))],
        }
    }

    /// The bytes of the visible pixels of each run.
    fn areas(&self) -> Vec<Area> {
        let bits = self.depth as usize;
        let first = COLUMN as usize + if self.clip == Clip::Half { self.length as usize / 2 } else { 0 };
        let end = COLUMN as usize + self.length as usize;
        let (from, to) = (first * bits / 8, (end * bits).div_ceil(8));
        (1..=RUNS as usize).map(|y| Area { x: from, y: ROW as usize + y, width: to - from, height: 1 }).collect()
    }

    fn memset(&self) -> Contestant<'static> {
        let (stride, areas) = (self.pane().stride(), self.areas());
        let mut screen = vec![0u8; self.pane().screen()];
        Box::new(move |times| {
            for k in 0..times {
                for area in &areas {
                    let at = area.y * stride + area.x;
                    screen[at..at + area.width].fill(black_box(k as u8));
                }
            }
            black_box(&mut screen);
        })
    }

    /// The best times, after a check that all draw the same.
    pub fn times(&self) -> Times {
        let (pane, list) = (self.pane(), self.list());
        check("runs", &list, &pane, self.clip != Clip::Outside);
        let mut contestants = vec![passes(&list, &pane, Runner::Proved), passes(&list, &pane, Runner::Peer)];
        if self.clip != Clip::Outside {
            contestants.push(self.memset());
            if self.depth == 8 && self.fill.pattern == 0xFFFF {
                contestants.extend(filling(pane.screen(), pane.stride(), self.areas()));
            }
        }
        let times: Vec<f64> = best_times(contestants).into_iter().map(|time| time / f64::from(RUNS)).collect();
        Times { proved: times[0], peer: times[1], memset: times.get(2).copied(), pixman: times.get(3).copied() }
    }
}

/// One line of the table.
fn print(case: &Case) {
    let Times { proved, peer, memset, pixman } = case.times();
    let (depth, length, fill) = (case.depth, case.length, case.fill.name);
    let part = match case.clip {
        Clip::Inside => "inside",
        Clip::Half => "half outside",
        Clip::Outside => "all outside",
    };
    let (to_memset, to_peer) = (ratio(proved, memset), ratio(proved, Some(peer)));
    let (proved, peer, memset, pixman) = (cell(proved), cell(peer), cell_if(memset), cell_if(pixman));
    println!(
        "| {part}, {length} pixels | {depth} | {fill} | {proved} | {peer} | {memset} | {pixman} | {to_memset} \
         | {to_peer} |"
    );
}

pub fn print_table() {
    println!(
        "| run | depth | drawn | proved, ns a run | C peer, ns a run | memset, ns a run | pixman, ns a run \
         | proved / memset | proved / peer |"
    );
    println!("|---|---|---|---|---|---|---|---|---|");
    for depth in [1, 4, 8] {
        for fill in &FILLS {
            for (length, clip) in [(4000, Clip::Inside), (4000, Clip::Half), (31, Clip::Inside), (31, Clip::Half)] {
                print(&Case { depth, length, clip, fill });
            }
        }
        for length in [1, 31, 4000, 32767] {
            print(&Case { depth, length, clip: Clip::Outside, fill: &FILLS[1] });
        }
    }
}
