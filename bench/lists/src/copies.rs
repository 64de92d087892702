//! Copies beside memmove over the same bytes, row by row in the same direction, and pixman's copy: from the store and
//! within the pane, with equal phase and shifted, replaced, exclusive-or and masked, overlapping, and clipped.

use crate::commands::{Commands, List};
use crate::consoles::{row_bytes, strewn_words, Pane, Runner};
use crate::contests::{best_times, cell, cell_if, check, passes, ratio, Contestant};
use crate::pixman::{copying, Area};
use std::hint::black_box;

const WIDTH: u32 = 4096;
const HEIGHT: u32 = 512;
/// The bitmap in the store: its address, columns and rows.
const SOURCE: u32 = 0x1_0000;
const COLUMNS: u32 = 4064;
const ROWS: u32 = 448;
/// The block's upper left corner, in the store and on the pane.
const CORNER: [u16; 2] = [19, 24];
/// How often a copy stands in the loop.
const COPIES: u32 = 3;
const REPLACE: u16 = 5;
const EXCLUSIVE_OR: u16 = 6;

/// Where a copy's target lies: inside the clip, its left half outside, or all outside.
#[derive(Clone, Copy, PartialEq)]
enum Clip {
    Inside,
    Half,
    Outside,
}

/// One row of the table, but for depth and size.
pub struct Kind {
    pub name: &'static str,
    /// Within the pane, by BIT_BLT; else from the store, by BIT_BLT_M.
    within: bool,
    /// How far the block moves, in columns and rows.
    moved: [i16; 2],
    mask: u16,
    operation: u16,
    clip: Clip,
}

const fn from_store(name: &'static str, columns: i16) -> Kind {
    Kind { name, within: false, moved: [columns, 3], mask: 0xFFFF, operation: REPLACE, clip: Clip::Inside }
}

const fn within(name: &'static str, moved: [i16; 2]) -> Kind {
    Kind { name, within: true, moved, mask: 0xFFFF, operation: REPLACE, clip: Clip::Inside }
}

pub const EQUAL: Kind = from_store("from the store, equal phase", 16);
pub const SHIFTED: Kind = from_store("from the store, shifted by 5 pixels", 5);

const KINDS: [Kind; 16] = [
    EQUAL,
    SHIFTED,
    from_store("from the store, shifted by 1 pixel", 1),
    Kind { operation: EXCLUSIVE_OR, ..from_store("exclusive-or, equal phase", 16) },
    Kind { operation: EXCLUSIVE_OR, ..from_store("exclusive-or, shifted by 5 pixels", 5) },
    Kind { mask: 0xF0C3, ..from_store("masked, equal phase", 16) },
    Kind { mask: 0xF0C3, ..from_store("masked, shifted by 5 pixels", 5) },
    within("overlapping, right by 16 and down", [16, 3]),
    within("overlapping, right by 5 and down", [5, 3]),
    within("overlapping, left by 16 and up", [-16, -3]),
    within("overlapping, left by 5 and up", [-5, -3]),
    within("same rows, right by 16", [16, 0]),
    within("same rows, right by 5", [5, 0]),
    Kind { clip: Clip::Half, ..from_store("half outside, equal phase", 16) },
    Kind { clip: Clip::Half, ..from_store("half outside, shifted by 5 pixels", 5) },
    Kind { clip: Clip::Outside, ..from_store("all outside", 5) },
];

/// A kind of copy at a depth, of so many columns and rows.
pub struct Case<'a> {
    pub kind: &'a Kind,
    pub depth: u32,
    pub size: [u16; 2],
}

/// The times of a row, in nanoseconds.
pub struct Times {
    pub proved: f64,
    pub peer: f64,
    pub memmove: Option<f64>,
    pub pixman: Option<f64>,
}

/// The bytes in which the visible pixels of a row lie, from the row's first byte on.
struct Bytes {
    source: usize,
    target: usize,
    count: usize,
}

impl Case<'_> {
    fn pane(&self) -> Pane {
        Pane { width: WIDTH, height: HEIGHT, depth: self.depth, store: 0x20_0000 }
    }

    fn target(&self) -> [u16; 2] {
        std::array::from_fn(|k| CORNER[k].wrapping_add_signed(self.kind.moved[k]))
    }

    /// Those of the block's columns that are visible begin with this one.
    fn first_visible(&self) -> u16 {
        if self.kind.clip == Clip::Half { self.size[0] / 2 } else { 0 }
    }

    fn list(&self) -> List {
        let [x, y] = self.target();
        let clip = match self.kind.clip {
            Clip::Outside => [WIDTH as u16 - 8, 0],
            _ if self.first_visible() > 0 => [x + self.first_visible(), 0],
            _ => [0, 0],
        };
        let block = [CORNER[0], CORNER[1], self.size[0] - 1, self.size[1] - 1];
        let copy = Commands::new().abs_mov(x as i16, y as i16);
        let copy = match self.kind.within {
            true => copy.bit_blt(block),
            false => copy.bit_blt_m(SOURCE, [COLUMNS as u16 - 1, ROWS as u16 - 1], block),
        };
        let source = row_bytes(COLUMNS, self.depth) / 2 * ROWS as usize;
        List {
            first: Commands::new()
                .def_logical_op(self.kind.mask, self.kind.operation)
                .def_clip([clip[0], clip[1], WIDTH as u16 - 1, HEIGHT as u16 - 1]),
            again: copy.times(COPIES as usize),
            data: vec![(SOURCE as usize, strewn_words(source + 1)[1..].to_vec())],
        }
    }

    fn bytes(&self) -> Bytes {
        let bits = usize::from(self.depth as u16);
        let first = usize::from(self.first_visible());
        let (from, to) = (usize::from(CORNER[0]) + first, usize::from(self.target()[0]) + first);
        let end = usize::from(self.target()[0] + self.size[0]);
        let target = to * bits / 8;
        Bytes { source: from * bits / 8, target, count: (end * bits).div_ceil(8) - target }
    }

    /// The same bytes moved row by row, in the order that reads before it writes.
    fn memmove(&self) -> Contestant<'static> {
        let (stride, Bytes { source, target, count }) = (self.pane().stride(), self.bytes());
        let source_stride = if self.kind.within { stride } else { row_bytes(COLUMNS, self.depth) };
        let (from, to, rows) = (usize::from(CORNER[1]), usize::from(self.target()[1]), usize::from(self.size[1]));
        let (within, upward) = (self.kind.within, self.kind.moved[1] > 0);
        let mut screen = vec![1u8; self.pane().screen()];
        let store = vec![2u8; source_stride * ROWS as usize];
        Box::new(move |times| {
            for _ in 0..times {
                for k in 0..rows {
                    let row = if upward { rows - 1 - k } else { k };
                    let (here, there) = ((from + row) * source_stride + source, (to + row) * stride + target);
                    if within {
                        screen.copy_within(here..here + count, there);
                    } else {
                        screen[there..there + count].copy_from_slice(&store[here..here + count]);
                    }
                }
                black_box(&mut screen);
            }
        })
    }

    /// pixman copies bytes between two bitmaps: no operation or mask, and no overlap.
    fn pixman(&self) -> Option<Contestant<'static>> {
        let Kind { within, mask, operation, .. } = *self.kind;
        if self.depth != 8 || within || mask != 0xFFFF || operation != REPLACE {
            return None;
        }
        let Bytes { source, target, count } = self.bytes();
        let area = Area { x: target, y: self.target()[1].into(), width: count, height: self.size[1].into() };
        let strides = [row_bytes(COLUMNS, self.depth), self.pane().stride()];
        copying(self.pane().screen(), strides, [source, CORNER[1].into()], area)
    }

    /// The best times, after a check that all draw the same.
    pub fn times(&self) -> Times {
        let (pane, list, name) = (self.pane(), self.list(), self.kind.name);
        let visible = self.kind.clip != Clip::Outside;
        check(name, &list, &pane, visible);
        let mut contestants = vec![passes(&list, &pane, Runner::Proved), passes(&list, &pane, Runner::Peer)];
        if visible {
            contestants.push(self.memmove());
            contestants.extend(self.pixman());
        }
        let times = best_times(contestants);
        let rows = f64::from(self.size[1]);
        let pass = rows * f64::from(COPIES);
        let [memmove, pixman] = [2, 3].map(|k| times.get(k).map(|time| time / rows));
        Times { proved: times[0] / pass, peer: times[1] / pass, memmove, pixman }
    }
}

pub fn print_table() {
    println!(
        "| copy | size | depth | proved, ns a row | C peer, ns a row | memmove, ns a row | pixman, ns a row \
         | proved / memmove | proved / peer |"
    );
    println!("|---|---|---|---|---|---|---|---|---|");
    for depth in [1, 4, 8] {
        for size in [[4000, 400], [31, 20]] {
            for kind in &KINDS {
                let Times { proved, peer, memmove, pixman } = Case { kind, depth, size }.times();
                let ([width, height], name) = (size, kind.name);
                let (to_memmove, to_peer) = (ratio(proved, memmove), ratio(proved, Some(peer)));
                let (proved, peer, memmove, pixman) = (cell(proved), cell(peer), cell_if(memmove), cell_if(pixman));
                println!(
                    "| {name} | {width} × {height} | {depth} | {proved} | {peer} | {memmove} | {pixman} \
                     | {to_memmove} | {to_peer} |"
                );
            }
        }
    }
}
