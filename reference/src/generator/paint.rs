//! Which wrong rules for the pixels of a run a random script tells from the
//! right one.

use crate::bitmaps::{Bitmap, Clip};
use crate::calls::lend;
use crate::decode::{decode, Command, Decoded};
use crate::pixels::Pane;
use crate::record::PaneRecord;
use crate::script::Session;
use crate::step::{step, Outcome};
use std::collections::BTreeSet;

/// The runs of a script.
#[derive(Default)]
pub struct Paint {
    /// The wrong rules by which some run would report another number.
    pub told: BTreeSet<&'static str>,
    /// The pixels that each pane's runs have drawn since its start.
    pub since_start: [u64; 8],
}

/// A run under way. Its commands are also done on copies by other rules, until
/// the script tells each of these.
pub struct Watch<'a> {
    paint: &'a mut Paint,
    pane: usize,
    pixels: u64,
    last: u64,
    /// The bits of screen and stores that were drawn on.
    drawn: Vec<u8>,
}

impl Watch<'_> {
    pub fn new(paint: &mut Paint, pane: usize) -> Watch<'_> {
        Watch {
            paint,
            pane,
            pixels: 0,
            last: 0,
            drawn: Vec::new(),
        }
    }

    /// What became of one command, with the state before it.
    pub fn command(&mut self, before: &Session, outcome: Outcome) {
        match outcome {
            Outcome::Done { command, pixels } => {
                self.pixels += pixels;
                self.last = pixels;
                if is_drawing(command) {
                    self.drawing(before, command, pixels);
                }
            }
            Outcome::Faulted(_) => {
                let (pane, pixels) = (self.pane, self.pixels);
                self.tell("nothing counted if the run faults", || pixels > 0);
                self.tell("a drawing that faults counted as one pixel", || {
                    command_at(before, pane).is_some_and(is_drawing)
                });
            }
            Outcome::Ended => {}
        }
    }

    /// The run's end.
    pub fn end(mut self) {
        let (last, pixels) = (self.last, self.pixels);
        self.tell("the last command's count alone", || last != pixels);
        let earlier = self.paint.since_start[self.pane];
        self.tell("runs counted on until the next start", || earlier > 0);
        self.paint.since_start[self.pane] += pixels;
    }

    /// Notes a rule by which the run would report another number. What was noted
    /// is not looked into again.
    fn tell(&mut self, rule: &'static str, differs: impl FnOnce() -> bool) {
        if !self.paint.told.contains(rule) && differs() {
            self.paint.told.insert(rule);
        }
    }

    /// A drawing command that was done, and what else might be counted of it.
    fn drawing(&mut self, before: &Session, command: Command, pixels: u64) {
        let pane = self.pane;
        let record = record_of(before, pane);
        if record.pick_mode {
            self.tell("pick mode counted", || {
                pixels_if(before, pane, |record| record.pick_mode = false) > 0
            });
            return;
        }
        self.tell("pixels of a bitmap in the store not counted", || {
            matches!(record.bitmap, Bitmap::Store { .. }) && pixels > 0
        });
        self.tell("pixels outside the clip counted", || {
            pixels_if(before, pane, unclip) > pixels
        });
        self.tell("0s under transparency counted", || {
            let opaque = match command {
                Command::Char { address, count, .. } => {
                    on_copy(before, pane, |pane| pane.draw_string(false, address, count)).0
                }
                _ => pixels_if(before, pane, |record| record.transparent = false),
            };
            opaque > pixels
        });
        if let Command::Line { dx, dy } = command {
            self.tell("LINE's pixels outside the bitmap counted", || {
                let inside = pixels_if(before, pane, |record| {
                    unclip(record);
                    record.transparent = false;
                });
                u64::from(dx.unsigned_abs().max(dy.unsigned_abs())) + 1 > inside
            });
        }
        self.tell("pixels that keep their value not counted", || {
            let old = [&before.screen[..], &before.stores].concat();
            let new = bytes_if(before, pane, |_| ());
            // If there are fewer changed bits than pixels, some pixel is as before.
            ones(&different(&old, &new)) < pixels
        });

        let twice_in_run = "places that a run draws twice counted once";
        let twice_in_command = "places that a command draws twice counted once";
        if [twice_in_run, twice_in_command]
            .iter()
            .all(|rule| self.paint.told.contains(rule))
        {
            return;
        }
        let drawn = drawn_bits(before, pane);
        let twice = ones(&drawn) < pixels * u64::from(record.bitmap.bits());
        self.tell(twice_in_command, || twice);
        self.drawn.resize(drawn.len(), 0);
        let mut both = self.drawn.iter().zip(&drawn);
        let again = both.any(|(earlier, now)| earlier & now != 0);
        self.tell(twice_in_run, || twice || again);
        for (earlier, now) in self.drawn.iter_mut().zip(&drawn) {
            *earlier |= now;
        }
    }
}

pub fn is_drawing(command: Command) -> bool {
    matches!(
        command,
        Command::Point { .. }
            | Command::Line { .. }
            | Command::Rect { .. }
            | Command::Circle { .. }
            | Command::Polyline { .. }
            | Command::ScanLines { .. }
            | Command::BitBlt { .. }
            | Command::BitBltM { .. }
            | Command::Char { .. }
    )
}

/// The command that stands at the pointer.
pub fn command_at(before: &Session, pane: usize) -> Option<Command> {
    let decoded = on_copy(before, pane, |pane| decode(pane.store, pane.record.pointer));
    match decoded.0 {
        Decoded::Command(command, _) => Some(command),
        _ => None,
    }
}

/// The clip becomes the whole bitmap. On a copy the scissor may be left: nothing
/// is drawn by it.
pub fn unclip(record: &mut PaneRecord) {
    record.clip = Clip::whole(&record.bitmap);
}

pub fn record_of(session: &Session, pane: usize) -> PaneRecord {
    let console = session.console.as_ref();
    console.map_or(PaneRecord::fresh(), |console| console.panes[pane].clone())
}

/// Uses a pane on a copy. Answers what comes of it, and the bytes of screen and
/// stores.
fn on_copy<T>(before: &Session, pane: usize, usage: impl FnOnce(&mut Pane) -> T) -> (T, Vec<u8>) {
    let mut copy = before.clone();
    let console = copy.console.as_mut().expect("a run needs a console");
    let found = usage(&mut lend(console, &mut copy.screen, &mut copy.stores, pane));
    (found, [copy.screen, copy.stores].concat())
}

/// The next command done on a copy whose record was changed first.
fn step_if(
    before: &Session,
    pane: usize,
    change: impl FnOnce(&mut PaneRecord),
) -> (Outcome, Vec<u8>) {
    on_copy(before, pane, |pane| {
        change(pane.record);
        step(pane)
    })
}

/// How many pixels the command then draws.
pub fn pixels_if(before: &Session, pane: usize, change: impl FnOnce(&mut PaneRecord)) -> u64 {
    match step_if(before, pane, change).0 {
        Outcome::Done { pixels, .. } => pixels,
        _ => 0,
    }
}

/// The bytes of screen and stores that the command then leaves.
fn bytes_if(before: &Session, pane: usize, change: impl FnOnce(&mut PaneRecord)) -> Vec<u8> {
    step_if(before, pane, change).1
}

/// The bits of screen and stores that the command draws on: where it draws 0 and
/// where it draws 1 the bytes differ, and nowhere else.
fn drawn_bits(before: &Session, pane: usize) -> Vec<u8> {
    let replaced = |code: u32| {
        bytes_if(before, pane, |record| {
            (record.mask, record.operation) = (0xFFFF, code);
        })
    };
    different(&replaced(0x0), &replaced(0xF))
}

/// The bits that differ.
fn different(left: &[u8], right: &[u8]) -> Vec<u8> {
    left.iter().zip(right).map(|(a, b)| a ^ b).collect()
}

fn ones(bytes: &[u8]) -> u64 {
    bytes.iter().map(|byte| u64::from(byte.count_ones())).sum()
}
