//! One command: decoded, checked, done.

use crate::bitmaps::{Bitmap, Clip};
use crate::circles::circle_pixels;
use crate::decode::{decode, Command, Decoded};
use crate::faults::Scene;
use crate::lines::{line_pixels, outline_pixels, polyline_pixels, Segment};
use crate::pixels::Pane;
use crate::record::{Font, PaneRecord, ENDED, FAULTED};
use crate::table::Row;
use crate::words::word_at;
use crate::Fault;

/// What became of one command.
#[derive(Clone, Copy, Debug, PartialEq, Eq)]
pub enum Outcome {
    /// It was done and counts one; it drew so many pixels.
    Done { command: Command, pixels: u64 },
    /// An end word stood there.
    Ended,
    /// It was not done.
    Faulted(Fault),
}

/// Does what stands at the pointer. "Otherwise the command is done, counts
/// one, and the pointer goes on. A fault sets status 3 and its number; nothing
/// else changes, nothing is counted."
pub fn step(pane: &mut Pane) -> Outcome {
    let (command, next) = match decode(pane.store, pane.record.pointer) {
        // "Makes status 2; the pointer stays and nothing is counted."
        Decoded::End => {
            pane.record.status = ENDED;
            return Outcome::Ended;
        }
        Decoded::Fault(fault) => return faulted(pane, fault),
        Decoded::Command(command, next) => (command, next),
    };
    // "All is checked before the first pixel."
    let scene = Scene {
        frame: &pane.frame,
        record: pane.record,
        store: pane.store,
    };
    if let Err(fault) = scene.check(command) {
        return faulted(pane, fault);
    }
    let pixels = draw(pane, command);
    pane.record.pointer = settle(&pane.frame.row, pane.record, command, next);
    Outcome::Done { command, pixels }
}

fn faulted(pane: &mut Pane, fault: Fault) -> Outcome {
    pane.record.status = FAULTED;
    pane.record.fault = fault.0;
    Outcome::Faulted(fault)
}

/// What a command that draws nothing makes of the record of the pane with this
/// row; a drawing command does that where it draws. The command was checked.
/// Answers where the pointer goes; next is the address of the word after the
/// command.
pub fn settle(row: &Row, record: &mut PaneRecord, command: Command, next: u32) -> u32 {
    match command {
        // "LINK sets the pointer."
        Command::Link { target } => return target,
        // "CALL keeps the next address, eight at most."
        Command::Call { target } => {
            let kept = record.return_count;
            if let Some(slot) = record.returns.get_mut(kept as usize) {
                *slot = next;
                record.return_count = kept + 1;
            }
            return target;
        }
        // "RETURN takes the latest back."
        Command::Return => {
            record.return_count = record.return_count.saturating_sub(1);
            return std::mem::take(&mut record.returns[record.return_count as usize]);
        }
        Command::AbsMov { x, y } => {
            record.x = x;
            record.y = y;
        }
        Command::RelMov { dx, dy } => record.move_by(i64::from(dx), i64::from(dy)),
        // "It sets the clip to the whole bitmap."
        Command::DefBitmap {
            address,
            xmax,
            ymax,
            bits,
        } => {
            let bitmap = Bitmap::named(address, xmax, ymax, bits);
            record.set_limits(row, bitmap, Clip::whole(&bitmap));
        }
        Command::DefClipRect {
            xmin,
            ymin,
            xmax,
            ymax,
        } => {
            let clip = Clip {
                xmin,
                ymin,
                xmax,
                ymax,
            };
            record.set_limits(row, record.bitmap, clip);
        }
        Command::DefColors {
            foreground,
            background,
        } => {
            record.foreground = foreground;
            record.background = background;
        }
        // "The low four bits of the code count."
        Command::DefLogicalOp { mask, code } => {
            record.mask = mask;
            record.operation = u32::from(code & 0xF);
        }
        Command::DefTexture {
            transparent,
            pattern,
        } => {
            record.transparent = transparent;
            record.pattern = pattern;
        }
        Command::DefSpace { spacing } => record.spacing = spacing,
        Command::DefCharOrient { path, rotation } => {
            record.path = path;
            record.rotation = rotation;
        }
        Command::DefCharSet { byte_mode, base } => record.font = Some(Font { base, byte_mode }),
        // "ENTER_PICK clears it; EXIT_PICK keeps it."
        Command::EnterPick => {
            record.pick_mode = true;
            record.pick_flag = false;
        }
        Command::ExitPick => record.pick_mode = false,
        Command::Nop
        | Command::Point { .. }
        | Command::Line { .. }
        | Command::Rect { .. }
        | Command::Circle { .. }
        | Command::Polyline { .. }
        | Command::ScanLines { .. }
        | Command::BitBlt { .. }
        | Command::BitBltM { .. }
        | Command::Char { .. } => {}
    }
    next
}

/// Draws what a drawing command draws, and leaves position and flags as it
/// does; any other command draws nothing. The command was checked. "Each drawing
/// routine reports its own count" of pixels, "a pixel drawn twice counting
/// twice" (02, A.5).
fn draw(pane: &mut Pane, command: Command) -> u64 {
    match command {
        // "POINT moves by (dx,dy) and draws one pixel, pattern index 0."
        Command::Point { dx, dy } => {
            pane.record.move_by(i64::from(dx), i64::from(dy));
            let position = pane.record.position();
            pane.draw_patterned(std::iter::once(position))
        }
        Command::Line { dx, dy } => line(pane, i64::from(dx), i64::from(dy)),
        // "The position stays."
        Command::Rect { dx, dy } => {
            let (x, y) = pane.record.position();
            pane.draw_patterned(outline_pixels(x, y, i64::from(dx), i64::from(dy)))
        }
        // "CIRCLE … centred on the position, with the position unchanged."
        Command::Circle { radius } => {
            let (x, y) = pane.record.position();
            pane.draw_plain(circle_pixels(x, y, i64::from(radius)))
        }
        Command::Polyline { address, count } => {
            let pairs = array(pane, address, count);
            polyline(pane, &pairs)
        }
        // "SCAN_LINES: each triple dx, dy, length moves by (dx,dy) and draws a
        // horizontal LINE by length; the position stays at that line's start."
        // And it "still restarts at each run" (02, A.4).
        Command::ScanLines { address, count } => {
            let mut drawn = 0;
            for [dx, dy, length] in array(pane, address, count) {
                pane.record.move_by(dx, dy);
                let (x, y) = pane.record.position();
                drawn += pane.draw_patterned(line_pixels(x, y, length, 0));
            }
            drawn
        }
        Command::BitBlt { block } => {
            let active = pane.record.bitmap;
            pane.copy(&active, block)
        }
        // "BIT_BLT_M does so from the bitmap it names, at the active depth."
        Command::BitBltM {
            address,
            xmax,
            ymax,
            block,
        } => {
            let bits = pane.record.bitmap.bits();
            pane.copy(&Bitmap::named(address, xmax, ymax, bits), block)
        }
        Command::Char {
            transparent,
            address,
            count,
        } => pane.draw_string(transparent, address, count),
        _ => 0,
    }
}

/// Draws a LINE. "The position ends at the far end."
fn line(pane: &mut Pane, dx: i64, dy: i64) -> u64 {
    let (x, y) = pane.record.position();
    pane.record.move_by(dx, dy);
    pane.draw_patterned(line_pixels(x, y, dx, dy))
}

/// Draws a POLYLINE: each segment starts at the position that the one before it
/// left, wrapped or not.
fn polyline(pane: &mut Pane, pairs: &[[i64; 2]]) -> u64 {
    let mut segments = Vec::new();
    for &[dx, dy] in pairs {
        let (x, y) = pane.record.position();
        segments.push(Segment { x, y, dx, dy });
        pane.record.move_by(dx, dy);
    }
    pane.draw_patterned(polyline_pixels(segments))
}

/// The array of a POLYLINE or SCAN_LINES: so many groups of signed words, all
/// read before the first pixel.
pub fn array<const GROUP: usize>(pane: &Pane, address: u32, count: u16) -> Vec<[i64; GROUP]> {
    let word = |k: usize| {
        let at = u64::from(address) + 2 * k as u64;
        i64::from(word_at(pane.store, at).unwrap_or(0) as i16)
    };
    (0..usize::from(count))
        .map(|group| std::array::from_fn(|k| word(GROUP * group + k)))
        .collect()
}
