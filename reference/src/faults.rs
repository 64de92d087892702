//! A command's own faults: "in the order written within a command", and "all is
//! checked before the first pixel".

use crate::bitmaps::{Bitmap, Clip};
use crate::decode::Command;
use crate::glyphs::{check_bytes, string_glyphs};
use crate::pixels::Frame;
use crate::record::{PaneRecord, MOST_RETURNS};
use crate::Fault;

/// What a command's fault depends on: where the pane lies, its record and its
/// store. No pixel of the screen is among it.
pub struct Scene<'a> {
    pub frame: &'a Frame,
    pub record: &'a PaneRecord,
    pub store: &'a [u8],
}

impl Scene<'_> {
    /// The first fault of a command that was decoded, if it has one.
    pub fn check(&self, command: Command) -> Result<(), Fault> {
        let active = self.record.bitmap;
        match command {
            Command::Nop
            | Command::Link { .. }
            | Command::AbsMov { .. }
            | Command::RelMov { .. }
            | Command::DefColors { .. }
            | Command::DefLogicalOp { .. }
            | Command::DefTexture { .. }
            | Command::DefSpace { .. }
            | Command::DefCharOrient { .. }
            | Command::EnterPick
            | Command::ExitPick => Ok(()),
            // "CALL: 26 eight kept."
            Command::Call { .. } => need(self.record.return_count < MOST_RETURNS, 26),
            // "RETURN: 27 none kept."
            Command::Return => need(self.record.return_count > 0, 27),
            // "DEF_BITMAP: 22 rule broken."
            Command::DefBitmap {
                address,
                xmax,
                ymax,
                bits,
            } => self.need_rule(&Bitmap::named(address, xmax, ymax, bits)),
            // "DEF_CLIP_RECT: 23 no bitmap, 24 outside it."
            Command::DefClipRect {
                xmin,
                ymin,
                xmax,
                ymax,
            } => {
                self.need_bitmap()?;
                let clip = Clip {
                    xmin,
                    ymin,
                    xmax,
                    ymax,
                };
                need(clip.lies_in(&active), 24)
            }
            // "DEF_CHAR_SET: 25 odd base."
            Command::DefCharSet { base, .. } => need(base % 2 == 0, 25),
            Command::Point { .. } | Command::Line { .. } | Command::Rect { .. } => {
                self.need_bitmap()
            }
            // "A negative radius is fault 30, after 23."
            Command::Circle { radius } => {
                self.need_bitmap()?;
                need(radius >= 0, 30)
            }
            Command::Polyline { address, count } => {
                self.need_bitmap()?;
                self.need_array(address, count, 2)
            }
            Command::ScanLines { address, count } => {
                self.need_bitmap()?;
                self.need_array(address, count, 3)
            }
            Command::BitBlt { block } => {
                self.need_bitmap()?;
                block.check_in(&active)
            }
            // "BIT_BLT_M 22", then 29.
            Command::BitBltM {
                address,
                xmax,
                ymax,
                block,
            } => {
                self.need_bitmap()?;
                let source = Bitmap::named(address, xmax, ymax, active.bits());
                self.need_rule(&source)?;
                block.check_in(&source)?;
                block.check_apart(&source, &active)
            }
            // "CHAR 28 no font", then 25.
            Command::Char { address, count, .. } => {
                self.need_bitmap()?;
                let font = self.record.font.ok_or(Fault(28))?;
                string_glyphs(self.store, &active, font, address, count).map(|_| ())
            }
        }
    }

    /// "Drawing commands: 23": no bitmap.
    fn need_bitmap(&self) -> Result<(), Fault> {
        need(self.record.bitmap != Bitmap::None, 23)
    }

    /// 22: DEF_BITMAP's rule is broken.
    fn need_rule(&self, bitmap: &Bitmap) -> Result<(), Fault> {
        let kept = bitmap.keeps_rule(&self.frame.row, self.frame.geometry.depth);
        need(kept, 22)
    }

    /// 25: the array of a POLYLINE or SCAN_LINES, so many groups of words.
    fn need_array(&self, address: u32, count: u16, group: u64) -> Result<(), Fault> {
        let length = 2 * group * u64::from(count);
        let active = &self.record.bitmap;
        check_bytes(self.store, active, u64::from(address), length, false)
    }
}

/// The fault with this number where something isn't so.
fn need(so: bool, number: u32) -> Result<(), Fault> {
    if so {
        Ok(())
    } else {
        Err(Fault(number))
    }
}
