//! Bitmaps, the rule for them, the clip, and the scissor.

use crate::table::Row;
use crate::words::bytes_in_rows;
use std::ops::Range;

/// "Address 200000 hex means the pane."
pub const PANE_ADDRESS: u32 = 0x20_0000;

/// The active bitmap of a pane record, with what DEF_BITMAP gave.
#[derive(Clone, Copy, Debug, PartialEq, Eq)]
pub enum Bitmap {
    /// No bitmap has been defined.
    None,
    /// The pane itself: pixels on the screen.
    Pane { xmax: u16, ymax: u16, bits: u16 },
    /// A bitmap in the store, from the address on.
    Store {
        address: u32,
        xmax: u16,
        ymax: u16,
        bits: u16,
    },
}

impl Bitmap {
    /// The bitmap that an address and three words name.
    pub fn named(address: u32, xmax: u16, ymax: u16, bits: u16) -> Bitmap {
        if address == PANE_ADDRESS {
            Bitmap::Pane { xmax, ymax, bits }
        } else {
            Bitmap::Store {
                address,
                xmax,
                ymax,
                bits,
            }
        }
    }

    /// DEF_BITMAP's rule. For the pane "xmax + 1, ymax + 1 and bits per pixel
    /// equal the pane's width, height and b. Any other bitmap has an even
    /// address, xmax and ymax up to 7FFF hex, 1, 2, 4 or 8 bits, rows as
    /// above, all inside the store." No bitmap breaks no rule.
    pub fn keeps_rule(&self, row: &Row, depth: u32) -> bool {
        match *self {
            Bitmap::None => true,
            Bitmap::Pane { xmax, ymax, bits } => {
                u64::from(xmax) + 1 == u64::from(row.width)
                    && u64::from(ymax) + 1 == u64::from(row.height)
                    && u32::from(bits) == depth
            }
            Bitmap::Store {
                address,
                xmax,
                ymax,
                bits,
            } => {
                address % 2 == 0
                    && xmax <= 0x7FFF
                    && ymax <= 0x7FFF
                    && matches!(bits, 1 | 2 | 4 | 8)
                    && self.bytes().end <= u64::from(row.store_length)
            }
        }
    }

    /// The last column and the last row. A bitmap that is none has no pixel.
    pub fn last(&self) -> (i64, i64) {
        match *self {
            Bitmap::None => (-1, -1),
            Bitmap::Pane { xmax, ymax, .. } | Bitmap::Store { xmax, ymax, .. } => {
                (i64::from(xmax), i64::from(ymax))
            }
        }
    }

    /// Bits per pixel.
    pub fn bits(&self) -> u16 {
        match *self {
            Bitmap::None => 0,
            Bitmap::Pane { bits, .. } | Bitmap::Store { bits, .. } => bits,
        }
    }

    /// Whether the bitmap has this pixel.
    pub fn holds(&self, x: i64, y: i64) -> bool {
        let (last_x, last_y) = self.last();
        0 <= x && x <= last_x && 0 <= y && y <= last_y
    }

    /// The bytes of the store that the bitmap's rows take, padding included.
    /// The pane takes none: it lies on the screen.
    pub fn bytes(&self) -> Range<u64> {
        match *self {
            Bitmap::Store {
                address,
                xmax,
                ymax,
                bits,
            } => {
                let start = u64::from(address);
                let width = u64::from(xmax) + 1;
                let height = u64::from(ymax) + 1;
                start..start + bytes_in_rows(width, height, u64::from(bits))
            }
            _ => 0..0,
        }
    }

    /// Whether these bytes of the store share one with the bitmap.
    pub fn touches(&self, bytes: Range<u64>) -> bool {
        let own = self.bytes();
        bytes.start.max(own.start) < bytes.end.min(own.end)
    }
}

/// The clip: a rectangle in the active bitmap, both corners in. "A maximum
/// below its minimum is allowed and nothing is drawn."
#[derive(Clone, Copy, Debug, PartialEq, Eq, Default)]
pub struct Clip {
    pub xmin: i16,
    pub ymin: i16,
    pub xmax: i16,
    pub ymax: i16,
}

impl Clip {
    /// DEF_BITMAP "sets the clip to the whole bitmap".
    pub fn whole(bitmap: &Bitmap) -> Clip {
        let (last_x, last_y) = bitmap.last();
        Clip {
            xmin: 0,
            ymin: 0,
            xmax: i16::try_from(last_x).unwrap_or(0),
            ymax: i16::try_from(last_y).unwrap_or(0),
        }
    }

    /// Whether the pixel lies in the clip.
    pub fn holds(&self, x: i64, y: i64) -> bool {
        i64::from(self.xmin) <= x
            && x <= i64::from(self.xmax)
            && i64::from(self.ymin) <= y
            && y <= i64::from(self.ymax)
    }

    /// "The four values lie in the bitmap." Each is judged by itself.
    pub fn lies_in(&self, bitmap: &Bitmap) -> bool {
        let (last_x, last_y) = bitmap.last();
        let inside = |value: i16, last: i64| 0 <= i64::from(value) && i64::from(value) <= last;
        inside(self.xmin, last_x)
            && inside(self.xmax, last_x)
            && inside(self.ymin, last_y)
            && inside(self.ymax, last_y)
    }
}

/// The scissor: "the rectangle in screen coordinates where drawing can land",
/// "kept as left, top, width and height, four zeros when empty" (02, A.6).
#[derive(Clone, Copy, Debug, PartialEq, Eq, Default)]
pub struct Scissor {
    pub left: u32,
    pub top: u32,
    pub width: u32,
    pub height: u32,
}

impl Scissor {
    /// "What would be computed afresh" of the pane's row, the active bitmap and
    /// the clip: "clip within pane, empty if the active bitmap is in the store or
    /// absent".
    pub fn of(row: &Row, bitmap: &Bitmap, clip: &Clip) -> Scissor {
        let Bitmap::Pane { .. } = bitmap else {
            return Scissor::default();
        };
        let (first_column, width) = clipped(clip.xmin, clip.xmax, row.width);
        let (first_row, height) = clipped(clip.ymin, clip.ymax, row.height);
        if width == 0 || height == 0 {
            return Scissor::default();
        }
        Scissor {
            left: row.left + first_column,
            top: row.top + first_row,
            width,
            height,
        }
    }
}

/// Of so many columns or rows, those from a minimum to a maximum: which is the
/// first, and how many there are.
fn clipped(minimum: i16, maximum: i16, size: u32) -> (u32, u32) {
    let first = i64::from(minimum).max(0);
    let end = (i64::from(maximum) + 1).min(i64::from(size));
    (first as u32, (end - first).max(0) as u32)
}
