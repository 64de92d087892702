//! One pixel: where it lies, whether it is drawn, and what it becomes.

use crate::bitmaps::Bitmap;
use crate::record::PaneRecord;
use crate::table::{Geometry, Row};
use crate::words::{bytes_in_rows, place_of_column, set_word, word_at};

/// What decides where a pane's pixels lie: the geometry and the pane's row.
#[derive(Clone, Copy, Debug)]
pub struct Frame {
    pub geometry: Geometry,
    pub row: Row,
}

/// What a run has in hand: the pane's frame and record, the whole screen, and
/// the pane's part of the stores.
pub struct Pane<'a> {
    pub frame: Frame,
    pub record: &'a mut PaneRecord,
    pub screen: &'a mut [u8],
    pub store: &'a mut [u8],
}

/// Where the word of a pixel lies, and which of its bits are the pixel's.
struct Spot {
    on_screen: bool,
    address: u64,
    shift: u32,
    bits: u32,
}

/// What is drawn on a pixel.
#[derive(Clone, Copy)]
pub enum Source {
    /// A colour word: "colours and mask are used at the bits where the pixel
    /// lies in its word".
    Colour(u16),
    /// A copied pixel's number.
    Copied(u16),
}

/// "The sixteen operations with their codes stand in section 2.10.14": one bit
/// from a source bit and an old bit (there "destination").
pub fn operate(code: u32, source: bool, old: bool) -> bool {
    match code & 0xF {
        0x0 => false,
        0x1 => source && old,
        0x2 => !source && old,
        0x3 => old,
        0x4 => source && !old,
        0x5 => source,
        0x6 => source ^ old,
        0x7 => source || old,
        0x8 => !source && !old,
        0x9 => !source ^ old,
        0xA => !source,
        0xB => !source || old,
        0xC => !old,
        0xD => source || !old,
        0xE => !source || !old,
        _ => true,
    }
}

/// "Each bit whose mask is 1 becomes the operation of source and old bit", here
/// among the chosen bits of a word; the others stay.
pub fn combine(code: u32, chosen: u16, mask: u16, source: u16, old: u16) -> u16 {
    let mut new = old;
    for place in 0..16 {
        let bit = 1u16 << place;
        if chosen & mask & bit != 0 {
            if operate(code, source & bit != 0, old & bit != 0) {
                new |= bit;
            } else {
                new &= !bit;
            }
        }
    }
    new
}

/// "Pixel i of a line, from 0, uses pattern bit 15 − (i mod 16)."
pub fn pattern_bit(pattern: u16, i: usize) -> bool {
    pattern >> (15 - i % 16) & 1 == 1
}

/// The b bits of a pixel at their shift in the word.
fn chosen_bits(bits: u32, shift: u32) -> u16 {
    (((1u32 << bits) - 1) << shift) as u16
}

impl Frame {
    /// Where the pixel of a bitmap lies. "Pixel (x,y) of a pane is screen
    /// pixel (left + x, top + y)."
    fn spot(&self, bitmap: &Bitmap, x: i64, y: i64) -> Option<Spot> {
        if !bitmap.holds(x, y) {
            return None;
        }
        let (x, y) = (x as u64, y as u64);
        let (on_screen, start, width, column, line, bits) = match *bitmap {
            Bitmap::None => return None,
            Bitmap::Pane { .. } => (
                true,
                0,
                u64::from(self.geometry.width),
                u64::from(self.row.left) + x,
                u64::from(self.row.top) + y,
                u64::from(self.geometry.depth),
            ),
            Bitmap::Store {
                address,
                xmax,
                bits,
                ..
            } => (
                false,
                u64::from(address),
                u64::from(xmax) + 1,
                x,
                y,
                u64::from(bits),
            ),
        };
        let place = place_of_column(column, bits);
        Some(Spot {
            on_screen,
            address: start + bytes_in_rows(width, line, bits) + 2 * place.word,
            shift: place.shift,
            bits: bits as u32,
        })
    }

    /// The number in a pixel of a bitmap. Outside it there is none.
    pub fn pixel(
        &self,
        screen: &[u8],
        store: &[u8],
        bitmap: &Bitmap,
        x: i64,
        y: i64,
    ) -> Option<u16> {
        let spot = self.spot(bitmap, x, y)?;
        let buffer = if spot.on_screen { screen } else { store };
        let word = word_at(buffer, spot.address)?;
        Some((word & chosen_bits(spot.bits, spot.shift)) >> spot.shift)
    }
}

impl Pane<'_> {
    /// The number in a pixel of a bitmap. Outside it there is none.
    pub fn pixel(&self, bitmap: &Bitmap, x: i64, y: i64) -> Option<u16> {
        self.frame.pixel(self.screen, self.store, bitmap, x, y)
    }

    /// Draws a source on a pixel of the active bitmap. "A pixel is drawn if it
    /// lies in bitmap and clip". "In pick mode no pixel changes; the pick flag
    /// becomes 1 if some pixel would have been drawn, whatever mask and
    /// operation."
    ///
    /// The limits are those of bitmap and clip, on the pane too. The proved
    /// console takes them there from the scissor alone (02, A.6): where the two
    /// reply the same, "replies and pixels are unaffected" by it.
    ///
    /// Answers how many pixels were drawn, one or none, "pick mode counting
    /// none" (02, A.5). One whose bits all stay, by mask or operation, is drawn.
    pub fn draw(&mut self, x: i64, y: i64, source: Source) -> u64 {
        let bitmap = self.record.bitmap;
        if !bitmap.holds(x, y) || !self.record.clip.holds(x, y) {
            return 0;
        }
        if self.record.pick_mode {
            self.record.pick_flag = true;
            return 0;
        }
        let Some(spot) = self.frame.spot(&bitmap, x, y) else {
            return 0;
        };
        let buffer: &mut [u8] = if spot.on_screen {
            self.screen
        } else {
            self.store
        };
        let Some(old) = word_at(buffer, spot.address) else {
            return 0;
        };
        let source = match source {
            Source::Colour(colour) => colour,
            Source::Copied(value) => value << spot.shift,
        };
        let chosen = chosen_bits(spot.bits, spot.shift);
        let new = combine(self.record.operation, chosen, self.record.mask, source, old);
        set_word(buffer, spot.address, new);
        1
    }

    /// "A pattern bit 1 gives foreground, 0 background if opaque, none if
    /// transparent." The bits of a character act so too. Answers how many pixels
    /// were drawn.
    pub fn draw_bit(&mut self, x: i64, y: i64, bit: bool, transparent: bool) -> u64 {
        if bit {
            self.draw(x, y, Source::Colour(self.record.foreground))
        } else if !transparent {
            self.draw(x, y, Source::Colour(self.record.background))
        } else {
            0
        }
    }

    /// Draws the pixels in their order, each with the pattern bit of its index,
    /// "clipped pixels counted". Answers how many were drawn.
    pub fn draw_patterned(&mut self, pixels: impl Iterator<Item = (i64, i64)>) -> u64 {
        let (pattern, transparent) = (self.record.pattern, self.record.transparent);
        pixels
            .enumerate()
            .map(|(i, (x, y))| self.draw_bit(x, y, pattern_bit(pattern, i), transparent))
            .sum()
    }

    /// Draws the pixels "in the foreground, without pattern". Answers how many
    /// were drawn.
    pub fn draw_plain(&mut self, pixels: impl Iterator<Item = (i64, i64)>) -> u64 {
        let source = Source::Colour(self.record.foreground);
        pixels.map(|(x, y)| self.draw(x, y, source)).sum()
    }
}
