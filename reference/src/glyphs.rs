//! Fonts and characters.

use crate::bitmaps::Bitmap;
use crate::pixels::Pane;
use crate::record::{Font, TRAPPED};
use crate::words::word_at;
use crate::Fault;

/// A character as its descriptor gives it.
#[derive(Clone, Debug, PartialEq, Eq)]
pub struct Glyph {
    pub width: i64,
    pub height: i64,
    /// The S bit: the position stays.
    pub still: bool,
    /// The T bit: the trap flag is set.
    pub trap: bool,
    pub rows: Vec<u16>,
}

impl Glyph {
    /// The bit of cell (i column, j row): "bit width−1 is leftmost".
    pub fn cell(&self, i: i64, j: i64) -> bool {
        let row = self.rows.get(j as usize).copied().unwrap_or(0);
        row >> (self.width - 1 - i) & 1 == 1
    }
}

/// Width, height, S and T in a descriptor's first word: "T in bit 15, S in bit
/// 14, height − 1 in bits 11 to 8, width − 1 in bits 3 to 0, the rest
/// ignored".
pub fn glyph_of(first: u16) -> Glyph {
    Glyph {
        width: i64::from(first & 0xF) + 1,
        height: i64::from(first >> 8 & 0xF) + 1,
        still: first >> 14 & 1 == 1,
        trap: first >> 15 & 1 == 1,
        rows: Vec::new(),
    }
}

/// "A selector v names the descriptor at base + 2v", and code c the word at
/// base + 2c. The sum does not wrap.
pub fn address_in_font(base: u32, value: u16) -> u64 {
    u64::from(base) + 2 * u64::from(value)
}

/// "Cell (i column, j row) falls at rotation 0, 90, 180, 270 on (x+i,y+j),
/// (x+j,y−i), (x−i,y−j), (x−j,y+i)."
pub fn cell_pixel(x: i64, y: i64, i: i64, j: i64, rotation: u32) -> (i64, i64) {
    match rotation & 3 {
        0 => (x + i, y + j),
        1 => (x + j, y - i),
        2 => (x - i, y - j),
        _ => (x - j, y + i),
    }
}

/// "The position moves along the path (0 +x, 90 −y, 180 −x, 270 +y) by spacing
/// plus the width, or the height where path and rotation differ by 90 or 270."
pub fn advance(path: u32, rotation: u32, spacing: i64, width: i64, height: i64) -> (i64, i64) {
    let differ = (path & 3).abs_diff(rotation & 3);
    let far = spacing
        + if differ == 1 || differ == 3 {
            height
        } else {
            width
        };
    match path & 3 {
        0 => (far, 0),
        1 => (0, -far),
        2 => (-far, 0),
        _ => (0, far),
    }
}

/// "25 an array, string, offset word or descriptor at an odd address (byte
/// strings may be odd), outside the store or touching the active bitmap (an
/// empty array or word string is checked for oddness alone, an empty byte
/// string for nothing)."
pub fn check_bytes(
    store: &[u8],
    active: &Bitmap,
    address: u64,
    length: u64,
    may_be_odd: bool,
) -> Result<(), Fault> {
    if !may_be_odd && address % 2 == 1 {
        return Err(Fault(25));
    }
    if length == 0 {
        return Ok(());
    }
    if address + length > store.len() as u64 || active.touches(address..address + length) {
        return Err(Fault(25));
    }
    Ok(())
}

/// The word at an address that the check for fault 25 lets through.
fn checked_word(store: &[u8], active: &Bitmap, address: u64) -> Result<u16, Fault> {
    check_bytes(store, active, address, 2, false)?;
    word_at(store, address).ok_or(Fault(25))
}

/// The descriptor at an address: its first word, then "one word a row".
fn checked_glyph(store: &[u8], active: &Bitmap, address: u64) -> Result<Glyph, Fault> {
    let mut glyph = glyph_of(checked_word(store, active, address)?);
    for j in 0..glyph.height as u64 {
        glyph
            .rows
            .push(checked_word(store, active, address + 2 + 2 * j)?);
    }
    Ok(glyph)
}

/// The glyphs of a string, all checked before one is drawn. "In word mode (0A
/// hex) a selector v names the descriptor at base + 2v; in byte mode (0B hex)
/// code c names the word at base + 2c, whose value v is used so."
pub fn string_glyphs(
    store: &[u8],
    active: &Bitmap,
    font: Font,
    address: u32,
    count: u16,
) -> Result<Vec<Glyph>, Fault> {
    let (start, count) = (u64::from(address), u64::from(count));
    let unit = if font.byte_mode { 1 } else { 2 };
    check_bytes(store, active, start, count * unit, font.byte_mode)?;
    let mut glyphs = Vec::new();
    for k in 0..count {
        let selector = if font.byte_mode {
            let code = store.get((start + k) as usize).copied().ok_or(Fault(25))?;
            checked_word(store, active, address_in_font(font.base, u16::from(code)))?
        } else {
            checked_word(store, active, start + 2 * k)?
        };
        glyphs.push(checked_glyph(
            store,
            active,
            address_in_font(font.base, selector),
        )?);
    }
    Ok(glyphs)
}

impl Pane<'_> {
    /// CHAR, whose string was checked: its glyphs, one after the other. "With the
    /// switch on, a CHAR that met a T is finished, counted, and leaves status 4"
    /// (02, A.7), whether or not a pixel was drawn. Answers how many were.
    pub fn draw_string(&mut self, transparent: bool, address: u32, count: u16) -> u64 {
        let Some(font) = self.record.font else {
            return 0;
        };
        let glyphs = string_glyphs(self.store, &self.record.bitmap, font, address, count);
        let glyphs = glyphs.unwrap_or_default();
        let mut drawn = 0;
        for glyph in &glyphs {
            drawn += self.draw_glyph(glyph, transparent);
        }
        if self.record.trap_switch && glyphs.iter().any(|glyph| glyph.trap) {
            self.record.status = TRAPPED;
        }
        drawn
    }

    /// Draws one character at the position and moves on. "Unless S, the
    /// position moves along the path"; "T sets the trap flag". Answers how many
    /// pixels were drawn.
    fn draw_glyph(&mut self, glyph: &Glyph, transparent: bool) -> u64 {
        let (x, y) = self.record.position();
        let mut drawn = 0;
        for j in 0..glyph.height {
            for i in 0..glyph.width {
                let (px, py) = cell_pixel(x, y, i, j, self.record.rotation);
                drawn += self.draw_bit(px, py, glyph.cell(i, j), transparent);
            }
        }
        if glyph.trap {
            self.record.trap_flag = true;
        }
        if !glyph.still {
            let spacing = i64::from(self.record.spacing);
            let (dx, dy) = advance(
                self.record.path,
                self.record.rotation,
                spacing,
                glyph.width,
                glyph.height,
            );
            self.record.move_by(dx, dy);
        }
        drawn
    }
}
