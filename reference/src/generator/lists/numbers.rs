//! The numbers in a command's words: addresses, coordinates, colours.

use crate::bitmaps::PANE_ADDRESS;
use crate::generator::dice::Dice;

/// Far coordinates.
pub const FAR: [i64; 7] = [-32768, 32767, -32767, 32766, 16384, -20000, 5000];

/// The two words of the address that means the pane, no reserved bit set.
pub const PANE_WORDS: [i64; 2] = [(PANE_ADDRESS & 0xFFFF) as i64, (PANE_ADDRESS >> 16) as i64];

/// The lower and upper word of an address; one in eight upper words has
/// reserved bits set.
pub fn split(dice: &mut Dice, address: u32) -> [i64; 2] {
    let reserved = if dice.chance(12) {
        i64::from(dice.word() & 0xFFC0)
    } else {
        0
    };
    [
        i64::from(address & 0xFFFF),
        i64::from(address >> 16) | reserved,
    ]
}

/// The same number in every pixel of a word.
pub fn repeated(value: u16, bits: u16) -> u16 {
    let mut word = 0;
    for place in (0..16).step_by(usize::from(bits)) {
        word |= (value & ((1u32 << bits) - 1) as u16) << place;
    }
    word
}

/// A coordinate, mostly near a bitmap of this size.
pub fn near(dice: &mut Dice, size: i64) -> i64 {
    match dice.weighted(&[66, 25, 6, 3]) {
        0 => dice.between(0, size - 1),
        1 => dice.between(-3, size + 2),
        2 => dice.between(-2 * size - 5, 2 * size + 5),
        _ => dice.pick(&FAR),
    }
}

/// An offset, mostly within the size.
pub fn offset(dice: &mut Dice, size: i64) -> i64 {
    match dice.weighted(&[62, 28, 6, 4]) {
        0 => dice.between(-size / 2, size / 2),
        1 => dice.between(-size, size),
        2 => dice.between(-400, 400),
        _ => dice.pick(&FAR),
    }
}
