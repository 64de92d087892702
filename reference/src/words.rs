//! Words, rows of words, and where a column lies in them.

/// "A word is 16 bits, low byte first." The word at a byte address, or nothing
/// if one of its two bytes is outside.
pub fn word_at(bytes: &[u8], address: u64) -> Option<u16> {
    let low = usize::try_from(address).ok()?;
    let high = low.checked_add(1)?;
    Some(u16::from_le_bytes([*bytes.get(low)?, *bytes.get(high)?]))
}

/// Writes the word at a byte address. Outside the bytes nothing is written.
pub fn set_word(bytes: &mut [u8], address: u64, word: u16) {
    let Ok(low) = usize::try_from(address) else {
        return;
    };
    let [first, second] = word.to_le_bytes();
    if let Some(pair) = low.checked_add(2).and_then(|end| bytes.get_mut(low..end)) {
        pair[0] = first;
        pair[1] = second;
    }
}

/// "A row takes ceil(width × b / 16) words."
pub fn words_in_row(width: u64, bits: u64) -> u64 {
    (width * bits).div_ceil(16)
}

/// The bytes that so many rows take.
pub fn bytes_in_rows(width: u64, height: u64, bits: u64) -> u64 {
    2 * words_in_row(width, bits) * height
}

/// Where a pixel lies: the word of its row, and how far its bits are shifted
/// to the left in that word.
#[derive(Clone, Copy, Debug, PartialEq, Eq)]
pub struct Place {
    pub word: u64,
    pub shift: u32,
}

/// "Column c lies in word floor(c × b / 16) of its row, shifted left by
/// 16 − b − (c × b mod 16)." The bits are 1, 2, 4 or 8.
pub fn place_of_column(column: u64, bits: u64) -> Place {
    Place {
        word: column * bits / 16,
        shift: (16 - bits - (column * bits) % 16) as u32,
    }
}

/// "Addresses have 22 bits": the lower word, then the low six bits of the
/// upper one; the other bits of the upper word are reserved and ignored.
pub fn address_of(lower: u16, upper: u16) -> u32 {
    u32::from(lower) | (u32::from(upper & 0x3F) << 16)
}
