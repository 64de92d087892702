//! What a pane's store holds besides lists: a font, strings, arrays, bitmaps.

use super::dice::Dice;
use crate::words::bytes_in_rows;

/// A stretch of the store with so many characters, pairs or triples. For a
/// string, `offset` is where the offset word of its first character stands and
/// `last_row` where the last word of that character's glyph does.
#[derive(Clone, Copy, Default)]
pub struct Stretch {
    pub address: u32,
    pub count: u16,
    pub offset: u32,
    pub last_row: u32,
}

/// A glyph: its selector and the address of its last word.
#[derive(Clone, Copy)]
struct Glyph {
    selector: u16,
    last_row: u32,
}

/// A bitmap in the store.
#[derive(Clone, Copy, PartialEq)]
pub struct Spot {
    pub address: u32,
    pub xmax: u16,
    pub ymax: u16,
    pub bits: u16,
}

impl Spot {
    /// How many bytes it takes.
    pub fn length(&self) -> u32 {
        bytes_in_rows(
            u64::from(self.xmax) + 1,
            u64::from(self.ymax) + 1,
            u64::from(self.bits),
        ) as u32
    }

    /// The address after it.
    pub fn end(&self) -> u32 {
        self.address + self.length()
    }
}

/// The data of one store. The bytes are put from address `start` on.
pub struct Data {
    pub start: u32,
    pub bytes: Vec<u8>,
    pub font_base: u32,
    pub word_strings: Vec<Stretch>,
    pub byte_strings: Vec<Stretch>,
    pub bad_word_strings: Vec<Stretch>,
    pub bad_byte_strings: Vec<Stretch>,
    pub pairs: Vec<Stretch>,
    pub far_pairs: Stretch,
    pub triples: Vec<Stretch>,
}

impl Data {
    /// Makes the data for a pane of this size. Some glyphs have a T; where T's
    /// matter, mostly one has and one has not.
    pub fn make(dice: &mut Dice, start: u32, width: i64, height: i64, traps: bool) -> Data {
        let mut data = Data {
            start,
            bytes: Vec::new(),
            font_base: start,
            word_strings: Vec::new(),
            byte_strings: Vec::new(),
            bad_word_strings: Vec::new(),
            bad_byte_strings: Vec::new(),
            pairs: Vec::new(),
            far_pairs: Stretch::default(),
            triples: Vec::new(),
        };
        let glyphs = data.add_font(dice, traps);
        data.add_strings(dice, &glyphs);
        for _ in 0..dice.between(1, 2) {
            let pairs = some_pairs(dice, width, height);
            let pairs = data.add_array(&pairs);
            data.pairs.push(pairs);
            let triples = some_triples(dice, width, height);
            let triples = data.add_array(&triples);
            data.triples.push(triples);
        }
        data.far_pairs = data.add_array(&far_pairs(dice, width, height));
        data.even();
        data
    }

    fn here(&self) -> u32 {
        self.start + self.bytes.len() as u32
    }

    fn add_word(&mut self, word: u16) {
        self.bytes.extend(word.to_le_bytes());
    }

    fn even(&mut self) {
        if self.bytes.len() % 2 == 1 {
            self.bytes.push(0);
        }
    }

    /// The offset table at the font's base, its last word a bad one, and then
    /// the glyphs.
    fn add_font(&mut self, dice: &mut Dice, traps: bool) -> Vec<Glyph> {
        let count = dice.between(2, 4) as u16;
        let mut glyphs: Vec<Vec<u16>> = Vec::new();
        for _ in 0..count {
            let large = dice.chance(4);
            let width = if large {
                dice.between(9, 16)
            } else {
                dice.between(1, 7)
            } as u16;
            let height = if large {
                dice.between(6, 16)
            } else {
                dice.between(1, 5)
            } as u16;
            let mut first = (height - 1) << 8 | (width - 1);
            if dice.chance(12) {
                first |= 0x8000;
            }
            if dice.chance(15) {
                first |= 0x4000;
            }
            if dice.chance(30) {
                first |= dice.word() & 0x30F0;
            }
            let mut words = vec![first];
            for _ in 0..height {
                let row = dice.word();
                let ignored = if dice.chance(40) {
                    0xFFFF
                } else {
                    0xFFFF >> (16 - width)
                };
                words.push(row & ignored);
            }
            glyphs.push(words);
        }
        if traps && dice.chance(85) {
            let index = dice.between(0, i64::from(count) - 2) as usize;
            glyphs[index][0] |= 0x8000;
            glyphs[index + 1][0] &= 0x7FFF;
        }
        let mut found = Vec::new();
        let mut offset = count + 1;
        for glyph in &glyphs {
            let selector = offset;
            offset += glyph.len() as u16;
            let last_row = self.font_base + 2 * u32::from(offset) - 2;
            found.push(Glyph { selector, last_row });
            self.add_word(selector);
        }
        self.add_word(dice.pick(&[0xFFFF, 0x7FFF, 0x8000, 0x4000]));
        for word in glyphs.concat() {
            self.add_word(word);
        }
        found
    }

    /// Strings of words and of bytes, good and bad. A bad one has good
    /// characters before the bad one.
    fn add_strings(&mut self, dice: &mut Dice, glyphs: &[Glyph]) {
        for round in 0..3 {
            let bad = round == 2;
            self.even();
            let address = self.here();
            let count = dice.between(1, 3) as u16;
            let first = dice.pick(glyphs);
            self.add_word(first.selector);
            for _ in 1..count {
                self.add_word(dice.pick(glyphs).selector);
            }
            let mut string = Stretch {
                address,
                count,
                offset: address,
                last_row: first.last_row,
            };
            if bad {
                self.add_word(dice.pick(&[0xFFFF, 0x7FFF, 0x2000]));
                string.count += 1;
                self.bad_word_strings.push(string);
            } else {
                self.word_strings.push(string);
            }
        }
        for round in 0..3 {
            let bad = round == 2;
            if dice.chance(50) {
                self.bytes.push(dice.next() as u8);
            }
            let address = self.here();
            let count = dice.between(1, 3) as u16;
            let last_code = glyphs.len() as i64 - 1;
            let first = dice.between(0, last_code);
            self.bytes.push(first as u8);
            for _ in 1..count {
                self.bytes.push(dice.between(0, last_code) as u8);
            }
            let mut string = Stretch {
                address,
                count,
                offset: self.font_base + 2 * first as u32,
                last_row: glyphs[first as usize].last_row,
            };
            if bad {
                // The bad offset word, or an offset word far away.
                self.bytes
                    .push(dice.pick(&[glyphs.len() as u8, glyphs.len() as u8, 255]));
                string.count += 1;
                self.bad_byte_strings.push(string);
            } else {
                self.byte_strings.push(string);
            }
        }
        self.even();
    }

    /// An array of pairs or triples.
    fn add_array<const GROUP: usize>(&mut self, groups: &[[i64; GROUP]]) -> Stretch {
        let address = self.here();
        for value in groups.iter().flatten() {
            self.add_word(*value as u16);
        }
        Stretch {
            address,
            count: groups.len() as u16,
            ..Stretch::default()
        }
    }
}

/// An offset, mostly small.
fn offset(dice: &mut Dice, size: i64) -> i64 {
    match dice.weighted(&[80, 14, 4, 2]) {
        0 => dice.between(-size / 2, size / 2),
        1 => dice.between(-size, size),
        2 => dice.between(-300, 300),
        _ => dice.pick(&[-32768, 32767, -32767, 20000]),
    }
}

fn some_triples(dice: &mut Dice, width: i64, height: i64) -> Vec<[i64; 3]> {
    (0..dice.between(1, 4))
        .map(|_| [width, height, width].map(|size| offset(dice, size)))
        .collect()
}

/// Pairs, some of them (0,0). Half the time a last one leads back to the start.
fn some_pairs(dice: &mut Dice, width: i64, height: i64) -> Vec<[i64; 2]> {
    let mut pairs = Vec::new();
    let (mut x, mut y) = (0, 0);
    for _ in 0..dice.between(1, 4) {
        let pair = if dice.chance(15) {
            [0, 0]
        } else {
            [width, height].map(|size| offset(dice, size))
        };
        (x, y) = (x + pair[0], y + pair[1]);
        pairs.push(pair);
    }
    if dice.chance(50) {
        pairs.push([-x, -y]);
    }
    pairs
}

/// Two pairs that lead around all positions to one near the start, and a third
/// from there.
fn far_pairs(dice: &mut Dice, width: i64, height: i64) -> Vec<[i64; 2]> {
    let across = dice.chance(50);
    let size = if across { width } else { height };
    let back = dice.between(0, size / 2);
    let around = dice.pick(&[[-32768, back - 32768], [32767, 32767]]);
    let mut pairs = around
        .map(|far| if across { [far, 0] } else { [0, far] })
        .to_vec();
    pairs.push([width, height].map(|size| offset(dice, size)));
    pairs
}
