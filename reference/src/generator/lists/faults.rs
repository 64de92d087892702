//! Commands that fault.

use super::drawings::CHARS;
use super::numbers::{split, PANE_WORDS};
use super::{List, Plan};
use crate::bitmaps::PANE_ADDRESS;
use crate::decode::is_known;
use crate::generator::data::Spot;
use crate::generator::dice::Dice;
use crate::opcodes;

/// Opcodes that the paper leaves out; most of them are the chip's.
const UNKNOWN: [u16; 9] = [0x00, 0x0E, 0x29, 0x34, 0x68, 0x69, 0x73, 0xB4, 0xD4];

/// Commands that end a store too early if their last words are missing.
const CUT_SHORT: [&[u16]; 5] = [
    &[opcodes::LINK << 8, 0, 0],
    &[opcodes::CALL << 8, 0, 0],
    &[
        opcodes::DEF_BITMAP << 8,
        0,
        (PANE_ADDRESS >> 16) as u16,
        0,
        0,
        1,
    ],
    &[opcodes::DEF_BITMAP << 8, 0, 0, 0, 0, 1],
    &[opcodes::CIRCLE << 8, 1],
];

/// The first words of a command, too few of them, for the end of a store.
pub fn cut_short(dice: &mut Dice) -> Vec<u16> {
    let whole = dice.pick(&CUT_SHORT);
    let count = dice.between(1, whole.len() as i64 - 1) as usize;
    whole[..count].to_vec()
}

impl Plan {
    /// A command that faults with the number.
    pub fn fault(&mut self, dice: &mut Dice, list: &mut List, number: u32) {
        let (width, height, bits) = self.size();
        let length = self.store_length;
        match number {
            20 => {
                let mut opcode = dice.word() & 0xFF;
                while is_known(opcode) {
                    opcode = dice.word() & 0xFF;
                }
                if dice.chance(30) {
                    opcode = dice.pick(&UNKNOWN);
                }
                list.add(dice, opcode, &[]);
            }
            21 => {
                let target = match dice.weighted(&[25, 15, 20, 40]) {
                    0 => list.start | 1,
                    1 => length,
                    2 => dice.pick(&[length + 2, 0x1_0000, 0x3F_FFFE, PANE_ADDRESS]),
                    _ => length.saturating_sub(2),
                };
                let [lower, upper] = split(dice, target);
                let opcode = dice.pick(&[opcodes::LINK, opcodes::LINK, opcodes::CALL]);
                list.add(dice, opcode, &[lower, upper]);
            }
            22 if dice.chance(70) => {
                self.maybe_clip(dice, list);
                let spot = self.broken_spot(dice);
                let [lower, upper] = split(dice, spot.0);
                list.add(
                    dice,
                    opcodes::DEF_BITMAP,
                    &[lower, upper, spot.1, spot.2, spot.3],
                );
            }
            22 => {
                let other = self
                    .bitmaps
                    .iter()
                    .copied()
                    .find(|spot| spot.bits != self.depth);
                if let (Some(spot), true) = (other, dice.chance(60)) {
                    // From the pane at another depth.
                    self.define(dice, list, spot);
                    list.add(
                        dice,
                        opcodes::BIT_BLT_M,
                        &[
                            PANE_WORDS[0],
                            PANE_WORDS[1],
                            self.width - 1,
                            self.height - 1,
                            0,
                            0,
                            0,
                            0,
                        ],
                    );
                    return;
                }
                let mut spot = self.broken_spot(dice);
                if spot.3 != i64::from(bits) {
                    // BIT_BLT_M has no word for the bits: break the address.
                    spot.0 |= 1;
                }
                let [lower, upper] = split(dice, spot.0);
                // 22 comes before 29.
                let dx = dice.pick(&[0, 0, -1, 32767]);
                list.add(
                    dice,
                    opcodes::BIT_BLT_M,
                    &[lower, upper, spot.1, spot.2, 0, 0, dx, 0],
                );
            }
            24 => {
                self.maybe_clip(dice, list);
                let mut clip = self.clip(dice);
                let corner = dice.between(0, 3) as usize;
                let size = [width, height][corner % 2];
                clip[corner] = dice.pick(&[size, size + 1, -1, 32767, -32768]);
                list.add(dice, opcodes::DEF_CLIP_RECT, &clip);
            }
            25 => self.fault_25(dice, list),
            26 => {
                let [lower, upper] = split(dice, list.here());
                if dice.chance(50) {
                    let [lower, upper] = split(dice, list.here());
                    list.add(dice, opcodes::POINT, &[1, 0]);
                    list.add(dice, opcodes::CALL, &[lower, upper]);
                } else {
                    list.add(dice, opcodes::CALL, &[lower, upper]);
                }
            }
            27 => list.add(dice, opcodes::RETURN, &[]),
            29 => self.fault_29(dice, list),
            30 => {
                let radius = match dice.weighted(&[50, 30, 20]) {
                    0 => dice.between(-width - 1, -1),
                    1 => dice.pick(&[-1, -32768, -32767]),
                    _ => dice.between(-32768, -1),
                };
                list.add(dice, opcodes::CIRCLE, &[radius]);
            }
            // 23 and 28 need a fresh record; here a drawing command.
            _ => self.draw(dice, list),
        }
    }

    /// Half the time a clip, which the fault that follows must leave as it is.
    pub fn maybe_clip(&mut self, dice: &mut Dice, list: &mut List) {
        if dice.chance(50) {
            let clip = self.clip(dice);
            list.add(dice, opcodes::DEF_CLIP_RECT, &clip);
        }
    }

    /// Address, xmax, ymax and bits of a bitmap that breaks the rule.
    pub fn broken_spot(&mut self, dice: &mut Dice) -> (u32, i64, i64, i64) {
        let (width, height, depth) = (self.width, self.height, i64::from(self.depth));
        let spot = dice.pick(&self.bitmaps);
        let (xmax, ymax, bits) = (
            i64::from(spot.xmax),
            i64::from(spot.ymax),
            i64::from(spot.bits),
        );
        match dice.weighted(&[10, 10, 8, 12, 10, 10, 10, 20, 10]) {
            0 => (PANE_ADDRESS, width, height - 1, depth),
            1 => (PANE_ADDRESS, width - 1, height - 2, depth),
            2 => (
                PANE_ADDRESS,
                width - 1,
                height - 1,
                dice.pick(&[0, 3, 16, depth * 2]),
            ),
            3 => (spot.address | 1, xmax, ymax, bits),
            4 => (
                spot.address,
                xmax,
                ymax,
                dice.pick(&[0, 3, 5, 7, 9, 16, 0x101]),
            ),
            5 => {
                let address = if self.store_length > 4200 {
                    0
                } else {
                    spot.address
                };
                (address, dice.pick(&[0x8000, 0xFFFF]), 0, 1)
            }
            6 => (spot.address, 0, dice.pick(&[0x8000, 0xFFFF]), 1),
            // One row, or one word, too many at the store's end.
            7 => (
                (self.store_length + 2).saturating_sub(spot.length()),
                xmax,
                ymax,
                bits,
            ),
            _ => (self.store_length, 0, 0, 1),
        }
    }

    pub fn fault_25(&mut self, dice: &mut Dice, list: &mut List) {
        let length = self.store_length;
        let array = dice.pick(&self.data.pairs);
        let (opcode, size) = dice.pick(&[(opcodes::POLYLINE, 4), (opcodes::SCAN_LINES, 6)]);
        match dice.weighted(&[10, 8, 14, 8, 20, 25, 15]) {
            0 => {
                let [lower, upper] = split(dice, self.data.font_base | 1);
                let opcode = dice.pick(&[opcodes::DEF_CHAR_SET_WORDS, opcodes::DEF_CHAR_SET_BYTES]);
                list.add(dice, opcode, &[lower, upper]);
            }
            1 => {
                let [lower, upper] = split(dice, array.address | 1);
                let count = dice.between(0, 1);
                list.add(dice, opcode, &[lower, upper, count]);
            }
            2 => {
                // An array with its last word past the store's end.
                let [lower, upper] = split(dice, length + 2 - size);
                list.add(dice, opcode, &[lower, upper, 1]);
            }
            3 => {
                let [lower, upper] = split(dice, array.address);
                let count = dice.pick(&[65535, 32768, 16384, 10000]);
                list.add(dice, opcode, &[lower, upper, count]);
            }
            4 => {
                // An array that touches the active bitmap.
                let spot = dice.pick(&self.bitmaps);
                self.define(dice, list, spot);
                let (first, last) = (i64::from(spot.address), i64::from(spot.end()));
                let address = match dice.weighted(&[40, 40, 20]) {
                    0 => first + 2 - i64::from(size),
                    1 => last - 2,
                    _ => dice.between(first / 2, last / 2 - 1) * 2,
                };
                let [lower, upper] = split(dice, address.max(0) as u32);
                list.add(dice, opcode, &[lower, upper, 1]);
            }
            5 => {
                // A string with a bad character after good ones.
                self.font(dice, list);
                let byte_mode = self.byte_mode == Some(true);
                let strings = if byte_mode {
                    &self.data.bad_byte_strings
                } else {
                    &self.data.bad_word_strings
                };
                let string = dice.pick(strings);
                let (mut address, mut count) = (string.address, i64::from(string.count));
                match dice.weighted(&[70, 15, 15]) {
                    0 => {}
                    1 if !byte_mode => {
                        address |= 1;
                        count = dice.between(0, 1);
                    }
                    _ => address = length - 2 * count as u32 + 2,
                }
                let opcode = dice.pick(&CHARS);
                let [lower, upper] = split(dice, address);
                list.add(dice, opcode, &[lower, upper, count]);
            }
            _ => {
                // A bitmap over a good string, the offset table or the glyphs.
                self.font(dice, list);
                let byte_mode = self.byte_mode == Some(true);
                let strings = if byte_mode {
                    &self.data.byte_strings
                } else {
                    &self.data.word_strings
                };
                let string = dice.pick(strings);
                let over = dice.pick(&[
                    string.address & !1,
                    string.offset,
                    string.last_row,
                    string.last_row,
                ]);
                let spot = Spot {
                    address: over,
                    xmax: dice.between(0, 15) as u16,
                    ymax: 0,
                    bits: 1,
                };
                self.define(dice, list, spot);
                let [lower, upper] = split(dice, string.address);
                list.add(
                    dice,
                    opcodes::CHAR_OPAQUE,
                    &[lower, upper, i64::from(string.count)],
                );
                self.define_pane(dice, list);
            }
        }
    }

    pub fn fault_29(&mut self, dice: &mut Dice, list: &mut List) {
        let (width, height, _) = self.size();
        match dice.weighted(&[12, 12, 12, 8, 16, 40]) {
            0 => {
                let far = dice.pick(&[[-1, 0], [0, -1], [-3, 2], [-32768, 0]]);
                list.add(
                    dice,
                    opcodes::BIT_BLT,
                    &[width - 1, height - 1, far[0], far[1]],
                );
            }
            1 => {
                let far = dice.pick(&[[width, height - 1], [width - 1, height]]);
                list.add(dice, opcodes::BIT_BLT, &[0, 0, far[0], far[1]]);
            }
            2 => {
                let place = dice.pick(&[[-1, 0], [0, -1], [width, 0], [0, height]]);
                list.add(dice, opcodes::BIT_BLT, &[place[0], place[1], 0, 0]);
            }
            3 => {
                // Pane to pane.
                self.define_pane(dice, list);
                let last = [self.width - 1, self.height - 1];
                list.add(
                    dice,
                    opcodes::BIT_BLT_M,
                    &[PANE_WORDS[0], PANE_WORDS[1], last[0], last[1], 0, 0, 0, 0],
                );
            }
            4 => {
                // A source outside its bitmap of 4 by 1 pixels.
                let [lower, upper] = split(dice, 0);
                let block = dice.pick(&[
                    [4, 0, 0, 0],
                    [0, 1, 0, 0],
                    [3, 0, 1, 0],
                    [0, 0, 0, 1],
                    [0, 0, -1, 0],
                    [0, 0, 0, -1],
                    [-1, 0, 1, 0],
                    [0, -1, 0, 1],
                ]);
                let [sx, sy, dx, dy] = block;
                list.add(
                    dice,
                    opcodes::BIT_BLT_M,
                    &[lower, upper, 3, 0, sx, sy, dx, dy],
                );
            }
            _ => {
                // A source that shares one word with the active bitmap.
                if self.active.is_none() {
                    self.define_spot(dice, list);
                }
                let Some(spot) = self.active else { return };
                let columns = 16 / i64::from(spot.bits) * 2;
                let (address, sx) = if spot.address >= 2 && dice.chance(50) {
                    (spot.address - 2, columns - 1)
                } else {
                    (spot.end() - 2, 0)
                };
                let last = if address + 4 <= self.store_length {
                    columns
                } else {
                    columns / 2
                };
                let [lower, upper] = split(dice, address);
                list.add(
                    dice,
                    opcodes::BIT_BLT_M,
                    &[lower, upper, last - 1, 0, sx.min(last - 1), 0, 0, 0],
                );
            }
        }
    }
}
