//! BIT_BLT and BIT_BLT_M.

use super::numbers::split;
use super::{List, Plan};
use crate::bitmaps::PANE_ADDRESS;
use crate::generator::dice::Dice;
use crate::opcodes;

impl Plan {
    /// BIT_BLT, mostly to a place that overlaps its source.
    pub fn copy_within(&mut self, dice: &mut Dice, list: &mut List) {
        let (width, height, _) = self.size();
        let (sx, sy) = (dice.between(0, width - 1), dice.between(0, height - 1));
        let (dx, dy) = (
            dice.between(0, width - 1 - sx),
            dice.between(0, height - 1 - sy),
        );
        if dice.chance(65) {
            let place = [sx + dice.between(-3, 3), sy + dice.between(-2, 2)];
            list.add(dice, opcodes::ABS_MOV, &place);
        }
        list.add(dice, opcodes::BIT_BLT, &[sx, sy, dx, dy]);
    }

    /// BIT_BLT_M from the pane, a store bitmap, or any stretch of the store.
    pub fn copy_between(&mut self, dice: &mut Dice, list: &mut List) {
        let (width, height, bits) = self.size();
        if self.active.is_some() && bits == self.depth && dice.chance(50) {
            let (sx, sy) = (
                dice.between(0, self.width - 1),
                dice.between(0, self.height - 1),
            );
            let dx = dice.between(0, self.width - 1 - sx);
            let dy = dice.between(0, self.height - 1 - sy);
            let [lower, upper] = split(dice, PANE_ADDRESS);
            let last = [self.width - 1, self.height - 1];
            list.add(
                dice,
                opcodes::BIT_BLT_M,
                &[lower, upper, last[0], last[1], sx, sy, dx, dy],
            );
            return;
        }
        let bits = i64::from(bits);
        if self.active.is_some() && dice.chance(25) && self.copy_beside(dice, list) {
            return;
        }
        for _ in 0..8 {
            let columns = dice.between(1, width.max(4) + 6);
            let row_bytes = (columns * bits + 15) / 16 * 2;
            let most_rows = (i64::from(self.store_length) / row_bytes).min(height.max(2) + 3);
            if most_rows < 1 {
                continue;
            }
            let rows = dice.between(1, most_rows);
            let last_start = i64::from(self.store_length) - rows * row_bytes;
            let mut address = match dice.weighted(&[50, 50]) {
                0 => i64::from(dice.pick(&self.bitmaps).address).min(last_start),
                _ => dice.between(0, last_start),
            };
            address -= address % 2;
            let (mut sx, mut sy) = (dice.between(0, columns - 1), dice.between(0, rows - 1));
            if dice.chance(50) {
                (sx, sy) = (0, 0);
            }
            let dx = dice.between(0, columns - 1 - sx);
            let dy = dice.between(0, rows - 1 - sy);
            // The rows of the rectangle are clear of the active bitmap; now and
            // then other rows of its bitmap are not.
            let (from, long) = if dice.chance(50) {
                (address + sy * row_bytes, (dy + 1) * row_bytes)
            } else {
                (address, rows * row_bytes)
            };
            if self.clear_of_active(from, long) {
                let [lower, upper] = split(dice, address as u32);
                list.add(
                    dice,
                    opcodes::BIT_BLT_M,
                    &[lower, upper, columns - 1, rows - 1, sx, sy, dx, dy],
                );
                return;
            }
        }
        list.add(dice, opcodes::NOP, &[]);
    }

    /// BIT_BLT_M from one row that takes in the active bitmap: the rectangle is
    /// in the words before or after it.
    pub fn copy_beside(&mut self, dice: &mut Dice, list: &mut List) -> bool {
        let Some(spot) = self.active else {
            return false;
        };
        let before = dice.between(0, 2).min(i64::from(spot.address) / 2);
        let room_after = i64::from(self.store_length.saturating_sub(spot.end())) / 2;
        let after = dice.between(0, 2).min(room_after);
        let own = i64::from(spot.length()) / 2;
        let per_word = 16 / i64::from(spot.bits);
        let columns = (before + own + after) * per_word;
        let (first, last) = if before > 0 && (after == 0 || dice.chance(50)) {
            (0, before * per_word - 1)
        } else if after > 0 {
            ((before + own) * per_word, columns - 1)
        } else {
            return false;
        };
        let sx = dice.between(first, last);
        let dx = if dice.chance(50) {
            last - sx
        } else {
            dice.between(0, last - sx)
        };
        let [lower, upper] = split(dice, spot.address - 2 * before as u32);
        list.add(
            dice,
            opcodes::BIT_BLT_M,
            &[lower, upper, columns - 1, 0, sx, 0, dx, 0],
        );
        true
    }
}
