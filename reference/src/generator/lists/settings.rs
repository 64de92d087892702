//! The commands that draw nothing: where to draw, how, and what comes next.

use super::numbers::{near, offset, repeated, split, FAR};
use super::{List, Plan};
use crate::bitmaps::PANE_ADDRESS;
use crate::generator::data::Spot;
use crate::generator::dice::Dice;
use crate::opcodes;

impl Plan {
    pub fn define_pane(&mut self, dice: &mut Dice, list: &mut List) {
        let [lower, upper] = split(dice, PANE_ADDRESS);
        list.add(
            dice,
            opcodes::DEF_BITMAP,
            &[
                lower,
                upper,
                self.width - 1,
                self.height - 1,
                i64::from(self.depth),
            ],
        );
        self.active = None;
    }

    pub fn define_spot(&mut self, dice: &mut Dice, list: &mut List) {
        let spot = dice.pick(&self.bitmaps);
        self.define(dice, list, spot);
    }

    pub fn define(&mut self, dice: &mut Dice, list: &mut List, spot: Spot) {
        let [lower, upper] = split(dice, spot.address);
        let size = [
            lower,
            upper,
            i64::from(spot.xmax),
            i64::from(spot.ymax),
            i64::from(spot.bits),
        ];
        list.add(dice, opcodes::DEF_BITMAP, &size);
        self.active = Some(spot);
    }

    /// ABS_MOV or REL_MOV.
    pub fn travel(&mut self, dice: &mut Dice, list: &mut List) {
        let (width, height, _) = self.size();
        if dice.chance(55) {
            let place = [near(dice, width), near(dice, height)];
            list.add(dice, opcodes::ABS_MOV, &place);
        } else {
            let far = [offset(dice, width), offset(dice, height)];
            list.add(dice, opcodes::REL_MOV, &far);
        }
    }

    /// NOP, LINK, CALL.
    pub fn wander(&mut self, dice: &mut Dice, list: &mut List) {
        match dice.weighted(&[25, 30, 45]) {
            0 => list.add(dice, opcodes::NOP, &[]),
            1 if self.plain => list.add(dice, opcodes::NOP, &[]),
            1 => {
                let skipped = dice.between(0, 2) as u32;
                let [lower, upper] = split(dice, list.here() + 6 + 2 * skipped);
                list.add(dice, opcodes::LINK, &[lower, upper]);
                for _ in 0..skipped {
                    list.words.push(dice.word());
                }
            }
            _ => self.call(dice, list),
        }
    }

    pub fn call(&mut self, dice: &mut Dice, list: &mut List) {
        let target = match self.chain {
            Some(chain) if dice.chance(15) => chain,
            _ if self.routines.is_empty() => return,
            _ => dice.pick(&self.routines),
        };
        let [lower, upper] = split(dice, target);
        list.add(dice, opcodes::CALL, &[lower, upper]);
        // The routine may define another font.
        self.byte_mode = None;
    }

    pub fn colours(&mut self, dice: &mut Dice, list: &mut List) {
        let (_, _, bits) = self.size();
        let colour = |dice: &mut Dice| match dice.weighted(&[45, 35, 20]) {
            0 => dice.word(),
            1 => repeated(dice.word(), bits),
            _ => 0xFFFF,
        };
        let foreground = colour(dice);
        let background = if dice.chance(25) { 0 } else { colour(dice) };
        list.add(
            dice,
            opcodes::DEF_COLORS,
            &[i64::from(foreground), i64::from(background)],
        );
    }

    pub fn texture(&mut self, dice: &mut Dice, list: &mut List) {
        let opcode = dice.pick(&[
            opcodes::DEF_TEXTURE_OPAQUE,
            opcodes::DEF_TEXTURE_TRANSPARENT,
        ]);
        let pattern = match dice.weighted(&[25, 50, 15, 10]) {
            0 => 0xFFFF,
            1 => dice.word(),
            2 => dice.word() | dice.word() | 0x8000,
            _ => dice.pick(&[0x0001, 0x8000, 0x7FFF, 0xFF00, 0x0000]),
        };
        list.add(dice, opcode, &[i64::from(pattern)]);
    }

    /// A setting that lasts: colours, operation, texture, clip, spacing,
    /// orientation, font.
    pub fn settle(&mut self, dice: &mut Dice, list: &mut List) {
        let (_, _, bits) = self.size();
        match dice.weighted(&[24, 20, 18, 18, 7, 10, 8]) {
            0 => self.colours(dice, list),
            1 => {
                let mask = match dice.weighted(&[60, 20, 20]) {
                    0 => 0xFFFF,
                    1 => dice.word(),
                    _ => repeated(dice.word(), bits),
                };
                let code = match dice.weighted(&[30, 15, 8, 47]) {
                    0 => 5,
                    1 => 6,
                    2 => 7,
                    _ => dice.word() & 0xF,
                };
                let ignored = if dice.chance(20) {
                    dice.word() & 0xFFF0
                } else {
                    0
                };
                list.add(
                    dice,
                    opcodes::DEF_LOGICAL_OP,
                    &[i64::from(mask), i64::from(code | ignored)],
                );
            }
            2 => self.texture(dice, list),
            // Before any DEF_BITMAP this is fault 23.
            3 if dice.chance(18) => {
                let clip = self.empty_clip(dice);
                list.add(dice, opcodes::DEF_CLIP_RECT, &clip);
                if self.active.is_none() && dice.chance(50) {
                    self.copy_over_pane(dice, list);
                } else {
                    self.draw(dice, list);
                }
                if dice.chance(60) {
                    let clip = self.clip(dice);
                    list.add(dice, opcodes::DEF_CLIP_RECT, &clip);
                }
            }
            3 => {
                let clip = self.clip(dice);
                list.add(dice, opcodes::DEF_CLIP_RECT, &clip);
            }
            4 => {
                let spacing = match dice.weighted(&[80, 15, 5]) {
                    0 => dice.between(-2, 3),
                    1 => dice.between(-20, 20),
                    _ => dice.pick(&FAR),
                };
                list.add(dice, opcodes::DEF_SPACE, &[spacing]);
            }
            5 => {
                let ignored = if dice.chance(30) {
                    dice.word() & 0xFCFC
                } else {
                    0
                };
                let turn = (dice.between(0, 3) << 8) | dice.between(0, 3);
                list.add(dice, opcodes::DEF_CHAR_ORIENT, &[turn | i64::from(ignored)]);
            }
            _ => self.font(dice, list),
        }
    }

    /// The four words of a clip with a pixel in it.
    pub fn clip(&mut self, dice: &mut Dice) -> [i64; 4] {
        let (width, height, _) = self.size();
        let (one, two) = (dice.between(0, width - 1), dice.between(0, width - 1));
        let (three, four) = (dice.between(0, height - 1), dice.between(0, height - 1));
        match dice.weighted(&[24, 45, 23, 4, 4]) {
            0 => [0, 0, width - 1, height - 1],
            1 => [
                one / 2,
                three / 2,
                width - 1 - two / 3,
                height - 1 - four / 3,
            ],
            2 => [one.min(two), three.min(four), one.max(two), three.max(four)],
            // A column, a row.
            3 => [one, three / 2, one, height - 1 - four / 3],
            _ => [one / 2, three, width - 1 - two / 3, three],
        }
    }

    /// The four words of a clip with a maximum below its minimum, often just
    /// below it; only a bitmap of one pixel has none.
    pub fn empty_clip(&mut self, dice: &mut Dice) -> [i64; 4] {
        let (width, height, _) = self.size();
        let mut clip = self.clip(dice);
        // Columns or rows, whichever there are two of.
        let axis = usize::from(width < 2 || height > 1 && dice.chance(50));
        let size = [width, height][axis];
        let minimum = dice.between(1, (size - 1).max(1)).min(size - 1);
        let maximum = if dice.chance(50) {
            minimum - 1
        } else {
            dice.between(0, minimum - 1)
        };
        (clip[axis], clip[axis + 2]) = (minimum, maximum.max(0));
        clip
    }

    pub fn font(&mut self, dice: &mut Dice, list: &mut List) {
        let byte_mode = dice.chance(50);
        let [lower, upper] = split(dice, self.data.font_base);
        list.add(
            dice,
            if byte_mode {
                opcodes::DEF_CHAR_SET_BYTES
            } else {
                opcodes::DEF_CHAR_SET_WORDS
            },
            &[lower, upper],
        );
        self.byte_mode = Some(byte_mode);
    }
}
