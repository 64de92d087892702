//! The drawing commands, but for copies.

use super::numbers::{near, offset, split};
use super::{List, Plan};
use crate::generator::data::{Spot, Stretch};
use crate::generator::dice::Dice;
use crate::opcodes;

/// CHAR's opcodes.
pub const CHARS: [u16; 4] = [
    opcodes::CHAR_OPAQUE,
    opcodes::CHAR_TRANSPARENT,
    opcodes::CHAR_REVERSE_OPAQUE,
    opcodes::CHAR_REVERSE_TRANSPARENT,
];

/// What is drawn over words of a list: first words of commands, and end words.
const DRAWN_WORDS: [i64; 5] = [
    (opcodes::REL_MOV << 8) as i64,
    (opcodes::NOP << 8) as i64,
    (opcodes::POINT << 8 | 1) as i64,
    0x0001,
    (opcodes::ABS_MOV << 8 | opcodes::ABS_MOV) as i64,
];

impl Plan {
    /// A drawing command, half the time at a place of its own.
    pub fn draw(&mut self, dice: &mut Dice, list: &mut List) {
        let (width, height, _) = self.size();
        if dice.chance(3) {
            self.draw_far(dice, list);
            return;
        }
        if dice.chance(70) {
            let place = [near(dice, width), near(dice, height)];
            list.add(dice, opcodes::ABS_MOV, &place);
        }
        self.one_drawing(dice, list);
    }

    /// A drawing that would be another one if numbers wrapped otherwise.
    pub fn draw_far(&mut self, dice: &mut Dice, list: &mut List) {
        let (width, height, _) = self.size();
        let (x, y) = (dice.between(0, width - 1), dice.between(0, height - 1));
        match dice.weighted(&[40, 20, 20, 10, 10, 60]) {
            0 => {
                // The position wraps into the bitmap.
                let from = -32768 + dice.between(0, x);
                list.add(dice, opcodes::ABS_MOV, &[from, y]);
                let step = [x - from - 65536, 0];
                let opcode = dice.pick(&[opcodes::POINT, opcodes::POINT, opcodes::REL_MOV]);
                list.add(dice, opcode, &step);
                if opcode == opcodes::REL_MOV {
                    self.one_drawing(dice, list);
                }
            }
            1 => {
                // The far end of the line would wrap to column or row 0.
                let opcode = dice.pick(&[opcodes::LINE, opcodes::RECT]);
                list.add(dice, opcodes::ABS_MOV, &[-32768, y]);
                list.add(dice, opcode, &[-32768, 0]);
            }
            2 => {
                let opcode = dice.pick(&[opcodes::LINE_OPEN, opcodes::RECT]);
                list.add(dice, opcodes::ABS_MOV, &[x, -32768]);
                list.add(dice, opcode, &[0, -32768]);
            }
            3 => {
                // The far side of the circle would wrap to column x or row y.
                list.add(dice, opcodes::ABS_MOV, &[-32768, y]);
                list.add(dice, opcodes::CIRCLE, &[32768 - x.max(1)]);
            }
            4 => {
                list.add(dice, opcodes::ABS_MOV, &[x, -32768]);
                list.add(dice, opcodes::CIRCLE, &[32768 - y.max(1)]);
            }
            _ => {
                // The position wraps between two segments.
                list.add(dice, opcodes::ABS_MOV, &[x, y]);
                let pairs = self.data.far_pairs;
                self.polyline(dice, list, pairs);
            }
        }
    }

    /// One drawing command; more often CHAR where the trap switch is on.
    pub fn one_drawing(&mut self, dice: &mut Dice, list: &mut List) {
        let text = if self.switch { 50 } else { 13 };
        let kind = dice.weighted(&[8, 16, 11, 18, 12, 14, text, 13]);
        self.drawing_of(dice, list, kind);
    }

    /// A drawing command that is good in any bitmap; a copy seldom is.
    pub fn draw_anywhere(&mut self, dice: &mut Dice, list: &mut List) {
        let kind = dice.weighted(&[13, 22, 13, 18, 1, 1, 20, 16]);
        self.drawing_of(dice, list, kind);
    }

    pub fn drawing_of(&mut self, dice: &mut Dice, list: &mut List, kind: usize) {
        let (width, height, _) = self.size();
        match kind {
            0 => {
                let step = [offset(dice, 6), offset(dice, 6)];
                list.add(dice, opcodes::POINT, &step);
            }
            1 => {
                let far = [offset(dice, width), offset(dice, height)];
                let opcode = dice.pick(&[opcodes::LINE, opcodes::LINE_OPEN]);
                list.add(dice, opcode, &far);
            }
            2 => {
                let far = [offset(dice, width), offset(dice, height)];
                list.add(dice, opcodes::RECT, &far);
            }
            3 if dice.chance(50) => {
                let pairs = dice.pick(&self.data.pairs);
                self.polyline(dice, list, pairs);
            }
            3 => {
                let triples = dice.pick(&self.data.triples);
                let count = dice.between(1, i64::from(triples.count));
                add_lines(dice, list, opcodes::SCAN_LINES, triples.address, count);
            }
            4 => self.copy_within(dice, list),
            5 => self.copy_between(dice, list),
            6 => self.text(dice, list),
            _ => self.circle(dice, list),
        }
    }

    /// POLYLINE, mostly with all pairs; half the time after a pattern and an
    /// operation by which its pixels can be told.
    pub fn polyline(&mut self, dice: &mut Dice, list: &mut List, pairs: Stretch) {
        if dice.chance(50) {
            self.texture(dice, list);
            let code = dice.pick(&[5, 6]);
            list.add(dice, opcodes::DEF_LOGICAL_OP, &[0xFFFF, code]);
        }
        let all = i64::from(pairs.count);
        let count = if dice.chance(70) {
            all
        } else {
            dice.between(1, all)
        };
        add_lines(dice, list, opcodes::POLYLINE, pairs.address, count);
    }

    /// CIRCLE, mostly about as large as the bitmap; or one of any size, often
    /// beside it or all around it.
    pub fn circle(&mut self, dice: &mut Dice, list: &mut List) {
        let (width, height, _) = self.size();
        let radius = match dice.weighted(&[60, 13, 10, 12, 5]) {
            0 => dice.between(1, width.min(height) / 2 + 1),
            1 => dice.between(1, width + height),
            2 => 0,
            3 => {
                self.circle_through(dice, list);
                return;
            }
            _ => dice.pick(&[32767, 32766, 16384, 5000, 300]),
        };
        list.add(dice, opcodes::CIRCLE, &[radius]);
    }

    /// A circle of any size through a pixel of the bitmap, or right beside it.
    pub fn circle_through(&mut self, dice: &mut Dice, list: &mut List) {
        let (width, height, _) = self.size();
        let radius = match dice.weighted(&[40, 30, 30]) {
            0 => dice.between(1, 60),
            1 => dice.between(60, 3000),
            _ => dice.between(3000, 32767),
        };
        let across = dice.between(-radius, radius);
        let down = (radius * radius - across * across).isqrt() * dice.pick(&[-1, 1]);
        let (x, y) = (dice.between(0, width - 1), dice.between(0, height - 1));
        list.add(dice, opcodes::ABS_MOV, &[x + across, y + down]);
        list.add(dice, opcodes::CIRCLE, &[radius]);
    }

    /// CHAR with a good string, after DEF_CHAR_SET if there was none.
    pub fn text(&mut self, dice: &mut Dice, list: &mut List) {
        if self.byte_mode.is_none() || dice.chance(10) {
            self.font(dice, list);
        }
        let mode = self.byte_mode;
        self.character(dice, list, mode);
    }

    pub fn character(&mut self, dice: &mut Dice, list: &mut List, mode: Option<bool>) {
        let byte_mode = mode.unwrap_or(false);
        let strings = if byte_mode {
            &self.data.byte_strings
        } else {
            &self.data.word_strings
        };
        let string = dice.pick(strings);
        let opcode = dice.pick(&CHARS);
        if dice.chance(5) {
            // An empty string; one of bytes is checked for nothing.
            let odd = u32::from(byte_mode && dice.chance(50));
            let anywhere = (dice.next() as u32 & 0x3F_FFFE) | odd;
            let [lower, upper] = split(dice, anywhere);
            list.add(dice, opcode, &[lower, upper, 0]);
        } else {
            let count = dice.between(1, i64::from(string.count));
            let [lower, upper] = split(dice, string.address);
            list.add(dice, opcode, &[lower, upper, count]);
        }
    }

    /// ENTER_PICK and one drawing command, often with settings that draw
    /// nothing.
    pub fn pick_once(&mut self, dice: &mut Dice, list: &mut List) {
        list.add(dice, opcodes::ENTER_PICK, &[]);
        self.picking = true;
        match dice.weighted(&[30, 35, 35]) {
            0 => {}
            1 => list.add(dice, opcodes::DEF_LOGICAL_OP, &[0, 3]),
            _ => {
                let pattern = dice.pick(&[0x0000, 0x0001, 0x8000, 0x00FF]);
                list.add(dice, opcodes::DEF_TEXTURE_TRANSPARENT, &[pattern]);
            }
        }
        let (width, height, _) = self.size();
        let place = [dice.between(-1, width), dice.between(-1, height)];
        list.add(dice, opcodes::ABS_MOV, &place);
        let text = if self.switch { 5 } else { 1 };
        match dice.weighted(&[1, text, 1, 1]) {
            0 => self.one_drawing(dice, list),
            1 => self.text(dice, list),
            2 => {
                let radius = dice.between(0, 5);
                list.add(dice, opcodes::CIRCLE, &[radius]);
            }
            _ => {
                let opcode = dice.pick(&[opcodes::POINT, opcodes::LINE, opcodes::RECT]);
                let far = [dice.between(-2, 2), dice.between(-2, 2)];
                list.add(dice, opcode, &far);
            }
        }
        if dice.chance(50) {
            list.add(dice, opcodes::EXIT_PICK, &[]);
            self.picking = false;
        }
    }

    /// Draws over the commands that come next, some of which may then be
    /// others.
    pub fn draw_over(&mut self, dice: &mut Dice, list: &mut List) {
        let bits = dice.pick(&[1, 2, 4, 8]);
        // Twelve bytes for DEF_BITMAP, six each for two commands, then the
        // commands that are drawn over.
        let target = list.here() + 24 + 2 * dice.between(0, 6) as u32;
        let spot = Spot {
            address: target,
            xmax: dice.between(0, 3) as u16,
            ymax: 0,
            bits,
        };
        self.define(dice, list, spot);
        let colour = dice.pick(&DRAWN_WORDS);
        list.add(dice, opcodes::DEF_COLORS, &[colour, 0]);
        list.add(dice, opcodes::RECT, &[i64::from(spot.xmax), 0]);
        for _ in 0..4 {
            self.travel(dice, list);
        }
        self.define_pane(dice, list);
        self.draw(dice, list);
        list.end(dice);
    }
}

/// POLYLINE or SCAN_LINES, now and then of an empty array.
fn add_lines(dice: &mut Dice, list: &mut List, opcode: u16, address: u32, count: i64) {
    if dice.chance(5) {
        // It is checked for oddness alone.
        let anywhere = dice.next() as u32 & 0x3F_FFFE;
        let [lower, upper] = split(dice, anywhere);
        list.add(dice, opcode, &[lower, upper, 0]);
    } else {
        let [lower, upper] = split(dice, address);
        list.add(dice, opcode, &[lower, upper, count]);
    }
}
