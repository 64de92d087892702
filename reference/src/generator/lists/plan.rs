//! A pane's store and the lists that are written for it.

use super::numbers::split;
use super::{Ending, List};
use crate::generator::data::{Data, Spot};
use crate::generator::dice::Dice;
use crate::opcodes;

/// A pane, its store, and what its record is thought to hold.
pub struct Plan {
    pub number: u32,
    pub width: i64,
    pub height: i64,
    pub depth: u16,
    pub store_length: u32,
    pub data: Data,
    pub bitmaps: Vec<Spot>,
    /// The last word of the store, if it is an opcode with its words missing.
    pub last_word: Option<u16>,
    /// Lists stand from `free` to `end`.
    pub free: u32,
    pub end: u32,
    pub routines: Vec<u32>,
    pub chain: Option<u32>,
    /// The active bitmap; none is the pane.
    pub active: Option<Spot>,
    /// Whether the next list goes on with the bitmap and the clip that the one
    /// before it left, and defines none of its own.
    pub goes_on: bool,
    pub byte_mode: Option<bool>,
    pub picking: bool,
    /// Whether the pane was filled with bytes of the store.
    pub filled: bool,
    /// Whether lists do without LINK and bitmaps in the store, at which the
    /// judge stops.
    pub plain: bool,
    /// The trap switch.
    pub switch: bool,
}

/// First words of commands, most of which lack their parameter words at the
/// end of a store; one is an end word, one has an unknown opcode.
const LAST_WORDS: [u16; 10] = [
    opcodes::NOP << 8,
    opcodes::REL_MOV << 8,
    opcodes::LINE << 8,
    opcodes::CIRCLE << 8,
    opcodes::DEF_BITMAP << 8,
    opcodes::BIT_BLT_M << 8,
    opcodes::DEF_SPACE << 8,
    opcodes::DEF_TEXTURE_OPAQUE << 8,
    opcodes::POINT << 8 | 1,
    0x9900,
];

impl Plan {
    pub fn new(
        dice: &mut Dice,
        number: u32,
        width: i64,
        height: i64,
        depth: u16,
        store_length: u32,
        traps: bool,
    ) -> Plan {
        let start = dice.pick(&[0, 0, 2, 16]);
        let data = Data::make(dice, start, width, height, traps);
        let mut free = start + data.bytes.len() as u32;
        let mut end = store_length;
        let last_word = if dice.chance(60) {
            end = end.saturating_sub(2);
            Some(dice.pick(&LAST_WORDS))
        } else {
            None
        };
        let mut bitmaps = Vec::new();
        for round in 0..dice.between(1, 2) {
            let bits = if dice.chance(65) {
                depth
            } else {
                dice.pick(&[1, 2, 4, 8])
            };
            let mut spot = Spot {
                address: free,
                xmax: dice.between(0, 15) as u16,
                ymax: dice.between(0, 7) as u16,
                bits,
            };
            if round == 1 && dice.chance(50) && end > spot.length() {
                // The last bitmap of the store, up to its very end.
                end -= spot.length();
                end -= end % 2;
                spot.address = end;
            } else {
                free = spot.end();
            }
            bitmaps.push(spot);
        }
        Plan {
            number,
            width,
            height,
            depth,
            store_length,
            data,
            bitmaps,
            last_word,
            free,
            end,
            routines: Vec::new(),
            chain: None,
            active: None,
            goes_on: false,
            byte_mode: None,
            picking: false,
            filled: false,
            plain: false,
            switch: false,
        }
    }

    /// The record is fresh again: no font, pick mode and trap switch off. The
    /// next list begins with a bitmap of its own.
    pub fn forget(&mut self) {
        self.goes_on = false;
        self.byte_mode = None;
        self.picking = false;
        self.switch = false;
    }

    /// How many words a list may have.
    pub fn words_left(&self) -> usize {
        (self.end.saturating_sub(self.free) / 2) as usize
    }

    /// Width, height and bits of the active bitmap.
    pub fn size(&self) -> (i64, i64, u16) {
        match self.active {
            None => (self.width, self.height, self.depth),
            Some(spot) => (
                i64::from(spot.xmax) + 1,
                i64::from(spot.ymax) + 1,
                spot.bits,
            ),
        }
    }

    /// Whether a stretch of the store is clear of the active bitmap.
    pub fn clear_of_active(&self, address: i64, length: i64) -> bool {
        match self.active {
            None => true,
            Some(spot) => {
                address + length <= i64::from(spot.address) || i64::from(spot.end()) <= address
            }
        }
    }

    /// Routines that lists can call: a few that draw, and one in five times a
    /// chain of eight that call one another.
    pub fn write_routines(&mut self, dice: &mut Dice) -> List {
        let mut list = List::new(self.free, self.words_left());
        for _ in 0..dice.between(1, 2) {
            let start = list.here();
            // Nothing is known of the record at a call.
            self.byte_mode = None;
            for _ in 0..dice.between(1, 3) {
                self.draw_anywhere(dice, &mut list);
            }
            if !self.routines.is_empty() && dice.chance(50) {
                self.call(dice, &mut list);
            }
            list.add(dice, opcodes::RETURN, &[]);
            self.routines.push(start);
        }
        if dice.chance(20) {
            let start = list.here();
            for _ in 0..7 {
                let next = list.here() + 8;
                let [lower, upper] = split(dice, next);
                list.add(dice, opcodes::CALL, &[lower, upper]);
                list.add(dice, opcodes::RETURN, &[]);
            }
            list.add(dice, opcodes::POINT, &[1, 0]);
            list.add(dice, opcodes::RETURN, &[]);
            self.chain = Some(start);
        }
        self.byte_mode = None;
        self.free = list.here();
        list
    }

    /// A list of about so many words.
    pub fn write_list(&mut self, dice: &mut Dice, most: usize, ending: Ending) -> List {
        let mut list = List::new(self.free, most.min(self.words_left()));
        self.begin(dice, &mut list);
        while list.has_room() {
            self.command(dice, &mut list);
        }
        match ending {
            Ending::End => list.end(dice),
            Ending::Fault(number) => {
                self.fault(dice, &mut list, number);
                list.end(dice);
            }
            Ending::Loop => {
                let [lower, upper] = split(dice, list.start);
                list.add(dice, opcodes::LINK, &[lower, upper]);
            }
            Ending::DrawnOver => self.draw_over(dice, &mut list),
            Ending::Pick => {
                self.pick_once(dice, &mut list);
                list.end(dice);
            }
        }
        self.free = list.here();
        list
    }

    /// A short list that draws with the bitmap and the clip that there are.
    pub fn write_rest(&mut self, dice: &mut Dice) -> List {
        let mut list = List::new(self.free, self.words_left());
        self.goes_on = true;
        self.begin(dice, &mut list);
        for _ in 0..dice.between(2, 3) {
            self.draw(dice, &mut list);
        }
        list.end(dice);
        self.free = list.here();
        list
    }

    /// A short list for a fresh record: a drawing command without bitmap (23), a
    /// CHAR without font (28), or a bad bitmap (22) or clip (24) after the pane.
    pub fn write_early_fault(&mut self, dice: &mut Dice, number: u32) -> List {
        let mut list = List::new(self.free, self.words_left());
        if dice.chance(50) {
            self.settle(dice, &mut list);
        }
        if number == 22 || number == 24 {
            self.define_pane(dice, &mut list);
            self.fault(dice, &mut list, number);
        } else if number == 28 {
            self.define_pane(dice, &mut list);
            let byte_mode = dice.chance(50);
            self.character(dice, &mut list, Some(byte_mode));
        } else if dice.chance(20) {
            list.add(dice, opcodes::DEF_CLIP_RECT, &[0, 0, 0, 0]);
        } else if dice.chance(10) {
            // 23 comes before 30.
            self.fault(dice, &mut list, 30);
        } else {
            self.one_drawing(dice, &mut list);
        }
        list.end(dice);
        self.free = list.here();
        list
    }

    /// The list that shows the store: it copies bitmaps and lists to the pane.
    pub fn write_show(&mut self, dice: &mut Dice) -> List {
        let mut list = List::new(self.free, self.words_left());
        list.add(dice, opcodes::EXIT_PICK, &[]);
        self.define_pane(dice, &mut list);
        list.add(dice, opcodes::DEF_LOGICAL_OP, &[0xFFFF, 5]);
        let mut y = 0;
        let mut spots = self.bitmaps.clone();
        spots.push(Spot {
            address: self.data.start,
            xmax: 0,
            ymax: 0,
            bits: 8,
        });
        for spot in spots {
            if y >= self.height {
                break;
            }
            // The same rows of words, read at the pane's depth.
            let row_words = (i64::from(spot.xmax) + 1) * i64::from(spot.bits) + 15;
            let columns = row_words / 16 * 16 / i64::from(self.depth);
            let dx = columns.min(self.width) - 1;
            let dy = (i64::from(spot.ymax) + 1).min(self.height - y) - 1;
            let [lower, upper] = split(dice, spot.address);
            list.add(dice, opcodes::ABS_MOV, &[0, y]);
            list.add(
                dice,
                opcodes::BIT_BLT_M,
                &[
                    lower,
                    upper,
                    columns - 1,
                    i64::from(spot.ymax),
                    0,
                    0,
                    dx,
                    dy,
                ],
            );
            y += dy + 1;
        }
        list.end(dice);
        self.free = list.here();
        list
    }

    /// How a list begins: the bitmap, unless it goes on with the one there is,
    /// and colours that can be seen.
    pub fn begin(&mut self, dice: &mut Dice, list: &mut List) {
        if self.picking && dice.chance(80) {
            list.add(dice, opcodes::EXIT_PICK, &[]);
            self.picking = false;
        }
        if std::mem::take(&mut self.goes_on) {
            // Nothing to define.
        } else if self.plain || dice.chance(75) {
            self.define_pane(dice, list);
        } else {
            self.define_spot(dice, list);
        }
        if self.active.is_none() && !self.filled && dice.chance(70) {
            // So that there is something to combine with.
            self.filled = self.copy_over_pane(dice, list);
        }
        if dice.chance(60) {
            self.colours(dice, list);
        }
        if dice.chance(50) {
            list.add(dice, opcodes::DEF_LOGICAL_OP, &[0xFFFF, 5]);
        }
        if dice.chance(30) {
            self.texture(dice, list);
        }
    }

    /// Copies bytes of the store to the whole pane, if the store has so many.
    pub fn copy_over_pane(&mut self, dice: &mut Dice, list: &mut List) -> bool {
        let row_bytes = (self.width * i64::from(self.depth) + 15) / 16 * 2;
        let spare = i64::from(self.store_length) - row_bytes * self.height;
        if spare < 0 {
            return false;
        }
        let start = i64::from(self.data.start).min(spare / 2 * 2);
        let (xmax, ymax) = (self.width - 1, self.height - 1);
        list.add(dice, opcodes::ABS_MOV, &[0, 0]);
        list.add(
            dice,
            opcodes::BIT_BLT_M,
            &[start, 0, xmax, ymax, 0, 0, xmax, ymax],
        );
        true
    }

    /// One command, or a few that belong together.
    pub fn command(&mut self, dice: &mut Dice, list: &mut List) {
        if self.picking && dice.chance(45) {
            list.add(dice, opcodes::EXIT_PICK, &[]);
            self.picking = false;
        }
        let pick = if self.switch { 6 } else { 2 };
        match dice.weighted(&[60, 24, 6, 6, 5, pick]) {
            0 => self.draw(dice, list),
            1 => self.settle(dice, list),
            2 => self.travel(dice, list),
            3 => self.wander(dice, list),
            4 if self.plain => self.define_pane(dice, list),
            4 if self.active.is_none() || dice.chance(30) => self.define_spot(dice, list),
            4 => self.define_pane(dice, list),
            _ => {
                list.add(dice, opcodes::ENTER_PICK, &[]);
                self.picking = true;
            }
        }
        if self.active.is_some() && dice.chance(9) {
            self.define_pane(dice, list);
        }
    }
}
