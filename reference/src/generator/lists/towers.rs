//! Lists that call one another several times each, so that a few words make
//! thousands of commands.

use super::numbers::split;
use super::{List, Plan};
use crate::generator::dice::Dice;
use crate::judge::MOST_WALKED;
use crate::opcodes;

/// The words of a tower, where its top list starts, and how many commands are
/// done from there up to what ends it, if nothing ends it before.
pub struct Tower {
    pub list: List,
    pub top: u32,
    pub commands: u32,
}

/// The words that a tower has at most.
pub const MOST_WORDS: usize = 330;

/// One list of a tower, and the commands of a call of it, the CALL included.
#[derive(Clone, Copy)]
struct Floor {
    start: u32,
    cost: u32,
}

impl Plan {
    /// A tower. Its top list begins with the pane as bitmap and has about as
    /// many commands as the judge walks, often just as many.
    pub fn write_tower(&mut self, dice: &mut Dice) -> Tower {
        let mut list = List::new(self.free, self.words_left());
        let floors = self.write_floors(dice, &mut list);
        let aim = match dice.weighted(&[50, 10, 15, 25]) {
            0 => MOST_WALKED,
            1 => MOST_WALKED - 1,
            2 => MOST_WALKED + 1,
            _ => dice.between(20, 6000) as u32,
        };
        let top = list.here();
        self.define_pane(dice, &mut list);
        // The last command may lead to where there is no word.
        let stray = dice.chance(15);
        let mut left = aim - 1 - u32::from(stray);
        let mut commands = 1;
        let mut calls = 0;
        for floor in floors.iter().rev() {
            while left >= floor.cost && calls < 45 {
                call(dice, &mut list, floor.start);
                left -= floor.cost;
                commands += floor.cost;
                calls += 1;
            }
        }
        // Where the calls go on to a lower floor, what is left is less than the
        // cheapest floor.
        for _ in 0..left.min(6) {
            list.add(dice, opcodes::NOP, &[]);
            commands += 1;
        }
        if stray {
            let target = dice.pick(&[top | 1, self.store_length, 0x3F_FFFE]);
            call(dice, &mut list, target);
            commands += 1;
        } else {
            self.close_tower(dice, &mut list);
        }
        list.end(dice);
        self.free = list.here();
        self.byte_mode = None;
        Tower {
            list,
            top,
            commands,
        }
    }

    /// The lists below the top, the deepest first: each but that one calls the
    /// one before it two to four times. A ninth would be one too many.
    fn write_floors(&mut self, dice: &mut Dice, list: &mut List) -> Vec<Floor> {
        let most = if dice.chance(8) { 9 } else { 8 };
        let mut floors: Vec<Floor> = Vec::new();
        while floors.len() < most {
            let below = floors.last().copied();
            if below.is_some_and(|below| below.cost > 500) && dice.chance(50) {
                break;
            }
            let start = list.here();
            // The CALL that leads here, and the RETURN.
            let mut cost = 2;
            if dice.chance(35) {
                let (opcode, parameters) = dice.pick(&[
                    (opcodes::NOP, &[] as &[i64]),
                    (opcodes::POINT, &[1, 0]),
                    (opcodes::REL_MOV, &[-2, 1]),
                    (opcodes::DEF_COLORS, &[0x5A5A, 0]),
                ]);
                list.add(dice, opcode, parameters);
                cost += 1;
            }
            if let Some(below) = below {
                for _ in 0..dice.between(2, 4) {
                    call(dice, list, below.start);
                    cost += below.cost;
                }
            }
            list.add(dice, opcodes::RETURN, &[]);
            floors.push(Floor { start, cost });
        }
        floors
    }

    /// What stands where the tower is done; most often nothing but the end word
    /// that follows.
    fn close_tower(&mut self, dice: &mut Dice, list: &mut List) {
        match dice.weighted(&[50, 8, 8, 8, 8, 8, 10]) {
            0 => {}
            1 => list.add(dice, opcodes::NOP, &[]),
            2 => {
                let [lower, upper] = split(dice, list.here() + 6);
                list.add(dice, opcodes::LINK, &[lower, upper]);
            }
            3 => {
                let spot = dice.pick(&self.bitmaps);
                let [lower, upper] = split(dice, spot.address);
                let (xmax, ymax) = (i64::from(spot.xmax), i64::from(spot.ymax));
                let bits = i64::from(spot.bits);
                list.add(dice, opcodes::DEF_BITMAP, &[lower, upper, xmax, ymax, bits]);
            }
            4 => self.fault(dice, list, 20),
            5 => list.add(dice, opcodes::RETURN, &[]),
            _ => self.fault(dice, list, 30),
        }
    }
}

fn call(dice: &mut Dice, list: &mut List, target: u32) {
    let [lower, upper] = split(dice, target);
    list.add(dice, opcodes::CALL, &[lower, upper]);
}
