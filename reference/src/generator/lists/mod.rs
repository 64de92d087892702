//! Command lists for one pane.

mod copies;
mod drawings;
mod faults;
mod numbers;
mod plan;
mod settings;
mod towers;

use super::dice::Dice;
pub use faults::cut_short;
pub use plan::Plan;
pub use towers::{Tower, MOST_WORDS};

/// A list under way: where it will stand and its words so far.
pub struct List {
    pub start: u32,
    pub words: Vec<u16>,
    pub commands: u32,
    most: usize,
}

impl List {
    pub fn new(start: u32, most: usize) -> List {
        List {
            start,
            words: Vec::new(),
            commands: 0,
            most,
        }
    }

    /// The address of the next word.
    pub fn here(&self) -> u32 {
        self.start + 2 * self.words.len() as u32
    }

    /// Whether there is room for a few more commands.
    pub fn has_room(&self) -> bool {
        self.words.len() + 24 < self.most
    }

    /// Adds a command; one in ten has reserved bits set.
    pub fn add(&mut self, dice: &mut Dice, opcode: u16, parameters: &[i64]) {
        let reserved = if dice.chance(10) {
            dice.word() & 0xFE
        } else {
            0
        };
        self.words.push(opcode << 8 | reserved);
        self.words
            .extend(parameters.iter().map(|value| *value as u16));
        self.commands += 1;
    }

    /// Adds an end word.
    pub fn end(&mut self, dice: &mut Dice) {
        let word = if dice.chance(50) {
            0x0001
        } else {
            dice.word() | 1
        };
        self.words.push(word);
    }
}

/// How a list ends.
#[derive(Clone, Copy, PartialEq)]
pub enum Ending {
    /// An end word.
    End,
    /// A command that faults with this number, most likely.
    Fault(u32),
    /// A LINK to its own start.
    Loop,
    /// It draws over its own last commands.
    DrawnOver,
    /// One drawing command in pick mode, then an end word.
    Pick,
}
