//! Lists, command by command.

use crate::consoles::Pane;
use reference::opcodes;

/// Commands one after the other, and how many they are.
#[derive(Clone, Default)]
pub struct Commands {
    words: Vec<u16>,
    count: u32,
}

impl Commands {
    pub fn new() -> Commands {
        Commands::default()
    }

    pub fn len(&self) -> u32 {
        self.count
    }

    fn and(mut self, opcode: u16, words: &[u16]) -> Commands {
        self.words.push(opcode << 8);
        self.words.extend(words);
        self.count += 1;
        self
    }

    pub fn then(mut self, others: &Commands) -> Commands {
        self.words.extend(&others.words);
        self.count += others.count;
        self
    }

    pub fn times(&self, times: usize) -> Commands {
        Commands { words: self.words.repeat(times), count: self.count * times as u32 }
    }

    pub fn nop(self) -> Commands {
        self.and(opcodes::NOP, &[])
    }

    pub fn link(self, address: u32) -> Commands {
        self.and(opcodes::LINK, &halves(address))
    }

    pub fn call(self, address: u32) -> Commands {
        self.and(opcodes::CALL, &halves(address))
    }

    pub fn back(self) -> Commands {
        self.and(opcodes::RETURN, &[])
    }

    pub fn abs_mov(self, x: i16, y: i16) -> Commands {
        self.and(opcodes::ABS_MOV, &[x as u16, y as u16])
    }

    pub fn rel_mov(self, dx: i16, dy: i16) -> Commands {
        self.and(opcodes::REL_MOV, &[dx as u16, dy as u16])
    }

    /// DEF_BITMAP of the pane.
    pub fn def_pane(self, pane: &Pane) -> Commands {
        let [low, high] = halves(0x20_0000);
        let (xmax, ymax) = (pane.width as u16 - 1, pane.height as u16 - 1);
        self.and(opcodes::DEF_BITMAP, &[low, high, xmax, ymax, pane.depth as u16])
    }

    pub fn def_clip(self, [left, top, right, bottom]: [u16; 4]) -> Commands {
        self.and(opcodes::DEF_CLIP_RECT, &[left, top, right, bottom])
    }

    pub fn def_colors(self, foreground: u16, background: u16) -> Commands {
        self.and(opcodes::DEF_COLORS, &[foreground, background])
    }

    pub fn def_logical_op(self, mask: u16, code: u16) -> Commands {
        self.and(opcodes::DEF_LOGICAL_OP, &[mask, code])
    }

    pub fn def_texture(self, pattern: u16, transparent: bool) -> Commands {
        let opaque = if transparent { opcodes::DEF_TEXTURE_TRANSPARENT } else { opcodes::DEF_TEXTURE_OPAQUE };
        self.and(opaque, &[pattern])
    }

    pub fn def_space(self, spacing: u16) -> Commands {
        self.and(opcodes::DEF_SPACE, &[spacing])
    }

    /// DEF_CHAR_ORIENT with path 0; the rotation in quarter turns.
    pub fn def_rotation(self, rotation: u16) -> Commands {
        self.and(opcodes::DEF_CHAR_ORIENT, &[rotation])
    }

    /// DEF_CHAR_SET in word mode.
    pub fn def_font(self, base: u32) -> Commands {
        self.and(opcodes::DEF_CHAR_SET_WORDS, &halves(base))
    }

    pub fn line(self, dx: i16, dy: i16) -> Commands {
        self.and(opcodes::LINE, &[dx as u16, dy as u16])
    }

    pub fn rect(self, dx: i16, dy: i16) -> Commands {
        self.and(opcodes::RECT, &[dx as u16, dy as u16])
    }

    pub fn circle(self, radius: u16) -> Commands {
        self.and(opcodes::CIRCLE, &[radius])
    }

    pub fn polyline(self, address: u32, count: u16) -> Commands {
        let [low, high] = halves(address);
        self.and(opcodes::POLYLINE, &[low, high, count])
    }

    pub fn scan_lines(self, address: u32, count: u16) -> Commands {
        let [low, high] = halves(address);
        self.and(opcodes::SCAN_LINES, &[low, high, count])
    }

    /// BIT_BLT of a block: its corner, and how far the opposite one lies from it.
    pub fn bit_blt(self, block: [u16; 4]) -> Commands {
        self.and(opcodes::BIT_BLT, &block)
    }

    /// BIT_BLT_M of a block of the bitmap at an address, with its last column and row.
    pub fn bit_blt_m(self, address: u32, [xmax, ymax]: [u16; 2], [x, y, dx, dy]: [u16; 4]) -> Commands {
        let [low, high] = halves(address);
        self.and(opcodes::BIT_BLT_M, &[low, high, xmax, ymax, x, y, dx, dy])
    }

    pub fn char(self, address: u32, count: u16, transparent: bool) -> Commands {
        let [low, high] = halves(address);
        let opcode = if transparent { opcodes::CHAR_TRANSPARENT } else { opcodes::CHAR_OPAQUE };
        self.and(opcode, &[low, high, count])
    }

    /// The words, for a list that is called.
    pub fn words(&self) -> Vec<u16> {
        self.words.clone()
    }
}

fn halves(address: u32) -> [u16; 2] {
    [address as u16, (address >> 16) as u16]
}

/// Puts words into a store.
pub fn write(bytes: &mut [u8], at: usize, words: &[u16]) {
    for (pair, word) in bytes[at..].chunks_exact_mut(2).zip(words) {
        pair.copy_from_slice(&word.to_le_bytes());
    }
}

/// A list that draws on the pane: the commands before the loop, the commands of the loop, and data at their addresses.
#[derive(Clone, Default)]
pub struct List {
    pub first: Commands,
    pub again: Commands,
    pub data: Vec<(usize, Vec<u16>)>,
}

impl List {
    /// The commands before the loop.
    pub fn beginning(&self, pane: &Pane) -> Commands {
        Commands::new().def_pane(pane).def_colors(0xFFFF, 0x5555).then(&self.first)
    }

    /// The commands done when the loop has been passed so often.
    pub fn budget(&self, pane: &Pane, passes: u32) -> u32 {
        self.beginning(pane).len() + passes * (self.again.len() + 1)
    }

    /// The bytes of a store that holds the list from address 0 on; it loops by LINK.
    pub fn store(&self, pane: &Pane) -> Vec<u8> {
        let beginning = self.beginning(pane);
        let top = 2 * beginning.words.len() as u32;
        self.store_of(pane, &beginning.then(&self.again).link(top).words)
    }

    /// The bytes of a store that holds these words from address 0 on, and the list's data.
    pub fn store_of(&self, pane: &Pane, words: &[u16]) -> Vec<u8> {
        let mut bytes = vec![0u8; pane.store as usize];
        write(&mut bytes, 0, words);
        for (at, words) in &self.data {
            write(&mut bytes, *at, words);
        }
        bytes
    }
}
