//! From the words of the store to a command.

use crate::copies::Block;
use crate::opcodes;
use crate::words::{address_of, word_at};
use crate::Fault;

/// A command with its words. Opcodes, the order of the words and the bit
/// places are those of the 82786 manual, sections 2.10.1 to 2.10.33.
#[derive(Clone, Copy, Debug, PartialEq, Eq)]
pub enum Command {
    Nop,
    Link {
        target: u32,
    },
    Call {
        target: u32,
    },
    Return,
    AbsMov {
        x: i16,
        y: i16,
    },
    RelMov {
        dx: i16,
        dy: i16,
    },
    DefBitmap {
        address: u32,
        xmax: u16,
        ymax: u16,
        bits: u16,
    },
    DefClipRect {
        xmin: i16,
        ymin: i16,
        xmax: i16,
        ymax: i16,
    },
    DefColors {
        foreground: u16,
        background: u16,
    },
    DefLogicalOp {
        mask: u16,
        code: u16,
    },
    DefTexture {
        transparent: bool,
        pattern: u16,
    },
    DefSpace {
        spacing: i16,
    },
    DefCharOrient {
        path: u32,
        rotation: u32,
    },
    DefCharSet {
        byte_mode: bool,
        base: u32,
    },
    EnterPick,
    ExitPick,
    Point {
        dx: i16,
        dy: i16,
    },
    Line {
        dx: i16,
        dy: i16,
    },
    Rect {
        dx: i16,
        dy: i16,
    },
    Circle {
        radius: i16,
    },
    Polyline {
        address: u32,
        count: u16,
    },
    ScanLines {
        address: u32,
        count: u16,
    },
    BitBlt {
        block: Block,
    },
    BitBltM {
        address: u32,
        xmax: u16,
        ymax: u16,
        block: Block,
    },
    Char {
        transparent: bool,
        address: u32,
        count: u16,
    },
}

impl Command {
    /// The paper's name of the command.
    pub fn name(&self) -> &'static str {
        match self {
            Command::Nop => "NOP",
            Command::Link { .. } => "LINK",
            Command::Call { .. } => "CALL",
            Command::Return => "RETURN",
            Command::AbsMov { .. } => "ABS_MOV",
            Command::RelMov { .. } => "REL_MOV",
            Command::DefBitmap { .. } => "DEF_BITMAP",
            Command::DefClipRect { .. } => "DEF_CLIP_RECT",
            Command::DefColors { .. } => "DEF_COLORS",
            Command::DefLogicalOp { .. } => "DEF_LOGICAL_OP",
            Command::DefTexture { .. } => "DEF_TEXTURE",
            Command::DefSpace { .. } => "DEF_SPACE",
            Command::DefCharOrient { .. } => "DEF_CHAR_ORIENT",
            Command::DefCharSet { .. } => "DEF_CHAR_SET",
            Command::EnterPick => "ENTER_PICK",
            Command::ExitPick => "EXIT_PICK",
            Command::Point { .. } => "POINT",
            Command::Line { .. } => "LINE",
            Command::Rect { .. } => "RECT",
            Command::Circle { .. } => "CIRCLE",
            Command::Polyline { .. } => "POLYLINE",
            Command::ScanLines { .. } => "SCAN_LINES",
            Command::BitBlt { .. } => "BIT_BLT",
            Command::BitBltM { .. } => "BIT_BLT_M",
            Command::Char { .. } => "CHAR",
        }
    }
}

/// What stands at the pointer.
#[derive(Clone, Copy, Debug, PartialEq, Eq)]
pub enum Decoded {
    /// An end word: "bit 0 (GECL) set, or HALT".
    End,
    /// A command, and the address of the word after it.
    Command(Command, u32),
    Fault(Fault),
}

/// The parameter words of a command; the longest has eight.
#[derive(Clone, Copy, Default)]
struct Words([u16; 8]);

impl Words {
    /// "Coordinates are 16-bit signed."
    fn signed(&self, k: usize) -> i16 {
        self.0[k] as i16
    }

    /// The address in the first two words.
    fn address(&self) -> u32 {
        address_of(self.0[0], self.0[1])
    }

    /// The rectangle of a copy in the four words from word k on.
    fn block(&self, k: usize) -> Block {
        Block {
            x: self.signed(k),
            y: self.signed(k + 1),
            dx: self.signed(k + 2),
            dy: self.signed(k + 3),
        }
    }

    fn texture(&self, transparent: bool) -> Command {
        Command::DefTexture {
            transparent,
            pattern: self.0[0],
        }
    }

    fn font(&self, byte_mode: bool) -> Command {
        Command::DefCharSet {
            byte_mode,
            base: self.address(),
        }
    }

    fn string(&self, transparent: bool) -> Command {
        Command::Char {
            transparent,
            address: self.address(),
            count: self.0[2],
        }
    }
}

/// How many parameter words an opcode has, and the command that they make.
type Shape = (u64, fn(&Words) -> Command);

/// The shape of an opcode; none for an unknown one. "Every other opcode is
/// unknown."
fn shape_of(opcode: u16) -> Option<Shape> {
    let shape: Shape = match opcode {
        opcodes::NOP => (0, |_| Command::Nop),
        opcodes::LINK => (2, |words| Command::Link {
            target: words.address(),
        }),
        opcodes::CALL => (2, |words| Command::Call {
            target: words.address(),
        }),
        opcodes::RETURN => (0, |_| Command::Return),
        opcodes::ABS_MOV => (2, |words| Command::AbsMov {
            x: words.signed(0),
            y: words.signed(1),
        }),
        opcodes::REL_MOV => (2, |words| Command::RelMov {
            dx: words.signed(0),
            dy: words.signed(1),
        }),
        opcodes::DEF_BITMAP => (5, |words| Command::DefBitmap {
            address: words.address(),
            xmax: words.0[2],
            ymax: words.0[3],
            bits: words.0[4],
        }),
        opcodes::DEF_CLIP_RECT => (4, |words| Command::DefClipRect {
            xmin: words.signed(0),
            ymin: words.signed(1),
            xmax: words.signed(2),
            ymax: words.signed(3),
        }),
        opcodes::DEF_COLORS => (2, |words| Command::DefColors {
            foreground: words.0[0],
            background: words.0[1],
        }),
        opcodes::DEF_LOGICAL_OP => (2, |words| Command::DefLogicalOp {
            mask: words.0[0],
            code: words.0[1],
        }),
        opcodes::DEF_TEXTURE_OPAQUE => (1, |words| words.texture(false)),
        opcodes::DEF_TEXTURE_TRANSPARENT => (1, |words| words.texture(true)),
        opcodes::DEF_SPACE => (1, |words| Command::DefSpace {
            spacing: words.signed(0),
        }),
        // "The path in bits 9 and 8 of its word, the rotation in bits 1 and 0."
        opcodes::DEF_CHAR_ORIENT => (1, |words| Command::DefCharOrient {
            path: u32::from(words.0[0] >> 8 & 3),
            rotation: u32::from(words.0[0] & 3),
        }),
        opcodes::DEF_CHAR_SET_WORDS => (2, |words| words.font(false)),
        opcodes::DEF_CHAR_SET_BYTES => (2, |words| words.font(true)),
        opcodes::ENTER_PICK => (0, |_| Command::EnterPick),
        opcodes::EXIT_PICK => (0, |_| Command::ExitPick),
        opcodes::POINT => (2, |words| Command::Point {
            dx: words.signed(0),
            dy: words.signed(1),
        }),
        opcodes::LINE | opcodes::LINE_OPEN => (2, |words| Command::Line {
            dx: words.signed(0),
            dy: words.signed(1),
        }),
        opcodes::RECT => (2, |words| Command::Rect {
            dx: words.signed(0),
            dy: words.signed(1),
        }),
        opcodes::CIRCLE => (1, |words| Command::Circle {
            radius: words.signed(0),
        }),
        opcodes::POLYLINE => (3, |words| Command::Polyline {
            address: words.address(),
            count: words.0[2],
        }),
        opcodes::SCAN_LINES => (3, |words| Command::ScanLines {
            address: words.address(),
            count: words.0[2],
        }),
        opcodes::BIT_BLT => (4, |words| Command::BitBlt {
            block: words.block(0),
        }),
        opcodes::BIT_BLT_M => (8, |words| Command::BitBltM {
            address: words.address(),
            xmax: words.0[2],
            ymax: words.0[3],
            block: words.block(4),
        }),
        opcodes::CHAR_OPAQUE | opcodes::CHAR_REVERSE_OPAQUE => (3, |words| words.string(false)),
        opcodes::CHAR_TRANSPARENT | opcodes::CHAR_REVERSE_TRANSPARENT => {
            (3, |words| words.string(true))
        }
        _ => return None,
    };
    Some(shape)
}

/// Whether an opcode is one of the paper's.
pub fn is_known(opcode: u16) -> bool {
    shape_of(opcode).is_some()
}

/// "A pointer that is odd or whose word is outside the store gives fault 21.
/// Bit 0 (GECL) set, or HALT, makes status 2 … An unknown opcode gives 20.
/// Parameter words outside the store give 21." "Reserved bits are ignored."
pub fn decode(store: &[u8], pointer: u32) -> Decoded {
    let at = u64::from(pointer);
    if at % 2 == 1 {
        return Decoded::Fault(Fault(21));
    }
    let Some(first) = word_at(store, at) else {
        return Decoded::Fault(Fault(21));
    };
    if first & 1 == 1 {
        return Decoded::End;
    }
    let Some((count, command)) = shape_of(first >> 8) else {
        return Decoded::Fault(Fault(20));
    };
    let mut words = Words::default();
    for (k, slot) in (0..count).zip(words.0.iter_mut()) {
        let Some(word) = word_at(store, at + 2 + 2 * k) else {
            return Decoded::Fault(Fault(21));
        };
        *slot = word;
    }
    // The store is at most 200000 hex bytes long, so the sum fits.
    let next = (at + 2 + 2 * count) as u32;
    Decoded::Command(command(&words), next)
}
