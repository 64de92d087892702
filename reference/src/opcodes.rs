//! The opcodes, each with its name. "Source document 003 … decides opcodes";
//! the names are the paper's, with what tells two opcodes of a command apart.

pub const LINK: u16 = 0x02;
pub const NOP: u16 = 0x03;
pub const DEF_TEXTURE_OPAQUE: u16 = 0x06;
pub const DEF_TEXTURE_TRANSPARENT: u16 = 0x07;
pub const DEF_CHAR_SET_WORDS: u16 = 0x0A;
pub const DEF_CHAR_SET_BYTES: u16 = 0x0B;
pub const CALL: u16 = 0x0F;
pub const RETURN: u16 = 0x17;
pub const DEF_BITMAP: u16 = 0x1A;
pub const DEF_COLORS: u16 = 0x3D;
pub const DEF_LOGICAL_OP: u16 = 0x41;
pub const ENTER_PICK: u16 = 0x44;
pub const EXIT_PICK: u16 = 0x45;
pub const DEF_CLIP_RECT: u16 = 0x46;
pub const DEF_SPACE: u16 = 0x4D;
pub const DEF_CHAR_ORIENT: u16 = 0x4E;
pub const ABS_MOV: u16 = 0x4F;
pub const REL_MOV: u16 = 0x52;
pub const POINT: u16 = 0x53;
pub const LINE: u16 = 0x54;
/// The chip leaves this line's end point out; the paper's LINE draws it.
pub const LINE_OPEN: u16 = 0x55;
pub const RECT: u16 = 0x58;
pub const BIT_BLT: u16 = 0x64;
pub const POLYLINE: u16 = 0x74;
pub const CIRCLE: u16 = 0x8E;
pub const CHAR_OPAQUE: u16 = 0xA6;
pub const CHAR_TRANSPARENT: u16 = 0xA7;
/// Reverse video on the chip; the paper draws it as the two before.
pub const CHAR_REVERSE_OPAQUE: u16 = 0xA8;
pub const CHAR_REVERSE_TRANSPARENT: u16 = 0xA9;
pub const BIT_BLT_M: u16 = 0xAE;
pub const SCAN_LINES: u16 = 0xBA;
