//! What the console keeps of a pane: a fresh record, and when one is sound.

use crate::bitmaps::{Bitmap, Clip, Scissor};
use crate::table::Row;

/// "Status: 0 parked, 1 running, 2 ended, 3 faulted." And "a CHAR that met a T …
/// leaves status 4" (02, A.7): trapped.
pub const PARKED: u32 = 0;
pub const RUNNING: u32 = 1;
pub const ENDED: u32 = 2;
pub const FAULTED: u32 = 3;
pub const TRAPPED: u32 = 4;

/// The most return addresses that CALL keeps.
pub const MOST_RETURNS: u32 = 8;

/// The font of DEF_CHAR_SET: its base, and whether strings hold bytes (0B hex)
/// or words (0A hex).
#[derive(Clone, Copy, Debug, PartialEq, Eq)]
pub struct Font {
    pub base: u32,
    pub byte_mode: bool,
}

/// What the console keeps of one pane.
#[derive(Clone, Debug, PartialEq, Eq)]
pub struct PaneRecord {
    pub status: u32,
    pub fault: u32,
    pub pointer: u32,
    pub x: i16,
    pub y: i16,
    pub bitmap: Bitmap,
    pub clip: Clip,
    /// Where drawing can land on the screen. It is kept and compared, but not
    /// drawn by: see `Pane::draw`.
    pub scissor: Scissor,
    pub foreground: u16,
    pub background: u16,
    pub operation: u32,
    pub mask: u16,
    pub pattern: u16,
    pub transparent: bool,
    pub spacing: i16,
    pub path: u32,
    pub rotation: u32,
    pub font: Option<Font>,
    pub pick_mode: bool,
    pub pick_flag: bool,
    pub trap_flag: bool,
    /// Whether a CHAR that meets a T stops the run.
    pub trap_switch: bool,
    pub return_count: u32,
    pub returns: [u32; MOST_RETURNS as usize],
}

impl PaneRecord {
    /// "A fresh pane record: status 0, fault 0, pointer 0, position (0,0), no
    /// bitmap, clip all 0, both colours 0, operation 'replace' (new bit =
    /// source bit), colour mask FFFF hex, pattern FFFF hex opaque, spacing 0,
    /// path and rotation 0, no font, pick mode off, pick and trap flags 0, no
    /// return addresses." Replace is code 5: "source". The scissor is empty,
    /// there being no bitmap. "A pane gets a trap switch, off when fresh" (02,
    /// A.7).
    pub fn fresh() -> PaneRecord {
        PaneRecord {
            status: PARKED,
            fault: 0,
            pointer: 0,
            x: 0,
            y: 0,
            bitmap: Bitmap::None,
            clip: Clip::default(),
            scissor: Scissor::default(),
            foreground: 0,
            background: 0,
            operation: 5,
            mask: 0xFFFF,
            pattern: 0xFFFF,
            transparent: false,
            spacing: 0,
            path: 0,
            rotation: 0,
            font: None,
            pick_mode: false,
            pick_flag: false,
            trap_flag: false,
            trap_switch: false,
            return_count: 0,
            returns: [0; MOST_RETURNS as usize],
        }
    }

    /// What start leaves: "pointer at the address, status 1, fault 0, no return
    /// addresses, the rest kept".
    pub fn start(&mut self, address: u32) {
        self.pointer = address;
        self.status = RUNNING;
        self.fault = 0;
        self.return_count = 0;
        self.returns = [0; MOST_RETURNS as usize];
    }

    /// "Run on status 4 clears the flag, makes the status 1, with budget 0 too,
    /// and goes on with the next command", to which the pointer has gone on.
    pub fn resume(&mut self) {
        if self.status == TRAPPED {
            self.trap_flag = false;
            self.status = RUNNING;
        }
    }

    /// Sets the trap switch. "Turning the switch off at status 4 makes the
    /// status 1 and keeps the flag."
    pub fn set_switch(&mut self, on: bool) {
        self.trap_switch = on;
        if !on && self.status == TRAPPED {
            self.status = RUNNING;
        }
    }

    /// The position as whole numbers.
    pub fn position(&self) -> (i64, i64) {
        (i64::from(self.x), i64::from(self.y))
    }

    /// "The position wraps at 16 bits."
    pub fn move_by(&mut self, dx: i64, dy: i64) {
        let (x, y) = self.position();
        self.x = (x + dx) as i16;
        self.y = (y + dy) as i16;
    }

    /// What is drawn on, and the clip; with them goes the scissor: "every call
    /// and command keeps it equal to what would be computed afresh" (02, A.6).
    pub fn set_limits(&mut self, row: &Row, bitmap: Bitmap, clip: Clip) {
        self.bitmap = bitmap;
        self.clip = clip;
        self.scissor = Scissor::of(row, &bitmap, &clip);
    }

    /// Refusal 12: "the pane record has a status above 3; a fault outside 20
    /// to 29 at status 3 or not 0 elsewhere; a bitmap breaking DEF_BITMAP's
    /// rule; a clip value outside the bitmap, or not 0 without one; a font
    /// base odd or above 22 bits; an operation above 15; a path or rotation
    /// above 3; over eight return addresses." And "refusal 12 admits fault 30
    /// at status 3" (02, A.1), and "a pane record in which" the scissor "isn't
    /// equal" to what would be computed afresh "falls under refusal 12" (02, A.6).
    /// And "refusal 12 admits status 4 only with the switch on and the flag set"
    /// (02, A.7).
    pub fn is_sound(&self, row: &Row, depth: u32) -> bool {
        let fault_sound = if self.status == FAULTED {
            (20..=30).contains(&self.fault)
        } else {
            self.fault == 0
        };
        let trap_sound = self.status != TRAPPED || self.trap_switch && self.trap_flag;
        let clip_sound = if self.bitmap == Bitmap::None {
            self.clip == Clip::default()
        } else {
            self.clip.lies_in(&self.bitmap)
        };
        let font_sound = match self.font {
            None => true,
            Some(font) => font.base % 2 == 0 && font.base <= 0x3F_FFFF,
        };
        self.status <= TRAPPED
            && fault_sound
            && trap_sound
            && self.bitmap.keeps_rule(row, depth)
            && clip_sound
            && self.scissor == Scissor::of(row, &self.bitmap, &self.clip)
            && font_sound
            && self.operation <= 15
            && self.path <= 3
            && self.rotation <= 3
            && self.return_count <= MOST_RETURNS
    }
}
