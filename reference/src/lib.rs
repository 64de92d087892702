//! The pane console, a second time.
//!
//! This is written from the papers alone, pixel by pixel and in the papers' own
//! words, so that the proved console can be compared with it. It is made to be
//! checked by reading, not to be fast. Each module follows one part of the
//! papers; the sentences in quotation marks are theirs.
//!
//! No input makes it panic: every number is bounded by the papers and every sum
//! is taken in integers wide enough for it.

pub mod bitmaps;
pub mod calls;
pub mod circles;
pub mod copies;
pub mod decode;
pub mod faults;
pub mod generator;
pub mod glyphs;
pub mod judge;
pub mod lines;
pub mod opcodes;
pub mod pixels;
pub mod record;
pub mod script;
pub mod setup;
pub mod step;
pub mod table;
pub mod words;

/// Why a call was refused: 1 to 12, or 33.
#[derive(Clone, Copy, Debug, PartialEq, Eq)]
pub struct Refusal(pub u32);

/// Why a command was not done: 20 to 30.
#[derive(Clone, Copy, Debug, PartialEq, Eq)]
pub struct Fault(pub u32);
