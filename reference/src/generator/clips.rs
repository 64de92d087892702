//! What a random script draws on the pane, and by which clips: a wrong limit
//! shows where one of these comes up.

use super::paint::{command_at, is_drawing, pixels_if, record_of, unclip};
use crate::bitmaps::{Bitmap, Scissor};
use crate::decode::Command;
use crate::script::Session;
use crate::step::Outcome;
use std::collections::BTreeSet;

/// The clips of a script.
#[derive(Default)]
pub struct Clips {
    /// What came up.
    pub met: BTreeSet<&'static str>,
    panes: [Origin; 8],
}

/// How a pane came to its bitmap and clip.
#[derive(Clone, Copy, Default)]
struct Origin {
    /// The bitmap before was in the store.
    from_store: bool,
    /// The pane was started since.
    started: bool,
    /// A DEF_BITMAP or DEF_CLIP_RECT has faulted since, with this number. Before
    /// any other command there was a start.
    faulted: Option<u32>,
}

impl Clips {
    /// An accepted start.
    pub fn start(&mut self, pane: usize) {
        self.panes[pane].started = true;
    }

    /// What became of one command, with the state before it.
    pub fn command(&mut self, before: &Session, pane: usize, outcome: Outcome) {
        match outcome {
            Outcome::Done { command, pixels } => match command {
                Command::DefBitmap { .. } => {
                    let left = record_of(before, pane).bitmap;
                    self.panes[pane] = Origin {
                        from_store: matches!(left, Bitmap::Store { .. }),
                        ..Origin::default()
                    };
                }
                Command::DefClipRect { .. } => {
                    self.panes[pane].started = false;
                    self.panes[pane].faulted = None;
                }
                _ if is_drawing(command) => self.drawing(before, pane, pixels),
                _ => {}
            },
            Outcome::Faulted(fault) => {
                let at = command_at(before, pane);
                if let Some(Command::DefBitmap { .. } | Command::DefClipRect { .. }) = at {
                    self.panes[pane].faulted = Some(fault.0);
                }
            }
            Outcome::Ended => {}
        }
    }

    /// A drawing command that was done. In pick mode it drew nothing.
    fn drawing(&mut self, before: &Session, pane: usize, pixels: u64) {
        let record = record_of(before, pane);
        if record.pick_mode || !matches!(record.bitmap, Bitmap::Pane { .. }) {
            return;
        }
        let Origin {
            from_store,
            started,
            faulted,
        } = self.panes[pane];
        let empty = record.scissor == Scissor::default();
        let is_cut = || pixels_if(before, pane, unclip) > pixels;
        self.meet("cut by a clip", || !empty && is_cut());
        self.meet("kept away by an empty clip", || empty && is_cut());
        self.meet("cut by a clip from before the start", || {
            started && is_cut()
        });
        if pixels > 0 {
            self.meet("after a bitmap in the store", || from_store);
            self.meet("after a DEF_BITMAP that faulted", || faulted == Some(22));
            self.meet("after a DEF_CLIP_RECT that faulted", || faulted == Some(24));
        }
    }

    /// Notes what came up, once.
    fn meet(&mut self, what: &'static str, is_so: impl FnOnce() -> bool) {
        if !self.met.contains(what) && is_so() {
            self.met.insert(what);
        }
    }
}
