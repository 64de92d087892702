//! What a random script does with the trap switch: a wrong rule for it shows
//! where one of these comes up.

use super::paint::record_of;
use crate::decode::Command;
use crate::glyphs::string_glyphs;
use crate::record::{PaneRecord, TRAPPED};
use crate::script::Session;
use crate::step::Outcome;
use std::collections::BTreeSet;

/// The stops of a script.
#[derive(Default)]
pub struct Stops {
    /// What came up.
    pub met: BTreeSet<&'static str>,
    /// What a look at the pane would show, if its last call that changed the
    /// record left status 4.
    shown: [Option<&'static str>; 8],
}

impl Stops {
    /// An accepted call on a pane, by its letter and its last field, with the
    /// pane's record before and after it.
    pub fn call(
        &mut self,
        letter: char,
        value: &[u8],
        pane: usize,
        [before, after]: [&PaneRecord; 2],
    ) {
        let stopped = before.status == TRAPPED;
        match letter {
            'l' => {
                self.met.extend(self.shown[pane].take());
                self.meet("looked at while stopped", stopped);
                return;
            }
            'j' => {
                self.meet("judged while stopped", stopped);
                return;
            }
            'w' | 'x' | 'k' => return,
            _ => {}
        }
        let off = !after.trap_switch;
        self.shown[pane] = match letter {
            'r' if stopped && value == b"0" => Some("resumed with budget 0, then looked at"),
            't' if stopped && off => Some("turned off while stopped, then looked at"),
            'g' if stopped => Some("started while stopped, then looked at"),
            _ => None,
        };
        self.meet("stopped", letter == 'r' && after.status == TRAPPED);
        if !stopped {
            return;
        }
        self.meet("resumed with more", letter == 'r' && value != b"0");
        self.meet(
            "resumed and stopped again",
            letter == 'r' && after.status == TRAPPED,
        );
        self.meet("turned off while stopped", letter == 't' && off);
        self.meet("turned on while stopped", letter == 't' && !off);
        self.meet("started while stopped", letter == 'g');
        self.meet("cleared while stopped", letter == 'c');
    }

    /// What became of one command, with the state before it and the record
    /// after it.
    pub fn command(&mut self, before: &Session, pane: usize, outcome: Outcome, after: &PaneRecord) {
        let Outcome::Done {
            command: Command::Char { address, count, .. },
            pixels,
        } = outcome
        else {
            return;
        };
        let record = record_of(before, pane);
        if !record.trap_switch {
            return;
        }
        if after.status != TRAPPED {
            let without = "CHAR without T, the flag set before";
            self.meet(without, record.trap_flag && count > 0);
            let empty = "CHAR of an empty string, the flag set before";
            self.meet(empty, record.trap_flag && count == 0);
            return;
        }
        self.meet("stopped in pick mode", record.pick_mode);
        self.meet(
            "stopped where nothing is drawn",
            !record.pick_mode && pixels == 0,
        );
        let glyphs = record.font.and_then(|font| {
            let row = before.rows.get(pane)?;
            let start = row.store_start as usize;
            let store = &before.stores[start..start + row.store_length as usize];
            string_glyphs(store, &record.bitmap, font, address, count).ok()
        });
        let first = glyphs.iter().flatten().position(|glyph| glyph.trap);
        let later = first.is_some_and(|first| first + 1 < usize::from(count));
        self.meet("stopped by a T that isn't the last character", later);
    }

    /// Notes what came up.
    fn meet(&mut self, what: &'static str, is_so: bool) {
        if is_so {
            self.met.insert(what);
        }
    }
}
