//! The judge: a list "judged before it goes to a press". "It writes nothing."

use crate::bitmaps::PANE_ADDRESS;
use crate::decode::{decode, Command, Decoded};
use crate::faults::Scene;
use crate::pixels::Frame;
use crate::record::PaneRecord;
use crate::step::settle;

/// "It walks at most 4,096 commands."
pub const MOST_WALKED: u32 = 4_096;

/// What the judge replies.
#[derive(Clone, Copy, Debug, PartialEq, Eq)]
pub enum Verdict {
    /// "'Clean' means that runs of any budgets from there … never fault, and
    /// reach status 2 once the budgets add to more than the commands walked."
    Clean { commands: u32 },
    /// "Otherwise the accepted reply names the first fault the run would meet
    /// and its address": 20 to 30, or the judge's own 31 and 32.
    Found { number: u32, address: u32 },
}

/// Walks the list at an address of a pane's store, "as from a cleared pane":
/// the pane's own record has no part in it. Nor has its trap switch: "the judge's
/// 'clean' is meant with the switch off" (02, A.7).
///
/// A drawing command is checked and passed over. No pixel and no byte of the
/// store changes: the only bitmap that the walk lets be defined is the pane,
/// and no check looks at a pixel of the screen. "It follows CALL up to eight
/// deep", which is how many return addresses the record keeps.
pub fn judge(frame: &Frame, store: &[u8], address: u32) -> Verdict {
    let mut record = PaneRecord::fresh();
    record.start(address);
    let mut commands = 0;
    loop {
        let address = record.pointer;
        let found = |number| Verdict::Found { number, address };
        let (command, next) = match decode(store, address) {
            Decoded::End => return Verdict::Clean { commands },
            // "Anything but an end word after 4,096 commands gets 32, ahead of
            // its own faults and of 31."
            _ if commands == MOST_WALKED => return found(32),
            Decoded::Fault(fault) => return found(fault.0),
            Decoded::Command(command, next) => (command, next),
        };
        // 31 is "ahead of that command's own faults other than 21".
        if is_barred(command) {
            return found(31);
        }
        let scene = Scene {
            frame,
            record: &record,
            store,
        };
        if let Err(fault) = scene.check(command) {
            return found(fault.0);
        }
        record.pointer = settle(&frame.row, &mut record, command, next);
        commands += 1;
    }
}

/// "LINK, or a DEF_BITMAP whose address isn't 200000 hex, gets 31."
fn is_barred(command: Command) -> bool {
    match command {
        Command::Link { .. } => true,
        Command::DefBitmap { address, .. } => address != PANE_ADDRESS,
        _ => false,
    }
}
