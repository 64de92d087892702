//! The calls on a pane and their refusals. "The first that applies is replied,
//! alone; record and buffers keep every bit."

use crate::bitmaps::Bitmap;
use crate::judge::{self, Verdict};
use crate::pixels::{Frame, Pane};
use crate::record::{PaneRecord, RUNNING, TRAPPED};
use crate::setup::Console;
use crate::step::{step, Outcome};
use crate::table::Row;
use crate::Refusal;
use std::ops::Range;

/// What run replies.
#[derive(Clone, Copy, Debug, PartialEq, Eq)]
pub struct RunReply {
    pub commands: u32,
    pub status: u32,
    pub fault: u32,
    /// The pixels drawn.
    pub pixels: u64,
}

/// What look replies.
#[derive(Clone, Copy, Debug, PartialEq, Eq)]
pub struct LookReply {
    pub status: u32,
    pub fault: u32,
    pub pointer: u32,
    pub x: i16,
    pub y: i16,
    pub pick: bool,
    pub trap: bool,
}

/// "Every call: set-up's checks again on the record lent; 1 no such pane; 12"
/// an unsound pane record. Answers the pane's index.
fn enter(console: &Console, screen: &[u8], stores: &[u8], pane: u32) -> Result<usize, Refusal> {
    console.check(screen, stores)?;
    if pane >= console.row_count {
        return Err(Refusal(1));
    }
    let index = pane as usize;
    if !console.panes[index].is_sound(&console.rows[index], console.geometry.depth) {
        return Err(Refusal(12));
    }
    Ok(index)
}

/// Where the pane's store lies in the stores buffer.
fn store_range(console: &Console, index: usize) -> Range<usize> {
    let row = &console.rows[index];
    let start = row.store_start as usize;
    start..start + row.store_length as usize
}

/// "Each call hands on only the named pane's part" of the stores.
pub fn lend<'a>(
    console: &'a mut Console,
    screen: &'a mut [u8],
    stores: &'a mut [u8],
    index: usize,
) -> Pane<'a> {
    let range = store_range(console, index);
    Pane {
        frame: Frame {
            geometry: console.geometry,
            row: console.rows[index],
        },
        record: &mut console.panes[index],
        screen,
        store: &mut stores[range],
    }
}

/// "Put (address, bytes): 2 if they pass the store's end; nothing at the very
/// end is accepted; else they stand in the store from the address on, all else
/// kept."
pub fn put(
    console: &Console,
    screen: &[u8],
    stores: &mut [u8],
    pane: u32,
    address: u32,
    bytes: &[u8],
) -> Result<(), Refusal> {
    let index = enter(console, screen, stores, pane)?;
    let store = &mut stores[store_range(console, index)];
    if u64::from(address) + bytes.len() as u64 > store.len() as u64 {
        return Err(Refusal(2));
    }
    let start = address as usize;
    store[start..start + bytes.len()].copy_from_slice(bytes);
    Ok(())
}

/// "Start (address): 3 odd, 2 not below the length; else pointer at the
/// address, status 1, fault 0, no return addresses, the rest kept."
pub fn start(
    console: &mut Console,
    screen: &[u8],
    stores: &[u8],
    pane: u32,
    address: u32,
) -> Result<(), Refusal> {
    let index = enter(console, screen, stores, pane)?;
    check_start(&console.rows[index], address)?;
    console.panes[index].start(address);
    Ok(())
}

/// Start's own refusals: "3 odd, 2 not below the length".
fn check_start(row: &Row, address: u32) -> Result<(), Refusal> {
    if address % 2 == 1 {
        return Err(Refusal(3));
    }
    if address >= row.store_length {
        return Err(Refusal(2));
    }
    Ok(())
}

/// "Run (budget, 32 bits): 4 status isn't 1; else commands done, status,
/// fault." "While status is 1 and budget is left" one command after another is
/// done. "A spent budget leaves status 1, even before an end word." And "run is
/// to report, besides its commands, the number of pixels drawn in it": the sum
/// of what its commands drew. "The sum is 64 bits wide" (02, A.5). "Refusal 4
/// then covers statuses 0, 2 and 3" (02, A.7).
pub fn run(
    console: &mut Console,
    screen: &mut [u8],
    stores: &mut [u8],
    pane: u32,
    budget: u32,
) -> Result<RunReply, Refusal> {
    let index = enter(console, screen, stores, pane)?;
    if !matches!(console.panes[index].status, RUNNING | TRAPPED) {
        return Err(Refusal(4));
    }
    let mut lent = lend(console, screen, stores, index);
    lent.record.resume();
    let mut commands = 0;
    let mut sum = 0;
    while lent.record.status == RUNNING && commands < budget {
        if let Outcome::Done { pixels, .. } = step(&mut lent) {
            commands += 1;
            sum += pixels;
        }
    }
    Ok(RunReply {
        commands,
        status: lent.record.status,
        fault: lent.record.fault,
        pixels: sum,
    })
}

/// "Look: none of its own; status, fault, pointer, position, pick and trap
/// flag."
pub fn look(
    console: &Console,
    screen: &[u8],
    stores: &[u8],
    pane: u32,
) -> Result<LookReply, Refusal> {
    let index = enter(console, screen, stores, pane)?;
    let record = &console.panes[index];
    Ok(LookReply {
        status: record.status,
        fault: record.fault,
        pointer: record.pointer,
        x: record.x,
        y: record.y,
        pick: record.pick_flag,
        trap: record.trap_flag,
    })
}

/// "Pixel (x,y from the pane's corner): 5 outside the pane; else its value."
pub fn pixel(
    console: &Console,
    screen: &[u8],
    stores: &[u8],
    pane: u32,
    x: u32,
    y: u32,
) -> Result<u16, Refusal> {
    let index = enter(console, screen, stores, pane)?;
    let row = console.rows[index];
    if x >= row.width || y >= row.height {
        return Err(Refusal(5));
    }
    // The pane as a bitmap; its width and height are at most 4,096.
    let bitmap = Bitmap::Pane {
        xmax: (row.width - 1) as u16,
        ymax: (row.height - 1) as u16,
        bits: console.geometry.depth as u16,
    };
    let frame = Frame {
        geometry: console.geometry,
        row,
    };
    frame
        .pixel(screen, &[], &bitmap, i64::from(x), i64::from(y))
        .ok_or(Refusal(5))
}

/// "Peek (address): 2 not below the length; else the byte."
pub fn peek(
    console: &Console,
    screen: &[u8],
    stores: &[u8],
    pane: u32,
    address: u32,
) -> Result<u8, Refusal> {
    let index = enter(console, screen, stores, pane)?;
    let store = &stores[store_range(console, index)];
    store.get(address as usize).copied().ok_or(Refusal(2))
}

/// "Clear: none; fresh pane record, store and pixels kept."
pub fn clear(
    console: &mut Console,
    screen: &[u8],
    stores: &[u8],
    pane: u32,
) -> Result<(), Refusal> {
    let index = enter(console, screen, stores, pane)?;
    console.panes[index] = PaneRecord::fresh();
    Ok(())
}

/// "The judge, a call on a pane, starts at an address in its store, refused as
/// start refuses it, as from a cleared pane." "It writes nothing."
pub fn judge(
    console: &Console,
    screen: &[u8],
    stores: &[u8],
    pane: u32,
    address: u32,
) -> Result<Verdict, Refusal> {
    let index = enter(console, screen, stores, pane)?;
    check_start(&console.rows[index], address)?;
    let frame = Frame {
        geometry: console.geometry,
        row: console.rows[index],
    };
    let store = &stores[store_range(console, index)];
    Ok(judge::judge(&frame, store, address))
}

/// "Setting the switch is a ninth call on a pane": 1 turns it on, 0 off. "A
/// switch value other than 0 or 1 is refused with 33, after 12" (02, A.7).
pub fn switch(
    console: &mut Console,
    screen: &[u8],
    stores: &[u8],
    pane: u32,
    value: u32,
) -> Result<(), Refusal> {
    let index = enter(console, screen, stores, pane)?;
    let on = match value {
        0 => false,
        1 => true,
        _ => return Err(Refusal(33)),
    };
    console.panes[index].set_switch(on);
    Ok(())
}
