//! A console on a bench: one record and two buffers, and short ways to use
//! them.

#![allow(dead_code)]

use reference::calls::{self, LookReply, RunReply};
use reference::judge::Verdict;
use reference::record::PaneRecord;
use reference::setup::{set_up, Console};
use reference::table::{Geometry, Row};
use reference::Refusal;

#[derive(Clone, Debug, PartialEq)]
pub struct Bench {
    pub console: Console,
    pub screen: Vec<u8>,
    pub stores: Vec<u8>,
}

pub const PANE: [u16; 2] = [0x0000, 0x0020];

/// A row of the table.
pub fn row(left: u32, top: u32, width: u32, height: u32, start: u32, length: u32) -> Row {
    Row {
        left,
        top,
        width,
        height,
        store_start: start,
        store_length: length,
    }
}

impl Bench {
    /// A console that set-up has not seen yet, with buffers just long enough.
    pub fn planned(width: u32, height: u32, depth: u32, rows: &[Row]) -> Bench {
        let screen_length = (width * depth).div_ceil(16) * 2 * height;
        let stores_length = rows
            .iter()
            .map(|row| row.store_start + row.store_length)
            .max();
        Bench {
            console: Console::planned(
                Geometry {
                    width,
                    height,
                    depth,
                },
                rows,
            ),
            screen: vec![0; screen_length as usize],
            stores: vec![0; stores_length.unwrap_or(0) as usize],
        }
    }

    /// A console that set-up accepted.
    pub fn open(width: u32, height: u32, depth: u32, rows: &[Row]) -> Bench {
        let mut bench = Bench::planned(width, height, depth, rows);
        assert_eq!(bench.set_up(), Ok(()));
        bench
    }

    /// One pane that is the whole screen, with a store of 1,024 bytes.
    pub fn whole(width: u32, height: u32, depth: u32) -> Bench {
        Bench::open(width, height, depth, &[row(0, 0, width, height, 0, 1024)])
    }

    pub fn set_up(&mut self) -> Result<(), Refusal> {
        set_up(&mut self.console, &self.screen, &self.stores)
    }

    pub fn put(&mut self, pane: u32, address: u32, bytes: &[u8]) -> Result<(), Refusal> {
        calls::put(
            &self.console,
            &self.screen,
            &mut self.stores,
            pane,
            address,
            bytes,
        )
    }

    pub fn start(&mut self, pane: u32, address: u32) -> Result<(), Refusal> {
        calls::start(&mut self.console, &self.screen, &self.stores, pane, address)
    }

    pub fn run(&mut self, pane: u32, budget: u32) -> Result<RunReply, Refusal> {
        calls::run(
            &mut self.console,
            &mut self.screen,
            &mut self.stores,
            pane,
            budget,
        )
    }

    pub fn look(&self, pane: u32) -> Result<LookReply, Refusal> {
        calls::look(&self.console, &self.screen, &self.stores, pane)
    }

    pub fn pixel(&self, pane: u32, x: u32, y: u32) -> Result<u16, Refusal> {
        calls::pixel(&self.console, &self.screen, &self.stores, pane, x, y)
    }

    pub fn peek(&self, pane: u32, address: u32) -> Result<u8, Refusal> {
        calls::peek(&self.console, &self.screen, &self.stores, pane, address)
    }

    pub fn clear(&mut self, pane: u32) -> Result<(), Refusal> {
        calls::clear(&mut self.console, &self.screen, &self.stores, pane)
    }

    pub fn judge(&self, pane: u32, address: u32) -> Result<Verdict, Refusal> {
        calls::judge(&self.console, &self.screen, &self.stores, pane, address)
    }

    pub fn switch(&mut self, pane: u32, value: u32) -> Result<(), Refusal> {
        let console = &mut self.console;
        calls::switch(console, &self.screen, &self.stores, pane, value)
    }

    pub fn record(&mut self) -> &mut PaneRecord {
        &mut self.console.panes[0]
    }

    /// Puts words into the store of pane 0.
    pub fn put_words(&mut self, address: u32, words: &[u16]) {
        let bytes: Vec<u8> = words.iter().flat_map(|word| word.to_le_bytes()).collect();
        assert_eq!(self.put(0, address, &bytes), Ok(()));
    }

    /// Puts a list at 0 with an end word after it, and runs it on pane 0.
    pub fn go(&mut self, lists: &[&[u16]]) -> RunReply {
        let mut words = lists.concat();
        words.push(0x0001);
        self.put_words(0, &words);
        assert_eq!(self.start(0, 0), Ok(()));
        self.run(0, 1000).unwrap()
    }

    /// Runs a list that must end without a fault.
    pub fn done(&mut self, lists: &[&[u16]]) {
        let reply = self.go(lists);
        assert_eq!((reply.status, reply.fault), (2, 0), "{reply:?}");
    }

    /// One line of the pane's pixels.
    pub fn line(&self, y: u32) -> Vec<u16> {
        (0..self.console.rows[0].width)
            .map(|x| self.pixel(0, x, y).unwrap())
            .collect()
    }
}

/// DEF_BITMAP for a pane of this size.
pub fn pane_bitmap(width: u16, height: u16, bits: u16) -> [u16; 6] {
    [0x1A00, 0x0000, 0x0020, width - 1, height - 1, bits]
}

/// DEF_COLORS.
pub fn colors(foreground: u16, background: u16) -> [u16; 3] {
    [0x3D00, foreground, background]
}

/// ABS_MOV.
pub fn at(x: i16, y: i16) -> [u16; 3] {
    [0x4F00, x as u16, y as u16]
}
