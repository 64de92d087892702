//! The script programs: lines in, replies out.

use crate::calls;
use crate::judge::Verdict;
use crate::setup::{set_up, Console};
use crate::table::{Geometry, Row};
use crate::Refusal;
use std::io::{Read, Write};

/// "Limits: script 8,192 bytes, screen 32,768, stores 16,384."
pub const LONGEST_SCRIPT: usize = 8_192;
pub const LARGEST_SCREEN: u128 = 32_768;
pub const LARGEST_STORES: u64 = 16_384;

/// Which lines a script program takes.
#[derive(Clone, Copy, Debug, PartialEq, Eq, Default)]
pub enum Language {
    /// The paper's program, `panes`.
    #[default]
    Panes,
    /// `calls`: the same, and a letter for each call that the papers give none:
    /// `k,pane,address` for peek, `c,pane` for clear, `j,pane,address` for the
    /// judge and `t,pane,value` for the trap switch.
    Calls,
}

impl Language {
    /// The language of the program with this name.
    pub fn named(name: &str) -> Option<Language> {
        match name {
            "panes" => Some(Language::Panes),
            "calls" => Some(Language::Calls),
            _ => None,
        }
    }
}

/// What a script has said so far.
#[derive(Clone, Default)]
pub struct Session {
    pub language: Language,
    pub geometry: Option<Geometry>,
    pub rows: Vec<Row>,
    /// The console, once an `o` was accepted.
    pub console: Option<Console>,
    pub screen: Vec<u8>,
    pub stores: Vec<u8>,
}

/// A program: the script on standard input, its replies on standard output.
pub fn run_program(language: Language) {
    let mut script = Vec::new();
    // One byte past the longest script is enough to know that it is longer.
    let read = std::io::stdin()
        .take(LONGEST_SCRIPT as u64 + 1)
        .read_to_end(&mut script);
    let replies = answer(language, &script);
    if read.is_err() || std::io::stdout().write_all(replies.as_bytes()).is_err() {
        std::process::exit(1);
    }
}

/// The replies to a whole script. "A longer script prints only ?."
pub fn answer(language: Language, script: &[u8]) -> String {
    if script.len() > LONGEST_SCRIPT {
        return "?\n".to_string();
    }
    let mut session = Session::new(language);
    let mut replies = String::new();
    for line in lines_of(script) {
        // A line "prints ? and does nothing".
        match session.line(line) {
            None => replies.push_str("?\n"),
            Some(reply) if reply.is_empty() => {}
            Some(reply) => {
                replies.push_str(&reply);
                replies.push('\n');
            }
        }
    }
    replies
}

/// The lines of a script. Each ends in a line feed; a last one without it
/// counts too.
pub fn lines_of(script: &[u8]) -> Vec<&[u8]> {
    let mut lines: Vec<&[u8]> = script.split(|&byte| byte == b'\n').collect();
    // What follows the last line feed is a line only if there is something.
    if lines.last().is_some_and(|last| last.is_empty()) {
        lines.pop();
    }
    lines
}

impl Session {
    /// Nothing has been said yet.
    pub fn new(language: Language) -> Session {
        Session {
            language,
            ..Session::default()
        }
    }

    /// Takes one line and answers its reply, which is empty for `s` and `p`;
    /// nothing for a line that prints ?.
    pub fn line(&mut self, line: &[u8]) -> Option<String> {
        let fields: Vec<&[u8]> = line.split(|&byte| byte == b',').collect();
        match fields[..] {
            [b"s", width, height, depth] => self.take_screen(Geometry {
                width: decimal(width)?,
                height: decimal(height)?,
                depth: decimal(depth)?,
            }),
            [b"p", left, top, width, height, store_length] => self.take_pane(Row {
                left: decimal(left)?,
                top: decimal(top)?,
                width: decimal(width)?,
                height: decimal(height)?,
                store_start: 0,
                store_length: decimal(store_length)?,
            }),
            [b"o"] => self.open(),
            [b"w", pane, address, bytes] => {
                self.put(decimal(pane)?, hex(address)?, &hex_bytes(bytes)?)
            }
            [b"g", pane, address] => self.start(decimal(pane)?, hex(address)?),
            [b"r", pane, budget] => self.run(decimal(pane)?, decimal(budget)?),
            [b"l", pane] => self.look(decimal(pane)?),
            [b"x", pane, x, y] => self.pixel(decimal(pane)?, decimal(x)?, decimal(y)?),
            // What follows are letters that `panes` doesn't have.
            _ if self.language == Language::Panes => None,
            [b"k", pane, address] => self.peek(decimal(pane)?, hex(address)?),
            [b"c", pane] => self.clear(decimal(pane)?),
            [b"j", pane, address] => self.judge(decimal(pane)?, hex(address)?),
            [b"t", pane, value] => self.switch(decimal(pane)?, decimal(value)?),
            _ => None,
        }
    }

    /// "s,width,height,depth". Not taken: "one past a limit, a second `s`", or
    /// one after an accepted `o`.
    fn take_screen(&mut self, geometry: Geometry) -> Option<String> {
        let row_words = (u128::from(geometry.width) * u128::from(geometry.depth)).div_ceil(16);
        let needed = 2 * row_words * u128::from(geometry.height);
        if self.console.is_some() || self.geometry.is_some() || needed > LARGEST_SCREEN {
            return None;
        }
        self.geometry = Some(geometry);
        self.screen = vec![0; needed as usize];
        Some(String::new())
    }

    /// "p,left,top,width,height,store length (stores in sequence; screen and
    /// stores zeroed)". Not taken: one past a limit, a ninth `p`, or one after
    /// an accepted `o`.
    fn take_pane(&mut self, mut row: Row) -> Option<String> {
        let used = self.stores.len() as u64;
        let total = used + u64::from(row.store_length);
        if self.console.is_some() || self.rows.len() >= 8 || total > LARGEST_STORES {
            return None;
        }
        row.store_start = used as u32;
        self.rows.push(row);
        self.stores.resize(total as usize, 0);
        Some(String::new())
    }

    /// Set-up. "An `o` without `s`" or after an accepted one prints ?.
    fn open(&mut self) -> Option<String> {
        let geometry = self.geometry?;
        if self.console.is_some() {
            return None;
        }
        let mut console = Console::planned(geometry, &self.rows);
        let reply = set_up(&mut console, &self.screen, &self.stores);
        if reply.is_ok() {
            self.console = Some(console);
        }
        Some(reply_line('o', reply.map(|()| String::new())))
    }

    fn put(&mut self, pane: u32, address: u32, bytes: &[u8]) -> Option<String> {
        let console = self.console.as_ref()?;
        let reply = calls::put(
            console,
            &self.screen,
            &mut self.stores,
            pane,
            address,
            bytes,
        );
        Some(reply_line('w', reply.map(|()| String::new())))
    }

    fn start(&mut self, pane: u32, address: u32) -> Option<String> {
        let console = self.console.as_mut()?;
        let reply = calls::start(console, &self.screen, &self.stores, pane, address);
        Some(reply_line('g', reply.map(|()| String::new())))
    }

    /// "r has commands, status, fault", and the pixels drawn "as the last field"
    /// (02, A.5).
    fn run(&mut self, pane: u32, budget: u32) -> Option<String> {
        let console = self.console.as_mut()?;
        let reply = calls::run(console, &mut self.screen, &mut self.stores, pane, budget);
        Some(reply_line(
            'r',
            reply.map(|run| {
                format!(
                    ",{},{},{},{}",
                    run.commands, run.status, run.fault, run.pixels
                )
            }),
        ))
    }

    /// "l status, fault, pointer, x, y, pick, trap". "Pointers print in hex."
    fn look(&self, pane: u32) -> Option<String> {
        let console = self.console.as_ref()?;
        let reply = calls::look(console, &self.screen, &self.stores, pane);
        Some(reply_line(
            'l',
            reply.map(|look| {
                format!(
                    ",{},{},{:x},{},{},{},{}",
                    look.status,
                    look.fault,
                    look.pointer,
                    look.x,
                    look.y,
                    u8::from(look.pick),
                    u8::from(look.trap)
                )
            }),
        ))
    }

    /// "x the value".
    fn pixel(&self, pane: u32, x: u32, y: u32) -> Option<String> {
        let console = self.console.as_ref()?;
        let reply = calls::pixel(console, &self.screen, &self.stores, pane, x, y);
        Some(reply_line('x', reply.map(|value| format!(",{value}"))))
    }

    /// k the byte, in decimal.
    fn peek(&self, pane: u32, address: u32) -> Option<String> {
        let console = self.console.as_ref()?;
        let reply = calls::peek(console, &self.screen, &self.stores, pane, address);
        Some(reply_line('k', reply.map(|byte| format!(",{byte}"))))
    }

    fn clear(&mut self, pane: u32) -> Option<String> {
        let console = self.console.as_mut()?;
        let reply = calls::clear(console, &self.screen, &self.stores, pane);
        Some(reply_line('c', reply.map(|()| String::new())))
    }

    /// j 0 and the commands walked if clean, else what was found and its
    /// address, which prints in hex as pointers do.
    fn judge(&self, pane: u32, address: u32) -> Option<String> {
        let console = self.console.as_ref()?;
        let reply = calls::judge(console, &self.screen, &self.stores, pane, address);
        Some(reply_line(
            'j',
            reply.map(|verdict| match verdict {
                Verdict::Clean { commands } => format!(",0,{commands}"),
                Verdict::Found { number, address } => format!(",{number},{address:x}"),
            }),
        ))
    }

    fn switch(&mut self, pane: u32, value: u32) -> Option<String> {
        let console = self.console.as_mut()?;
        let reply = calls::switch(console, &self.screen, &self.stores, pane, value);
        Some(reply_line('t', reply.map(|()| String::new())))
    }
}

/// "Replies: letter, refusal, values; a refused call prints two fields."
fn reply_line(letter: char, reply: Result<String, Refusal>) -> String {
    match reply {
        Ok(values) => format!("{letter},0{values}"),
        Err(Refusal(number)) => format!("{letter},{number}"),
    }
}

/// A decimal number of at most 32 bits; leading zeros are fine.
pub fn decimal(field: &[u8]) -> Option<u32> {
    number(field, 10)
}

/// A hex number of at most 32 bits, in either case; leading zeros are fine.
pub fn hex(field: &[u8]) -> Option<u32> {
    number(field, 16)
}

fn number(field: &[u8], base: u32) -> Option<u32> {
    if field.is_empty() {
        return None;
    }
    field.iter().try_fold(0u32, |value, &byte| {
        let digit = char::from(byte).to_digit(base)?;
        value.checked_mul(base)?.checked_add(digit)
    })
}

/// Bytes of two hex digits each, none at all being good too.
pub fn hex_bytes(field: &[u8]) -> Option<Vec<u8>> {
    if field.len() % 2 == 1 {
        return None;
    }
    field
        .chunks_exact(2)
        .map(|pair| hex(pair).map(|value| value as u8))
        .collect()
}
