//! Those that run a list: the proved console, the second implementation, and the peer in C, each over one pane.

use reference::calls;
use reference::judge::Verdict;
use reference::setup::{set_up, Console};
use reference::table::{Geometry, Row};

type RunList = unsafe extern "C" fn(*mut u8, usize, *mut u8, usize, u32, u32, u32, u32, u32) -> u32;

extern "C" {
    fn run_list(
        screen: *mut u8,
        screen_len: usize,
        stores: *mut u8,
        stores_len: usize,
        width: u32,
        height: u32,
        depth: u32,
        len: u32,
        budget: u32,
    ) -> u32;

    fn peer_run(
        screen: *mut u8,
        screen_len: usize,
        stores: *mut u8,
        stores_len: usize,
        width: u32,
        height: u32,
        depth: u32,
        len: u32,
        budget: u32,
    ) -> u32;

    fn judge_list(
        screen: *const u8,
        screen_len: usize,
        stores: *const u8,
        stores_len: usize,
        width: u32,
        height: u32,
        depth: u32,
        len: u32,
    ) -> u32;
}

/// A pane over the whole screen, and the length of its store.
#[derive(Clone, Copy)]
pub struct Pane {
    pub width: u32,
    pub height: u32,
    pub depth: u32,
    pub store: u32,
}

impl Pane {
    /// The bytes of a row.
    pub fn stride(&self) -> usize {
        row_bytes(self.width, self.depth)
    }

    /// The bytes of the screen.
    pub fn screen(&self) -> usize {
        self.stride() * self.height as usize
    }

    fn console(&self) -> Console {
        let Pane { width, height, depth, store } = *self;
        let row = Row { left: 0, top: 0, width, height, store_start: 0, store_length: store };
        Console::planned(Geometry { width, height, depth }, &[row])
    }
}

/// "A row takes ceil(width × b / 16) words."
pub fn row_bytes(width: u32, depth: u32) -> usize {
    (width * depth).div_ceil(16) as usize * 2
}

/// Which of the three.
#[derive(Clone, Copy)]
pub enum Runner {
    Proved,
    Second,
    Peer,
}

/// What a run draws on.
#[derive(Clone, PartialEq)]
pub struct Buffers {
    pub screen: Vec<u8>,
    pub store: Vec<u8>,
}

impl Buffers {
    /// A screen of zeroes.
    pub fn blank(pane: &Pane, store: Vec<u8>) -> Buffers {
        Buffers { screen: vec![0; pane.screen()], store }
    }

    /// A screen on which no two words are likely to be alike.
    pub fn strewn(pane: &Pane, store: Vec<u8>) -> Buffers {
        let screen = strewn_words(pane.screen() / 2).into_iter().flat_map(u16::to_le_bytes).collect();
        Buffers { screen, store }
    }

    /// Runs the list at address 0: the commands done.
    pub fn run(&mut self, pane: &Pane, runner: Runner, budget: u32) -> u32 {
        match runner {
            Runner::Proved => self.run_by(pane, run_list, budget),
            Runner::Peer => self.run_by(pane, peer_run, budget),
            Runner::Second => self.run_second(pane, budget),
        }
    }

    fn run_by(&mut self, pane: &Pane, run: RunList, budget: u32) -> u32 {
        let (screen, store) = (&mut self.screen, &mut self.store);
        let (screen_at, store_at) = (screen.as_mut_ptr(), store.as_mut_ptr());
        let Pane { width, height, depth, store: len } = *pane;
        // SAFETY: both write within the two buffers that they are lent, and keep nothing of them.
        unsafe { run(screen_at, screen.len(), store_at, store.len(), width, height, depth, len, budget) }
    }

    fn run_second(&mut self, pane: &Pane, budget: u32) -> u32 {
        let mut console = pane.console();
        set_up(&mut console, &self.screen, &self.store).expect("set-up");
        calls::start(&mut console, &self.screen, &self.store, 0, 0).expect("start");
        calls::run(&mut console, &mut self.screen, &mut self.store, 0, budget).expect("run").commands
    }

    /// The proved console's judge: the commands walked, 0 if the list is not clean.
    pub fn judge_proved(&self, pane: &Pane) -> u32 {
        let (screen, store) = (&self.screen, &self.store);
        let (screen_at, store_at) = (screen.as_ptr(), store.as_ptr());
        let Pane { width, height, depth, store: len } = *pane;
        // SAFETY: the judge reads within the two buffers that it is lent, and keeps nothing of them.
        unsafe { judge_list(screen_at, screen.len(), store_at, store.len(), width, height, depth, len) }
    }

    /// .. and the second implementation's.
    pub fn judge_second(&self, pane: &Pane) -> u32 {
        let mut console = pane.console();
        set_up(&mut console, &self.screen, &self.store).expect("set-up");
        match calls::judge(&console, &self.screen, &self.store, 0, 0).expect("judge") {
            Verdict::Clean { commands } => commands,
            _ => 0,
        }
    }
}

/// So many words, from one step of a congruence to the next.
pub fn strewn_words(count: usize) -> Vec<u16> {
    let step = |state: &mut u32| {
        *state = state.wrapping_mul(1_664_525).wrapping_add(1_013_904_223);
        Some((*state >> 16) as u16)
    };
    std::iter::repeat(()).scan(1, |state, ()| step(state)).take(count).collect()
}
