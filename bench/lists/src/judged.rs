//! The judges of the proved console and of the second implementation, beside a run of the same list.

use crate::commands::{write, Commands};
use crate::consoles::{Buffers, Pane, Runner};
use crate::lists::{lists, pane, Named};
use std::time::Instant;

/// The judge takes no LINK: in the form that is judged, the commands of the loop are a list at this address, which
/// is called so often.
const CALLED: u32 = 0x2000;
const CALLS: usize = 100;
/// Each list is run and judged in so many rounds, and the best time of each counts.
const ROUNDS: usize = 5;
/// A list is judged so often in a round.
const JUDGED: u32 = 50;
const END: u16 = 1;

/// The bytes of a store that holds the list in the form that is judged: it calls, and ends.
fn judged_store(named: &Named, pane: &Pane) -> Vec<u8> {
    let list = &named.list;
    let calls = list.beginning(pane).then(&Commands::new().call(CALLED).times(CALLS));
    let mut bytes = list.store_of(pane, &[calls.words(), vec![END]].concat());
    write(&mut bytes, CALLED as usize, &list.again.clone().back().words());
    bytes
}

/// What the judging of a list came to: the commands walked, and for each of them the time of a run by the proved
/// console, of its judge, and of the second implementation's.
struct Judging {
    commands: u32,
    times: [f64; 3],
}

/// The time of a judging, and the commands walked.
fn judged(judge: impl Fn() -> u32) -> (f64, u32) {
    let began = Instant::now();
    let mut commands = 0;
    for _ in 0..JUDGED {
        commands = judge();
    }
    (began.elapsed().as_nanos() as f64 / f64::from(JUDGED), commands)
}

/// One list judged by each implementation, and run: both find it clean, and the run does as many commands as they
/// walked.
fn judging(named: &Named, pane: &Pane) -> Judging {
    let mut buffers = Buffers::blank(pane, judged_store(named, pane));
    let (proved, commands) = judged(|| buffers.judge_proved(pane));
    let (second, walked) = judged(|| buffers.judge_second(pane));
    assert_eq!((walked, commands > 0), (commands, true), "{}", named.name);

    let began = Instant::now();
    let done = buffers.run(pane, Runner::Proved, commands + 1);
    let run = began.elapsed().as_nanos() as f64;
    assert_eq!(done, commands, "{}", named.name);
    Judging { commands, times: [run, proved, second].map(|time| time / f64::from(commands)) }
}

pub fn print_table() {
    println!(
        "| list | commands | run, ns a command | judged by the proved, ns a command \
         | judged by the second, ns a command | second / proved |"
    );
    println!("|---|---|---|---|---|---|");
    for named in lists() {
        let mut best = judging(&named, &pane(4));
        for _ in 1..ROUNDS {
            let next = judging(&named, &pane(4));
            best.times = std::array::from_fn(|k| best.times[k].min(next.times[k]));
        }
        let Judging { commands, times: [run, proved, second] } = best;
        let ratio = second / proved;
        println!("| {} | {commands} | {run:.1} | {proved:.1} | {second:.1} | {ratio:.2} |", named.name);
    }
}
