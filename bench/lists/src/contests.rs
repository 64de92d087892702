//! Times by turns: each contestant does its work again and again in a round, and its best round counts.

use crate::commands::List;
use crate::consoles::{Buffers, Pane, Runner};
use std::time::Instant;

/// A round takes so many nanoseconds at least.
const ROUND: f64 = 1e6;

/// How many rounds there are, unless BENCH_ROUNDS says otherwise.
const ROUNDS: usize = 25;

/// Something that does its work so often as it is told.
pub type Contestant<'a> = Box<dyn FnMut(u32) + 'a>;

fn time(contestant: &mut Contestant, times: u32) -> f64 {
    let began = Instant::now();
    contestant(times);
    began.elapsed().as_nanos() as f64
}

/// How often a contestant does its work in a round.
fn times_of(contestant: &mut Contestant) -> u32 {
    let mut times = 1;
    while times < 1 << 20 && time(contestant, times) < ROUND {
        times *= 2;
    }
    times
}

/// The best time of each, in nanoseconds, for its work done once.
pub fn best_times(mut contestants: Vec<Contestant>) -> Vec<f64> {
    let rounds = std::env::var("BENCH_ROUNDS").ok().and_then(|n| n.parse().ok()).unwrap_or(ROUNDS);
    let times: Vec<u32> = contestants.iter_mut().map(times_of).collect();
    let mut best = vec![f64::MAX; contestants.len()];
    for _ in 0..rounds {
        for (k, contestant) in contestants.iter_mut().enumerate() {
            best[k] = best[k].min(time(contestant, times[k]) / f64::from(times[k]));
        }
    }
    best
}

/// A list's loop passed again and again.
pub fn passes<'a>(list: &'a List, pane: &'a Pane, runner: Runner) -> Contestant<'a> {
    let mut buffers = Buffers::strewn(pane, list.store(pane));
    Box::new(move |times| {
        let budget = list.budget(pane, times);
        assert_eq!(buffers.run(pane, runner, budget), budget);
    })
}

/// What so many commands of a list leave, which is the same whoever runs it.
pub fn compared(name: &str, before: &Buffers, pane: &Pane, budget: u32) -> Buffers {
    let after = |runner| {
        let mut buffers = before.clone();
        assert_eq!(buffers.run(pane, runner, budget), budget, "{name}: the commands done");
        buffers
    };
    let proved = after(Runner::Proved);
    assert!(proved == after(Runner::Second), "{name}: the second implementation differs");
    assert!(proved == after(Runner::Peer), "{name}: the peer differs");
    proved
}

/// Checks that a pass leaves the same, whoever runs the list; and whether it draws.
pub fn check(name: &str, list: &List, pane: &Pane, draws: bool) {
    let before = Buffers::strewn(pane, list.store(pane));
    let after = compared(name, &before, pane, list.budget(pane, 1));
    assert_eq!(after.screen != before.screen, draws, "{name}: what is drawn");
}

/// A time for a table: three digits or more.
pub fn cell(time: f64) -> String {
    if time < 10.0 { format!("{time:.2}") } else { format!("{time:.1}") }
}

/// .. or nothing.
pub fn cell_if(time: Option<f64>) -> String {
    time.map_or(String::new(), cell)
}

/// A ratio for a table, or nothing.
pub fn ratio(time: f64, against: Option<f64>) -> String {
    against.map_or(String::new(), |against| format!("{:.2}", time / against))
}
