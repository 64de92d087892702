//! Lines with a judge, which only `calls` takes, and the runs that follow it.

use super::dice::Dice;
use super::lists::{cut_short, List, Plan, Tower};
use super::scripts::put_words;

/// How a list is judged before it is run.
#[derive(Clone, Copy, Default)]
pub struct Judging {
    pub judged: bool,
    /// It is then run from a cleared pane, as the judge has it.
    pub cleared: bool,
}

impl Judging {
    /// What will be done with the next list. Prepares the plan for writing it.
    pub fn choose(dice: &mut Dice, plan: &mut Plan) -> Judging {
        let judged = dice.chance(50);
        let cleared = judged && dice.chance(72);
        // Where the list does not know of it, CHAR may find no font.
        if cleared && dice.chance(80) {
            plan.forget();
        }
        plan.plain = judged && dice.chance(60);
        Judging { judged, cleared }
    }

    /// The lines before the list is started.
    pub fn lines(&self, number: u32, start: u32) -> Vec<String> {
        let mut lines = Vec::new();
        if self.judged {
            lines.push(format!("j,{number},{start:x}"));
        }
        if self.cleared {
            lines.push(format!("c,{number}"));
        }
        lines
    }
}

/// Now and then puts a judge among the lines that start and run a list, which
/// go on as if it weren't there.
pub fn judge_between(dice: &mut Dice, number: u32, start: u32, lines: &mut Vec<String>) {
    if dice.chance(25) {
        let index = dice.between(1, lines.len() as i64 - 1) as usize;
        lines.insert(index, format!("j,{number},{start:x}"));
    }
}

/// Judges after a list was run: of the list, from its midst, of routines and
/// of places that are no list.
pub fn judge_lines(dice: &mut Dice, plan: &Plan, list: &List) -> Vec<String> {
    let number = plan.number;
    let mut lines: Vec<String> = (0..dice.weighted(&[60, 25, 15]))
        .map(|_| {
            let start = i64::from(list.start);
            let end = i64::from(list.here());
            let length = i64::from(plan.store_length);
            let address = match dice.weighted(&[25, 25, 15, 10, 10, 10, 5]) {
                0 => start,
                1 => dice.between(start / 2, end / 2 - 1) * 2,
                2 if !plan.routines.is_empty() => i64::from(dice.pick(&plan.routines)),
                3 => i64::from(plan.chain.unwrap_or(plan.data.start)),
                4 => length - 2,
                5 => dice.between(0, length / 2 - 1) * 2,
                _ => dice.pick(&[length, length + 2, start + 1, length + 1]),
            };
            format!("j,{number},{address:x}")
        })
        .collect();
    if !lines.is_empty() && dice.chance(40) {
        lines.push(format!("l,{number}"));
    }
    lines
}

/// A tower put and judged, and mostly run from a cleared pane: in portions, up
/// to what ends it, and beyond.
pub fn tower_lines(dice: &mut Dice, plan: &mut Plan, tower: &Tower) -> Vec<String> {
    let (number, top) = (plan.number, tower.top);
    let mut lines = vec![put_words(number, tower.list.start, &tower.list.words)];
    lines.push(format!("j,{number},{top:x}"));
    if dice.chance(20) {
        // A list below the top returns to nowhere in the end.
        lines.push(format!("j,{number},{:x}", tower.list.start));
    }
    if dice.chance(80) {
        plan.forget();
        lines.push(format!("c,{number}"));
        lines.push(format!("g,{number},{top:x}"));
        let portion = dice.between(0, i64::from(tower.commands)) as u32;
        let portions = match dice.weighted(&[40, 40, 20]) {
            0 => vec![tower.commands],
            1 => vec![portion, tower.commands - portion],
            _ => vec![portion],
        };
        for budget in portions {
            lines.push(format!("r,{number},{budget}"));
        }
        lines.push(format!("l,{number}"));
        lines.push(format!("r,{number},1"));
        if dice.chance(60) {
            lines.push(format!("l,{number}"));
        }
    }
    lines
}

/// A command at the store's end, where some of its words are missing.
pub fn cut_short_lines(dice: &mut Dice, plan: &Plan) -> Vec<String> {
    let number = plan.number;
    let words = cut_short(dice);
    let address = plan.store_length - 2 * words.len() as u32;
    let mut lines = vec![put_words(number, address, &words)];
    lines.push(format!("j,{number},{address:x}"));
    if dice.chance(50) {
        lines.push(format!("g,{number},{address:x}"));
        lines.push(format!("r,{number},3"));
        lines.push(format!("l,{number}"));
    }
    lines
}
