//! Lines with the trap switch, which only `calls` takes, and what follows a run
//! that it may have stopped.

use super::dice::Dice;
use super::lists::{List, Plan};

/// Now and then the switch is turned for a list: mostly on, and seldom to what
/// it is already.
pub fn switch_line(dice: &mut Dice, plan: &mut Plan) -> Option<String> {
    let (same, other) = if plan.switch { (10, 15) } else { (5, 70) };
    let on = match dice.weighted(&[same, other, 100 - same - other]) {
        0 => plan.switch,
        1 => !plan.switch,
        _ => return None,
    };
    Some(turn(plan, on))
}

/// Puts the line among those that start and run the list, mostly as the first.
/// Later on a T may have set the flag already.
pub fn switch_among(dice: &mut Dice, line: Option<String>, lines: &mut Vec<String>) {
    let Some(line) = line else { return };
    let index = if dice.chance(65) {
        0
    } else {
        dice.between(1, lines.len() as i64 - 1) as usize
    };
    lines.insert(index, line);
}

/// The line that turns the switch.
fn turn(plan: &mut Plan, on: bool) -> String {
    plan.switch = on;
    format!("t,{},{}", plan.number, u8::from(on))
}

/// What follows the runs of a list with the switch on. Nobody knows where it
/// has come to: a run that goes on where it stopped may be refused where it has
/// ended.
pub fn resume_lines(dice: &mut Dice, plan: &mut Plan, list: &List) -> Vec<String> {
    let number = plan.number;
    let look = format!("l,{number}");
    let whole = format!("r,{number},{}", list.commands * 3 + 40);
    let mut lines = Vec::new();
    let add = |lines: &mut Vec<String>, dice: &mut Dice, line: String, looks: i64| {
        lines.push(line);
        if dice.chance(looks) {
            lines.push(look.clone());
        }
    };
    for _ in 0..dice.between(1, 3) {
        match dice.weighted(&[28, 18, 15, 16, 13, 3, 8, 2]) {
            0 => add(&mut lines, dice, format!("r,{number},0"), 80),
            1 => add(&mut lines, dice, whole.clone(), 50),
            2 => {
                let few = dice.between(1, 6);
                add(&mut lines, dice, format!("r,{number},{few}"), 60);
            }
            3 => {
                let off = turn(plan, false);
                add(&mut lines, dice, off, 80);
                // On again, the flag from before stops nothing.
                if dice.chance(70) {
                    let on = turn(plan, true);
                    add(&mut lines, dice, on, 20);
                }
                add(&mut lines, dice, whole.clone(), 70);
                if !plan.switch {
                    return lines;
                }
            }
            4 => {
                let start = format!("g,{number},{:x}", list.start);
                add(&mut lines, dice, start, 60);
                add(&mut lines, dice, whole.clone(), 60);
            }
            5 => {
                let judge = format!("j,{number},{:x}", list.start);
                add(&mut lines, dice, judge, 60);
            }
            6 => {
                let value = dice.pick(&[1, 1, 1, 1, 2, 3, 256, 4294967295u32]);
                add(&mut lines, dice, format!("t,{number},{value}"), 60);
            }
            _ => {
                plan.forget();
                add(&mut lines, dice, format!("c,{number}"), 80);
                return lines;
            }
        }
    }
    if dice.chance(60) {
        add(&mut lines, dice, whole.clone(), 60);
    }
    lines
}
