//! Whole scripts.

use super::dice::Dice;
use super::judges::{cut_short_lines, judge_between, judge_lines, tower_lines, Judging};
use super::lists::{Ending, List, Plan, MOST_WORDS};
use super::peeks::{any_call, clear_lines, peek_lines};
use super::seasoning::{nonsense, refused, season, strange_line};
use super::traps::{resume_lines, switch_among, switch_line};
use crate::script::{Language, LONGEST_SCRIPT};
use std::fmt::Write;

/// The faults that a list may end with, those with many cases more often.
const FAULTS: [u32; 14] = [20, 21, 21, 22, 22, 24, 25, 25, 25, 26, 27, 29, 29, 30];

/// The random script of a seed, at most 8,192 bytes long.
pub fn script(language: Language, seed: u64) -> Vec<u8> {
    let mut dice = Dice::new(seed);
    let mut lines = match dice.weighted(&[94, 5, 1]) {
        0 => usual(&mut dice, language),
        1 => refused(&mut dice, language),
        _ => nonsense(&mut dice, language),
    };
    let mut text = String::new();
    for line in lines.drain(..) {
        if text.len() + line.len() + 1 > LONGEST_SCRIPT {
            break;
        }
        text.push_str(&line);
        text.push('\n');
    }
    if dice.chance(5) {
        text.pop();
    }
    // Only `s` and `p` print nothing. A script that prints nothing at all would
    // compare nothing.
    if text.lines().all(|line| line.starts_with(['s', 'p'])) {
        text.push_str("?\n");
    }
    text.into_bytes()
}

/// A pane's rectangle on the screen.
#[derive(Clone, Copy)]
struct Place {
    left: i64,
    top: i64,
    width: i64,
    height: i64,
}

/// Panes beside or below one another, mostly without a gap, so that they share
/// bytes of the screen.
fn places(dice: &mut Dice, count: usize) -> Vec<Place> {
    let (most_width, most_height) = match count {
        1 => (24, 16),
        2 => (17, 11),
        _ => (13, 9),
    };
    let beside = dice.chance(75);
    let (mut left, mut top) = (dice.between(0, 9), dice.between(0, 2));
    let mut places = Vec::new();
    for _ in 0..count {
        let small = dice.chance(15);
        let width = dice.between(if small { 1 } else { most_width / 2 }, most_width);
        let height = dice.between(if small { 1 } else { most_height / 2 }, most_height);
        places.push(Place {
            left,
            top,
            width,
            height,
        });
        let gap = if dice.chance(80) {
            0
        } else {
            dice.between(1, 3)
        };
        if beside {
            left += width + gap;
            top = dice.between(0, 2);
        } else {
            top += height + gap;
            left = dice.between(0, 9);
        }
    }
    places
}

/// Lines that read pixels of a pane: all of them if they fit into so many
/// bytes, else some.
fn readings(dice: &mut Dice, number: u32, place: Place, room: usize) -> Vec<String> {
    let mut all = Vec::new();
    for y in 0..place.height {
        for x in 0..place.width {
            all.push(format!("x,{number},{x},{y}"));
        }
    }
    let needed: usize = all.iter().map(|line| line.len() + 1).sum();
    if needed <= room {
        return all;
    }
    let percent = (room * 100 / needed) as i64;
    all.retain(|_| dice.chance(percent));
    all
}

/// A put of words.
pub fn put_words(number: u32, address: u32, words: &[u16]) -> String {
    let bytes: Vec<u8> = words.iter().flat_map(|word| word.to_le_bytes()).collect();
    put_bytes(number, address, &bytes)
}

fn put_bytes(number: u32, address: u32, bytes: &[u8]) -> String {
    let mut line = format!("w,{number},{address:x},");
    for byte in bytes {
        let _ = write!(line, "{byte:02x}");
    }
    line
}

/// Start a list and run it, whole or in portions.
fn run_lines(dice: &mut Dice, number: u32, list: &List, ending: Ending) -> Vec<String> {
    let mut lines = vec![format!("g,{number},{:x}", list.start)];
    let whole = i64::from(list.commands) * 3 + 40;
    match dice.weighted(&[55, 30, 9, 6]) {
        0 => {}
        1 => {
            for _ in 0..dice.between(1, 2) {
                let part = dice.between(0, i64::from(list.commands));
                lines.push(format!("r,{number},{part}"));
                if dice.chance(40) {
                    lines.push(format!("l,{number}"));
                }
            }
        }
        2 => {
            // Up to the end word or near it; the rest is left.
            let part = (i64::from(list.commands) + dice.between(-1, 1)).max(0);
            lines.push(format!("r,{number},{part}"));
            lines.push(format!("l,{number}"));
            return lines;
        }
        _ => {
            let part = dice.between(0, i64::from(list.commands));
            lines.push(format!("r,{number},{part}"));
            lines.push(format!("l,{number}"));
            return lines;
        }
    }
    let budget = if ending == Ending::Loop {
        dice.between(20, 150)
    } else {
        whole
    };
    lines.push(format!("r,{number},{budget}"));
    if dice.chance(85) || ending == Ending::Pick {
        lines.push(format!("l,{number}"));
    }
    lines
}

/// A short list that is put and run after a fault of DEF_BITMAP or
/// DEF_CLIP_RECT: it draws with what the fault has left of bitmap and clip.
fn rest_lines(dice: &mut Dice, plan: &mut Plan) -> Vec<String> {
    let (number, list) = (plan.number, plan.write_rest(dice));
    vec![
        put_words(number, list.start, &list.words),
        format!("g,{number},{:x}", list.start),
        format!("r,{number},99"),
        format!("l,{number}"),
    ]
}

/// The bytes that lines take.
fn size(lines: &[String]) -> usize {
    lines.iter().map(|line| line.len() + 1).sum()
}

/// The lines of one pane in groups that stay together: data first, then list
/// after list, within so many bytes of script.
fn pane_groups(
    dice: &mut Dice,
    language: Language,
    plan: &mut Plan,
    mut room: usize,
) -> Vec<Vec<String>> {
    let number = plan.number;
    let mut groups = Vec::new();
    let take = |groups: &mut Vec<Vec<String>>, lines: Vec<String>, room: &mut usize| {
        *room = room.saturating_sub(size(&lines));
        groups.push(lines);
    };
    let mut data = vec![put_bytes(number, plan.data.start, &plan.data.bytes)];
    if let Some(word) = plan.last_word {
        data.push(put_words(number, plan.store_length - 2, &[word]));
    }
    for spot in plan.bitmaps.clone() {
        if spot.length() <= 64 && dice.chance(70) {
            let bytes: Vec<u8> = (0..spot.length()).map(|_| dice.next() as u8).collect();
            data.push(put_bytes(number, spot.address, &bytes));
        }
    }
    take(&mut groups, data, &mut room);
    if dice.chance(75) {
        let routines = plan.write_routines(dice);
        take(
            &mut groups,
            vec![put_words(number, routines.start, &routines.words)],
            &mut room,
        );
    }
    for (percent, fault) in [(22, 23), (22, 28), (22, 22), (18, 24)] {
        if dice.chance(percent) {
            let list = plan.write_early_fault(dice, fault);
            let mut lines = vec![put_words(number, list.start, &list.words)];
            lines.push(format!("g,{number},{:x}", list.start));
            lines.push(format!("r,{number},9"));
            lines.push(format!("l,{number}"));
            if language == Language::Calls && dice.chance(50) {
                lines.push(format!("j,{number},{:x}", list.start));
            }
            if matches!(fault, 22 | 24) {
                lines.extend(rest_lines(dice, plan));
            }
            take(&mut groups, lines, &mut room);
        }
    }
    while room > 330 && plan.words_left() > 60 {
        if language == Language::Calls {
            if room > 4 * MOST_WORDS && plan.words_left() > MOST_WORDS && dice.chance(12) {
                let tower = plan.write_tower(dice);
                let lines = tower_lines(dice, plan, &tower);
                take(&mut groups, lines, &mut room);
                continue;
            }
            if dice.chance(6) {
                let lines = cut_short_lines(dice, plan);
                take(&mut groups, lines, &mut room);
                continue;
            }
        }
        let judging = match language {
            Language::Panes => Judging::default(),
            Language::Calls => Judging::choose(dice, plan),
        };
        // To the judge a list without a bitmap of its own is fault 23.
        plan.goes_on &= !judging.judged;
        plan.switch &= !judging.cleared;
        let switching = match language {
            Language::Panes => None,
            // What the judge says is meant with the switch off.
            Language::Calls if judging.cleared && dice.chance(80) => None,
            Language::Calls => switch_line(dice, plan),
        };
        let most = ((room - 60) / 4).min(dice.between(50, 190) as usize);
        let ending = match dice.weighted(&[42, 36, 8, 4, 10]) {
            0 => Ending::End,
            1 => Ending::Fault(dice.pick(&FAULTS)),
            2 => Ending::Loop,
            3 => Ending::DrawnOver,
            _ => Ending::Pick,
        };
        let list = plan.write_list(dice, most, ending);
        plan.plain = false;
        plan.goes_on = dice.chance(12);
        let mut lines = vec![put_words(number, list.start, &list.words)];
        lines.extend(judging.lines(number, list.start));
        let mut running = run_lines(dice, number, &list, ending);
        if language == Language::Calls {
            judge_between(dice, number, list.start, &mut running);
            switch_among(dice, switching, &mut running);
        }
        lines.extend(running);
        if plan.switch {
            lines.extend(resume_lines(dice, plan, &list));
        }
        let left = room.saturating_sub(size(&lines));
        if matches!(ending, Ending::Fault(22 | 24)) && left > 400 && plan.words_left() > 80 {
            lines.extend(rest_lines(dice, plan));
        }
        if language == Language::Calls {
            lines.extend(judge_lines(dice, plan, &list));
            lines.extend(peek_lines(dice, plan, list.start));
            lines.extend(clear_lines(dice, plan));
        }
        take(&mut groups, lines, &mut room);
    }
    groups
}

/// A script that runs: set-up, lists on each pane in turn, then the pixels, and
/// then the store shown on the pane and its pixels.
fn usual(dice: &mut Dice, language: Language) -> Vec<String> {
    let depth = dice.pick(&[1u16, 2, 4, 8]);
    let count = 1 + dice.weighted(&[40, 35, 25]);
    let places = places(dice, count);
    let width = places
        .iter()
        .map(|place| place.left + place.width)
        .max()
        .unwrap_or(1);
    let height = places
        .iter()
        .map(|place| place.top + place.height)
        .max()
        .unwrap_or(1);
    let (width, height) = (width + dice.between(0, 4), height + dice.between(0, 2));
    let share = 5600 / count as i64;
    let mut lengths: Vec<i64> = places
        .iter()
        .map(|_| dice.between(share / 4 + 250, share / 3 + 400) * 2)
        .collect();
    match dice.weighted(&[92, 4, 4]) {
        0 => {}
        // Stores that take all there is.
        1 => lengths[0] = 16384 - lengths[1..].iter().sum::<i64>(),
        _ => lengths[0] = dice.between(200, 350) * 2,
    }
    let mut plans: Vec<Plan> = Vec::new();
    for (number, (place, length)) in places.iter().zip(&lengths).enumerate() {
        let plan = Plan::new(
            dice,
            number as u32,
            place.width,
            place.height,
            depth,
            *length as u32,
            language == Language::Calls,
        );
        plans.push(plan);
    }

    // Room for the readings at the end, the rest for the lists.
    let all: usize = places
        .iter()
        .map(|place| (place.width * place.height * 10) as usize)
        .sum();
    let first_reading = all.min(3300);
    let second_reading = if dice.chance(75) { all.min(1500) } else { 0 };
    let room = LONGEST_SCRIPT - 300 - first_reading - second_reading - 260 * count;

    let mut queues: Vec<Vec<Vec<String>>> = Vec::new();
    for plan in &mut plans {
        // Each pane keeps some words for the list that shows its store.
        plan.end = plan.end.saturating_sub(140);
        let mut groups = pane_groups(dice, language, plan, room / count);
        plan.end += 140;
        groups.reverse();
        queues.push(groups);
    }
    let mut body: Vec<String> = Vec::new();
    while let Some(index) = next_queue(dice, &queues) {
        body.extend(queues[index].pop().unwrap_or_default());
    }
    season(dice, language, &mut body, count as i64);

    // Now and then more panes, of one pixel each and without a store.
    let (mut rows, mut row_lengths, mut screen_width) = (places.clone(), lengths.clone(), width);
    if dice.chance(6) {
        for _ in 0..dice.between(1, 8 - count as i64) {
            rows.push(Place {
                left: screen_width,
                top: 0,
                width: 1,
                height: 1,
            });
            row_lengths.push(0);
            screen_width += 1;
            let number = rows.len() - 1;
            body.push(
                dice.pick(&["l,#", "x,#,0,0", "x,#,1,0", "g,#,0", "w,#,0,"])
                    .replace('#', &number.to_string()),
            );
        }
    }

    let mut lines = set_up_lines(dice, screen_width, height, depth, &rows, &row_lengths);
    if language == Language::Calls && dice.chance(10) {
        let index = dice.between(0, lines.len() as i64 - 1) as usize;
        lines.insert(index, any_call(dice));
    }
    lines.extend(body);
    for (plan, place) in plans.iter().zip(&places) {
        lines.push(format!("l,{}", plan.number));
        lines.extend(readings(dice, plan.number, *place, first_reading / count));
    }
    if second_reading > 0 {
        for (plan, place) in plans.iter_mut().zip(&places) {
            let number = plan.number;
            let list = plan.write_show(dice);
            lines.push(put_words(number, list.start, &list.words));
            lines.push(format!("g,{number},{:x}", list.start));
            lines.push(format!("r,{number},99"));
            lines.push(format!("l,{number}"));
            let left = LONGEST_SCRIPT.saturating_sub(size(&lines) + 10);
            let later = plans_left(number, count);
            lines.extend(readings(dice, number, *place, left / later));
        }
    }
    lines
}

/// How many panes from this one on are still to be shown.
fn plans_left(number: u32, count: usize) -> usize {
    (count - number as usize).max(1)
}

/// The index of a queue that is not empty.
fn next_queue(dice: &mut Dice, queues: &[Vec<Vec<String>>]) -> Option<usize> {
    let full: Vec<usize> = (0..queues.len())
        .filter(|index| !queues[*index].is_empty())
        .collect();
    if full.is_empty() {
        None
    } else {
        Some(dice.pick(&full))
    }
}

/// `s`, `p` and `o`, sometimes with lines among them that are not taken.
fn set_up_lines(
    dice: &mut Dice,
    width: i64,
    height: i64,
    depth: u16,
    places: &[Place],
    lengths: &[i64],
) -> Vec<String> {
    let screen = format!("s,{width},{height},{depth}");
    let mut lines = Vec::new();
    let late_screen = dice.chance(8);
    if dice.chance(5) {
        lines.push(
            dice.pick(&["s,4096,9,8", "s,4097,8,8", "s,65536,65536,1", "s,0,1,", "o"])
                .to_string(),
        );
    }
    if !late_screen {
        lines.push(screen.clone());
    }
    if dice.chance(8) && !late_screen {
        // No rows yet: refusal 6.
        lines.push("o".to_string());
    }
    for (place, length) in places.iter().zip(lengths) {
        if dice.chance(4) {
            lines.push(strange_line(dice));
        }
        let Place {
            left,
            top,
            width,
            height,
        } = place;
        lines.push(format!("p,{left},{top},{width},{height},{length}"));
    }
    if late_screen {
        lines.push("l,0".to_string());
        lines.push(screen.clone());
    }
    if dice.chance(6) {
        lines.push(
            dice.pick(&[
                "p,0,0,1,1,16385",
                "s,8,8,1",
                "g,0,0",
                "p,1,1,1,1,-2",
                "x,0,0,0",
            ])
            .to_string(),
        );
    }
    lines.push("o".to_string());
    if dice.chance(6) {
        lines.push(dice.pick(&["o", "s,8,8,1", "p,0,0,1,1,0"]).to_string());
    }
    lines
}
