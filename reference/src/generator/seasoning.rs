//! Lines that are refused or malformed, and whole scripts of them.

use super::dice::Dice;
use super::peeks::{any_call, odd_call, strange_call};
use crate::script::Language;

/// Adds calls that are refused and lines that are no lines.
pub fn season(dice: &mut Dice, language: Language, body: &mut Vec<String>, count: i64) {
    for _ in 0..dice.weighted(&[30, 30, 20, 12, 8]) {
        let pane = dice.between(0, count - 1);
        let line = match dice.weighted(&[12, 12, 12, 8, 12, 10, 12, 12, 10, 20]) {
            0 => {
                let other = dice.pick(&[count, count + 1, 7, 8, 255, 4294967295]);
                dice.pick(&[
                    "l,#", "r,#,5", "g,#,0", "g,#,1", "x,#,0,0", "w,#,0,00", "w,#,0,",
                ])
                .replace('#', &other.to_string())
            }
            1 => format!("g,{pane},{:x}", dice.between(0, 200) * 2 + 1),
            2 => format!(
                "g,{pane},{:x}",
                dice.pick(&[0x4000, 0xFFFE, 0xFFFF_FFFEu32])
            ),
            3 => format!(
                "w,{pane},{:x},{}",
                dice.pick(&[0x4000, 0xFFFF, 0xFFFF_FFFFu32]),
                dice.pick(&["", "00", "abcd"])
            ),
            4 => format!("r,{pane},{}", dice.between(0, 9)),
            5 => format!(
                "x,{pane},{},{}",
                dice.pick(&[24, 30, 4096, 65536, 4294967295u32]),
                dice.between(0, 3)
            ),
            6 => format!(
                "x,{pane},{},{}",
                dice.between(0, 3),
                dice.pick(&[16, 17, 4096, 4294967295u32])
            ),
            7 => format!("l,{pane}"),
            8 => dice.pick(&["o", "s,8,8,1", "p,0,0,1,1,0"]).to_string(),
            _ => {
                if dice.chance(50) || body.is_empty() {
                    strange_line(dice)
                } else {
                    let index = dice.between(0, body.len() as i64 - 1) as usize;
                    bent_line(dice, &body[index].clone())
                }
            }
        };
        insert_anywhere(dice, body, line);
    }
    if language == Language::Calls {
        for _ in 0..dice.weighted(&[20, 30, 25, 15, 10]) {
            let line = odd_call(dice, count);
            insert_anywhere(dice, body, line);
        }
    } else if dice.chance(15) {
        // A letter that `panes` doesn't have.
        let line = any_call(dice);
        insert_anywhere(dice, body, line);
    }
}

fn insert_anywhere(dice: &mut Dice, body: &mut Vec<String>, line: String) {
    let index = dice.between(0, body.len() as i64) as usize;
    body.insert(index, line);
}

/// A line that is malformed.
pub fn strange_line(dice: &mut Dice) -> String {
    dice.pick(&[
        "",
        ",",
        "?",
        "o,",
        "l",
        "l,",
        "l,0,0",
        "l,+0",
        "l, 0",
        "l,00000000000000000000000000x",
        "r,0",
        "r,0,4294967296",
        "r,0,-1",
        "r,0,f",
        "g,0",
        "g,0,g",
        "g,0,100000000",
        "g,,0",
        "x,0,1",
        "x,0,1,1,1",
        "x,0,0x1,1",
        "w,0,0",
        "w,0,0,0",
        "w,0,0,0g",
        "w,0,,00",
        "w,0,0,00,",
        "L,0",
        "k,0",
        "s,8,8",
        "p,0,0,1,1",
        "l,0\r",
        "# a remark",
        "x;0;0;0",
        "\u{e9}",
        "w,0,0,003d 0100",
    ])
    .to_string()
}

/// A line with one letter changed, lost or doubled.
pub fn bent_line(dice: &mut Dice, line: &str) -> String {
    let mut letters: Vec<char> = line.chars().take(40).collect();
    if letters.is_empty() {
        return ",".to_string();
    }
    let index = dice.between(0, letters.len() as i64 - 1) as usize;
    match dice.between(0, 2) {
        0 => letters[index] = dice.pick(&[',', '0', 'f', 'F', '-', ' ', 'z', 'x', '9']),
        1 => {
            letters.remove(index);
        }
        _ => letters.insert(index, letters[index]),
    }
    letters.into_iter().collect()
}

/// A script whose set-up is refused, with some calls after it.
pub fn refused(dice: &mut Dice, language: Language) -> Vec<String> {
    let mut lines = Vec::new();
    match dice.weighted(&[25, 25, 25, 25]) {
        0 => {
            let screen = dice.pick(&[
                "s,0,5,1",
                "s,5,0,8",
                "s,4097,1,8",
                "s,1,4097,1",
                "s,8,8,3",
                "s,8,8,0",
                "s,100,100,16",
            ]);
            lines.push(screen.to_string());
            lines.push("p,0,0,4,4,64".to_string());
        }
        1 => {
            lines.push("s,20,10,4".to_string());
            lines.push("p,0,0,4,4,64".to_string());
            let row = dice.pick(&[
                "p,4,0,17,4,64",
                "p,4,0,4,11,63",
                "p,4,0,0,4,2",
                "p,4,4,4,0,3",
                "p,4294967295,0,1,1,2",
                "p,20,0,1,1,2",
            ]);
            lines.push(row.to_string());
        }
        2 => {
            lines.push("s,20,10,2".to_string());
            lines.push("p,0,0,4,4,64".to_string());
            lines.push(
                dice.pick(&["p,4,0,4,4,63", "p,3,3,4,4,1", "p,4,4,4,4,16319"])
                    .to_string(),
            );
        }
        _ => {
            lines.push("s,20,10,8".to_string());
            lines.push("p,4,4,5,3,64".to_string());
            let row = dice.pick(&[
                "p,8,6,4,4,64",
                "p,0,0,5,5,2",
                "p,5,5,1,1,0",
                "p,4,4,5,3,8",
                "p,0,0,20,10,0",
            ]);
            lines.push(row.to_string());
        }
    }
    lines.push("o".to_string());
    for _ in 0..dice.between(1, 4) {
        let line = dice.pick(&[
            "l,0",
            "g,0,0",
            "r,0,1",
            "x,0,0,0",
            "w,0,0,0001",
            "o",
            "s,20,10,4",
            "p,19,9,1,1,2",
        ]);
        lines.push(line.to_string());
    }
    if language == Language::Calls {
        lines.push(any_call(dice));
    }
    lines.push("o".to_string());
    lines
}

/// Lines without sense.
pub fn nonsense(dice: &mut Dice, language: Language) -> Vec<String> {
    let mut lines = Vec::new();
    for _ in 0..dice.between(0, 12) {
        let line = if language == Language::Calls && dice.chance(30) {
            if dice.chance(50) {
                strange_call(dice)
            } else {
                any_call(dice)
            }
        } else if dice.chance(60) {
            strange_line(dice)
        } else {
            let good = dice.pick(&[
                "s,8,8,1",
                "p,0,0,8,8,64",
                "o",
                "l,0",
                "w,0,0,01005401",
                "g,0,0",
                "r,0,9",
            ]);
            if dice.chance(40) {
                bent_line(dice, good)
            } else {
                good.to_string()
            }
        };
        lines.push(line);
    }
    lines
}
