//! The lines that only `calls` takes: peek and clear, and those with any of its
//! letters that are refused or malformed.

use super::dice::Dice;
use super::lists::Plan;
use super::seasoning::bent_line;

/// Peeks after a list was run: into the bitmaps it may have drawn on, into the
/// list itself, anywhere, and about the store's end.
pub fn peek_lines(dice: &mut Dice, plan: &Plan, list_start: u32) -> Vec<String> {
    let number = plan.number;
    let length = i64::from(plan.store_length);
    (0..dice.weighted(&[15, 20, 25, 25, 15]))
        .map(|_| {
            let address = match dice.weighted(&[50, 20, 15, 15]) {
                0 => {
                    let spot = dice.pick(&plan.bitmaps);
                    dice.between(i64::from(spot.address), i64::from(spot.end()) - 1)
                }
                1 => dice.between(i64::from(list_start), i64::from(plan.free) - 1),
                2 => dice.between(0, length - 1),
                _ => dice.between(length - 2, length + 1),
            };
            format!("k,{number},{address:x}")
        })
        .collect()
}

/// Now and then a clear, and calls that show the fresh record.
pub fn clear_lines(dice: &mut Dice, plan: &mut Plan) -> Vec<String> {
    if !dice.chance(15) {
        return Vec::new();
    }
    plan.goes_on = false;
    plan.switch = false;
    // Where the lists that follow do not know of it, CHAR may find no font.
    if dice.chance(60) {
        plan.forget();
    }
    let number = plan.number;
    let mut lines = vec![format!("c,{number}")];
    if dice.chance(60) {
        lines.push(format!("l,{number}"));
    }
    if dice.chance(40) {
        lines.push(format!("r,{number},5"));
    }
    // A routine draws without a bitmap of its own: now there is none.
    if !plan.routines.is_empty() && dice.chance(40) {
        let routine = dice.pick(&plan.routines);
        lines.push(format!("g,{number},{routine:x}"));
        lines.push(format!("r,{number},9"));
        lines.push(format!("l,{number}"));
    }
    lines
}

/// A call without regard to what the script does: before an accepted `o` it is
/// not taken.
pub fn any_call(dice: &mut Dice) -> String {
    dice.pick(&[
        "k,0,0", "k,0,1", "k,1,3", "k,7,0", "c,0", "c,1", "c,7", "j,0,0", "j,0,10", "j,1,2",
        "j,7,0", "t,0,0", "t,0,1", "t,1,1", "t,7,0", "t,0,2",
    ])
    .to_string()
}

/// A call that is refused or malformed, or a clear or the trap switch in the
/// midst of other calls.
pub fn odd_call(dice: &mut Dice, panes: i64) -> String {
    let pane = dice.between(0, panes - 1);
    match dice.weighted(&[30, 20, 10, 10, 15, 25, 20]) {
        0 => {
            let other = dice.pick(&[panes, panes + 1, 7, 8, 255, 4294967295]);
            dice.pick(&[
                "k,#,0",
                "k,#,1",
                "k,#,ffffffff",
                "c,#",
                "c,#",
                "j,#,0",
                "j,#,1",
                "t,#,0",
                "t,#,1",
                "t,#,2",
            ])
            .replace('#', &other.to_string())
        }
        1 => {
            let far = dice.pick(&[0x4000, 0x4001, 0xFFFE, 0xFFFF, 0x20_0000, 0xFFFF_FFFFu32]);
            format!("{},{pane},{far:x}", dice.pick(&["k", "j"]))
        }
        2 => format!(
            "{},0{pane},{:05X}",
            dice.pick(&["k", "j"]),
            dice.between(0, 300)
        ),
        3 => format!("c,{pane}"),
        4 => {
            let good = any_call(dice);
            bent_line(dice, &good)
        }
        5 => strange_call(dice),
        _ => format!(
            "t,{}{pane},{}",
            dice.pick(&["", "", "0"]),
            dice.pick(&["0", "1", "01", "00", "2", "3", "10", "256", "4294967295"])
        ),
    }
}

/// A peek, clear, judge or trap switch that is malformed.
pub fn strange_call(dice: &mut Dice) -> String {
    dice.pick(&[
        "k",
        "k,",
        "k,0",
        "k,0,",
        "k,,0",
        "k,0,g",
        "k,0,0,0",
        "k,0,0,",
        "k,0,-1",
        "k,0,0x1",
        "k,0, 1",
        "k,a,0",
        "k,0,100000000",
        "k,4294967296,0",
        "K,0,0",
        "c",
        "c,",
        "c,0,",
        "c,0,0",
        "c,+0",
        "c, 0",
        "c,a",
        "c,4294967296",
        "C,0",
        "j",
        "j,",
        "j,0",
        "j,0,",
        "j,,0",
        "j,0,g",
        "j,0,0,0",
        "j,0,0,",
        "j,0,-2",
        "j,0, 0",
        "j,a,0",
        "j,0,100000000",
        "j,4294967296,0",
        "J,0,0",
        "t",
        "t,",
        "t,0",
        "t,0,",
        "t,,1",
        "t,0,a",
        "t,0,1,",
        "t,0,1,0",
        "t,0,-1",
        "t,0,+1",
        "t,0, 1",
        "t,a,1",
        "t,0,4294967296",
        "t,0,4294967297",
        "t,4294967296,1",
        "T,0,1",
    ])
    .to_string()
}
