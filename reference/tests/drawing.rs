//! What drawing commands do, worked out by hand; and two shortcuts of the code
//! against the paper's wording.

mod bench;
use bench::*;
use reference::circles::circle_pixels;
use reference::glyphs::advance;
use reference::lines::outline_pixels;
use reference::pixels::{operate, pattern_bit};
use std::collections::HashSet;

/// "The Fcode is the truth table": code ABCD gives A for old 0 and source 0, B
/// for old 0 and source 1, C for old 1 and source 0, D for old 1 and source 1.
#[test]
fn operations_are_their_truth_tables() {
    for code in 0..16u32 {
        for (source, old, place) in [
            (false, false, 3),
            (true, false, 2),
            (false, true, 1),
            (true, true, 0),
        ] {
            assert_eq!(operate(code, source, old), code >> place & 1 == 1);
        }
    }
}

/// RECT in the paper's words: walk the four sides, pass over what was visited.
fn walked(x: i64, y: i64, dx: i64, dy: i64) -> Vec<(i64, i64)> {
    let corners = [(x, y), (x + dx, y), (x + dx, y + dy), (x, y + dy), (x, y)];
    let mut seen = HashSet::new();
    let mut order = Vec::new();
    let mut visit = |pixel| {
        if seen.insert(pixel) {
            order.push(pixel);
        }
    };
    visit((x, y));
    for side in corners.windows(2) {
        let ((mut across, mut down), end) = (side[0], side[1]);
        while (across, down) != end {
            across += (end.0 - across).signum();
            down += (end.1 - down).signum();
            visit((across, down));
        }
    }
    order
}

#[test]
fn outlines_are_walked() {
    for dx in -4..=4 {
        for dy in -4..=4 {
            let pixels: Vec<_> = outline_pixels(10, 20, dx, dy).collect();
            assert_eq!(pixels, walked(10, 20, dx, dy), "RECT {dx} {dy}");
        }
    }
    let far: Vec<_> = outline_pixels(-3, 7, -32768, 32767).collect();
    assert_eq!(far, walked(-3, 7, -32768, 32767));
}

/// Whether (dx,dy) is a point of a circle about (0,0), in the paper's words: the
/// reflection of it that has 0 ≤ i ≤ j keeps the condition.
fn on_circle(dx: i64, dy: i64, r: i64) -> bool {
    let (i, j) = (dx.abs().min(dy.abs()), dx.abs().max(dy.abs()));
    let rest = r * r - i * i;
    if r == 0 {
        (dx, dy) == (0, 0)
    } else {
        j * (j - 1) < rest && rest <= j * (j + 1)
    }
}

/// All places about the centre are tried. Radius 4 has a j × (j+1) that equals
/// r² − i².
#[test]
fn circles_are_all_such_points_each_once() {
    for r in (0..=40).chain([100, 181]) {
        let mut expected = Vec::new();
        for dx in -r - 2..=r + 2 {
            for dy in -r - 2..=r + 2 {
                if on_circle(dx, dy, r) {
                    expected.push((dx + 10, dy - 20));
                }
            }
        }
        let mut points: Vec<_> = circle_pixels(10, -20, r).collect();
        points.sort();
        assert_eq!(points, expected, "CIRCLE {r}");
    }
}

#[test]
fn the_largest_circle() {
    let points: Vec<_> = circle_pixels(0, 0, 32767).collect();
    assert!(points.iter().all(|&(dx, dy)| on_circle(dx, dy, 32767)));
    let found: HashSet<_> = points.iter().copied().collect();
    assert_eq!(found.len(), points.len());
    // One point for each i: four on the axes, eight each, four on the diagonals.
    for i in 0..=23170 {
        let j = (i..=32767).rev().find(|&j| on_circle(i, j, 32767)).unwrap();
        assert!(found.contains(&(i, j)) && found.contains(&(-j, -i)));
    }
    assert_eq!(points.len(), 4 + 8 * 23169 + 4);
}

/// Foreground 1 whatever the pattern, and the position stays.
#[test]
fn circles_use_the_foreground_alone() {
    for texture in [[0x0600, 0x0000], [0x0700, 0x0000], [0x0700, 0x5A5A]] {
        let mut bench = Bench::whole(7, 7, 2);
        bench.done(&[
            &pane_bitmap(7, 7, 2),
            &colors(0x5555, 0xAAAA),
            &texture,
            &at(3, 3),
            &[0x8E00, 3],
            &[0x8E00, 0],
        ]);
        assert_eq!(bench.line(0), [0, 0, 1, 1, 1, 0, 0]);
        assert_eq!(bench.line(1), [0, 1, 0, 0, 0, 1, 0]);
        assert_eq!(bench.line(2), [1, 0, 0, 0, 0, 0, 1]);
        assert_eq!(bench.line(3), [1, 0, 0, 1, 0, 0, 1]);
        assert_eq!(bench.line(4), [1, 0, 0, 0, 0, 0, 1]);
        assert_eq!(bench.line(5), [0, 1, 0, 0, 0, 1, 0]);
        assert_eq!(bench.line(6), [0, 0, 1, 1, 1, 0, 0]);
        let look = bench.look(0).unwrap();
        assert_eq!((look.x, look.y), (3, 3));
    }
}

/// Under exclusive or a circle draws each point once, and a second one takes it
/// out again.
#[test]
fn circles_under_exclusive_or() {
    for r in [0u16, 1, 2, 3, 5, 8] {
        let mut bench = Bench::whole(17, 17, 1);
        bench.done(&[
            &pane_bitmap(17, 17, 1),
            &colors(0xFFFF, 0),
            &[0x4100, 0xFFFF, 6],
            &at(8, 8),
            &[0x8E00, r],
        ]);
        for y in 0..17u32 {
            let row = bench.line(y);
            for (x, value) in row.iter().enumerate() {
                let drawn = on_circle(x as i64 - 8, i64::from(y) - 8, i64::from(r));
                assert_eq!(*value, u16::from(drawn), "CIRCLE {r} x {x} y {y}");
            }
        }
        bench.done(&[&[0x8E00, r]]);
        assert!(bench.screen.iter().all(|byte| *byte == 0));
    }
}

/// The clip and the bitmap cut a circle. Its places do not wrap: the far side
/// of the last one would come in at column 1.
#[test]
fn circles_are_clipped() {
    let mut bench = Bench::whole(6, 5, 1);
    let bitmap = pane_bitmap(6, 5, 1);
    bench.done(&[
        &bitmap,
        &colors(0xFFFF, 0),
        &[0x4600, 1, 1, 4, 4],
        &at(1, 2),
        &[0x8E00, 2],
    ]);
    // (1 ± 2, 1 to 3) and (0 to 2, 2 ± 2), those in columns and rows 1 to 4.
    assert_eq!(bench.line(0), [0, 0, 0, 0, 0, 0]);
    assert_eq!(bench.line(1), [0, 0, 0, 1, 0, 0]);
    assert_eq!(bench.line(2), [0, 0, 0, 1, 0, 0]);
    assert_eq!(bench.line(3), [0, 0, 0, 1, 0, 0]);
    assert_eq!(bench.line(4), [0, 1, 1, 0, 0, 0]);
    let before = bench.screen.clone();
    bench.done(&[&bitmap, &at(-32768, 2), &[0x8E00, 32767]]);
    assert_eq!(bench.screen, before);
    bench.done(&[&at(-32767, 2), &[0x8E00, 32767]]);
    for y in 0..5 {
        assert_eq!(bench.line(y)[0], 1);
    }
}

/// A circle picks if some point of it is in the clip, whatever pattern, mask
/// and operation; not if the clip is inside it or it is all outside.
#[test]
fn circles_pick() {
    let picked = |clip: [u16; 5], radius: u16| {
        let mut bench = Bench::whole(9, 9, 1);
        bench.done(&[
            &pane_bitmap(9, 9, 1),
            &clip,
            &[0x0700, 0x0000],
            &[0x4100, 0x0000, 3],
            &at(4, 4),
            &[0x4400],
            &[0x8E00, radius],
        ]);
        assert!(bench.screen.iter().all(|byte| *byte == 0));
        bench.look(0).unwrap().pick
    };
    let whole = [0x4600, 0, 0, 8, 8];
    assert!(picked(whole, 0));
    assert!(picked(whole, 4));
    assert!(picked(whole, 5));
    assert!(!picked(whole, 7));
    // One corner of radius 3, at (4 − 2, 4 − 2), and the pixels beside it.
    assert!(picked([0x4600, 2, 2, 2, 2], 3));
    assert!(!picked([0x4600, 1, 1, 1, 2], 3));
    assert!(!picked([0x4600, 3, 2, 5, 6], 3));
    assert!(!picked([0x4600, 4, 5, 4, 5], 0));
}

#[test]
fn pattern_bits_run_from_the_left() {
    let row: Vec<_> = (0..18).map(|i| u8::from(pattern_bit(0xA001, i))).collect();
    assert_eq!(row, [1, 0, 1, 0, 0, 0, 0, 0, 0, 0, 0, 0, 0, 0, 0, 1, 1, 0]);
}

/// Where the tests of POLYLINE and SCAN_LINES put pairs and triples.
const ARRAY: u16 = 0x200;

/// Puts pairs, and draws a POLYLINE of them after other commands.
fn draw_polyline(bench: &mut Bench, before: &[&[u16]], pairs: &[[i16; 2]]) {
    let words: Vec<u16> = pairs.iter().flatten().map(|&word| word as u16).collect();
    bench.put_words(u32::from(ARRAY), &words);
    let command = [0x7400, ARRAY, 0, pairs.len() as u16];
    bench.done(&[&before.concat(), &command]);
}

/// A pane of two bits with foreground 1 and background 2, so that a 0 is a pixel
/// that was not drawn.
fn paper(width: u32, height: u32) -> Bench {
    let mut bench = Bench::whole(width, height, 2);
    let bitmap = pane_bitmap(width as u16, height as u16, 2);
    bench.done(&[&bitmap, &colors(0x5555, 0xAAAA)]);
    bench
}

/// The pattern begins 1010 0101: four pixels of the first segment, then two of
/// each other. The position ends at the far end.
#[test]
fn polylines_carry_the_pattern_through_joints() {
    let mut bench = paper(6, 4);
    draw_polyline(&mut bench, &[&[0x0600, 0xA500]], &[[3, 0], [0, 2], [-2, 1]]);
    assert_eq!(bench.line(0), [1, 2, 1, 2, 0, 0]);
    assert_eq!(bench.line(1), [0, 0, 0, 2, 0, 0]);
    assert_eq!(bench.line(2), [0, 0, 0, 1, 0, 0]);
    assert_eq!(bench.line(3), [0, 1, 2, 0, 0, 0]);
    let look = bench.look(0).unwrap();
    assert_eq!((look.x, look.y), (1, 3));
}

/// An upright outline whose last segment stops one pixel before the start is
/// RECT's, whatever the pattern. That segment has length 0 if dy is 1 or −1.
#[test]
fn polylines_that_stop_short_are_outlines() {
    for (dx, dy) in [(5i16, 3i16), (-5, 4), (1, 1), (4, -1), (-3, -5), (-1, 1)] {
        for pattern in [0xFFFF, 0x8000, 0xA6C3, 0x1234] {
            let mut bench = paper(13, 13);
            let mut other = bench.clone();
            let before: [&[u16]; 3] = [&[0x4100, 0xFFFF, 6], &[0x0600, pattern], &at(6, 6)];
            let last = -dy + dy.signum();
            draw_polyline(
                &mut bench,
                &before,
                &[[dx, 0], [0, dy], [-dx, 0], [0, last]],
            );
            let rect = [0x5800, dx as u16, dy as u16];
            other.done(&[&before.concat(), &rect]);
            assert_eq!(bench.screen, other.screen, "{dx} {dy} {pattern:x}");
        }
    }
}

/// Under exclusive or the corners of an open polyline stay. A closed one takes
/// its start out, and a segment back over the one before it all but the joint.
#[test]
fn polylines_under_exclusive_or() {
    let exclusive_or = [0x4100, 0xFFFF, 6];
    let drawn = |pairs: &[[i16; 2]]| {
        let mut bench = paper(4, 3);
        draw_polyline(&mut bench, &[&exclusive_or], pairs);
        [bench.line(0), bench.line(1), bench.line(2)]
    };
    assert_eq!(
        drawn(&[[3, 0], [0, 2], [-3, 0]]),
        [[1, 1, 1, 1], [0, 0, 0, 1], [1, 1, 1, 1]]
    );
    assert_eq!(
        drawn(&[[3, 0], [0, 2], [-3, 0], [0, -2]]),
        [[0, 1, 1, 1], [1, 0, 0, 1], [1, 1, 1, 1]]
    );
    assert_eq!(
        drawn(&[[3, 0], [-3, 0]]),
        [[0, 0, 0, 1], [0, 0, 0, 0], [0, 0, 0, 0]]
    );
}

/// A first segment of length 0 is one pixel with index 0; a later one draws
/// nothing and takes no index, also between others and at the end.
#[test]
fn segments_of_length_0() {
    let drawn = |pairs: &[[i16; 2]]| {
        let mut bench = paper(6, 1);
        draw_polyline(
            &mut bench,
            &[&[0x4100, 0xFFFF, 6], &[0x0600, 0xA600]],
            pairs,
        );
        bench.line(0)
    };
    assert_eq!(drawn(&[[0, 0]]), [1, 0, 0, 0, 0, 0]);
    assert_eq!(drawn(&[[0, 0], [0, 0], [0, 0]]), [1, 0, 0, 0, 0, 0]);
    assert_eq!(drawn(&[[0, 0], [3, 0]]), [1, 2, 1, 2, 0, 0]);
    assert_eq!(
        drawn(&[[2, 0], [0, 0], [0, 0], [3, 0], [0, 0]]),
        [1, 2, 1, 2, 2, 1]
    );
}

/// The position wraps between two segments; the third begins at the wrapped one
/// and skips its first pixel, which nothing has drawn. The first two segments
/// take the indexes 0 to 65532; the third goes on with 65533, which is 13 mod
/// 16. Index 14 alone is in the foreground.
#[test]
fn polylines_whose_position_wraps() {
    for down in [false, true] {
        let mut bench = if down { paper(1, 8) } else { paper(8, 1) };
        let turned = |along: i16| if down { [0, along] } else { [along, 0] };
        draw_polyline(
            &mut bench,
            &[&[0x0600, 0x0002], &at(turned(1)[0], turned(1)[1])],
            &[turned(-32768), turned(-32764), turned(2)],
        );
        let drawn: Vec<_> = if down {
            (0..8).map(|y| bench.line(y)[0]).collect()
        } else {
            bench.line(0)
        };
        assert_eq!(drawn, [2, 2, 0, 0, 0, 0, 2, 1]);
        let look = bench.look(0).unwrap();
        assert_eq!([look.x, look.y], turned(7));
    }
}

/// Two joints outside the clip: the pixels there take their indexes.
#[test]
fn polylines_that_leave_the_clip() {
    let mut bench = paper(8, 2);
    draw_polyline(
        &mut bench,
        &[&[0x4600, 0, 0, 3, 1], &[0x0600, 0xA6C3]],
        &[[5, 0], [0, 1], [-5, 0]],
    );
    // Indexes 0 to 3 in the clip, 4 to 7 outside, 8 to 11 in it again.
    assert_eq!(bench.line(0), [1, 2, 1, 2, 0, 0, 0, 0]);
    assert_eq!(bench.line(1), [2, 2, 1, 1, 0, 0, 0, 0]);
}

/// Each POLYLINE draws the first pixel of its first segment, with index 0, also
/// where the one before it ended.
#[test]
fn each_polyline_begins_anew() {
    let mut bench = paper(8, 1);
    let pairs = [[1, 0], [1, 0]];
    draw_polyline(&mut bench, &[&[0x0600, 0xA600]], &pairs);
    assert_eq!(bench.line(0), [1, 2, 1, 0, 0, 0, 0, 0]);
    draw_polyline(&mut bench, &[&[0x0600, 0x6000]], &pairs);
    assert_eq!(bench.line(0), [1, 2, 2, 1, 1, 0, 0, 0]);
}

/// SCAN_LINES "still restarts at each run".
#[test]
fn scan_lines_begin_anew_at_each_run() {
    let mut bench = paper(4, 2);
    bench.put_words(u32::from(ARRAY), &[0, 0, 2, 0, 1, 2]);
    bench.done(&[&[0x0600, 0xA000], &[0xBA00, ARRAY, 0, 2]]);
    assert_eq!(bench.line(0), [1, 2, 1, 0]);
    assert_eq!(bench.line(1), [1, 2, 1, 0]);
}

/// The pixel that is skipped picks nothing, nor does a later segment of length
/// 0; a first one does.
#[test]
fn polylines_pick() {
    let picked = |start: i16, column: u16, pattern: u16, pairs: &[[i16; 2]]| {
        let mut bench = paper(8, 1);
        let clip = [0x4600, column, 0, column, 0];
        let before: [&[u16]; 4] = [&clip, &[0x0700, pattern], &[0x4400], &at(start, 0)];
        draw_polyline(&mut bench, &before, pairs);
        assert!(bench.screen.iter().all(|byte| *byte == 0));
        bench.look(0).unwrap().pick
    };
    assert!(picked(3, 3, 0x8000, &[[0, 0]]));
    // Pixel (3,0) has index 4, the one after it index 5.
    assert!(!picked(-1, 3, 0x0400, &[[4, 0], [0, 0]]));
    assert!(picked(-1, 4, 0x0400, &[[4, 0], [0, 0], [1, 0]]));
    // The position comes to (4,0) by a wrap; no segment has a pixel there.
    let around = [[-32768, 0], [-32764, 0]];
    assert!(!picked(0, 4, 0xFFFF, &[around[0], around[1], [0, 0]]));
    assert!(!picked(0, 4, 0xFFFF, &[around[0], around[1], [2, 0]]));
    assert!(picked(0, 5, 0xFFFF, &[around[0], around[1], [2, 0]]));
}

/// Spacing 1, width 3, height 5, at every path and rotation.
#[test]
fn characters_move_along_the_path() {
    let moves: Vec<Vec<_>> = (0..4)
        .map(|path| {
            (0..4)
                .map(|rotation| advance(path, rotation, 1, 3, 5))
                .collect()
        })
        .collect();
    assert_eq!(moves[0], [(4, 0), (6, 0), (4, 0), (6, 0)]);
    assert_eq!(moves[1], [(0, -6), (0, -4), (0, -6), (0, -4)]);
    assert_eq!(moves[2], [(-4, 0), (-6, 0), (-4, 0), (-6, 0)]);
    assert_eq!(moves[3], [(0, 6), (0, 4), (0, 6), (0, 4)]);
}

/// An overlapping copy in each of eight directions equals a copy of what was
/// there before.
#[test]
fn overlapping_copies_in_all_directions() {
    for (to_x, to_y) in [
        (1, 1),
        (3, 1),
        (1, 3),
        (3, 3),
        (2, 1),
        (2, 3),
        (1, 2),
        (3, 2),
    ] {
        let mut bench = Bench::whole(6, 6, 8);
        for y in 0..6u8 {
            for x in 0..6u8 {
                // Pixel (x,y) holds 10y + x; even columns are the high bytes.
                bench.screen[usize::from(y * 6 + (x ^ 1))] = 10 * y + x;
            }
        }
        assert_eq!(bench.line(1), [10, 11, 12, 13, 14, 15]);
        bench.done(&[
            &pane_bitmap(6, 6, 8),
            &at(to_x as i16, to_y as i16),
            &[0x6400, 2, 2, 2, 2],
        ]);
        for y in 0..6u32 {
            for x in 0..6u32 {
                let copied = (to_x..to_x + 3).contains(&x) && (to_y..to_y + 3).contains(&y);
                let (from_x, from_y) = if copied {
                    (x + 2 - to_x, y + 2 - to_y)
                } else {
                    (x, y)
                };
                assert_eq!(bench.pixel(0, x, y), Ok((10 * from_y + from_x) as u16));
            }
        }
    }
}

/// In pick mode all but the pixels happens: the position moves, T sets its
/// flag, and the pick flag tells of the drawn pixels alone.
#[test]
fn pick_mode_keeps_the_rest() {
    let mut bench = Bench::whole(8, 2, 1);
    // A glyph of 4 by 1 pixels with T, all its bits 0; a string of it.
    bench.put_words(0x100, &[0x8003, 0x0000]);
    bench.put_words(0x110, &[0x0000]);
    bench.screen.fill(0x5A);
    let screen = bench.screen.clone();
    let text = |opcode: u16| [opcode, 0x110, 0, 1];
    let head: [&[u16]; 4] = [
        &pane_bitmap(8, 2, 1),
        &colors(0xFFFF, 0),
        &[0x0A00, 0x100, 0],
        &[0x4400],
    ];
    bench.done(&[head[0], head[1], head[2], head[3], &text(0xA700)]);
    let look = bench.look(0).unwrap();
    assert_eq!((look.x, look.pick, look.trap), (4, false, true));
    bench.done(&[&text(0xA600)]);
    let look = bench.look(0).unwrap();
    assert_eq!((look.x, look.pick, look.trap), (8, true, true));
    // ENTER_PICK clears the pick flag, nothing the trap flag.
    bench.done(&[&[0x4400], &text(0xA600)]);
    let look = bench.look(0).unwrap();
    assert_eq!((look.x, look.pick, look.trap), (12, false, true));
    assert_eq!(bench.screen, screen);
}

/// A pane changes no bit of the screen outside its rectangle and none of
/// another pane's store.
#[test]
fn a_pane_keeps_to_its_own() {
    for depth in [1u16, 2, 4, 8] {
        let rows = [row(3, 1, 7, 3, 10, 200), row(10, 1, 5, 3, 210, 100)];
        let mut bench = Bench::open(21, 5, u32::from(depth), &rows);
        bench.screen.fill(0xA5);
        bench.stores.fill(0x3C);
        let before = bench.clone();
        bench.done(&[
            &pane_bitmap(7, 3, depth),
            &[0x4100, 0xFFFF, 0xC],
            &at(-100, 0),
            &[0x5400, 300, 0],
            &at(-100, 1),
            &[0x5400, 300, 0],
            &at(-100, 2),
            &[0x5400, 300, 0],
        ]);
        // Every pixel of the pane is inverted; all other bits are as before.
        for y in 0..5u32 {
            for x in 0..21u32 {
                let bits = u32::from(depth);
                for bit in x * bits..(x + 1) * bits {
                    let line_bytes = (21 * bits).div_ceil(16) * 2;
                    let byte = (y * line_bytes + bit / 8) as usize ^ 1;
                    let mask = 0x80 >> (bit % 8);
                    let same = bench.screen[byte] & mask == before.screen[byte] & mask;
                    let inside = (3..10).contains(&x) && (1..4).contains(&y);
                    assert_eq!(same, !inside, "depth {depth} x {x} y {y}");
                }
            }
        }
        assert_eq!(bench.stores[..10], before.stores[..10]);
        assert_eq!(bench.stores[210..], before.stores[210..]);
        assert_eq!(bench.console.panes[1..], before.console.panes[1..]);
    }
}
