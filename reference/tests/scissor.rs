//! The scissor in a pane's record: what each command and call leaves of it, and
//! that it holds the pixels on which drawing can land and no others.

mod bench;
use bench::*;
use reference::bitmaps::Scissor;

const NONE: [u32; 4] = [0, 0, 0, 0];
const ON_PANE: [u16; 6] = [0x1A00, 0x0000, 0x0020, 5, 3, 2];
/// A store bitmap that is larger than the pane.
const IN_STORE: [u16; 6] = [0x1A00, 0x200, 0, 9, 7, 2];

/// A pane of 6 by 4 pixels, whose corner is pixel (3,2) of the screen.
fn pane() -> Bench {
    Bench::open(16, 8, 2, &[row(3, 2, 6, 4, 0, 1024)])
}

/// DEF_CLIP_RECT.
fn clip(xmin: u16, ymin: u16, xmax: u16, ymax: u16) -> [u16; 5] {
    [0x4600, xmin, ymin, xmax, ymax]
}

/// Left, top, width and height.
fn kept(bench: &Bench) -> [u32; 4] {
    let Scissor {
        left,
        top,
        width,
        height,
    } = bench.console.panes[0].scissor;
    [left, top, width, height]
}

#[test]
fn clips_of_the_pane() {
    let mut bench = pane();
    assert_eq!(kept(&bench), NONE);
    bench.done(&[&ON_PANE]);
    assert_eq!(kept(&bench), [3, 2, 6, 4]);
    for (clip, expected) in [
        (clip(1, 1, 4, 2), [4, 3, 4, 2]),
        (clip(0, 0, 0, 0), [3, 2, 1, 1]),
        (clip(5, 3, 5, 3), [8, 5, 1, 1]),
        (clip(2, 0, 2, 3), [5, 2, 1, 4]),
        (clip(0, 3, 5, 3), [3, 5, 6, 1]),
        // A maximum below its minimum, by one or by all there is.
        (clip(3, 0, 2, 3), NONE),
        (clip(0, 2, 5, 1), NONE),
        (clip(5, 3, 0, 0), NONE),
        (clip(0, 0, 5, 3), [3, 2, 6, 4]),
    ] {
        bench.done(&[&clip]);
        assert_eq!(kept(&bench), expected, "{clip:?}");
    }
    // DEF_BITMAP sets the clip to the whole bitmap.
    for before in [clip(1, 1, 4, 2), clip(3, 0, 2, 3)] {
        bench.done(&[&before, &ON_PANE]);
        assert_eq!(kept(&bench), [3, 2, 6, 4]);
    }
}

#[test]
fn bitmaps_in_the_store() {
    let mut bench = pane();
    bench.done(&[&IN_STORE]);
    assert_eq!(kept(&bench), NONE);
    bench.done(&[&ON_PANE, &clip(1, 1, 4, 2)]);
    assert_eq!(kept(&bench), [4, 3, 4, 2]);
    bench.done(&[&IN_STORE]);
    assert_eq!(kept(&bench), NONE);
    bench.done(&[&clip(1, 1, 4, 2)]);
    assert_eq!(kept(&bench), NONE);
    bench.done(&[&ON_PANE]);
    assert_eq!(kept(&bench), [3, 2, 6, 4]);
}

/// "A fault sets status 3 and its number; nothing else changes."
#[test]
fn faults_keep_it() {
    for (before, expected) in [
        (&[&ON_PANE[..], &clip(1, 1, 4, 2)][..], [4, 3, 4, 2]),
        (&[&ON_PANE, &clip(3, 0, 2, 3)], NONE),
        (&[&IN_STORE, &clip(0, 0, 5, 3)], NONE),
    ] {
        let mut bench = pane();
        bench.done(before);
        for (fault, command) in [
            (24, &clip(0, 0, 10, 3)[..]),
            (24, &clip(0, 0, 5, 8)),
            (24, &clip(0xFFFF, 0, 5, 3)),
            (22, &[0x1A00, 0x0000, 0x0020, 6, 3, 2]),
            (22, &[0x1A00, 0x0000, 0x0020, 5, 3, 4]),
            (22, &[0x1A00, 0x201, 0, 5, 3, 2]),
        ] {
            assert_eq!(bench.go(&[command]).fault, fault);
            assert_eq!(kept(&bench), expected);
            // And after a start.
            bench.done(&[&[0x0300]]);
            assert_eq!(kept(&bench), expected);
        }
    }
    let mut bench = pane();
    assert_eq!(bench.go(&[&clip(0, 0, 0, 0)]).fault, 23);
    assert_eq!(kept(&bench), NONE);
}

/// Only DEF_BITMAP and DEF_CLIP_RECT change it.
#[test]
fn other_commands_keep_it() {
    let commands: [&[u16]; 25] = [
        &[0x0300],
        // LINK and CALL to the next word, RETURN.
        &[0x0200, 6, 0],
        &[0x0F00, 6, 0, 0x0300],
        &[0x0F00, 8, 0, 0x0001, 0x1700],
        &at(30, -40),
        &[0x5200, 7, 9],
        &colors(0xFFFF, 0x1234),
        &[0x4100, 0xFFFF, 12],
        &[0x0700, 0x5A5A],
        &[0x4D00, 3],
        &[0x4E00, 0x0102],
        &[0x0A00, 0x300, 0],
        &[0x0B00, 0x300, 0],
        &[0x4400],
        &[0x4500],
        &[0x5300, 1, 1],
        &[0x5400, 5, 2],
        &[0x5500, 0x8000, 0],
        &[0x5800, 4, 2],
        &[0x8E00, 3],
        &[0x7400, 0x300, 0, 2],
        &[0xBA00, 0x300, 0, 2],
        &[0x6400, 0, 0, 3, 2],
        &[0xAE00, 0x200, 0, 9, 7, 0, 0, 3, 2],
        &[0x0A00, 0x300, 0, 0xA600, 0x300, 0, 1],
    ];
    for (before, expected) in [
        (&[&ON_PANE[..], &clip(1, 1, 4, 2)][..], [4, 3, 4, 2]),
        (&[&ON_PANE, &clip(3, 0, 2, 3)], NONE),
        (&[&[0x1A00, 0x100, 0, 5, 3, 2]], NONE),
    ] {
        for command in commands {
            let mut bench = pane();
            bench.done(before);
            bench.done(&[command]);
            assert_eq!(kept(&bench), expected, "{command:x?}");
        }
    }
}

#[test]
fn calls_keep_it_but_for_clear_and_set_up() {
    let clipped = || {
        let mut bench = pane();
        bench.done(&[&ON_PANE, &clip(1, 1, 4, 2)]);
        bench
    };
    let mut bench = clipped();
    bench.put(0, 0, &[1, 0]).unwrap();
    bench.start(0, 0).unwrap();
    bench.run(0, 9).unwrap();
    bench.look(0).unwrap();
    bench.pixel(0, 0, 0).unwrap();
    bench.peek(0, 0).unwrap();
    bench.judge(0, 0).unwrap();
    assert_eq!(kept(&bench), [4, 3, 4, 2]);
    // The judge walks over another clip.
    bench.put_words(0x40, &[&ON_PANE[..], &clip(2, 2, 3, 3), &[0x0001]].concat());
    bench.judge(0, 0x40).unwrap();
    assert_eq!(kept(&bench), [4, 3, 4, 2]);
    bench.clear(0).unwrap();
    assert_eq!(kept(&bench), NONE);
    let mut bench = clipped();
    bench.set_up().unwrap();
    assert_eq!(kept(&bench), NONE);
}

/// Each pane has its own.
#[test]
fn panes_apart() {
    let rows = [row(3, 2, 6, 4, 0, 64), row(9, 2, 6, 4, 64, 64)];
    let mut bench = Bench::open(16, 8, 2, &rows);
    for (pane, [first, last]) in [(0, [1, 4]), (1, [0, 2])] {
        let words = [&ON_PANE[..], &clip(first, 1, last, 1), &[0x0001]].concat();
        let bytes: Vec<u8> = words.iter().flat_map(|word| word.to_le_bytes()).collect();
        bench.put(pane, 0, &bytes).unwrap();
        bench.start(pane, 0).unwrap();
        bench.run(pane, 9).unwrap();
    }
    assert_eq!(kept(&bench), [4, 3, 4, 1]);
    bench.console.panes.swap(0, 1);
    assert_eq!(kept(&bench), [9, 3, 3, 1]);
    // The one is not the other's.
    assert!(bench.look(0).is_err() && bench.look(1).is_err());
}

const SCREEN_WIDTH: u32 = 7;
const SCREEN_HEIGHT: u32 = 6;

/// The pixels of the whole screen: what a console with one pane over all of it
/// reads.
fn pixels(screen: &[u8], depth: u32) -> Vec<u16> {
    let mut whole = Bench::whole(SCREEN_WIDTH, SCREEN_HEIGHT, depth);
    whole.screen.copy_from_slice(screen);
    (0..SCREEN_HEIGHT).flat_map(|y| whole.line(y)).collect()
}

/// A pane of 1 to 3 columns and rows, after commands that say what is drawn on.
/// Answers how many pixels its scissor holds, each of which is compared: a pixel
/// of the screen is in it exactly when inverting everything changes the pixel.
fn inverted(place: [u32; 4], depth: u32, limits: &[&[u16]]) -> u32 {
    let [left, top, width, height] = place;
    let rows = [row(left, top, width, height, 0, 256)];
    let mut bench = Bench::open(SCREEN_WIDTH, SCREEN_HEIGHT, depth, &rows);
    bench.done(&[limits, &[&[0x4100, 0xFFFF, 12]]].concat());
    let [left, top, width, height] = kept(&bench);
    let before = pixels(&bench.screen, depth);

    // Eight runs of 9 pixels, from two columns and two rows before the pane on.
    bench.put_words(0x80, &[&[0, 0, 8][..], &[0, 1, 8].repeat(7)].concat());
    bench.done(&[&at(-2, -2), &[0xBA00, 0x80, 0, 8]]);
    let after = pixels(&bench.screen, depth);
    for y in 0..SCREEN_HEIGHT {
        for x in 0..SCREEN_WIDTH {
            let inside = (left..left + width).contains(&x) && (top..top + height).contains(&y);
            let index = (y * SCREEN_WIDTH + x) as usize;
            let changed = before[index] != after[index];
            assert_eq!(changed, inside, "{place:?} {limits:?} ({x},{y})");
        }
    }
    width * height
}

/// All pairs of numbers below a size.
fn pairs(size: u32) -> impl Iterator<Item = (u16, u16)> {
    let size = size as u16;
    (0..size).flat_map(move |one| (0..size).map(move |other| (one, other)))
}

#[test]
fn it_holds_what_can_be_drawn() {
    let in_store = [0x1A00, 0xC0, 0, 4, 4, 1];
    for [left, top] in [[0, 0], [2, 1], [4, 3]] {
        for [width, height] in [[1, 1], [3, 1], [1, 3], [2, 2], [3, 2], [3, 3]] {
            for depth in [1, 2, 4, 8] {
                let place = [left, top, width, height];
                let on_pane = pane_bitmap(width as u16, height as u16, depth as u16);
                assert_eq!(inverted(place, depth, &[&in_store]), 0);
                let stored: [&[u16]; 3] = [&on_pane, &in_store, &clip(0, 0, 2, 2)];
                assert_eq!(inverted(place, depth, &stored), 0);
                let whole = inverted(place, depth, &[&in_store, &on_pane]);
                assert_eq!(whole, width * height);
                for (xmin, xmax) in pairs(width) {
                    for (ymin, ymax) in pairs(height) {
                        inverted(place, depth, &[&on_pane, &clip(xmin, ymin, xmax, ymax)]);
                    }
                }
            }
        }
    }
}
