//! The number of pixels that run reports, worked out by hand.

mod bench;
use bench::*;
use reference::Refusal;

/// Where the tests put arrays, strings and glyphs.
const DATA: u16 = 0x200;

/// A pane of one bit with foreground 1 and background 0.
fn paper(width: u16, height: u16) -> Bench {
    let mut bench = Bench::whole(u32::from(width), u32::from(height), 1);
    bench.done(&[&pane_bitmap(width, height, 1), &colors(0xFFFF, 0)]);
    bench
}

/// The pixels of a list that must end without a fault.
fn painted(bench: &mut Bench, lists: &[&[u16]]) -> u64 {
    let reply = bench.go(lists);
    assert_eq!((reply.status, reply.fault), (2, 0), "{reply:?}");
    reply.pixels
}

/// The pixels of one command at (2,1) of a pane of 8 by 6.
fn painted_at_2_1(command: &[u16]) -> u64 {
    painted(&mut paper(8, 6), &[&at(2, 1), command])
}

#[test]
fn each_command_counts_its_pixels() {
    assert_eq!(painted_at_2_1(&[0x5300, 1, 1]), 1);
    assert_eq!(painted_at_2_1(&[0x5400, 5, 2]), 6);
    assert_eq!(painted_at_2_1(&[0x5400, 0, 0]), 1);
    // "Each pixel once": two sides of 5 pixels and two of 2; all flat; one pixel.
    assert_eq!(painted_at_2_1(&[0x5800, 4, 3]), 14);
    assert_eq!(painted_at_2_1(&[0x5800, 4, 0]), 5);
    assert_eq!(painted_at_2_1(&[0x5800, 0, 0]), 1);
    assert_eq!(painted_at_2_1(&[0x8E00, 0]), 1);
    assert_eq!(painted_at_2_1(&[0x8E00, 1]), 4);
    // Four columns of three rows, both corners in.
    assert_eq!(painted_at_2_1(&[0x6400, 0, 0, 3, 2]), 12);
    // A joint once: 3, 2 and 1 pixels.
    let mut bench = paper(8, 6);
    bench.put_words(u32::from(DATA), &[2, 0, 0, 2, 0, 0, 1, 0]);
    assert_eq!(painted(&mut bench, &[&[0x7400, DATA, 0, 4]]), 3 + 2 + 1);
    // Runs of 3 and 1 pixels.
    bench.put_words(u32::from(DATA), &[0, 0, 2, 0, 1, 0]);
    assert_eq!(painted(&mut bench, &[&at(0, 0), &[0xBA00, DATA, 0, 2]]), 4);
    // None at all.
    for empty in [0x7400, 0xBA00] {
        assert_eq!(painted(&mut bench, &[&[empty, DATA, 0, 0]]), 0);
    }
    assert_eq!(painted(&mut bench, &[&[0x0300], &at(1, 1)]), 0);
}

/// "A pixel drawn twice counting twice", by one command or by two.
#[test]
fn pixels_drawn_twice_count_twice() {
    let mut bench = paper(8, 6);
    let line = [0x5400, 5, 0];
    let again: [&[u16]; 4] = [&at(0, 0), &line, &at(0, 0), &line];
    assert_eq!(painted(&mut bench, &again), 12);
    // A closed outline of 4 by 3 pixels passes over its start once more.
    bench.put_words(u32::from(DATA), &[3, 0, 0, 2, 0xFFFD, 0, 0, 0xFFFE]);
    let closed = [0x7400, DATA, 0, 4];
    assert_eq!(painted(&mut bench, &[&at(0, 0), &closed]), 11);
    assert_eq!(painted(&mut bench, &[&[0x5800, 3, 2]]), 10);
    // The same run three times.
    bench.put_words(u32::from(DATA), &[0, 0, 4, 0, 0, 4, 0, 0, 4]);
    assert_eq!(painted(&mut bench, &[&[0xBA00, DATA, 0, 3]]), 15);
}

#[test]
fn clipped_pixels_count_nothing() {
    let line = [0x5400, 7, 0];
    for (clip, pixels) in [
        ([0x4600, 0, 0, 7, 5], 8),
        ([0x4600, 2, 1, 5, 3], 4),
        ([0x4600, 2, 2, 5, 3], 0),
        // A maximum below its minimum.
        ([0x4600, 5, 1, 2, 3], 0),
    ] {
        let mut bench = paper(8, 6);
        assert_eq!(painted(&mut bench, &[&clip, &at(0, 1), &line]), pixels);
    }
    // Beyond the pane: half the line, half a circle, part of a copy.
    let mut bench = paper(8, 6);
    assert_eq!(painted(&mut bench, &[&at(4, 0), &line]), 4);
    assert_eq!(painted(&mut bench, &[&at(-4, 0), &[0x5400, 0x8000, 0]]), 0);
    assert_eq!(painted(&mut bench, &[&at(0, 2), &[0x8E00, 1]]), 3);
    assert_eq!(painted(&mut bench, &[&at(6, 5), &[0x6400, 0, 0, 3, 2]]), 2);
}

/// The pattern has three bits 1 among its first eight. Opaque, its 0s are drawn
/// too; CIRCLE and copies take no pattern.
#[test]
fn zeros_count_unless_transparent() {
    let line = [0x5400, 7, 0];
    let opaque = [0x0600, 0xA100];
    let transparent = [0x0700, 0xA100];
    let mut bench = paper(8, 6);
    assert_eq!(painted(&mut bench, &[&opaque, &line]), 8);
    assert_eq!(painted(&mut bench, &[&at(0, 1), &transparent, &line]), 3);
    // Pixels 0 to 2 are beyond the pane, pixel 7 is seen.
    assert_eq!(painted(&mut bench, &[&at(-3, 2), &line]), 1);
    assert_eq!(painted(&mut bench, &[&at(3, 2), &[0x8E00, 1]]), 4);
    assert_eq!(painted(&mut bench, &[&at(0, 4), &[0x6400, 0, 0, 7, 0]]), 8);
    // No bit at all.
    assert_eq!(
        painted(
            &mut bench,
            &[&at(0, 3), &[0x0700, 0], &line, &[0x5300, 0, 0]]
        ),
        0
    );
    assert_eq!(painted(&mut bench, &[&at(0, 3), &[0x0600, 0], &line]), 8);
}

/// A cell of 3 by 2 with four bits 1. CHAR's opcode decides on transparency.
#[test]
fn cells_count_as_patterns_do() {
    let mut bench = paper(8, 6);
    bench.put_words(u32::from(DATA), &[0x0102, 7, 4, 0, 0]);
    let font = [0x0A00, DATA, 0];
    let string = |opcode: u16| [opcode, DATA + 6, 0, 2];
    for (opcode, pixels) in [(0xA600, 12), (0xA700, 8), (0xA800, 12), (0xA900, 8)] {
        assert_eq!(
            painted(&mut bench, &[&font, &at(0, 0), &string(opcode)]),
            pixels
        );
    }
    // From (6,5) on, one row of two cells is in the pane: both are 1.
    let at_corner = [0xA700, DATA + 6, 0, 1];
    assert_eq!(painted(&mut bench, &[&at(6, 5), &at_corner]), 2);
    // Each character begins where the one before it did.
    let spacing = [0x4D00, 0xFFFD];
    assert_eq!(
        painted(&mut bench, &[&at(0, 0), &spacing, &string(0xA700)]),
        8
    );
    assert_eq!(painted(&mut bench, &[&[0xA700, DATA + 6, 0, 0]]), 0);
}

/// The pane is empty, so all that is copied is 0.
#[test]
fn copied_zeros_count() {
    let mut bench = paper(8, 6);
    let copy = [0x6400, 0, 0, 2, 1];
    assert_eq!(painted(&mut bench, &[&[0x0700, 0], &at(4, 4), &copy]), 6);
    let from_store = [0xAE00, DATA, 0, 15, 3, 0, 0, 4, 3];
    assert_eq!(painted(&mut bench, &[&at(0, 0), &from_store]), 20);
    assert!(bench.screen.iter().all(|byte| *byte == 0));
}

/// "Each bit whose mask is 1 becomes the operation": a pixel that keeps its
/// value is drawn all the same.
#[test]
fn mask_and_operation_do_not_matter() {
    let line = [0x5400, 5, 0];
    for mask in [0x0000, 0xFFFF] {
        for code in 0..16 {
            let mut bench = paper(8, 6);
            let operation = [0x4100, mask, code];
            assert_eq!(painted(&mut bench, &[&operation, &line]), 6);
        }
    }
    // The foreground on itself.
    let mut bench = paper(8, 6);
    assert_eq!(painted(&mut bench, &[&line]), 6);
    let before = bench.screen.clone();
    assert_eq!(painted(&mut bench, &[&at(0, 0), &line]), 6);
    assert_eq!(bench.screen, before);
}

/// A bitmap of 5 by 2 in the store counts as the pane does; its edges cut.
#[test]
fn pixels_of_a_store_bitmap_count() {
    for bits in [1, 2, 4, 8] {
        let mut bench = paper(8, 6);
        let bitmap = [0x1A00, DATA, 0, 4, 1, bits];
        let line = [0x5400, 7, 0];
        assert_eq!(painted(&mut bench, &[&bitmap, &at(-1, 1), &line]), 5);
        assert_eq!(painted(&mut bench, &[&at(0, 2), &line]), 0);
        assert_eq!(painted(&mut bench, &[&at(0, 0), &[0x5800, 4, 1]]), 10);
        assert!(bench.screen.iter().all(|byte| *byte == 0));
    }
}

/// "Pick mode counting none", though the flag says that something would have
/// been drawn.
#[test]
fn pick_mode_counts_none() {
    let line = [0x5400, 7, 0];
    let mut bench = paper(8, 6);
    assert_eq!(
        painted(&mut bench, &[&line, &[0x4400], &at(0, 1), &line]),
        8
    );
    assert!(bench.look(0).unwrap().pick);
    // The pane is still in pick mode.
    let drawings: [&[u16]; 4] = [
        &[0x5300, 0, 0],
        &[0x5800, 3, 3],
        &[0x8E00, 2],
        &[0x6400, 0, 0, 3, 3],
    ];
    for drawing in drawings {
        assert_eq!(painted(&mut bench, &[&at(0, 0), drawing]), 0);
    }
    assert_eq!(painted(&mut bench, &[&[0x4500], &at(0, 1), &line]), 8);
}

/// The commands before a fault count; the one that faults draws nothing.
#[test]
fn a_faulting_command_counts_nothing() {
    let line = [0x5400, 7, 0];
    let mut bench = paper(8, 6);
    // Of a string of two characters the second is outside the store.
    bench.put_words(u32::from(DATA), &[0x0102, 7, 7, 0, 0xFFFF]);
    let string: [u16; 4] = [0xA600, DATA + 6, 0, 2];
    let faulting: [(u32, &[u16]); 4] = [
        (20, &[0xFE00]),
        (25, &string),
        (29, &[0x6400, 0, 0, 8, 0]),
        (30, &[0x8E00, 0xFFFF]),
    ];
    for (fault, command) in faulting {
        let reply = bench.go(&[&[0x0A00, DATA, 0], &at(0, 1), &line, command, &line]);
        assert_eq!((reply.commands, reply.fault, reply.pixels), (3, fault, 8));
        let before = bench.clone();
        assert_eq!(bench.run(0, 9), Err(Refusal(4)));
        assert_eq!(bench, before);
    }
    let reply = bench.go(&[&[0x8E00, 0xFFFF]]);
    assert_eq!((reply.commands, reply.fault, reply.pixels), (0, 30, 0));
}

/// Each run begins at 0. Lines of 6, 3 and 2 pixels: however the budget is
/// split, the figures add to the sum.
#[test]
fn each_run_counts_anew() {
    let mut bench = paper(8, 6);
    let list = [0x5400, 5, 0, 0x5400, 0, 2, 0x0300, 0x5400, 1, 0, 0x0001];
    bench.put_words(0, &list);
    let mut figures = |budgets: &[u32]| -> Vec<u64> {
        bench.start(0, 0).unwrap();
        let mut run = |budget: &u32| bench.run(0, *budget).unwrap().pixels;
        let figures = budgets.iter().map(&mut run).collect();
        bench.put_words(0x100, &[0x4F00, 0, 0, 0x0001]);
        bench.start(0, 0x100).unwrap();
        bench.run(0, 9).unwrap();
        figures
    };
    assert_eq!(figures(&[9]), [11]);
    assert_eq!(figures(&[4, 9]), [11, 0]);
    assert_eq!(figures(&[0, 1, 0, 1, 1, 1, 1]), [0, 6, 0, 3, 0, 2, 0]);
    assert_eq!(figures(&[2, 1, 2]), [9, 0, 2]);
}

/// Panes count apart: a run tells its own pane's pixels alone.
#[test]
fn each_pane_counts_its_own() {
    let rows = [row(0, 0, 5, 2, 0, 64), row(5, 0, 5, 2, 64, 64)];
    let mut bench = Bench::open(10, 2, 1, &rows);
    for (pane, length) in [(0, 3u16), (1, 9)] {
        let words = [&pane_bitmap(5, 2, 1)[..], &[0x5400, length, 0, 0x0001]].concat();
        let bytes: Vec<u8> = words.iter().flat_map(|word| word.to_le_bytes()).collect();
        bench.put(pane, 0, &bytes).unwrap();
        bench.start(pane, 0).unwrap();
    }
    assert_eq!(bench.run(0, 1).unwrap().pixels, 0);
    assert_eq!(bench.run(1, 9).unwrap().pixels, 5);
    assert_eq!(bench.run(0, 9).unwrap().pixels, 4);
}
