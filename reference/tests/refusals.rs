//! The refusals 1 to 12 and 33: when each is replied, in which order, and that a
//! refused call changes nothing.

mod bench;
use bench::*;
use reference::bitmaps::{Bitmap, Clip, Scissor};
use reference::calls::RunReply;
use reference::judge::Verdict;
use reference::record::{Font, PaneRecord};
use reference::Refusal;

/// Two panes side by side on a screen of 16 by 4 pixels.
fn two() -> Bench {
    Bench::open(
        16,
        4,
        2,
        &[row(0, 0, 5, 4, 0, 64), row(5, 0, 11, 3, 64, 32)],
    )
}

/// What set-up replies after a change, when it must leave all as it was.
fn refused(change: impl Fn(&mut Bench)) -> u32 {
    let mut bench = two();
    // Set-up ignores the pane records; a refused one keeps them.
    bench.console.panes[0].status = 77;
    change(&mut bench);
    let before = bench.clone();
    let Err(Refusal(number)) = bench.set_up() else {
        panic!("accepted")
    };
    assert_eq!(bench, before);
    // Every other call makes the same checks first, even for pane 9.
    assert_eq!(bench.look(9), Err(Refusal(number)));
    assert_eq!(bench.put(9, 0, &[]), Err(Refusal(number)));
    assert_eq!(bench.start(9, 0), Err(Refusal(number)));
    assert_eq!(bench.run(9, 0), Err(Refusal(number)));
    assert_eq!(bench.pixel(9, 0, 0), Err(Refusal(number)));
    assert_eq!(bench.peek(9, 0), Err(Refusal(number)));
    assert_eq!(bench.clear(9), Err(Refusal(number)));
    assert_eq!(bench.judge(9, 1), Err(Refusal(number)));
    assert_eq!(bench.switch(9, 2), Err(Refusal(number)));
    assert_eq!(bench, before);
    number
}

#[test]
fn set_up_makes_all_records_fresh_and_keeps_the_buffers() {
    let mut bench = two();
    for record in &mut bench.console.panes {
        record.status = 9;
        record.return_count = 99;
    }
    bench.screen.fill(0xA5);
    bench.stores.fill(0x5A);
    let (screen, stores) = (bench.screen.clone(), bench.stores.clone());
    assert_eq!(bench.set_up(), Ok(()));
    assert!(bench
        .console
        .panes
        .iter()
        .all(|record| *record == PaneRecord::fresh()));
    assert_eq!((bench.screen, bench.stores), (screen, stores));
}

#[test]
fn refusal_6_geometry_or_row_count() {
    assert_eq!(refused(|bench| bench.console.geometry.width = 0), 6);
    assert_eq!(refused(|bench| bench.console.geometry.width = 4097), 6);
    assert_eq!(refused(|bench| bench.console.geometry.height = 0), 6);
    assert_eq!(refused(|bench| bench.console.geometry.height = 4097), 6);
    assert_eq!(refused(|bench| bench.console.geometry.depth = 0), 6);
    assert_eq!(refused(|bench| bench.console.geometry.depth = 3), 6);
    assert_eq!(refused(|bench| bench.console.geometry.depth = 16), 6);
    assert_eq!(refused(|bench| bench.console.row_count = 0), 6);
    assert_eq!(refused(|bench| bench.console.row_count = 9), 6);
    assert_eq!(refused(|bench| bench.console.row_count = u32::MAX), 6);
    // 6 comes before 7.
    assert_eq!(
        refused(|bench| {
            bench.console.geometry.depth = 5;
            bench.screen.clear();
        }),
        6
    );
}

#[test]
fn set_up_takes_the_largest_screen() {
    let mut bench = Bench::planned(4096, 4096, 8, &[row(0, 0, 4096, 4096, 0, 0)]);
    assert_eq!(bench.set_up(), Ok(()));
}

#[test]
fn refusal_7_screen_buffer() {
    assert_eq!(
        refused(|bench| {
            bench.screen.pop();
        }),
        7
    );
    // A longer buffer is good.
    let mut bench = two();
    bench.screen.push(0);
    assert_eq!(bench.set_up(), Ok(()));
    // 7 comes before 8.
    assert_eq!(
        refused(|bench| {
            bench.screen.clear();
            bench.console.rows[0].width = 0;
        }),
        7
    );
}

#[test]
fn refusal_8_rectangle() {
    assert_eq!(refused(|bench| bench.console.rows[0].width = 0), 8);
    assert_eq!(refused(|bench| bench.console.rows[1].height = 0), 8);
    assert_eq!(refused(|bench| bench.console.rows[1].width = 12), 8);
    assert_eq!(refused(|bench| bench.console.rows[1].height = 5), 8);
    assert_eq!(refused(|bench| bench.console.rows[0].left = u32::MAX), 8);
    assert_eq!(refused(|bench| bench.console.rows[0].top = u32::MAX), 8);
    // 8 of a later row comes before 9 of an earlier one.
    assert_eq!(
        refused(|bench| {
            bench.console.rows[0].store_length = 63;
            bench.console.rows[1].width = 12;
        }),
        8
    );
    // Rows from the count on are not looked at.
    let mut bench = two();
    bench.console.rows[2] = row(99, 99, 0, 0, 9999, 9999);
    assert_eq!(bench.set_up(), Ok(()));
}

#[test]
fn refusal_9_store() {
    assert_eq!(refused(|bench| bench.console.rows[0].store_length = 63), 9);
    assert_eq!(refused(|bench| bench.console.rows[1].store_length = 34), 9);
    assert_eq!(
        refused(|bench| bench.console.rows[1].store_start = u32::MAX),
        9
    );
    // Above 2,097,152 bytes, though the buffer is long enough.
    assert_eq!(
        refused(|bench| {
            bench.console.rows[1].store_length = 2_097_154;
            bench.stores = vec![0; 64 + 2_097_154];
        }),
        9
    );
    let mut bench = two();
    bench.console.rows[1].store_length = 2_097_152;
    bench.stores = vec![0; 64 + 2_097_152];
    assert_eq!(bench.set_up(), Ok(()));
    // An empty store may stand at the buffer's end, not past it.
    let mut bench = two();
    bench.console.rows[1].store_length = 0;
    bench.console.rows[1].store_start = 96;
    assert_eq!(bench.set_up(), Ok(()));
    bench.console.rows[1].store_start = 97;
    assert_eq!(bench.set_up(), Err(Refusal(9)));
    // A store may begin at an odd byte.
    let mut bench = two();
    bench.console.rows[1].store_start = 65;
    bench.console.rows[1].store_length = 30;
    assert_eq!(bench.set_up(), Ok(()));
    // 9 comes before 10.
    assert_eq!(
        refused(|bench| {
            bench.console.rows[1].store_length = 1;
            bench.console.rows[1].left = 4;
        }),
        9
    );
}

#[test]
fn refusal_10_rectangles_share_a_pixel() {
    assert_eq!(refused(|bench| bench.console.rows[0].width = 6), 10);
    assert_eq!(refused(|bench| bench.console.rows[1].left = 4), 10);
    // 10 comes before 11.
    assert_eq!(
        refused(|bench| {
            bench.console.rows[1].left = 4;
            bench.console.rows[1].store_start = 63;
        }),
        10
    );
}

#[test]
fn refusal_11_stores_share_a_byte() {
    assert_eq!(refused(|bench| bench.console.rows[1].store_start = 63), 11);
    assert_eq!(refused(|bench| bench.console.rows[1].store_start = 0), 11);
    // An empty store inside another shares nothing.
    let mut bench = two();
    bench.console.rows[1].store_start = 10;
    bench.console.rows[1].store_length = 0;
    assert_eq!(bench.set_up(), Ok(()));
}

#[test]
fn refusal_1_no_such_pane() {
    let mut bench = two();
    // 1 comes before 12: the record of a pane without a row is not looked at.
    bench.console.panes[2].status = 9;
    let before = bench.clone();
    for pane in [2, 7, 8, u32::MAX] {
        assert_eq!(bench.put(pane, 0, &[1]), Err(Refusal(1)));
        assert_eq!(bench.start(pane, 1), Err(Refusal(1)));
        assert_eq!(bench.run(pane, 1), Err(Refusal(1)));
        assert_eq!(bench.look(pane), Err(Refusal(1)));
        assert_eq!(bench.pixel(pane, 0, 0), Err(Refusal(1)));
        assert_eq!(bench.peek(pane, 0), Err(Refusal(1)));
        assert_eq!(bench.clear(pane), Err(Refusal(1)));
        assert_eq!(bench.judge(pane, 1), Err(Refusal(1)));
        for value in [0, 1, 2, u32::MAX] {
            assert_eq!(bench.switch(pane, value), Err(Refusal(1)));
        }
    }
    assert_eq!(bench, before);
}

/// Whether pane 0's record is refused with 12 after a change.
fn unsound(change: impl Fn(&mut PaneRecord)) -> bool {
    let mut bench = two();
    change(bench.record());
    refused_with_12(bench)
}

/// Whether pane 0's record is refused with 12: by every call, and nothing
/// changes.
fn refused_with_12(mut bench: Bench) -> bool {
    let before = bench.clone();
    let reply = bench.look(0);
    if reply.is_ok() {
        return false;
    }
    let no = Refusal(12);
    assert_eq!(reply, Err(no));
    assert_eq!(bench.put(0, 999, &[1]), Err(no));
    assert_eq!(bench.start(0, 1), Err(no));
    assert_eq!(bench.run(0, 1), Err(no));
    assert_eq!(bench.pixel(0, 99, 0), Err(no));
    assert_eq!(bench.peek(0, 999), Err(no));
    assert_eq!(bench.clear(0), Err(no));
    assert_eq!(bench.judge(0, 1), Err(no));
    for value in [0, 1, 2, u32::MAX] {
        assert_eq!(bench.switch(0, value), Err(no));
    }
    assert_eq!(bench, before);
    // The other pane is not touched by it.
    assert!(bench.look(1).is_ok());
    true
}

/// A store bitmap of 4 by 3 pixels, 4 bits each: six bytes from 10 on.
fn small() -> Bitmap {
    Bitmap::Store {
        address: 10,
        xmax: 3,
        ymax: 2,
        bits: 4,
    }
}

/// Whether a bitmap with a clip of one pixel is refused. The scissor goes with
/// the clip.
fn bitmap_unsound(bitmap: Bitmap) -> bool {
    unsound(|record| {
        record.bitmap = bitmap;
        if let Bitmap::Pane { .. } = bitmap {
            record.scissor = scissor(0, 0, 1, 1);
        }
    })
}

fn scissor(left: u32, top: u32, width: u32, height: u32) -> Scissor {
    Scissor {
        left,
        top,
        width,
        height,
    }
}

/// Pane 0's record is at this status with switch and flag so.
fn at_status(status: u32, switch: bool, flag: bool) -> impl Fn(&mut PaneRecord) {
    move |record| {
        record.status = status;
        record.fault = if status == 3 { 27 } else { 0 };
        record.trap_switch = switch;
        record.trap_flag = flag;
    }
}

/// "Refusal 12 admits status 4 only with the switch on and the flag set."
#[test]
fn refusal_12_status_4() {
    for (switch, flag) in [(false, false), (false, true), (true, false), (true, true)] {
        assert_eq!(unsound(at_status(4, switch, flag)), !(switch && flag));
        // At any other status both are free; above 4 they help nothing.
        for status in 0..=3 {
            assert!(!unsound(at_status(status, switch, flag)));
        }
        for status in [5, 8, 36, u32::MAX] {
            assert!(unsound(at_status(status, switch, flag)));
        }
    }
    // A fault "not 0 elsewhere" than at status 3.
    for fault in [1, 4, 20, 28, 30, 33, u32::MAX] {
        assert!(unsound(|record| {
            at_status(4, true, true)(record);
            record.fault = fault;
        }));
    }
}

#[test]
fn refusal_12_status_and_fault() {
    assert!(unsound(|record| record.status = 4));
    assert!(unsound(|record| record.status = 5));
    assert!(unsound(|record| record.status = u32::MAX));
    for status in 0..3 {
        assert!(!unsound(|record| record.status = status));
        assert!(unsound(|record| {
            record.status = status;
            record.fault = 20;
        }));
    }
    for (fault, expected) in [(0, true), (19, true), (20, false), (30, false), (31, true)] {
        assert_eq!(
            unsound(|record| {
                record.status = 3;
                record.fault = fault;
            }),
            expected
        );
    }
}

#[test]
fn refusal_12_bitmap() {
    assert!(!bitmap_unsound(Bitmap::Pane {
        xmax: 4,
        ymax: 3,
        bits: 2
    }));
    assert!(bitmap_unsound(Bitmap::Pane {
        xmax: 5,
        ymax: 3,
        bits: 2
    }));
    assert!(bitmap_unsound(Bitmap::Pane {
        xmax: 4,
        ymax: 4,
        bits: 2
    }));
    assert!(bitmap_unsound(Bitmap::Pane {
        xmax: 4,
        ymax: 3,
        bits: 4
    }));
    assert!(!bitmap_unsound(small()));
    assert!(bitmap_unsound(Bitmap::Store {
        address: 11,
        xmax: 3,
        ymax: 2,
        bits: 4
    }));
    assert!(bitmap_unsound(Bitmap::Store {
        address: 10,
        xmax: 3,
        ymax: 2,
        bits: 3
    }));
    assert!(bitmap_unsound(Bitmap::Store {
        address: 0,
        xmax: 0x8000,
        ymax: 0,
        bits: 1
    }));
    // Six bytes end at 64, the store's end, or pass it.
    assert!(!bitmap_unsound(Bitmap::Store {
        address: 58,
        xmax: 3,
        ymax: 2,
        bits: 4
    }));
    assert!(bitmap_unsound(Bitmap::Store {
        address: 60,
        xmax: 3,
        ymax: 2,
        bits: 4
    }));
}

#[test]
fn refusal_12_clip() {
    // Without a bitmap all four are 0.
    assert!(unsound(|record| record.clip.xmin = 1));
    assert!(unsound(|record| record.clip.ymax = -1));
    let with = |clip: Clip| {
        unsound(move |record| {
            record.bitmap = small();
            record.clip = clip;
        })
    };
    assert!(!with(Clip {
        xmin: 0,
        ymin: 0,
        xmax: 3,
        ymax: 2
    }));
    // A maximum below its minimum is good.
    assert!(!with(Clip {
        xmin: 3,
        ymin: 2,
        xmax: 0,
        ymax: 0
    }));
    assert!(with(Clip {
        xmin: 4,
        ymin: 0,
        xmax: 3,
        ymax: 2
    }));
    assert!(with(Clip {
        xmin: 0,
        ymin: 3,
        xmax: 3,
        ymax: 2
    }));
    assert!(with(Clip {
        xmin: 0,
        ymin: 0,
        xmax: 4,
        ymax: 2
    }));
    assert!(with(Clip {
        xmin: 0,
        ymin: 0,
        xmax: 3,
        ymax: 3
    }));
    assert!(with(Clip {
        xmin: -1,
        ymin: 0,
        xmax: 3,
        ymax: 2
    }));
}

/// A pane of 6 by 4 pixels at (3,2) of the screen, beside another. A list has
/// left its bitmap and clip.
fn left_by(commands: &[&[u16]]) -> Bench {
    let rows = [row(3, 2, 6, 4, 0, 128), row(9, 2, 5, 4, 128, 32)];
    let mut bench = Bench::open(16, 8, 2, &rows);
    bench.done(commands);
    bench
}

const ON_PANE: [u16; 6] = [0x1A00, 0x0000, 0x0020, 5, 3, 2];
const IN_STORE: [u16; 6] = [0x1A00, 100, 0, 5, 3, 2];
/// Columns 1 to 4 and rows 1 to 2: screen columns 4 to 7, rows 3 to 4.
const CLIP: [u16; 5] = [0x4600, 1, 1, 4, 2];

/// Lists after which nothing can be drawn on the pane.
const WITHOUT_SCISSOR: [&[&[u16]]; 5] = [
    &[],
    &[&IN_STORE],
    &[&ON_PANE, &CLIP, &IN_STORE, &CLIP],
    &[&ON_PANE, &[0x4600, 4, 1, 3, 2]],
    &[&ON_PANE, &[0x4600, 1, 2, 4, 1]],
];

#[test]
fn refusal_12_scissor() {
    let kept = |commands, kept| {
        let mut bench = left_by(commands);
        bench.record().scissor = kept;
        !refused_with_12(bench)
    };
    let clipped: [&[u16]; 2] = [&ON_PANE, &CLIP];
    assert!(kept(&clipped, scissor(4, 3, 4, 2)));
    for stale in [
        // A column or a row too many, or one too few.
        scissor(4, 3, 5, 2),
        scissor(4, 3, 4, 3),
        scissor(4, 3, 3, 2),
        scissor(4, 3, 4, 1),
        // Off by one.
        scissor(3, 3, 4, 2),
        scissor(5, 3, 4, 2),
        scissor(4, 2, 4, 2),
        scissor(4, 4, 4, 2),
        // The whole pane; in columns and rows of the pane; corners.
        scissor(3, 2, 6, 4),
        scissor(1, 1, 4, 2),
        scissor(4, 3, 7, 4),
        // Empty, in all four or in one.
        scissor(0, 0, 0, 0),
        scissor(4, 3, 0, 2),
        scissor(4, 3, 4, 0),
        scissor(4, 3, 4, u32::MAX),
        scissor(u32::MAX, 3, 4, 2),
    ] {
        assert!(!kept(&clipped, stale), "{stale:?}");
    }
    for commands in WITHOUT_SCISSOR {
        assert!(kept(commands, scissor(0, 0, 0, 0)));
        // What it was before; one pixel; what is empty but not four zeros.
        for stale in [
            scissor(4, 3, 4, 2),
            scissor(3, 2, 6, 4),
            scissor(0, 0, 1, 1),
            scissor(3, 2, 0, 0),
            scissor(0, 0, 6, 0),
            scissor(0, 0, 0, 4),
        ] {
            assert!(!kept(commands, stale), "{stale:?}");
        }
    }
}

/// Bitmap and clip are good, but others than the scissor was made from.
#[test]
fn refusal_12_bitmap_or_clip_without_its_scissor() {
    let changed = |change: fn(&mut PaneRecord)| {
        let mut bench = left_by(&[&ON_PANE, &CLIP]);
        change(bench.record());
        refused_with_12(bench)
    };
    assert!(changed(|record| record.clip.xmin = 0));
    assert!(changed(|record| record.clip.ymin = 2));
    assert!(changed(|record| record.clip.xmax = 5));
    assert!(changed(|record| record.clip.ymax = 1));
    assert!(changed(|record| record.clip.xmax = 0));
    assert!(changed(|record| record.bitmap = Bitmap::Store {
        address: 100,
        xmax: 5,
        ymax: 3,
        bits: 2
    }));
}

/// A row that was moved without set-up, to the left or up: the scissor is the
/// old place's. Where it is empty, it would be empty at the new place too.
#[test]
fn refusal_12_row_moved() {
    let moves: [fn(&mut Bench); 2] = [
        |bench| bench.console.rows[0].left = 2,
        |bench| bench.console.rows[0].top = 1,
    ];
    for move_row in moves {
        for commands in [&[&ON_PANE[..]][..], &[&ON_PANE, &CLIP]] {
            let mut bench = left_by(commands);
            let at_first = bench.clone();
            move_row(&mut bench);
            assert!(refused_with_12(bench.clone()));
            // Moved back, the record is good again; and so is one set up anew.
            let moved = bench.console.rows[0];
            bench.console.rows = at_first.console.rows;
            assert_eq!(bench, at_first);
            assert!(bench.look(0).is_ok());
            bench.console.rows[0] = moved;
            assert_eq!(bench.set_up(), Ok(()));
            assert!(bench.look(0).is_ok());
        }
        for commands in WITHOUT_SCISSOR {
            let mut bench = left_by(commands);
            move_row(&mut bench);
            assert!(!refused_with_12(bench));
        }
    }
}

#[test]
fn refusal_12_the_rest() {
    let font = |base| {
        Some(Font {
            base,
            byte_mode: false,
        })
    };
    assert!(!unsound(|record| record.font = font(0x3F_FFFE)));
    assert!(unsound(|record| record.font = font(0x3F_FFFF)));
    assert!(unsound(|record| record.font = font(0x40_0000)));
    assert!(!unsound(|record| record.operation = 15));
    assert!(unsound(|record| record.operation = 16));
    assert!(!unsound(|record| record.path = 3));
    assert!(unsound(|record| record.path = 4));
    assert!(!unsound(|record| record.rotation = 3));
    assert!(unsound(|record| record.rotation = 4));
    assert!(!unsound(|record| record.return_count = 8));
    assert!(unsound(|record| record.return_count = 9));
    // Pointer and return addresses are free.
    assert!(!unsound(|record| {
        record.pointer = u32::MAX;
        record.returns = [u32::MAX; 8];
    }));
}

#[test]
fn refusal_2_put() {
    let mut bench = two();
    assert_eq!(bench.put(1, 0, &[7; 32]), Ok(()));
    assert_eq!(bench.stores[..64], [0; 64]);
    assert_eq!(bench.stores[64..], [7; 32]);
    assert_eq!(bench.put(1, 32, &[]), Ok(()));
    assert_eq!(bench.put(1, 31, &[8]), Ok(()));
    let before = bench.clone();
    assert_eq!(bench.put(1, 0, &[1; 33]), Err(Refusal(2)));
    assert_eq!(bench.put(1, 31, &[1, 2]), Err(Refusal(2)));
    assert_eq!(bench.put(1, 32, &[1]), Err(Refusal(2)));
    assert_eq!(bench.put(1, 33, &[]), Err(Refusal(2)));
    assert_eq!(bench.put(1, u32::MAX, &[1]), Err(Refusal(2)));
    assert_eq!(bench, before);
}

#[test]
fn refusals_3_and_2_start() {
    let mut bench = two();
    let before = bench.clone();
    // 3 comes before 2.
    assert_eq!(bench.start(0, 65), Err(Refusal(3)));
    assert_eq!(bench.start(0, 1), Err(Refusal(3)));
    assert_eq!(bench.start(0, 64), Err(Refusal(2)));
    assert_eq!(bench, before);
    // Accepted at any status; it keeps all but four fields.
    let record = bench.record();
    record.status = 3;
    record.fault = 27;
    record.pointer = 9;
    record.x = -5;
    record.trap_flag = true;
    record.trap_switch = true;
    record.return_count = 2;
    record.returns = [1, 2, 0, 0, 0, 0, 0, 0];
    let mut expected = record.clone();
    expected.status = 1;
    expected.fault = 0;
    expected.pointer = 62;
    expected.return_count = 0;
    expected.returns = [0; 8];
    assert_eq!(bench.start(0, 62), Ok(()));
    assert_eq!(*bench.record(), expected);
    // Nothing can be started in an empty store.
    let mut bench = Bench::open(8, 8, 1, &[row(0, 0, 8, 8, 0, 0)]);
    assert_eq!(bench.start(0, 0), Err(Refusal(2)));
    assert_eq!(bench.put(0, 0, &[]), Ok(()));
}

/// "Refused as start refuses it."
#[test]
fn refusals_3_and_2_judge() {
    let mut bench = two();
    bench.put_words(62, &[0x0001]);
    let before = bench.clone();
    // 3 comes before 2.
    assert_eq!(bench.judge(0, 65), Err(Refusal(3)));
    assert_eq!(bench.judge(0, 1), Err(Refusal(3)));
    assert_eq!(bench.judge(0, u32::MAX), Err(Refusal(3)));
    assert_eq!(bench.judge(0, 64), Err(Refusal(2)));
    assert_eq!(bench.judge(0, u32::MAX - 1), Err(Refusal(2)));
    assert_eq!(bench.judge(0, 62), Ok(Verdict::Clean { commands: 0 }));
    assert_eq!(bench, before);
    // Nothing can be judged in an empty store.
    let bench = Bench::open(8, 8, 1, &[row(0, 0, 8, 8, 0, 0)]);
    assert_eq!(bench.judge(0, 0), Err(Refusal(2)));
}

#[test]
fn refusal_4_run() {
    // "Refusal 4 then covers statuses 0, 2 and 3", whatever switch and flag are.
    for status in [0, 2, 3] {
        for (switch, flag) in [(false, false), (false, true), (true, false), (true, true)] {
            let mut bench = two();
            at_status(status, switch, flag)(bench.record());
            let before = bench.clone();
            for budget in [0, 1, 5, u32::MAX] {
                assert_eq!(bench.run(0, budget), Err(Refusal(4)));
            }
            assert_eq!(bench, before);
        }
    }
    for (status, budget) in [(1, 0), (1, 5), (4, 0), (4, 5)] {
        let mut bench = two();
        at_status(status, true, true)(bench.record());
        assert!(bench.run(0, budget).is_ok());
    }
    let mut bench = two();
    // A budget of 0 does nothing, even before an end word.
    bench.put_words(0, &[0x0001]);
    bench.start(0, 0).unwrap();
    assert_eq!(
        bench.run(0, 0),
        Ok(RunReply {
            commands: 0,
            status: 1,
            fault: 0,
            pixels: 0
        })
    );
    assert_eq!(
        bench.run(0, 1),
        Ok(RunReply {
            commands: 0,
            status: 2,
            fault: 0,
            pixels: 0
        })
    );
}

#[test]
fn refusal_5_pixel() {
    let mut bench = two();
    bench.screen.fill(0xFF);
    let before = bench.clone();
    assert_eq!(bench.pixel(1, 10, 2), Ok(3));
    assert_eq!(bench.pixel(1, 11, 2), Err(Refusal(5)));
    assert_eq!(bench.pixel(1, 10, 3), Err(Refusal(5)));
    assert_eq!(bench.pixel(1, u32::MAX, u32::MAX), Err(Refusal(5)));
    assert_eq!(bench, before);
}

#[test]
fn refusal_2_peek() {
    let mut bench = two();
    bench.stores[64] = 9;
    bench.stores[95] = 11;
    assert_eq!(bench.peek(1, 0), Ok(9));
    assert_eq!(bench.peek(1, 31), Ok(11));
    assert_eq!(bench.peek(1, 32), Err(Refusal(2)));
    assert_eq!(bench.peek(1, u32::MAX), Err(Refusal(2)));
}

#[test]
fn clear_makes_one_record_fresh() {
    let mut bench = two();
    bench.screen.fill(0x11);
    bench.stores.fill(0x22);
    bench.console.panes[0].x = 4;
    bench.console.panes[1].x = 5;
    let mut expected = bench.clone();
    expected.console.panes[0] = PaneRecord::fresh();
    assert_eq!(bench.clear(0), Ok(()));
    assert_eq!(bench, expected);
}

/// "A switch value other than 0 or 1 is refused with 33, after 12."
#[test]
fn refusal_33_switch() {
    for status in 0..=4 {
        let mut bench = two();
        at_status(status, true, true)(bench.record());
        let before = bench.clone();
        for value in [2, 3, 4, 255, 256, 257, 65536, 0x1_0001, u32::MAX] {
            assert_eq!(bench.switch(0, value), Err(Refusal(33)));
        }
        assert_eq!(bench, before);
    }
    // 0 and 1 are taken, on the pane that is named.
    let mut bench = two();
    assert_eq!(bench.switch(1, 1), Ok(()));
    let switches = |bench: &Bench| [0, 1].map(|pane| bench.console.panes[pane].trap_switch);
    assert_eq!(switches(&bench), [false, true]);
    assert_eq!(bench.switch(1, 0), Ok(()));
    assert_eq!(switches(&bench), [false, false]);
}
