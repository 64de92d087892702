//! The faults 20 to 30: when each comes, in which order, and that nothing else
//! changes.

mod bench;
use bench::*;

/// Runs lists on a pane of 8 by 4 pixels, 2 bits each, whose store has 1,024
/// bytes; the last list is one command. All before it are done, it is not.
/// Answers its fault, or 0 if it is done too.
fn fault_of(first: &[&[u16]], last: &[u16]) -> u32 {
    let mut bench = Bench::whole(8, 4, 2);
    fonts(&mut bench);
    fault_on(&mut bench, first, last)
}

fn fault_on(bench: &mut Bench, first: &[&[u16]], last: &[u16]) -> u32 {
    let mut lists = first.to_vec();
    lists.push(last);
    let mut words = lists.concat();
    words.push(0x0001);
    bench.put_words(0, &words);
    bench.start(0, 0).unwrap();
    // All but the last command, one at a time, and then the last one.
    let before = loop {
        let before = bench.clone();
        let reply = bench.run(0, 1).unwrap();
        if reply.status == 2 {
            return 0;
        }
        if reply.status == 3 {
            assert_eq!(reply.commands, 0);
            break before;
        }
    };
    let length = first.concat().len() as u32;
    let pointer = bench.look(0).unwrap().pointer;
    assert!(
        pointer >= 2 * length || pointer % 2 == 1,
        "an earlier command faulted"
    );
    let fault = bench.record().fault;
    let mut expected = before;
    expected.record().status = 3;
    expected.record().fault = fault;
    assert_eq!(*bench, expected);
    fault
}

/// A font at 200 hex: an offset table of three words, a glyph of 2 by 1 pixels
/// at 208 hex, and one whose sixteen rows pass the store's end at 3F0 hex.
/// Strings: words at 280 hex, bytes at 291 hex.
fn fonts(bench: &mut Bench) {
    bench.put_words(0x200, &[0x0004, 0x00F8, 0xFFFF]);
    bench.put_words(0x208, &[0x0001, 0x0003]);
    bench.put_words(0x3F0, &[0x0F00]);
    bench.put_words(0x280, &[0x0004, 0x00F8, 0xFFFF]);
    bench.put(0, 0x291, &[0, 1, 2]).unwrap();
}

const BITMAP: [u16; 6] = [0x1A00, 0x0000, 0x0020, 7, 3, 2];
const WORD_FONT: [u16; 3] = [0x0A00, 0x0200, 0];
const BYTE_FONT: [u16; 3] = [0x0B00, 0x0200, 0];
const POINT: [u16; 3] = [0x5300, 0, 0];

/// A store bitmap of 8 by 4 pixels, 2 bits each: eight bytes at the address.
fn store_bitmap(address: u16) -> [u16; 6] {
    [0x1A00, address, 0, 7, 3, 2]
}

#[test]
fn fault_20_unknown_opcode() {
    for opcode in 0u16..=0xFF {
        let known = [
            0x02, 0x03, 0x06, 0x07, 0x0A, 0x0B, 0x0F, 0x17, 0x1A, 0x3D, 0x41, 0x44, 0x45, 0x46,
            0x4D, 0x4E, 0x4F, 0x52, 0x53, 0x54, 0x55, 0x58, 0x64, 0x74, 0x8E, 0xA6, 0xA7, 0xA8,
            0xA9, 0xAE, 0xBA,
        ];
        // What is left of these words after a short command is an end word.
        let fault = fault_of(&[], &[opcode << 8 | 0xFE, 1, 1, 1, 1, 1, 1, 1, 1]);
        assert_eq!(fault == 20, !known.contains(&opcode), "opcode {opcode:x}");
    }
    // An end word with an unknown opcode is an end word.
    assert_eq!(fault_of(&[], &[0xFF01]), 0);
}

#[test]
fn fault_21_pointer_or_words_outside() {
    // LINK and CALL to a bad address are done; the next fetch faults.
    for (lower, upper) in [(0x0011, 0), (0x0400, 0), (0xFFFE, 0x3F), (0, 1)] {
        assert_eq!(fault_of(&[&[0x0200, lower, upper]], &[]), 21);
        assert_eq!(fault_of(&[&[0x0F00, lower, upper]], &[]), 21);
    }
    let mut bench = Bench::whole(8, 4, 2);
    // The last word is a NOP: it is done, and then nothing is left.
    bench.put_words(0x3FE, &[0x0300]);
    bench.start(0, 0x3FE).unwrap();
    let reply = bench.run(0, 9).unwrap();
    assert_eq!((reply.commands, reply.status, reply.fault), (1, 3, 21));
    assert_eq!(bench.look(0).unwrap().pointer, 0x400);
    // The last words are a REL_MOV whose second parameter is missing.
    bench.put_words(0x3FC, &[0x5200, 0x0001]);
    bench.start(0, 0x3FC).unwrap();
    let reply = bench.run(0, 9).unwrap();
    assert_eq!((reply.commands, reply.status, reply.fault), (0, 3, 21));
    assert_eq!(bench.look(0).unwrap().pointer, 0x3FC);
    // An unknown opcode at the end is 20, an end word there an end.
    bench.put_words(0x3FE, &[0xFF00]);
    bench.start(0, 0x3FE).unwrap();
    assert_eq!(bench.run(0, 9).unwrap().fault, 20);
    bench.put_words(0x3FE, &[0x5201]);
    bench.start(0, 0x3FE).unwrap();
    assert_eq!(bench.run(0, 9).unwrap().status, 2);
    // 21 comes before a command's own fault: a POINT without bitmap.
    bench.put_words(0x3FC, &[0x5300, 0]);
    bench.start(0, 0x3FC).unwrap();
    assert_eq!(bench.run(0, 9).unwrap().fault, 21);
}

#[test]
fn fault_22_def_bitmap() {
    let def = |address: u16, upper: u16, xmax: u16, ymax: u16, bits: u16| {
        fault_of(&[], &[0x1A00, address, upper, xmax, ymax, bits])
    };
    assert_eq!(def(0, 0x20, 7, 3, 2), 0);
    // Reserved bits of the upper word are ignored.
    assert_eq!(def(0, 0xFFE0, 7, 3, 2), 0);
    assert_eq!(def(0, 0x20, 6, 3, 2), 22);
    assert_eq!(def(0, 0x20, 7, 4, 2), 22);
    assert_eq!(def(0, 0x20, 7, 3, 1), 22);
    assert_eq!(def(0, 0x20, 0xFFFF, 3, 2), 22);
    assert_eq!(def(2, 0x20, 7, 3, 2), 22);
    assert_eq!(def(0x101, 0, 7, 3, 2), 22);
    assert_eq!(def(0x100, 0, 7, 3, 0), 22);
    assert_eq!(def(0x100, 0, 7, 3, 3), 22);
    assert_eq!(def(0x100, 0, 7, 3, 16), 22);
    assert_eq!(def(0x100, 0, 0x8000, 0, 1), 22);
    assert_eq!(def(0x100, 0, 0, 0x8000, 1), 22);
    // One row of 8,192 pixels, 1 bit each, is the whole store.
    assert_eq!(def(0, 0, 8191, 0, 1), 0);
    assert_eq!(def(0, 0, 8192, 0, 1), 22);
    assert_eq!(def(2, 0, 8191, 0, 1), 22);
    assert_eq!(def(0x3F0, 0, 7, 7, 2), 0);
    assert_eq!(def(0x3F2, 0, 7, 7, 2), 22);
}

#[test]
fn fault_23_no_bitmap() {
    let drawing: [&[u16]; 13] = [
        &POINT,
        &[0x5400, 1, 1],
        &[0x5500, 1, 1],
        &[0x5800, 1, 1],
        &[0x8E00, 1],
        // 23 comes before 30, 25, 29, 28, 22 and 24.
        &[0x8E00, 0xFFFF],
        &[0x7400, 1, 0, 1],
        &[0xBA00, 1, 0, 1],
        &[0x6400, 0, 0, 0xFFFF, 0],
        &[0xAE00, 1, 0, 0, 0, 0, 0, 0xFFFF, 0],
        &[0xA600, 1, 0, 1],
        &[0xA900, 0, 0, 0],
        &[0x4600, 99, 0, 0, 0],
    ];
    for command in drawing {
        assert_eq!(fault_of(&[], command), 23, "{command:x?}");
    }
}

#[test]
fn fault_24_clip_outside() {
    let clip = |xmin: u16, ymin: u16, xmax: u16, ymax: u16| {
        fault_of(&[&BITMAP], &[0x4600, xmin, ymin, xmax, ymax])
    };
    assert_eq!(clip(0, 0, 7, 3), 0);
    assert_eq!(clip(7, 3, 0, 0), 0);
    assert_eq!(clip(8, 0, 7, 3), 24);
    assert_eq!(clip(0, 4, 7, 3), 24);
    assert_eq!(clip(0, 0, 8, 3), 24);
    assert_eq!(clip(0, 0, 7, 4), 24);
    assert_eq!(clip(0xFFFF, 0, 7, 3), 24);
}

#[test]
fn fault_25_font_base_and_arrays() {
    assert_eq!(fault_of(&[], &[0x0A00, 0x0201, 0]), 25);
    assert_eq!(fault_of(&[], &[0x0B00, 0x0201, 0]), 25);
    for (opcode, size) in [(0x7400u16, 4u16), (0xBA00, 6)] {
        let draw = |address: u16, upper: u16, count: u16| {
            fault_of(&[&BITMAP], &[opcode, address, upper, count])
        };
        assert_eq!(draw(0x300, 0, 2), 0);
        assert_eq!(draw(0x301, 0, 2), 25);
        assert_eq!(draw(0x400 - size, 0, 1), 0);
        assert_eq!(draw(0x400 - size, 0, 2), 25);
        assert_eq!(draw(0x402 - size, 0, 1), 25);
        assert_eq!(draw(0x300, 0, 65535), 25);
        assert_eq!(draw(0, 0x3F, 1), 25);
        // An empty array is checked for oddness alone.
        assert_eq!(draw(0xFFFE, 0x3F, 0), 0);
        assert_eq!(draw(0xFFFF, 0x3F, 0), 25);
        // Touching the active bitmap, eight bytes at 300 hex.
        let beside = |address: u16, count: u16| {
            fault_of(&[&store_bitmap(0x300)], &[opcode, address, 0, count])
        };
        assert_eq!(beside(0x300 - size, 1), 0);
        assert_eq!(beside(0x302 - size, 1), 25);
        assert_eq!(beside(0x306, 1), 25);
        assert_eq!(beside(0x308, 1), 0);
        assert_eq!(beside(0x302, 0), 0);
    }
}

#[test]
fn fault_25_strings_in_word_mode() {
    let text =
        |address: u16, count: u16| fault_of(&[&BITMAP, &WORD_FONT], &[0xA600, address, 0, count]);
    assert_eq!(text(0x280, 1), 0);
    // An odd string, full or empty; one outside; an empty one outside is good.
    assert_eq!(text(0x281, 1), 25);
    assert_eq!(text(0x281, 0), 25);
    assert_eq!(text(0x3FE, 2), 25);
    assert_eq!(text(0x400, 0), 0);
    // The second selector's glyph passes the store's end; the third is out.
    assert_eq!(text(0x280, 2), 25);
    assert_eq!(text(0x284, 1), 25);
    // String or descriptor touch the active bitmap.
    let over = |address: u16| {
        fault_of(
            &[&store_bitmap(address), &WORD_FONT],
            &[0xA600, 0x280, 0, 1],
        )
    };
    assert_eq!(over(0x300), 0);
    assert_eq!(over(0x280), 25);
    assert_eq!(over(0x27A), 25);
    assert_eq!(over(0x278), 0);
    // The descriptor is two words at 208 hex.
    assert_eq!(over(0x200), 0);
    assert_eq!(over(0x202), 25);
    assert_eq!(over(0x20A), 25);
    assert_eq!(over(0x20C), 0);
}

#[test]
fn fault_25_strings_in_byte_mode() {
    let text =
        |address: u16, count: u16| fault_of(&[&BITMAP, &BYTE_FONT], &[0xA700, address, 0, count]);
    assert_eq!(text(0x291, 1), 0);
    assert_eq!(text(0x291, 2), 25);
    assert_eq!(text(0x293, 1), 25);
    // The last byte of the store, then one too many.
    assert_eq!(text(0x3FF, 1), 0);
    assert_eq!(text(0x3FF, 2), 25);
    // An empty byte string is checked for nothing.
    assert_eq!(text(0x281, 0), 0);
    assert_eq!(text(0xFFFF, 0), 0);
    // The offset word touches the active bitmap though the rest does not.
    let over = |address: u16| {
        fault_of(
            &[&store_bitmap(address), &BYTE_FONT],
            &[0xA700, 0x291, 0, 1],
        )
    };
    assert_eq!(over(0x1FA), 25);
    assert_eq!(over(0x1F8), 0);
    // An offset word outside the store.
    assert_eq!(
        fault_of(&[&BITMAP, &[0x0B00, 0x0400, 0]], &[0xA700, 0x291, 0, 1]),
        25
    );
}

#[test]
fn faults_26_and_27_subroutines() {
    // Address 0 calls itself: eight are kept, the ninth CALL faults.
    let mut bench = Bench::whole(8, 4, 2);
    bench.put_words(0, &[0x0F00, 0, 0]);
    bench.start(0, 0).unwrap();
    let reply = bench.run(0, 99).unwrap();
    assert_eq!((reply.commands, reply.status, reply.fault), (8, 3, 26));
    assert_eq!(bench.record().return_count, 8);
    assert_eq!(bench.record().returns, [6; 8]);
    assert_eq!(fault_of(&[], &[0x1700]), 27);
    // CALL over a RETURN: the call returns, then the RETURN has none.
    bench.put_words(0, &[0x0F00, 6, 0, 0x1700]);
    bench.start(0, 0).unwrap();
    let reply = bench.run(0, 99).unwrap();
    assert_eq!((reply.commands, reply.status, reply.fault), (2, 3, 27));
    assert_eq!(bench.record().returns, [0; 8]);
}

#[test]
fn fault_28_no_font() {
    for opcode in [0xA600, 0xA700, 0xA800, 0xA900] {
        // 28 comes before 25, also for an empty string.
        assert_eq!(fault_of(&[&BITMAP], &[opcode, 0x281, 0, 1]), 28);
        assert_eq!(fault_of(&[&BITMAP], &[opcode, 0x281, 0, 0]), 28);
    }
}

#[test]
fn fault_29_bit_blt() {
    let copy = |sx: u16, sy: u16, dx: u16, dy: u16| fault_of(&[&BITMAP], &[0x6400, sx, sy, dx, dy]);
    assert_eq!(copy(0, 0, 7, 3), 0);
    assert_eq!(copy(7, 3, 0, 0), 0);
    assert_eq!(copy(0, 0, 8, 3), 29);
    assert_eq!(copy(0, 0, 7, 4), 29);
    assert_eq!(copy(8, 0, 0, 0), 29);
    assert_eq!(copy(0, 4, 0, 0), 29);
    assert_eq!(copy(0xFFFF, 0, 1, 0), 29);
    assert_eq!(copy(0, 0xFFFF, 0, 1), 29);
    assert_eq!(copy(3, 3, 0xFFFF, 0), 29);
    assert_eq!(copy(3, 3, 0, 0xFFFF), 29);
    assert_eq!(copy(7, 3, 0x7FFF, 0x7FFF), 29);
    // The source need not lie in the clip.
    assert_eq!(
        fault_of(&[&BITMAP, &[0x4600, 1, 1, 0, 0]], &[0x6400, 0, 0, 7, 3]),
        0
    );
}

#[test]
fn faults_22_and_29_bit_blt_m() {
    // From a store bitmap of 8 by 4 pixels to the pane.
    let copy = |first: &[u16], source: [u16; 4], block: [u16; 4]| {
        let mut command = vec![0xAE00];
        command.extend(source);
        command.extend(block);
        fault_of(&[first], &command)
    };
    let at_300 = [0x300, 0, 7, 3];
    assert_eq!(copy(&BITMAP, at_300, [0, 0, 7, 3]), 0);
    // 22 comes before 29.
    assert_eq!(copy(&BITMAP, [0x301, 0, 7, 3], [0, 0, 0xFFFF, 0]), 22);
    assert_eq!(copy(&BITMAP, [0x300, 0, 0x8000, 0], [0, 0, 0, 0]), 22);
    assert_eq!(copy(&BITMAP, [0x3FA, 0, 7, 3], [0, 0, 0, 0]), 22);
    assert_eq!(copy(&BITMAP, at_300, [0, 0, 0xFFFF, 0]), 29);
    assert_eq!(copy(&BITMAP, at_300, [0, 0, 0, 0xFFFF]), 29);
    assert_eq!(copy(&BITMAP, at_300, [0, 0, 8, 0]), 29);
    assert_eq!(copy(&BITMAP, at_300, [0, 0, 0, 4]), 29);
    assert_eq!(copy(&BITMAP, at_300, [0xFFFF, 0, 1, 0]), 29);
    // Pane to pane shares its bytes; of another size it breaks the rule first.
    let pane = [0, 0x20, 7, 3];
    assert_eq!(copy(&BITMAP, pane, [0, 0, 0, 0]), 29);
    assert_eq!(copy(&BITMAP, [0, 0x20, 6, 3], [0, 0, 0, 0]), 22);
    // The pane is a good source for a store bitmap of its own depth only.
    assert_eq!(copy(&store_bitmap(0x300), pane, [0, 0, 7, 3]), 0);
    assert_eq!(copy(&[0x1A00, 0x300, 0, 7, 3, 4], pane, [0, 0, 7, 3]), 22);
    // A source that takes in the active bitmap, rectangle apart from it: rows
    // of 24 pixels are three words. The active bitmap is one word, the second
    // of row 1.
    let one_word = [0x1A00, 0x308, 0, 7, 0, 2];
    let wide = [0x300, 0, 23, 3];
    assert_eq!(copy(&one_word, wide, [0, 0, 23, 0]), 0);
    assert_eq!(copy(&one_word, wide, [0, 1, 7, 2]), 0);
    assert_eq!(copy(&one_word, wide, [16, 0, 7, 3]), 0);
    assert_eq!(copy(&one_word, wide, [7, 1, 1, 0]), 29);
    assert_eq!(copy(&one_word, wide, [15, 1, 0, 0]), 29);
    assert_eq!(copy(&one_word, wide, [8, 0, 0, 1]), 29);
    assert_eq!(copy(&one_word, wide, [8, 0, 7, 0]), 0);
    assert_eq!(copy(&one_word, wide, [8, 2, 7, 1]), 0);
}

#[test]
fn fault_30_negative_radius() {
    let circle = |radius: u16| fault_of(&[&BITMAP, &colors(0xFFFF, 0)], &[0x8E00, radius]);
    for radius in [0, 1, 2, 0x7FFF] {
        assert_eq!(circle(radius), 0);
    }
    for radius in [0xFFFF, 0xFFFE, 0x8001, 0x8000] {
        assert_eq!(circle(radius), 30);
    }
    // In pick mode, too, and where nothing can be drawn.
    let nowhere: [&[u16]; 3] = [&BITMAP, &[0x4600, 1, 0, 0, 3], &[0x4400]];
    assert_eq!(fault_of(&nowhere, &[0x8E00, 3]), 0);
    assert_eq!(fault_of(&nowhere, &[0x8E00, 0xFFFD]), 30);
    // 21 comes before it: the radius is outside the store.
    let mut bench = Bench::whole(8, 4, 2);
    bench.done(&[&BITMAP]);
    bench.put_words(0x3FC, &[0x8E00, 0xFFFF]);
    bench.start(0, 0x3FC).unwrap();
    assert_eq!(bench.run(0, 9).unwrap().fault, 30);
    bench.put_words(0x3FE, &[0x8E00]);
    bench.start(0, 0x3FE).unwrap();
    assert_eq!(bench.run(0, 9).unwrap().fault, 21);
}

#[test]
fn a_string_with_a_bad_descriptor_draws_nothing() {
    // The first glyph is good, the second is not: fault_of compares the pixels.
    assert_eq!(
        fault_of(
            &[&BITMAP, &WORD_FONT, &colors(0xFFFF, 0)],
            &[0xA600, 0x280, 0, 2]
        ),
        25
    );
}
