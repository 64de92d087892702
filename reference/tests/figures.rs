//! The bench figures P1 to P12.

mod bench;
use bench::*;
use reference::glyphs::{address_in_font, cell_pixel};
use reference::lines::line_pixels;
use reference::pixels::combine;
use reference::words::{place_of_column, words_in_row, Place};

/// The pixels of a line from (0,0).
fn line(dx: i64, dy: i64) -> Vec<(i64, i64)> {
    line_pixels(0, 0, dx, dy).collect()
}

#[test]
fn p1_line_5_2() {
    assert_eq!(line(5, 2), [(0, 0), (1, 0), (2, 1), (3, 1), (4, 2), (5, 2)]);
}

#[test]
fn p2_line_2_1_and_back() {
    assert_eq!(line(2, 1), [(0, 0), (1, 1), (2, 1)]);
    assert_eq!(line(-2, -1), [(0, 0), (-1, -1), (-2, -1)]);
}

#[test]
fn p3_line_0_0_is_one_pixel() {
    assert_eq!(line(0, 0), [(0, 0)]);
}

#[test]
fn p4_line_of_32769_pixels() {
    let pixels = line(-32768, 0);
    assert_eq!(pixels.len(), 32769);
    assert_eq!(pixels.last(), Some(&(-32768, 0)));
}

#[test]
fn p5_position_wraps() {
    let mut bench = Bench::whole(8, 8, 1);
    bench.done(&[&at(32767, 0), &[0x5200, 1, 0]]);
    let look = bench.look(0).unwrap();
    assert_eq!((look.x, look.y), (-32768, 0));
}

/// Draws one pixel with colour FFFF hex and answers the screen's bytes.
fn screen_after(width: u32, depth: u32, column: i16) -> Vec<u8> {
    let mut bench = Bench::whole(width, 1, depth);
    bench.done(&[
        &pane_bitmap(width as u16, 1, depth as u16),
        &colors(0xFFFF, 0),
        &at(column, 0),
        &[0x5300, 0, 0],
    ]);
    bench.screen
}

#[test]
fn p6_depth_1_columns_0_and_8() {
    assert_eq!(screen_after(16, 1, 0), [0x00, 0x80]);
    assert_eq!(screen_after(16, 1, 8), [0x80, 0x00]);
    assert_eq!(place_of_column(0, 1), Place { word: 0, shift: 15 });
    assert_eq!(place_of_column(8, 1), Place { word: 0, shift: 7 });
}

#[test]
fn p7_depth_4_column_3() {
    assert_eq!(screen_after(4, 4, 3), [0x0F, 0x00]);
}

#[test]
fn p8_width_17_takes_two_words() {
    assert_eq!(words_in_row(17, 1), 2);
}

#[test]
fn p9_replace_under_a_mask() {
    assert_eq!(combine(5, 0b1111, 0b0011, 0b0110, 0b1001), 0b1010);
}

#[test]
fn p10_cell_2_1_in_four_rotations() {
    let places: Vec<_> = (0..4)
        .map(|rotation| cell_pixel(10, 10, 2, 1, rotation))
        .collect();
    assert_eq!(places, [(12, 11), (11, 8), (8, 9), (9, 12)]);
}

#[test]
fn p11_overlapping_copy_to_the_right() {
    let mut bench = Bench::whole(4, 1, 4);
    bench.screen.copy_from_slice(&[0x34, 0x12]);
    assert_eq!(bench.line(0), [1, 2, 3, 4]);
    bench.done(&[&pane_bitmap(4, 1, 4), &at(1, 0), &[0x6400, 0, 0, 2, 0]]);
    assert_eq!(bench.line(0), [1, 1, 2, 3]);
}

#[test]
fn p12_byte_mode_finds_its_descriptor() {
    assert_eq!(address_in_font(0x100, 5), 0x10A);
    assert_eq!(address_in_font(0x100, 0x30), 0x160);
    // The same on the console: a glyph of one pixel at 160 hex, its string of
    // one byte at 81 hex.
    let mut bench = Bench::whole(8, 1, 1);
    bench.put_words(0x10A, &[0x30]);
    bench.put_words(0x160, &[0x0000, 0x0001]);
    bench.put(0, 0x81, &[5]).unwrap();
    bench.done(&[
        &pane_bitmap(8, 1, 1),
        &colors(0xFFFF, 0),
        &[0x0B00, 0x100, 0],
        &at(3, 0),
        &[0xA600, 0x81, 0, 1],
    ]);
    assert_eq!(bench.line(0), [0, 0, 0, 1, 0, 0, 0, 0]);
    assert_eq!(bench.look(0).unwrap().x, 4);
}
