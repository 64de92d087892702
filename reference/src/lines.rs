//! The pixels of lines, polylines and outlines, in the order of their pattern
//! index. All are whole numbers that do not wrap.

/// The minor offset of pixel i: "floor((2 × i × m + n) / (2 × n))". Here n is
/// above 0.
pub fn minor_offset(i: i64, m: i64, n: i64) -> i64 {
    (2 * i * m + n).div_euclid(2 * n)
}

/// "LINE (dx,dy): n = max(|dx|,|dy|), m the smaller, x the major axis if
/// equal. For i = 0 to n the major offset is i and the minor floor((2 × i × m
/// + n) / (2 × n)), each with its sign; n = 0 is one pixel."
pub fn line_pixels(x: i64, y: i64, dx: i64, dy: i64) -> impl Iterator<Item = (i64, i64)> {
    let n = dx.abs().max(dy.abs());
    let m = dx.abs().min(dy.abs());
    let x_is_major = dx.abs() >= dy.abs();
    (0..=n).map(move |i| {
        let minor = if n == 0 { 0 } else { minor_offset(i, m, n) };
        let (across, down) = if x_is_major { (i, minor) } else { (minor, i) };
        (x + dx.signum() * across, y + dy.signum() * down)
    })
}

/// A segment of a POLYLINE: where it starts, and how far it goes.
#[derive(Clone, Copy)]
pub struct Segment {
    pub x: i64,
    pub y: i64,
    pub dx: i64,
    pub dy: i64,
}

/// "A dashed polyline now carries its pattern on through every joint, and a
/// joint is no longer drawn by both its segments … The first pixel of each
/// segment after the first is skipped and takes no pattern index. A segment of
/// length 0 after the first draws nothing." (02, A.4)
pub fn polyline_pixels(segments: Vec<Segment>) -> impl Iterator<Item = (i64, i64)> {
    let numbered = segments.into_iter().enumerate();
    numbered.flat_map(|(number, Segment { x, y, dx, dy })| {
        let skipped = if number == 0 { 0 } else { 1 };
        line_pixels(x, y, dx, dy).skip(skipped)
    })
}

/// "RECT draws the outline with corners (x,y) and (x+dx,y+dy), each pixel
/// once, along x first, then y, then back along x, then along y; a pixel
/// already drawn is passed over and takes no pattern index."
///
/// The walk visits four sides. Each side after the first begins one step past
/// the corner it shares with the side before. The third side runs over the
/// first again if dy = 0, the fourth over the second if dx = 0, and the last
/// step of the fourth is the starting corner; these are left out.
pub fn outline_pixels(x: i64, y: i64, dx: i64, dy: i64) -> impl Iterator<Item = (i64, i64)> {
    let (step_x, step_y) = (dx.signum(), dy.signum());
    let (long, tall) = (dx.abs(), dy.abs());
    let first = (0..=long).map(move |k| (x + step_x * k, y));
    let second = (1..=tall).map(move |k| (x + dx, y + step_y * k));
    let third_end = if dy == 0 { 0 } else { long };
    let third = (1..=third_end).map(move |k| (x + dx - step_x * k, y + dy));
    let fourth_end = if dx == 0 { 0 } else { tall - 1 };
    let fourth = (1..=fourth_end).map(move |k| (x, y + dy - step_y * k));
    first.chain(second).chain(third).chain(fourth)
}
