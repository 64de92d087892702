//! The points of a circle. All are whole numbers that do not wrap.

/// "j × (j−1) < r² − i² ≤ j × (j+1)".
fn is_on_circle(i: i64, j: i64, r: i64) -> bool {
    let rest = r * r - i * i;
    j * (j - 1) < rest && rest <= j * (j + 1)
}

/// "All eight reflections of (i,j)", "each point … once": where some fall on
/// one another, as they do if i = 0 or i = j, only the first of them counts.
fn reflections(i: i64, j: i64) -> impl Iterator<Item = (i64, i64)> {
    let eight = [
        (i, j),
        (j, i),
        (-i, j),
        (-j, i),
        (i, -j),
        (j, -i),
        (-i, -j),
        (-j, -i),
    ];
    (0..8)
        .filter(move |&k| !eight[..k].contains(&eight[k]))
        .map(move |k| eight[k])
}

/// "For radius r the points are all eight reflections of (i,j), 0 ≤ i ≤ j,
/// with j × (j−1) < r² − i² ≤ j × (j+1); r = 0 is the centre alone."
///
/// Such a j is the square root of r² − i², rounded down or up: these two are
/// tried for every i up to r.
pub fn circle_pixels(x: i64, y: i64, r: i64) -> impl Iterator<Item = (i64, i64)> {
    let centre = (r == 0).then_some((0, 0));
    let around = (0..=r).flat_map(move |i| {
        let root = (r * r - i * i).isqrt();
        (root..=root + 1)
            .filter(move |&j| i <= j && is_on_circle(i, j, r))
            .flat_map(move |j| reflections(i, j))
    });
    centre
        .into_iter()
        .chain(around)
        .map(move |(dx, dy)| (x + dx, y + dy))
}
