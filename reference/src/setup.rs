//! The console record, and the checks of set-up.

use crate::record::PaneRecord;
use crate::table::{Geometry, Row};
use crate::words::bytes_in_rows;
use crate::Refusal;

/// The longest store in bytes.
pub const LONGEST_STORE: u32 = 2_097_152;

/// "The console record holds the geometry, the table and eight pane records;
/// both buffers are lent at each call."
#[derive(Clone, Debug, PartialEq, Eq)]
pub struct Console {
    pub geometry: Geometry,
    pub row_count: u32,
    pub rows: [Row; 8],
    pub panes: [PaneRecord; 8],
}

impl Console {
    /// A record to lend to set-up: geometry and rows, at most eight of them.
    pub fn planned(geometry: Geometry, rows: &[Row]) -> Console {
        let mut table = [Row::default(); 8];
        for (slot, row) in table.iter_mut().zip(rows) {
            *slot = *row;
        }
        Console {
            geometry,
            row_count: u32::try_from(rows.len()).unwrap_or(u32::MAX),
            rows: table,
            panes: std::array::from_fn(|_| PaneRecord::fresh()),
        }
    }

    /// The rows that count. Rows from the count on are not looked at.
    fn counted(&self) -> &[Row] {
        &self.rows[..(self.row_count.min(8)) as usize]
    }

    /// Set-up's checks: "the first that applies is replied, alone". Each is
    /// made over all rows before the next one.
    pub fn check(&self, screen: &[u8], stores: &[u8]) -> Result<(), Refusal> {
        let Geometry {
            width,
            height,
            depth,
        } = self.geometry;
        // "6 geometry or row count out of range"
        if !(1..=4096).contains(&width)
            || !(1..=4096).contains(&height)
            || !matches!(depth, 1 | 2 | 4 | 8)
            || !(1..=8).contains(&self.row_count)
        {
            return Err(Refusal(6));
        }
        // "7 screen buffer shorter than its rows"
        let needed = bytes_in_rows(u64::from(width), u64::from(height), u64::from(depth));
        if (screen.len() as u64) < needed {
            return Err(Refusal(7));
        }
        let rows = self.counted();
        // "8 a rectangle empty or beyond the screen"
        if rows.iter().any(|row| {
            row.width == 0
                || row.height == 0
                || u64::from(row.left) + u64::from(row.width) > u64::from(width)
                || u64::from(row.top) + u64::from(row.height) > u64::from(height)
        }) {
            return Err(Refusal(8));
        }
        // "9 a store of odd length, above 2,097,152 bytes or beyond its buffer"
        if rows.iter().any(|row| {
            row.store_length % 2 == 1
                || row.store_length > LONGEST_STORE
                || u64::from(row.store_start) + u64::from(row.store_length) > stores.len() as u64
        }) {
            return Err(Refusal(9));
        }
        // "10 two rectangles share a pixel"
        if any_two(rows, |one, other| {
            shares(one.left, one.width, other.left, other.width)
                && shares(one.top, one.height, other.top, other.height)
        }) {
            return Err(Refusal(10));
        }
        // "11 two stores share a byte"
        if any_two(rows, |one, other| {
            shares(
                one.store_start,
                one.store_length,
                other.store_start,
                other.store_length,
            )
        }) {
            return Err(Refusal(11));
        }
        Ok(())
    }
}

/// Whether two stretches, each given by start and length, have a point in
/// common. An empty one has none.
fn shares(start: u32, length: u32, other_start: u32, other_length: u32) -> bool {
    let end = u64::from(start) + u64::from(length);
    let other_end = u64::from(other_start) + u64::from(other_length);
    u64::from(start.max(other_start)) < end.min(other_end)
}

/// Whether some two different rows are so.
fn any_two(rows: &[Row], so: impl Fn(&Row, &Row) -> bool) -> bool {
    rows.iter()
        .enumerate()
        .any(|(index, one)| rows[index + 1..].iter().any(|other| so(one, other)))
}

/// "Set-up takes a record with geometry and table, ignoring its pane records;
/// accepted, it makes all eight fresh and both buffers keep every bit."
pub fn set_up(console: &mut Console, screen: &[u8], stores: &[u8]) -> Result<(), Refusal> {
    console.check(screen, stores)?;
    console.panes = std::array::from_fn(|_| PaneRecord::fresh());
    Ok(())
}
