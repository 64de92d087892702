//! BIT_BLT and BIT_BLT_M.

use crate::bitmaps::Bitmap;
use crate::pixels::{Pane, Source};
use crate::words::{place_of_column, words_in_row};
use crate::Fault;

/// The rectangle a copy reads: from (x,y) to (x+dx,y+dy), both corners in.
#[derive(Clone, Copy, Debug, PartialEq, Eq)]
pub struct Block {
    pub x: i16,
    pub y: i16,
    pub dx: i16,
    pub dy: i16,
}

impl Block {
    /// "29 a copy's dx or dy negative, its source outside its bitmap".
    pub fn check_in(&self, bitmap: &Bitmap) -> Result<(), Fault> {
        let (x, y) = (i64::from(self.x), i64::from(self.y));
        let (dx, dy) = (i64::from(self.dx), i64::from(self.dy));
        if dx < 0 || dy < 0 || !bitmap.holds(x, y) || !bitmap.holds(x + dx, y + dy) {
            return Err(Fault(29));
        }
        Ok(())
    }

    /// "29 … BIT_BLT_M's source sharing a byte with the active bitmap". The
    /// block lies in the source bitmap. A store bitmap is compared row by row:
    /// the words that hold the row's pixels with the active bitmap's bytes.
    /// Those are whole words, so a shared word is a shared byte.
    pub fn check_apart(&self, source: &Bitmap, active: &Bitmap) -> Result<(), Fault> {
        let shares = match (source, active) {
            (Bitmap::Pane { .. }, Bitmap::Pane { .. }) => true,
            (
                &Bitmap::Store {
                    address,
                    xmax,
                    bits,
                    ..
                },
                Bitmap::Store { .. },
            ) => {
                let bits = u64::from(bits);
                let row_bytes = 2 * words_in_row(u64::from(xmax) + 1, bits);
                let first = i64::from(self.x) as u64;
                let last = (i64::from(self.x) + i64::from(self.dx)) as u64;
                let top = i64::from(self.y) as u64;
                let bottom = (i64::from(self.y) + i64::from(self.dy)) as u64;
                (top..=bottom).any(|line| {
                    let start = u64::from(address) + line * row_bytes;
                    let from = start + 2 * place_of_column(first, bits).word;
                    let to = start + 2 * place_of_column(last, bits).word + 2;
                    active.touches(from..to)
                })
            }
            _ => false,
        };
        if shares {
            Err(Fault(29))
        } else {
            Ok(())
        }
    }
}

impl Pane<'_> {
    /// "BIT_BLT copies source (sx,sy) to (sx+dx,sy+dy), both corners in, to the
    /// position, as though all were read first; no pattern." "The position
    /// becomes (x+dx+spacing, y)". Answers how many pixels were drawn: "a copied
    /// 0 is drawn".
    pub fn copy(&mut self, source: &Bitmap, block: Block) -> u64 {
        let (left, top) = (i64::from(block.x), i64::from(block.y));
        let (dx, dy) = (i64::from(block.dx), i64::from(block.dy));
        let mut values = Vec::new();
        for j in 0..=dy {
            for i in 0..=dx {
                values.push(self.pixel(source, left + i, top + j).unwrap_or(0));
            }
        }
        let (x, y) = self.record.position();
        let mut value = values.into_iter();
        let mut drawn = 0;
        for j in 0..=dy {
            for i in 0..=dx {
                drawn += self.draw(x + i, y + j, Source::Copied(value.next().unwrap_or(0)));
            }
        }
        let spacing = i64::from(self.record.spacing);
        self.record.move_by(dx + spacing, 0);
        drawn
    }
}
