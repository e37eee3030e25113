//! The picture of a difference: hotter where samples differ more, and the windows' outlines.

use crate::png_file;
use crate::windows::Windows;
use std::io::{self, Write};

const SAME: [u8; 3] = [0, 0, 0];
const OUTLINE: [u8; 3] = [0, 128, 255];

/// Two pictures of one size, and what may differ between them.
pub struct Heat<'a> {
    pub width: usize,
    pub height: usize,
    pub one: &'a [i32],
    pub other: &'a [i32],
    /// By how much samples differ at most.
    pub largest: u32,
    pub windows: &'a Windows,
}

impl Heat<'_> {
    /// Writes the picture as PNG; `row_done` is called after each row.
    pub fn write(&self, out: &mut dyn Write, row_done: impl Fn()) -> io::Result<()> {
        // Three rows of what lies in a window: the one above, the present one and the one below.
        let mut inside = [vec![false; self.width], self.inside(0), self.inside(1)];
        png_file::write_coloured(out, self.width, self.height, |row, bytes| {
            for (column, pixel) in bytes.chunks_exact_mut(3).enumerate() {
                pixel.copy_from_slice(&self.colour(row, column, &inside));
            }
            inside.rotate_left(1);
            inside[2] = self.inside(row + 2);
            row_done();
        })
    }

    /// Which samples of a row lie in a window; none below the picture.
    fn inside(&self, row: usize) -> Vec<bool> {
        let in_picture = row < self.height;
        (0..self.width).map(|column| in_picture && self.windows.hold(row, column)).collect()
    }

    /// Outlines run just outside the windows, where by the claim nothing differs: so they hide
    /// nothing.
    fn colour(&self, row: usize, column: usize, inside: &[Vec<bool>; 3]) -> [u8; 3] {
        let place = row * self.width + column;
        let difference = self.one[place].abs_diff(self.other[place]);
        if difference > 0 {
            return heat(difference, self.largest);
        }
        let near = column.saturating_sub(1)..(column + 2).min(self.width);
        let touches = inside.iter().any(|row| row[near.clone()].contains(&true));
        match touches && !inside[1][column] {
            true => OUTLINE,
            false => SAME,
        }
    }
}

/// From dark red through yellow to white, by the difference's logarithm: a difference of 1 is seen
/// beside one of a thousand.
fn heat(difference: u32, largest: u32) -> [u8; 3] {
    let part = f64::from(difference).ln_1p() / f64::from(largest).ln_1p();
    let channel = |from: f64| (255.0 * (3.0 * part - from).clamp(0.0, 1.0)) as u8;
    [channel(0.0).max(96), channel(1.0), channel(2.0)]
}
