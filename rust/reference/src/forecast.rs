//! How much work a picture will be (02, b: "How much work a picture will be"), counted place by place.

use crate::picture::{check_mode_and_size, filters_level_one, filters_level_two, Size};

/// How often each operator is used, and the bytes of the planes and of the samples.
#[derive(Clone, Copy, Debug, Default, PartialEq, Eq)]
pub struct Work {
    pub cores: u64,
    pub square_filters: u64,
    pub four_filters: u64,
    pub plane_bytes: u64,
    pub sample_bytes: u64,
}

impl Work {
    /// Walks over a grid of a level and counts what starts at each place (01, "One level"; 02, f).
    fn count_level(&mut self, filtered: bool, width: usize, height: usize) {
        let aligned = |place: usize| place % 4 == 0;
        // "whose first row and column both leave 2 on division by 4", "wherever those four exist"
        let between = |place: usize, side: usize| place % 4 == 2 && place + 3 < side;
        let corner = |place: usize, side: usize| place == 0 || place + 2 == side;
        let edge = |place: usize, side: usize| place < 2 || place + 2 >= side;
        for row in 0..height {
            for column in 0..width {
                self.cores += u64::from(aligned(row) && aligned(column));
                if filtered {
                    let (down, across) = (between(row, height), between(column, width));
                    self.square_filters += u64::from(down && across);
                    self.four_filters += u64::from(edge(row, height) && across);
                    self.four_filters += u64::from(edge(column, width) && down);
                    self.four_filters += u64::from(corner(row, height) && corner(column, width));
                }
            }
        }
    }
}

/// The work of a picture from its mode and size alone. Checks 1, 2 and 3.
pub fn forecast(mode: u32, size: Size) -> Result<Work, u32> {
    let n = check_mode_and_size(mode, size)? as u64;
    let (width, height) = (size.width as usize, size.height as usize);
    // The planes have n, 15 n and 240 n numbers and the samples are 256 n, of four bytes each.
    let (plane_bytes, sample_bytes) = (4 * (n + 15 * n + 240 * n), 4 * 256 * n);
    let mut work = Work { plane_bytes, sample_bytes, ..Work::default() };
    work.count_level(filters_level_one(mode), 4 * width, 4 * height);
    work.count_level(filters_level_two(mode), 16 * width, 16 * height);
    Ok(work)
}
