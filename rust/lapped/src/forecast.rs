//! The forecast: how much work a picture will be, before any of it is done.

use crate::{Mode, Size};
use lapped_sys::lapped_work;

/// How much work the inverse of a picture is: [`forecast`] gives it.
///
/// The operators run on numbers of both levels of the transform, and each count is of both together.
#[derive(Clone, Copy, Debug, PartialEq, Eq, Hash)]
pub struct Work {
    /// How many core transforms there are, one for each square of 4 × 4 numbers.
    pub cores: u32,
    /// How many overlap filters of 4 × 4 numbers there are: where a level is filtered, one wherever
    /// four of its squares meet.
    pub square_filters: u32,
    /// How many overlap filters of four numbers there are: along the edges of a filtered level, and one
    /// at each of its corners.
    pub four_filters: u32,
    /// How many bytes the three planes have: four for each coefficient.
    pub plane_bytes: u32,
    /// How many bytes the samples have: four for each.
    pub sample_bytes: u32,
}

/// How much work the inverse of a picture of this mode and size is.
///
/// ```
/// use lapped::{forecast, Mode, Size};
///
/// let size = Size::new(2, 1)?;
/// let work = forecast(Mode::BothLevels, size);
/// assert_eq!(work.cores, 2 + 32); // of macroblocks, and of blocks
/// assert_eq!(work.square_filters, 7 * 3); // level one, one macroblock high, has none
/// assert_eq!(work.four_filters, (4 * 1 + 4) + (4 * 7 + 4 * 3 + 4)); // of both levels
/// assert_eq!(work.plane_bytes, 4 * size.samples() as u32);
///
/// assert_eq!(forecast(Mode::Unfiltered, size).four_filters, 0);
/// # Ok::<(), lapped::Refusal>(())
/// ```
pub fn forecast(mode: Mode, size: Size) -> Work {
    let answer = call!(lapped_forecast(mode.number(), size.raw());;);
    let lapped_work { number, cores, square_filters, four_filters, plane_bytes, sample_bytes } =
        answer;
    assert_eq!(number, 0, "the library takes every mode and size of this crate");
    Work { cores, square_filters, four_filters, plane_bytes, sample_bytes }
}
