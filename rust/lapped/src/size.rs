//! The size of a picture, and every length that follows from it.

use crate::Refusal;
use lapped_sys::lapped_size;
use std::slice::{ChunksExact, ChunksExactMut};

/// The size of a picture in macroblocks of 16 × 16 samples: 1 to 525 across and 1 to 413 down.
///
/// Every length that a call asks for is a method here, in elements of the slice.
///
/// ```
/// use lapped::{Refusal, Size};
///
/// let size = Size::new(3, 2)?;
/// assert_eq!((size.samples_across(), size.samples_down()), (48, 32));
/// assert_eq!(size.samples(), 48 * 32);
/// assert_eq!(size.view_samples(), 12 * 8);
/// assert_eq!(size.file_bytes(), 32 + 4 * size.samples());
///
/// assert_eq!(Size::new(0, 2), Err(Refusal::Width));
/// assert_eq!(Size::new(3, 414), Err(Refusal::Height));
/// # Ok::<(), Refusal>(())
/// ```
#[derive(Clone, Copy, Debug, PartialEq, Eq, Hash)]
pub struct Size {
    width: u32,
    height: u32,
}

impl Size {
    /// The greatest width, in macroblocks.
    pub const MAX_WIDTH: u32 = 525;

    /// The greatest height, in macroblocks.
    pub const MAX_HEIGHT: u32 = 413;

    /// A size from its width and height in macroblocks.
    ///
    /// # Errors
    ///
    /// [`Refusal::Width`] and [`Refusal::Height`], in this order, for a side of none or too many.
    pub const fn new(width: u32, height: u32) -> Result<Size, Refusal> {
        if width < 1 || width > Self::MAX_WIDTH {
            return Err(Refusal::Width);
        }
        if height < 1 || height > Self::MAX_HEIGHT {
            return Err(Refusal::Height);
        }
        Ok(Size { width, height })
    }

    /// How many macroblocks lie side by side.
    pub const fn width(self) -> u32 {
        self.width
    }

    /// How many macroblocks lie one below another.
    pub const fn height(self) -> u32 {
        self.height
    }

    /// How many macroblocks there are in all: n in what follows.
    pub const fn macroblocks(self) -> usize {
        self.width as usize * self.height as usize
    }

    /// How many samples a row of the picture has.
    pub const fn samples_across(self) -> usize {
        16 * self.width as usize
    }

    /// How many rows of samples the picture has.
    pub const fn samples_down(self) -> usize {
        16 * self.height as usize
    }

    /// How many samples there are in all, 256 n.
    pub const fn samples(self) -> usize {
        256 * self.macroblocks()
    }

    /// How many samples a row of the quarter view has.
    pub const fn view_across(self) -> usize {
        4 * self.width as usize
    }

    /// How many rows of samples the quarter view has.
    pub const fn view_down(self) -> usize {
        4 * self.height as usize
    }

    /// How many samples the quarter view has in all, 16 n.
    pub const fn view_samples(self) -> usize {
        16 * self.macroblocks()
    }

    /// How many coefficients the DC plane holds: n, one of each macroblock.
    pub const fn dc_coefficients(self) -> usize {
        self.macroblocks()
    }

    /// How many coefficients the low-pass plane holds: 15 n.
    pub const fn low_coefficients(self) -> usize {
        15 * self.macroblocks()
    }

    /// How many coefficients the high-pass plane holds: 240 n, 15 of each of 16 blocks.
    pub const fn high_coefficients(self) -> usize {
        240 * self.macroblocks()
    }

    /// How many bytes a plane file of this size has: 32 + 1024 n.
    pub const fn file_bytes(self) -> usize {
        32 + 1024 * self.macroblocks()
    }

    /// The rows of a picture of this size, from the top.
    ///
    /// ```
    /// let size = lapped::Size::new(2, 1)?;
    /// let samples = vec![7; size.samples()];
    /// for row in size.rows(&samples)? {
    ///     assert_eq!(row, [7; 32]);
    /// }
    /// # Ok::<(), lapped::Refusal>(())
    /// ```
    ///
    /// # Errors
    ///
    /// [`Refusal::SamplesLength`] if the samples are not as many as [`Size::samples`] says.
    pub fn rows(self, samples: &[i32]) -> Result<ChunksExact<'_, i32>, Refusal> {
        if samples.len() != self.samples() {
            return Err(Refusal::SamplesLength);
        }
        Ok(samples.chunks_exact(self.samples_across()))
    }

    /// The rows of a picture of this size, from the top, to be written.
    ///
    /// ```
    /// let size = lapped::Size::new(1, 2)?;
    /// let mut samples = vec![0; size.samples()];
    /// for (y, row) in size.rows_mut(&mut samples)?.enumerate() {
    ///     row.fill(y as i32);
    /// }
    /// assert_eq!(samples[16 * 31..], [31; 16]);
    /// # Ok::<(), lapped::Refusal>(())
    /// ```
    ///
    /// # Errors
    ///
    /// As [`Size::rows`].
    pub fn rows_mut(self, samples: &mut [i32]) -> Result<ChunksExactMut<'_, i32>, Refusal> {
        if samples.len() != self.samples() {
            return Err(Refusal::SamplesLength);
        }
        Ok(samples.chunks_exact_mut(self.samples_across()))
    }

    /// The rows of the quarter view of a picture of this size, from the top.
    ///
    /// ```
    /// use lapped::{Mode, Planes, Size};
    ///
    /// let size = Size::new(2, 1)?;
    /// let mut planes = Planes::zeroed(size);
    /// planes.dc[1] = 64; // the second macroblock, alone in mode 0
    /// let (view, _) = planes.to_quarter_view(Mode::Unfiltered)?;
    /// for row in size.view_rows(&view)? {
    ///     assert_eq!(row, [0, 0, 0, 0, 16, 16, 16, 16]);
    /// }
    /// # Ok::<(), lapped::Refusal>(())
    /// ```
    ///
    /// # Errors
    ///
    /// [`Refusal::ViewLength`] if the view is not as long as [`Size::view_samples`] says.
    pub fn view_rows(self, view: &[i32]) -> Result<ChunksExact<'_, i32>, Refusal> {
        if view.len() != self.view_samples() {
            return Err(Refusal::ViewLength);
        }
        Ok(view.chunks_exact(self.view_across()))
    }

    /// The same size for the C interface.
    pub(crate) const fn raw(self) -> lapped_size {
        lapped_size { width: self.width, height: self.height }
    }
}
