//! Finding a step that keeps a tolerance, in memory that the caller lends and in memory of its own.

use crate::{Mode, Planes, PlanesMut, Refusal, Size};
use lapped_sys::lapped_found;

/// A step index that keeps a tolerance, with what comes back by it.
#[derive(Clone, Debug, PartialEq, Eq)]
pub struct Found {
    /// The index for all bands, [`Steps::all`](crate::Steps::all): one from 2 to 255, or 0 where
    /// none of these passes.
    pub index: u8,
    /// The restored coefficients of this index.
    pub planes: Planes,
    /// The samples of these coefficients.
    pub samples: Vec<i32>,
}

impl Found {
    /// A step index that keeps a tolerance: what [`find_step`] gives, in memory of its own.
    ///
    /// ```
    /// use lapped::{Found, Mode, Planes, Size, Steps};
    ///
    /// let (mode, size) = (Mode::BothLevels, Size::new(2, 3)?);
    /// let samples: Vec<i32> = (0..256 * 6).collect();
    /// let Found { index, planes, samples: back } = Found::within(mode, size, 10, &samples)?;
    /// assert!(samples.iter().zip(&back).all(|(sample, back)| sample.abs_diff(*back) <= 10));
    ///
    /// // For the archive: levels, of which these coefficients are restored.
    /// let (coefficients, _) = Planes::from_samples(mode, size, &samples)?;
    /// let levels = coefficients.quantised(mode, Steps::all(index))?;
    /// assert_eq!(levels.restored(mode, Steps::all(index))?, planes);
    /// # Ok::<(), lapped::Refusal>(())
    /// ```
    ///
    /// # Errors
    ///
    /// [`Refusal::SamplesLength`] if the samples are not as many as [`Size::samples`] says.
    pub fn within(
        mode: Mode,
        size: Size,
        tolerance: u32,
        samples: &[i32],
    ) -> Result<Found, Refusal> {
        let (mut planes, mut second) = (Planes::zeroed(size), vec![0; size.samples()]);
        let index = find_step(mode, size, tolerance, samples, planes.as_mut(), &mut second)?;
        Ok(Found { index, planes, samples: second })
    }
}

/// Finds an index that, used for all bands, keeps a tolerance.
///
/// An index passes if [`forward`](crate::forward), [`quantise`](crate::quantise),
/// [`restore`](crate::restore) and [`inverse`](crate::inverse) leave every sample within the
/// tolerance, and no product of level and step leaves the range. The difference of two samples is
/// exact; at most it is `u32::MAX`. The answer is an index from 2 to 255 that passes, any of them, or
/// 0, which changes nothing, where none of those passes. Afterwards `planes` has the restored
/// coefficients of that index, and `second` has their samples. Each index that is tried takes about
/// the time of the four calls; there are up to 254 tries.
///
/// ```
/// use lapped::{find_step, step, Mode, Planes, Size};
///
/// let (mode, size) = (Mode::Unfiltered, Size::new(1, 1)?);
/// let (mut planes, mut second) = (Planes::zeroed(size), [0; 256]);
/// let index = find_step(mode, size, 0, &[4; 256], planes.as_mut(), &mut second)?;
/// assert_eq!(64 % step(index), 0); // the DC of these samples is 64
/// assert_eq!((planes.dc[0], second), (64, [4; 256]));
///
/// let mut dot = [0; 256];
/// dot[0] = 1; // its coefficients are 0 and 1, and only step 1 keeps a 1
/// assert_eq!(find_step(mode, size, 0, &dot, planes.as_mut(), &mut second)?, 0);
/// assert_eq!(second, dot);
/// # Ok::<(), lapped::Refusal>(())
/// ```
///
/// # Errors
///
/// [`Refusal::SamplesLength`] for `samples` or `second`, then [`Refusal::DcLength`],
/// [`Refusal::LowPassLength`] and [`Refusal::HighPassLength`], in this order, for a slice that does not
/// fit the size.
pub fn find_step(
    mode: Mode,
    size: Size,
    tolerance: u32,
    samples: &[i32],
    planes: PlanesMut,
    second: &mut [i32],
) -> Result<u8, Refusal> {
    let PlanesMut { dc, low, high } = planes;
    let lapped_found { number, index } = call!(
        lapped_find_step(mode.number(), size.raw(), tolerance);
        samples;
        dc, low, high, second
    );
    Refusal::answer(number)?;
    Ok(u8::try_from(index).expect("the library answers an index up to 255"))
}
