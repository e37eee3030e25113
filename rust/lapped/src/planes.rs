//! The three coefficient planes of a picture, owned and lent.

use crate::{
    forward, inverse, quantise, quarter_view, restore, Mode, Refusal, Size, Steps, Wrapped,
};

/// The coefficient planes of a picture, owned.
///
/// The levels of coefficients lie in planes of the same form, [`Planes::quantised`].
///
/// The fields are open: planes may be put together from vectors at hand and taken apart again. Every
/// call checks that the lengths fit the size.
///
/// ```
/// use lapped::{Mode, Planes, Size};
///
/// let mut planes = Planes::zeroed(Size::new(1, 1)?);
/// planes.dc[0] = 64;
/// let (samples, _) = planes.to_samples(Mode::Unfiltered)?;
/// assert_eq!(samples, [4; 256]);
/// # Ok::<(), lapped::Refusal>(())
/// ```
#[derive(Clone, Debug, PartialEq, Eq)]
pub struct Planes {
    /// The size of the picture; n is the number of its macroblocks.
    pub size: Size,
    /// The DC plane: n numbers, macroblocks in raster order (left to right, then down).
    pub dc: Vec<i32>,
    /// The low-pass plane: 15 n numbers, for each macroblock its coefficients 1 to 15.
    pub low: Vec<i32>,
    /// The high-pass plane: 240 n numbers, for each macroblock its 16 blocks in raster order, each
    /// with coefficients 1 to 15.
    pub high: Vec<i32>,
}

impl Planes {
    /// Planes of this size, all of whose coefficients are 0.
    ///
    /// ```
    /// use lapped::{Planes, Size};
    ///
    /// let planes = Planes::zeroed(Size::new(2, 3)?);
    /// assert_eq!((planes.dc.len(), planes.low.len(), planes.high.len()), (6, 90, 1440));
    /// # Ok::<(), lapped::Refusal>(())
    /// ```
    pub fn zeroed(size: Size) -> Planes {
        Planes {
            size,
            dc: vec![0; size.dc_coefficients()],
            low: vec![0; size.low_coefficients()],
            high: vec![0; size.high_coefficients()],
        }
    }

    /// The planes of a picture, the only ones from which [`Planes::to_samples`] makes it, and whether a
    /// sum wrapped.
    ///
    /// ```
    /// use lapped::{Mode, Planes, Refusal, Size, Wrapped};
    ///
    /// let size = Size::new(1, 1)?;
    /// let (planes, wrapped) = Planes::from_samples(Mode::Unfiltered, size, &[4; 256])?;
    /// assert_eq!(planes.dc, [64]);
    /// assert_eq!(planes.low, [0; 15]);
    /// assert_eq!(planes.high, [0; 240]);
    /// assert_eq!(wrapped, Wrapped::No);
    ///
    /// let refused = Planes::from_samples(Mode::Unfiltered, size, &[4; 255]);
    /// assert_eq!(refused, Err(Refusal::SamplesLength));
    /// # Ok::<(), Refusal>(())
    /// ```
    ///
    /// # Errors
    ///
    /// [`Refusal::SamplesLength`] if the samples are not as many as [`Size::samples`] says.
    pub fn from_samples(
        mode: Mode,
        size: Size,
        samples: &[i32],
    ) -> Result<(Planes, Wrapped), Refusal> {
        let mut planes = Planes::zeroed(size);
        let wrapped = forward(mode, size, samples, planes.as_mut())?;
        Ok((planes, wrapped))
    }

    /// The samples of the picture, in raster order, and whether a sum wrapped.
    ///
    /// ```
    /// use lapped::{Mode, Planes, Size, Wrapped};
    ///
    /// let planes = Planes::zeroed(Size::new(3, 1)?);
    /// let (samples, wrapped) = planes.to_samples(Mode::BothLevels)?;
    /// assert_eq!(samples, vec![0; 48 * 16]);
    /// assert_eq!(wrapped, Wrapped::No);
    /// # Ok::<(), lapped::Refusal>(())
    /// ```
    ///
    /// # Errors
    ///
    /// [`Refusal::DcLength`], [`Refusal::LowPassLength`] or [`Refusal::HighPassLength`] if a plane
    /// does not fit the size.
    pub fn to_samples(&self, mode: Mode) -> Result<(Vec<i32>, Wrapped), Refusal> {
        let mut samples = vec![0; self.size.samples()];
        let wrapped = inverse(mode, self.size, self.as_ref(), &mut samples)?;
        Ok((samples, wrapped))
    }

    /// The picture at a quarter of its width and height, in raster order, and whether a sum wrapped in
    /// the level that makes it. [`quarter_view`] says how large its numbers are.
    ///
    /// ```
    /// use lapped::{Mode, Planes, Size, Wrapped};
    ///
    /// let mut planes = Planes::zeroed(Size::new(1, 1)?);
    /// planes.dc[0] = 64;
    /// let (view, wrapped) = planes.to_quarter_view(Mode::Unfiltered)?;
    /// assert_eq!(view, [16; 16]);
    /// assert_eq!(wrapped, Wrapped::No);
    /// # Ok::<(), lapped::Refusal>(())
    /// ```
    ///
    /// # Errors
    ///
    /// [`Refusal::DcLength`] or [`Refusal::LowPassLength`] if a plane does not fit the size.
    pub fn to_quarter_view(&self, mode: Mode) -> Result<(Vec<i32>, Wrapped), Refusal> {
        let mut view = vec![0; self.size.view_samples()];
        let wrapped = quarter_view(mode, self.size, self.as_ref(), &mut view)?;
        Ok((view, wrapped))
    }

    /// The levels of these coefficients, in planes of the same size.
    ///
    /// ```
    /// use lapped::{Mode, Planes, Size, Steps};
    ///
    /// let mut planes = Planes::zeroed(Size::new(1, 1)?);
    /// planes.dc[0] = -64;
    /// planes.high[239] = 17;
    /// let levels = planes.quantised(Mode::BothLevels, Steps::all(10))?;
    /// assert_eq!((levels.dc[0], levels.high[239]), (-6, 2)); // to the nearest ten
    /// # Ok::<(), lapped::Refusal>(())
    /// ```
    ///
    /// # Errors
    ///
    /// [`Refusal::DcLength`], [`Refusal::LowPassLength`] or [`Refusal::HighPassLength`] if a plane
    /// does not fit the size.
    pub fn quantised(&self, mode: Mode, steps: Steps) -> Result<Planes, Refusal> {
        let mut levels = Planes::zeroed(self.size);
        quantise(mode, self.size, steps, self.as_ref(), levels.as_mut())?;
        Ok(levels)
    }

    /// The coefficients of these levels, in planes of the same size.
    ///
    /// ```
    /// use lapped::{Mode, Planes, Refusal, Size, Steps};
    ///
    /// let mut levels = Planes::zeroed(Size::new(1, 1)?);
    /// levels.dc[0] = -6;
    /// let planes = levels.restored(Mode::BothLevels, Steps::all(10))?;
    /// assert_eq!(planes.dc, [-60]);
    ///
    /// levels.dc[0] = i32::MAX;
    /// let refused = levels.restored(Mode::BothLevels, Steps::all(10));
    /// assert_eq!(refused, Err(Refusal::Product));
    /// # Ok::<(), Refusal>(())
    /// ```
    ///
    /// # Errors
    ///
    /// [`Refusal::DcLength`], [`Refusal::LowPassLength`] or [`Refusal::HighPassLength`] if a plane
    /// does not fit the size; then [`Refusal::Product`] if a coefficient would not fit an `i32`.
    pub fn restored(&self, mode: Mode, steps: Steps) -> Result<Planes, Refusal> {
        let mut planes = Planes::zeroed(self.size);
        restore(mode, self.size, steps, self.as_ref(), planes.as_mut())?;
        Ok(planes)
    }

    /// The planes lent, to be read.
    pub fn as_ref(&self) -> PlanesRef<'_> {
        PlanesRef { dc: &self.dc, low: &self.low, high: &self.high }
    }

    /// The planes lent, to be written.
    pub fn as_mut(&mut self) -> PlanesMut<'_> {
        PlanesMut { dc: &mut self.dc, low: &mut self.low, high: &mut self.high }
    }
}

/// Coefficient planes lent to a call that reads them, laid out as in [`Planes`].
///
/// Slices of any length can be lent; a call refuses those that do not fit the size.
///
/// ```
/// use lapped::{inverse, Mode, PlanesRef, Size};
///
/// let planes = PlanesRef { dc: &[64], low: &[0; 15], high: &[0; 240] };
/// let mut samples = [0; 256];
/// inverse(Mode::Unfiltered, Size::new(1, 1)?, planes, &mut samples)?;
/// assert_eq!(samples, [4; 256]);
/// # Ok::<(), lapped::Refusal>(())
/// ```
#[derive(Clone, Copy, Debug, PartialEq, Eq)]
pub struct PlanesRef<'a> {
    /// The DC plane.
    pub dc: &'a [i32],
    /// The low-pass plane.
    pub low: &'a [i32],
    /// The high-pass plane.
    pub high: &'a [i32],
}

/// Coefficient planes lent to a call that writes them, laid out as in [`Planes`].
///
/// Slices of any length can be lent; a call refuses those that do not fit the size.
///
/// ```
/// use lapped::{forward, Mode, PlanesMut, Size};
///
/// let (mut dc, mut low, mut high) = ([1], [1; 15], [1; 240]);
/// let planes = PlanesMut { dc: &mut dc, low: &mut low, high: &mut high };
/// forward(Mode::Unfiltered, Size::new(1, 1)?, &[4; 256], planes)?;
/// assert_eq!((dc, low, high), ([64], [0; 15], [0; 240]));
/// # Ok::<(), lapped::Refusal>(())
/// ```
#[derive(Debug, PartialEq, Eq)]
pub struct PlanesMut<'a> {
    /// The DC plane.
    pub dc: &'a mut [i32],
    /// The low-pass plane.
    pub low: &'a mut [i32],
    /// The high-pass plane.
    pub high: &'a mut [i32],
}

impl PlanesMut<'_> {
    /// The same planes, lent on to be read.
    pub fn as_ref(&self) -> PlanesRef<'_> {
        PlanesRef { dc: self.dc, low: self.low, high: self.high }
    }

    /// The same planes lent on for one call, after which they are here again.
    ///
    /// ```
    /// use lapped::{forward, Mode, Planes, Size};
    ///
    /// let size = Size::new(1, 1)?;
    /// let mut owned = Planes::zeroed(size);
    /// let mut planes = owned.as_mut();
    /// forward(Mode::Unfiltered, size, &[4; 256], planes.as_mut())?;
    /// assert_eq!(planes.dc, [64]);
    /// # Ok::<(), lapped::Refusal>(())
    /// ```
    pub fn as_mut(&mut self) -> PlanesMut<'_> {
        PlanesMut { dc: self.dc, low: self.low, high: self.high }
    }
}
