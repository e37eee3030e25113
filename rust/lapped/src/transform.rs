//! The transform in both directions and the quarter view, in memory that the caller lends.

use crate::{Mode, PlanesMut, PlanesRef, Refusal, Size, Wrapped};

/// From coefficient planes to samples, in raster order over the whole picture. Tells whether a sum
/// wrapped.
///
/// ```
/// use lapped::{inverse, Mode, Planes, Size, Wrapped};
///
/// let size = Size::new(2, 1)?;
/// let mut planes = Planes::zeroed(size);
/// planes.dc[1] = 64; // the second macroblock, alone in mode 0
/// let mut samples = vec![0; size.samples()];
/// let wrapped = inverse(Mode::Unfiltered, size, planes.as_ref(), &mut samples)?;
/// assert_eq!(wrapped, Wrapped::No);
/// for row in size.rows(&samples)? {
///     assert_eq!(row, [[0; 16], [4; 16]].concat());
/// }
/// # Ok::<(), lapped::Refusal>(())
/// ```
///
/// # Errors
///
/// [`Refusal::DcLength`], [`Refusal::LowPassLength`], [`Refusal::HighPassLength`] and
/// [`Refusal::SamplesLength`], in this order, for a slice that does not fit the size.
pub fn inverse(
    mode: Mode,
    size: Size,
    planes: PlanesRef,
    samples: &mut [i32],
) -> Result<Wrapped, Refusal> {
    let PlanesRef { dc, low, high } = planes;
    Wrapped::answer(call!(lapped_inverse(mode.number(), size.raw()); dc, low, high; samples))
}

/// From samples to coefficient planes; undoes [`inverse`] exactly, and is undone by it. Tells whether a
/// sum wrapped.
///
/// ```
/// use lapped::{forward, inverse, Mode, Planes, Size};
///
/// let size = Size::new(1, 2)?;
/// let samples: Vec<i32> = (0..512).collect();
/// let mut planes = Planes::zeroed(size);
/// let wrapped = forward(Mode::SampleLevel, size, &samples, planes.as_mut())?;
///
/// let mut back = vec![0; size.samples()];
/// assert_eq!(inverse(Mode::SampleLevel, size, planes.as_ref(), &mut back)?, wrapped);
/// assert_eq!(back, samples);
/// # Ok::<(), lapped::Refusal>(())
/// ```
///
/// # Errors
///
/// [`Refusal::SamplesLength`], [`Refusal::DcLength`], [`Refusal::LowPassLength`] and
/// [`Refusal::HighPassLength`], in this order, for a slice that does not fit the size.
pub fn forward(
    mode: Mode,
    size: Size,
    samples: &[i32],
    planes: PlanesMut,
) -> Result<Wrapped, Refusal> {
    let PlanesMut { dc, low, high } = planes;
    Wrapped::answer(call!(lapped_forward(mode.number(), size.raw()); samples; dc, low, high))
}

/// The picture at a quarter of its width and height, from the DC and low-pass planes alone.
///
/// The high-pass plane is not read, and may be empty. The view is made by the first of the
/// transform's two levels, and of that one it tells whether a sum wrapped.
///
/// Its numbers are larger than the samples: for a flat picture 4 times in [`Mode::Unfiltered`], and in
/// the other modes, where the level of the samples is filtered, 2821/1024 = 2.755 times, with 10
/// percent more along the edges and 15 percent more at the corners, where less is filtered.
///
/// ```
/// use lapped::{quarter_view, Mode, PlanesRef, Size};
///
/// let size = Size::new(1, 1)?;
/// let mut view = vec![0; size.view_samples()];
/// let planes = PlanesRef { dc: &[64], low: &[0; 15], high: &[] };
/// quarter_view(Mode::Unfiltered, size, planes, &mut view)?;
/// assert_eq!(view, [16; 16]);
/// # Ok::<(), lapped::Refusal>(())
/// ```
///
/// # Errors
///
/// [`Refusal::DcLength`], [`Refusal::LowPassLength`] and [`Refusal::ViewLength`], in this order, for
/// a slice that does not fit the size.
pub fn quarter_view(
    mode: Mode,
    size: Size,
    planes: PlanesRef,
    view: &mut [i32],
) -> Result<Wrapped, Refusal> {
    let PlanesRef { dc, low, .. } = planes;
    Wrapped::answer(call!(lapped_quarter(mode.number(), size.raw()); dc, low; view))
}
