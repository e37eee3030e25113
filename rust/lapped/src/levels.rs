//! Quantising and restoring: coefficients to levels and back, in memory that the caller lends.

use crate::{Mode, PlanesMut, PlanesRef, Refusal, Size, Steps};

/// From coefficients to levels, each band by its own step.
///
/// A level has the sign of its coefficient and the magnitude (magnitude + step div 2) div step: how
/// many steps the coefficient is, to the nearest. Step 1 changes nothing.
///
/// ```
/// use lapped::{quantise, Mode, Planes, Size, Steps};
///
/// let size = Size::new(1, 1)?;
/// let mut planes = Planes::zeroed(size);
/// planes.low[..4].copy_from_slice(&[14, 15, -14, -15]);
/// let mut levels = Planes::zeroed(size);
/// quantise(Mode::SampleLevel, size, Steps::all(10), planes.as_ref(), levels.as_mut())?;
/// assert_eq!(levels.low[..4], [1, 2, -1, -2]);
/// # Ok::<(), lapped::Refusal>(())
/// ```
///
/// # Errors
///
/// [`Refusal::DcLength`], [`Refusal::LowPassLength`] and [`Refusal::HighPassLength`], in this order,
/// for a plane of `planes` that does not fit the size, then for one of `levels`.
pub fn quantise(
    mode: Mode,
    size: Size,
    steps: Steps,
    planes: PlanesRef,
    levels: PlanesMut,
) -> Result<(), Refusal> {
    let PlanesRef { dc, low, high } = planes;
    let PlanesMut { dc: dc_levels, low: low_levels, high: high_levels } = levels;
    Refusal::answer(call!(
        lapped_quantise(mode.number(), size.raw(), steps.raw());
        dc, low, high;
        dc_levels, low_levels, high_levels
    ))
}

/// From levels to coefficients, level × step, each band by its own step.
///
/// A coefficient that was quantised by the same step comes back at most step div 2 away. One near an
/// end of the range may have a level that is refused, because its product is beyond that end.
///
/// ```
/// use lapped::{quantise, restore, Mode, Planes, Refusal, Size, Steps};
///
/// let (mode, size, steps) = (Mode::SampleLevel, Size::new(1, 1)?, Steps::all(2));
/// let (mut planes, mut levels) = (Planes::zeroed(size), Planes::zeroed(size));
/// planes.dc[0] = -7;
/// quantise(mode, size, steps, planes.as_ref(), levels.as_mut())?;
/// restore(mode, size, steps, levels.as_ref(), planes.as_mut())?;
/// assert_eq!((levels.dc[0], planes.dc[0]), (-4, -8));
///
/// levels.dc[0] = 1 << 30; // the level of i32::MAX
/// let refused = restore(mode, size, steps, levels.as_ref(), planes.as_mut());
/// assert_eq!(refused, Err(Refusal::Product));
/// # Ok::<(), Refusal>(())
/// ```
///
/// # Errors
///
/// [`Refusal::DcLength`], [`Refusal::LowPassLength`] and [`Refusal::HighPassLength`], in this order,
/// for a plane of `levels` that does not fit the size, then for one of `planes`; then
/// [`Refusal::Product`] if a coefficient would not fit an `i32`.
pub fn restore(
    mode: Mode,
    size: Size,
    steps: Steps,
    levels: PlanesRef,
    planes: PlanesMut,
) -> Result<(), Refusal> {
    let PlanesRef { dc: dc_levels, low: low_levels, high: high_levels } = levels;
    let PlanesMut { dc, low, high } = planes;
    Refusal::answer(call!(
        lapped_restore(mode.number(), size.raw(), steps.raw());
        dc_levels, low_levels, high_levels;
        dc, low, high
    ))
}
