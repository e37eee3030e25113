//! Steps, and the indices that choose one for each band.

use lapped_sys::lapped_steps;

/// The step indices of the three bands: [`step`] has the steps that they choose.
///
/// An index is 0 to 255, exactly a `u8`, so that none can be refused. What was quantised is restored
/// with the same indices; a plane file does not hold them, and the caller keeps them.
///
/// ```
/// use lapped::{Mode, Planes, Size, Steps};
///
/// let steps = Steps { dc: 0, low: 10, high: 57 }; // steps of 1, 10 and 100
/// let mut planes = Planes::zeroed(Size::new(1, 1)?);
/// planes.dc[0] = 1234;
/// planes.low[0] = 1234;
/// planes.high[0] = 1234;
/// let levels = planes.quantised(Mode::Unfiltered, steps)?;
/// assert_eq!((levels.dc[0], levels.low[0], levels.high[0]), (1234, 123, 12));
/// # Ok::<(), lapped::Refusal>(())
/// ```
#[derive(Clone, Copy, Debug, PartialEq, Eq, Hash)]
pub struct Steps {
    /// The index of the DC plane.
    pub dc: u8,
    /// The index of the low-pass plane.
    pub low: u8,
    /// The index of the high-pass plane.
    pub high: u8,
}

impl Steps {
    /// One index for all bands.
    ///
    /// ```
    /// use lapped::Steps;
    ///
    /// assert_eq!(Steps::all(40), Steps { dc: 40, low: 40, high: 40 });
    /// ```
    pub const fn all(index: u8) -> Steps {
        Steps { dc: index, low: index, high: index }
    }

    /// The same indices for the C interface.
    pub(crate) fn raw(self) -> lapped_steps {
        let [dc, low, high] = [self.dc, self.low, self.high].map(u32::from);
        lapped_steps { dc, low, high }
    }
}

/// The step of an index: 1 for index 0, the index itself for 1 to 15, and above that
/// (16 + index mod 16) × 2^(index div 16 − 1).
///
/// ```
/// use lapped::step;
///
/// assert_eq!([0, 1, 2, 15, 16, 31].map(step), [1, 1, 2, 15, 16, 31]);
/// assert_eq!([32, 33, 48, 255].map(step), [32, 34, 64, 507_904]);
/// ```
pub fn step(index: u8) -> u32 {
    call!(lapped_step(u32::from(index));;)
}
