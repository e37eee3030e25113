//! The modes: which of the two levels of the transform are filtered.

use crate::Refusal;

/// Which levels of the transform run their overlap filters.
///
/// The transform has two levels, one over the samples and one over the DC numbers of their blocks.
/// At each level the overlap filters smooth the seams between neighbouring blocks. A picture must be
/// read in the mode in which it was written.
///
/// ```
/// use lapped::{Mode, Refusal};
///
/// assert_eq!(Mode::try_from(2), Ok(Mode::BothLevels));
/// assert_eq!(Mode::try_from(3), Err(Refusal::Mode));
/// ```
#[derive(Clone, Copy, Debug, PartialEq, Eq, Hash)]
pub enum Mode {
    /// Mode 0: no filter runs; each macroblock stands alone.
    Unfiltered,
    /// Mode 1: the filters of the samples' level run.
    SampleLevel,
    /// Mode 2: the filters of both levels run.
    BothLevels,
}

impl Mode {
    /// The three modes, in the order of their numbers.
    pub const ALL: [Mode; 3] = [Mode::Unfiltered, Mode::SampleLevel, Mode::BothLevels];

    /// The number of the mode in plane files and in the C interface.
    ///
    /// ```
    /// assert_eq!(lapped::Mode::SampleLevel.number(), 1);
    /// ```
    pub const fn number(self) -> u32 {
        match self {
            Mode::Unfiltered => 0,
            Mode::SampleLevel => 1,
            Mode::BothLevels => 2,
        }
    }
}

impl TryFrom<u32> for Mode {
    type Error = Refusal;

    fn try_from(number: u32) -> Result<Mode, Refusal> {
        match number {
            0 => Ok(Mode::Unfiltered),
            1 => Ok(Mode::SampleLevel),
            2 => Ok(Mode::BothLevels),
            _ => Err(Refusal::Mode),
        }
    }
}
