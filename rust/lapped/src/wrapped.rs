//! Whether a sum wrapped: what the transform tells beside its result.

use crate::Refusal;
use lapped_sys::lapped_answer;
use std::fmt;

/// Whether a sum wrapped in the transform.
///
/// Every sum, difference, negation and multiple of 3 in the lines of the transform's operators is
/// reduced to 32 bits. A sum wrapped if and only if one of these reductions changed a number, each step
/// taken on the numbers that the steps before it left. It is a sign of extreme values and no loss:
/// [`forward`](crate::forward) and [`inverse`](crate::inverse) undo each other all the same, and of one
/// picture they tell the same.
///
/// ```
/// use lapped::{Mode, Planes, Size, Wrapped};
///
/// let mut planes = Planes::zeroed(Size::new(1, 1)?);
/// planes.dc[0] = i32::MAX;
/// let (samples, wrapped) = planes.to_samples(Mode::Unfiltered)?;
/// assert_eq!(wrapped, Wrapped::Yes);
///
/// let back = Planes::from_samples(Mode::Unfiltered, planes.size, &samples)?;
/// assert_eq!(back, (planes, Wrapped::Yes));
/// # Ok::<(), lapped::Refusal>(())
/// ```
#[derive(Clone, Copy, Debug, PartialEq, Eq, Hash)]
pub enum Wrapped {
    /// No sum wrapped: every number is what the same steps give over whole integers.
    No,
    /// A sum wrapped.
    Yes,
}

impl Wrapped {
    /// What an answer of the C interface means.
    pub(crate) fn answer(answer: lapped_answer) -> Result<Wrapped, Refusal> {
        let lapped_answer { number, wrapped } = answer;
        Refusal::answer(number)?;
        Ok(Wrapped::from(wrapped))
    }

    /// Whether it is [`Wrapped::Yes`].
    ///
    /// ```
    /// use lapped::Wrapped;
    ///
    /// assert!(Wrapped::Yes.is_yes() && !Wrapped::No.is_yes());
    /// ```
    #[must_use]
    pub const fn is_yes(self) -> bool {
        matches!(self, Wrapped::Yes)
    }
}

/// `true` is [`Wrapped::Yes`].
impl From<bool> for Wrapped {
    fn from(wrapped: bool) -> Wrapped {
        match wrapped {
            true => Wrapped::Yes,
            false => Wrapped::No,
        }
    }
}

/// As [`Wrapped::is_yes`].
impl From<Wrapped> for bool {
    fn from(wrapped: Wrapped) -> bool {
        wrapped.is_yes()
    }
}

/// "a sum wrapped" or "no sum wrapped".
impl fmt::Display for Wrapped {
    fn fmt(&self, f: &mut fmt::Formatter) -> fmt::Result {
        f.pad(match self {
            Wrapped::Yes => "a sum wrapped",
            Wrapped::No => "no sum wrapped",
        })
    }
}
