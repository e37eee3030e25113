//! Why a call did nothing, by name, by number and in words.

use std::{error, fmt};

/// Why a call did nothing: the first of its checks that failed.
///
/// n is the number of macroblocks, [`Size::macroblocks`](crate::Size::macroblocks).
///
/// ```
/// use lapped::{inverse, Mode, Planes, Refusal, Size};
///
/// let size = Size::new(1, 1)?;
/// let planes = Planes::zeroed(size);
/// let mut too_few = [0; 255];
/// let refusal = inverse(Mode::Unfiltered, size, planes.as_ref(), &mut too_few).unwrap_err();
/// assert_eq!(refusal, Refusal::SamplesLength);
/// assert_eq!(refusal.number(), 7);
/// assert_eq!(refusal.to_string(), "the samples are not 256 n long");
/// # Ok::<(), Refusal>(())
/// ```
#[derive(Clone, Copy, Debug, PartialEq, Eq, Hash)]
#[non_exhaustive]
pub enum Refusal {
    /// 1: the mode is above 2.
    Mode,
    /// 2: the width is not 1 to 525 macroblocks.
    Width,
    /// 3: the height is not 1 to 413 macroblocks.
    Height,
    /// 4: the DC plane is not n long.
    DcLength,
    /// 5: the low-pass plane is not 15 n long.
    LowPassLength,
    /// 6: the high-pass plane is not 240 n long.
    HighPassLength,
    /// 7: the samples are not 256 n long.
    SamplesLength,
    /// 8: the view is not 16 n long.
    ViewLength,
    /// 9: a file of fewer than 32 bytes.
    FileTooShort,
    /// 10: the last word of the file's header is not zero.
    LastWord,
    /// 11: an offset or the total in the header is not as laid down.
    Offsets,
    /// 12: the bytes are not exactly as many as the file's total, 32 + 1024 n.
    FileLength,
    /// 13: more than 16 macroblocks. Only the program `samples` answers this.
    TooManyMacroblocks,
    /// 14: a step index is above 255. One of [`Steps`](crate::Steps) cannot be, so no call of this
    /// crate answers this.
    StepIndex,
    /// 15: a product of level and step is outside the signed 32-bit range.
    Product,
    /// A number that this version of the wrapper does not know, of a library that is newer.
    #[non_exhaustive]
    Unlisted(u32),
}

/// Number 1 and those that follow it, each with its words.
const LISTED: [(Refusal, &str); 15] = [
    (Refusal::Mode, "the mode is above 2"),
    (Refusal::Width, "the width is not 1 to 525 macroblocks"),
    (Refusal::Height, "the height is not 1 to 413 macroblocks"),
    (Refusal::DcLength, "the DC plane is not n long"),
    (Refusal::LowPassLength, "the low-pass plane is not 15 n long"),
    (Refusal::HighPassLength, "the high-pass plane is not 240 n long"),
    (Refusal::SamplesLength, "the samples are not 256 n long"),
    (Refusal::ViewLength, "the view is not 16 n long"),
    (Refusal::FileTooShort, "the file has fewer than 32 bytes"),
    (Refusal::LastWord, "the last word of the file's header is not zero"),
    (Refusal::Offsets, "an offset or the total in the header is not as laid down"),
    (Refusal::FileLength, "the bytes are not as many as the file's total"),
    (Refusal::TooManyMacroblocks, "the picture has more than 16 macroblocks"),
    (Refusal::StepIndex, "a step index is above 255"),
    (Refusal::Product, "a product of level and step is outside the signed 32-bit range"),
];

impl Refusal {
    /// The refusal of a number; none for 0, which says that the call is done.
    ///
    /// Every other number gives a refusal that has this number, also one that is not listed here.
    ///
    /// ```
    /// use lapped::Refusal;
    ///
    /// assert_eq!(Refusal::from_number(2), Some(Refusal::Width));
    /// assert_eq!(Refusal::from_number(0), None);
    /// assert_eq!(Refusal::from_number(99).map(Refusal::number), Some(99));
    /// ```
    pub fn from_number(number: u32) -> Option<Refusal> {
        let index = number.checked_sub(1)? as usize;
        match LISTED.get(index) {
            Some((refusal, _)) => Some(*refusal),
            None => Some(Refusal::Unlisted(number)),
        }
    }

    /// The number that the library answers for this refusal; never 0.
    pub fn number(self) -> u32 {
        match (self, self.index()) {
            (Refusal::Unlisted(number), _) => number,
            (_, index) => index as u32 + 1,
        }
    }

    /// The place in the list above, or its length.
    fn index(self) -> usize {
        LISTED.iter().take_while(|(refusal, _)| *refusal != self).count()
    }

    /// What an answer of the C interface means.
    pub(crate) fn answer(number: u32) -> Result<(), Refusal> {
        Refusal::from_number(number).map_or(Ok(()), Err)
    }
}

impl fmt::Display for Refusal {
    fn fmt(&self, f: &mut fmt::Formatter) -> fmt::Result {
        match LISTED.get(self.index()) {
            Some((_, words)) => f.write_str(words),
            None => write!(f, "refused with number {}", self.number()),
        }
    }
}

impl error::Error for Refusal {}
