//! Which samples are shown black and white, and the grey of those between.

use crate::grey::Depth;
use std::fmt;
use std::str::FromStr;

/// The samples from black to white; those outside are clipped.
#[derive(Clone, Copy, Debug, PartialEq, Eq)]
pub struct Range {
    /// Shown black.
    pub low: i32,
    /// Shown white; above `low`.
    pub high: i32,
}

/// What `--range` asks for.
#[derive(Clone, Copy, Debug, PartialEq, Eq)]
pub enum Wanted {
    /// From the smallest sample to the largest.
    Auto,
    Given(Range),
}

impl FromStr for Wanted {
    type Err = &'static str;

    fn from_str(text: &str) -> Result<Self, Self::Err> {
        if text == "auto" {
            return Ok(Wanted::Auto);
        }
        let (low, high) = text.split_once(':').ok_or("neither LO:HI nor auto")?;
        let number =
            |word: &str| word.parse().map_err(|_| "LO and HI are whole numbers of 32 bits");
        let (low, high) = (number(low)?, number(high)?);
        match low < high {
            true => Ok(Wanted::Given(Range { low, high })),
            false => Err("LO is not below HI"),
        }
    }
}

impl Range {
    /// From the smallest sample to the largest. A flat picture is black (white if it is all of the
    /// largest number there is, which has none above it).
    pub fn from_extremes((smallest, largest): (i32, i32)) -> Self {
        let low = smallest.min(i32::MAX - 1);
        Range { low, high: largest.max(low + 1) }
    }

    /// How far white is from black.
    pub fn span(self) -> u32 {
        self.high.abs_diff(self.low)
    }

    pub fn holds(self, sample: i32) -> bool {
        (self.low..=self.high).contains(&sample)
    }

    /// The grey of a sample, to the nearest, a half upward. Where the span is the depth's own, each
    /// sample keeps its number but for the offset.
    pub fn grey(self, sample: i32, depth: Depth) -> u16 {
        let above_black = u64::from(sample.clamp(self.low, self.high).abs_diff(self.low));
        let (span, white) = (u64::from(self.span()), u64::from(depth.white()));
        if span == white {
            return above_black as u16;
        }
        ((2 * above_black * white + span) / (2 * span)) as u16
    }

    /// Writes a row of greys in the order of picture files; gives how many samples were clipped.
    pub fn write_row(self, samples: &[i32], depth: Depth, bytes: &mut [u8]) -> usize {
        for (place, &sample) in bytes.chunks_exact_mut(depth.bytes()).zip(samples) {
            let grey = self.grey(sample, depth).to_be_bytes();
            place.copy_from_slice(&grey[2 - depth.bytes()..]);
        }
        samples.iter().filter(|&&sample| !self.holds(sample)).count()
    }
}

/// The smallest and the largest of some numbers, of which there is at least one.
pub fn extremes(numbers: &[i32]) -> (i32, i32) {
    numbers.iter().fold((i32::MAX, i32::MIN), |(smallest, largest), &number| {
        (smallest.min(number), largest.max(number))
    })
}

impl fmt::Display for Range {
    fn fmt(&self, f: &mut fmt::Formatter) -> fmt::Result {
        write!(f, "{}:{}", self.low, self.high)
    }
}
