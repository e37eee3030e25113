//! Calls of the C interface with faulty arguments: that they are refused with nothing changed.

use super::faults::{try_sets_of_faults, Check};
use super::{lend_filled_bytes, lend_numbers, raw_size, slices};
use lapped_sys::{lapped_answer, lapped_size};
use reference::random::{Random, Values};
use std::fmt::Debug;

/// What the checks 4, 5, 6, 7, 8 and 12 are about has a length.
const LENGTH_NUMBERS: [u32; 6] = [4, 5, 6, 7, 8, 12];

/// What a check of a length is about: the slice that the check of this number is about when it is made
/// for the first time (0), or the second (1), and so on.
#[derive(Clone, Copy)]
pub struct Slice {
    number: u32,
    time: usize,
}

impl Slice {
    /// The slices that checks of these numbers are about, in the same order.
    fn all(numbers: &[u32]) -> Vec<Slice> {
        let time = |i: usize| numbers[..i].iter().filter(|&&number| number == numbers[i]).count();
        (0..numbers.len()).map(|i| Slice { number: numbers[i], time: time(i) }).collect()
    }

    /// Where the arguments have the length.
    fn place(self) -> [usize; 2] {
        let place = LENGTH_NUMBERS.iter().position(|&number| number == self.number);
        [self.time, place.expect("a check of a length")]
    }
}

impl From<u32> for Slice {
    fn from(number: u32) -> Self {
        Slice { number, time: 0 }
    }
}

/// The arguments of a call about one picture, but for the contents of what is lent.
#[derive(Clone, Copy, Debug)]
pub struct Arguments {
    pub mode: u32,
    pub size: lapped_size,
    /// The step indices of DC, low-pass and high-pass, for a call that takes them.
    pub steps: [u32; 3],
    /// How far a sample may be off, for a call that takes it; every tolerance is sound.
    pub tolerance: u32,
    /// The lengths of what the numbers above are about, in that order, for each time. No call checks
    /// lengths by the same number more than three times.
    lengths: [[usize; 6]; 3],
    /// Of the contents, the only number that a check is about.
    outside: Option<Outside>,
}

/// A level whose product with its band's step is outside the range, first or last in its plane.
#[derive(Clone, Copy, Debug)]
struct Outside {
    band: usize,
    last: bool,
    level: i32,
}

impl Arguments {
    /// Lengths that fit the size, and nothing wrong with steps and levels; the mode and the size may
    /// be any.
    pub fn fitting(mode: u32, width: u32, height: u32) -> Self {
        let size = raw_size(width, height);
        let n = size.width as usize * size.height as usize;
        let lengths = [[n, 15 * n, 240 * n, 256 * n, 16 * n, 32 + 1024 * n]; 3];
        Arguments { mode, size, steps: [0, 40, 255], tolerance: 5, lengths, outside: None }
    }

    /// Sound arguments of a small picture; in mode 2 it is neither one macroblock wide nor one high,
    /// which would not do for a plane file.
    pub fn sound(random: &mut Random) -> Self {
        let mode = random.below(3) as u32;
        let least = if mode == 2 { 2 } else { 1 };
        let [width, height] = [0; 2].map(|_| least + random.below(3) as u32);
        let steps = [0; 3].map(|_| random.below(256) as u32);
        let tolerance = random.bits() as u32;
        Arguments { steps, tolerance, ..Arguments::fitting(mode, width, height) }
    }

    /// The size for the reference.
    pub fn reference_size(&self) -> reference::Size {
        reference::Size::new(self.size.width, self.size.height)
    }

    /// The length of what a check is about.
    pub fn length(&self, slice: impl Into<Slice>) -> usize {
        let [time, place] = slice.into().place();
        self.lengths[time][place]
    }

    fn set_length(&mut self, slice: Slice, length: usize) {
        let [time, place] = slice.place();
        self.lengths[time][place] = length;
    }

    /// The checks of these numbers, in the same order.
    pub fn checks(numbers: &[u32]) -> Vec<Check<Arguments>> {
        let check =
            |slice: Slice| Check::new(slice.number, move |a: &Arguments, _| a.broken(slice));
        Slice::all(numbers).into_iter().map(check).collect()
    }

    /// Every way to make a check fail, the other arguments left as they are.
    pub fn broken(&self, check: impl Into<Slice>) -> Vec<Arguments> {
        let check = check.into();
        let with = |change: &dyn Fn(&mut Arguments)| {
            let mut arguments = *self;
            change(&mut arguments);
            arguments
        };
        let bands = [0, 1, 2];
        match check.number {
            1 => BAD_MODES.map(|mode| with(&|a| a.mode = mode)).into(),
            2 => bad_sides(525).map(|width| with(&|a| a.size.width = width)).into(),
            3 => bad_sides(413).map(|height| with(&|a| a.size.height = height)).into(),
            14 => {
                bands.map(|band| BAD_INDICES.map(|index| with(&|a| a.steps[band] = index))).concat()
            }
            15 => bands.map(|band| self.with_products_outside(band)).concat(),
            _ => bad_lengths(self.length(check))
                .into_iter()
                .map(|length| with(&|a| a.set_length(check, length)))
                .collect(),
        }
    }

    /// The first levels too large and the largest of all, of both signs, first and last in a plane.
    fn with_products_outside(mut self, band: usize) -> Vec<Arguments> {
        // No level is too large for step 1, which indices 0 and 1 choose.
        self.steps[band] = self.steps[band].max(2);
        let step = reference::step_sizes::step(self.steps[band]).expect("an index up to 255");
        let step = step as i32;
        let levels = [i32::MAX / step + 1, i32::MIN / step - 1, i32::MAX, i32::MIN];
        let ends = [false, true].map(|last| levels.map(|level| Outside { band, last, level }));
        let outside = ends.concat().into_iter().map(Some);
        outside.map(|outside| Arguments { outside, ..self }).collect()
    }

    /// Makes levels of a band's numbers, all small enough for any step but the one to be refused.
    fn set_levels(&self, band: usize, numbers: &mut [i32]) {
        // The largest step is that of index 255.
        const ENOUGH: i32 = i32::MAX / (31 << 14);
        numbers.iter_mut().for_each(|number| *number %= ENOUGH + 1);
        match self.outside.filter(|outside| outside.band == band) {
            // A plane that another fault has left empty has no place for it.
            Some(_) if numbers.is_empty() => {}
            Some(Outside { last, level, .. }) => {
                numbers[if last { numbers.len() - 1 } else { 0 }] = level;
            }
            None => {}
        }
    }
}

pub const BAD_MODES: [u32; 7] = [3, 4, 255, 256, 1 << 16, 0x8000_0000, u32::MAX];

/// Step indices above 255. Cut to a byte, each of them would be sound.
pub const BAD_INDICES: [u32; 7] = [256, 257, 296, 511, 1 << 16, 0x8000_0000, u32::MAX];

pub fn bad_sides(limit: u32) -> [u32; 7] {
    [0, limit + 1, limit + 2, 1 << 16, 0x8000_0000, u32::MAX - 1, u32::MAX]
}

/// Lengths other than `right`: by one, none at all, or a wrong multiple.
pub fn bad_lengths(right: usize) -> Vec<usize> {
    let mut lengths = vec![right - 1, right + 1, 0, right / 15, right / 16];
    lengths.extend([2, 15, 16].map(|factor| factor * right));
    lengths.retain(|&length| length != right);
    lengths
}

/// The number of a refused call of the transform, which tells of no wrap, whatever it is lent.
pub fn number_of(answer: lapped_answer) -> u32 {
    assert!(!answer.wrapped, "refused with {}", answer.number);
    answer.number
}

/// A call of the C interface and the reference's, to which N slices of numbers are lent, and bytes.
pub trait Refusing<const N: usize> {
    type Arguments: Clone + Debug;

    fn sound(&self, random: &mut Random) -> Self::Arguments;

    /// The checks, in the order of the papers.
    fn checks(&self) -> Vec<Check<Self::Arguments>>;

    /// What is to be lent for these arguments.
    fn numbers(&self, arguments: &Self::Arguments, random: &mut Random) -> [Vec<i32>; N];

    /// How many bytes are to be lent.
    fn bytes(&self, arguments: &Self::Arguments) -> usize;

    fn library(&self, a: &Self::Arguments, numbers: [&mut [i32]; N], bytes: &mut [u8]) -> u32;

    fn reference(
        &self,
        a: &Self::Arguments,
        numbers: [&mut [i32]; N],
        bytes: &mut [u8],
    ) -> Result<(), u32>;

    /// Both refuse these arguments with `expected`, and change nothing.
    fn assert_refuses(
        &self,
        arguments: &Self::Arguments,
        expected: u32,
        what: &str,
        random: &mut Random,
    ) {
        let contents = self.numbers(arguments, random);
        let mut numbers = contents.map(|numbers| lend_numbers(random, &numbers));
        let mut bytes = lend_filled_bytes(random, self.bytes(arguments));
        let answer = self.library(arguments, slices(&mut numbers), bytes.slice_mut());
        assert_eq!(answer, expected, "{what}");
        numbers.iter().for_each(|lent| lent.assert_unchanged(what));
        bytes.assert_unchanged(what);

        let answer = self.reference(arguments, slices(&mut numbers), bytes.slice_mut());
        let what = format!("the reference: {what}");
        assert_eq!(answer, Err(expected), "{what}");
        numbers.iter().for_each(|lent| lent.assert_unchanged(&what));
        bytes.assert_unchanged(&what);
    }

    fn assert_refuses_every_set_of_faults(&self, random: &mut Random) {
        let sound = |random: &mut Random| self.sound(random);
        try_sets_of_faults(&self.checks(), sound, random, |case, random| {
            self.assert_refuses(&case.arguments, case.number, &case.what, random);
        });
    }
}

/// A call with its arguments, the slices of numbers that they are about, and bytes.
type Call<Answer, const N: usize> = fn(Arguments, [&mut [i32]; N], &mut [u8]) -> Answer;

/// A call about one picture.
pub struct Operation<const N: usize> {
    /// The numbers of the checks, in the order of the papers.
    pub checks: &'static [u32],
    /// The slices of numbers, by the checks of their lengths. Bytes are lent where 12 is a check.
    pub lent: [u32; N],
    pub library: Call<u32, N>,
    pub reference: Call<Result<(), u32>, N>,
}

impl<const N: usize> Refusing<N> for Operation<N> {
    type Arguments = Arguments;

    fn sound(&self, random: &mut Random) -> Arguments {
        Arguments::sound(random)
    }

    fn checks(&self) -> Vec<Check<Arguments>> {
        Arguments::checks(self.checks)
    }

    /// Any numbers, or levels in the planes that are read where 15 is a check.
    fn numbers(&self, arguments: &Arguments, random: &mut Random) -> [Vec<i32>; N] {
        let lent = Slice::all(&self.lent);
        std::array::from_fn(|i| {
            let mut numbers = random.numbers(arguments.length(lent[i]), Values::Wild);
            if self.checks.contains(&15) && lent[i].time == 0 {
                arguments.set_levels(i, &mut numbers);
            }
            numbers
        })
    }

    fn bytes(&self, arguments: &Arguments) -> usize {
        if self.checks.contains(&12) {
            arguments.length(12)
        } else {
            0
        }
    }

    fn library(&self, a: &Arguments, numbers: [&mut [i32]; N], bytes: &mut [u8]) -> u32 {
        (self.library)(*a, numbers, bytes)
    }

    fn reference(
        &self,
        a: &Arguments,
        numbers: [&mut [i32]; N],
        bytes: &mut [u8],
    ) -> Result<(), u32> {
        (self.reference)(*a, numbers, bytes)
    }
}

impl<const N: usize> Operation<N> {
    /// Just outside the limits, with all lengths right for that size.
    pub fn assert_refuses_outside_the_limits(&self, random: &mut Random) {
        for (mode, width, height, expected) in
            [(0, 0, 1, 2), (1, 526, 1, 2), (2, 1, 0, 3), (0, 1, 414, 3), (3, 0, 1, 1), (3, 1, 1, 1)]
        {
            let arguments = Arguments::fitting(mode, width, height);
            self.assert_refuses(&arguments, expected, &format!("{arguments:?}"), random);
        }
    }
}
