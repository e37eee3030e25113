//! The finder against the rules of 02 c): that the answered index passes by the reference or, being 0,
//! that no other does, and that the reference's numbers of that index are left.

mod common;
use common::refusals::{Operation, Refusing};
use common::*;
use lapped::{Found, Mode, Refusal, Size};
use reference::find_step::{self, largest_difference, passes, Restored};
use reference::random::{Random, Values};
use reference::step_sizes;

/// One macroblock, one wide, one high, and both larger.
const SMALL: [(u32, u32); 6] = [(1, 1), (1, 3), (3, 1), (2, 2), (3, 2), (1, 5)];

/// A picture in a mode, and what the reference says of it.
struct Picture {
    mode: Mode,
    size: Size,
    samples: Vec<i32>,
}

impl Picture {
    /// The picture of these planes, by the reference.
    fn of_planes(mode: Mode, size: Size, [dc, low, high]: &[Vec<i32>; 3]) -> Self {
        let mut samples = vec![0; size.samples()];
        let plain = reference_size(size);
        reference::inverse(mode.number(), plain, dc, low, high, &mut samples).unwrap();
        Picture { mode, size, samples }
    }

    fn passes(&self, tolerance: u32, index: u32) -> bool {
        passes(self.mode.number(), reference_size(self.size), tolerance, index, &self.samples)
    }

    /// What an index makes of it; none where products leave the range.
    fn restored(&self, index: u32) -> Option<Restored> {
        let size = reference_size(self.size);
        find_step::restored(self.mode.number(), size, index, &self.samples)
    }

    /// How far the nearest of the indices 2 to 255 leaves the samples off.
    fn least_difference(&self) -> u32 {
        let back = find_step::indices().filter_map(|index| self.restored(index));
        let differences = back.map(|back| largest_difference(&self.samples, &back.samples));
        differences.min().expect("an index without products outside").try_into().unwrap()
    }

    /// Whether an index leaves the sample at this place, and no other, outside the tolerance.
    fn is_outside_only_at(&self, place: usize, tolerance: u32, index: u32) -> bool {
        self.restored(index).map_or(false, |back| {
            let mut pairs = self.samples.iter().zip(&back.samples).enumerate();
            pairs.all(|(i, (&one, &other))| {
                (largest_difference(&[one], &[other]) > i64::from(tolerance)) == (i == place)
            })
        })
    }

    /// Calls the library on lent memory, and checks the answer and every number that it wrote.
    fn find(&self, tolerance: u32, random: &mut Random) -> u8 {
        let Picture { mode, size, samples } = self;
        let what = format!("{mode:?}, {size:?}, tolerance {tolerance}");
        let samples = lend_numbers(random, samples);
        let mut second = lend_filled(random, size.samples());
        let n = size.macroblocks();
        let mut planes = [n, 15 * n, 240 * n].map(|count| lend_filled(random, count));
        let lent = (lent_mut(&mut planes), second.slice_mut());
        let index = lapped::find_step(*mode, *size, tolerance, samples.slice(), lent.0, lent.1)
            .expect(&what);
        samples.assert_unchanged(&what);

        match index {
            0 => assert!(!find_step::indices().any(|i| self.passes(tolerance, i)), "{what}: 0"),
            1 => panic!("{what}: 1 is never answered"),
            _ => assert!(self.passes(tolerance, index.into()), "{what}: {index} does not pass"),
        }
        let what = format!("{what}, index {index}");
        let back = self.restored(index.into()).expect(&what);
        for (lent, plane) in planes.iter().zip(&back.planes) {
            lent.assert_holds(plane, &what);
        }
        second.assert_holds(&back.samples, &what);
        index
    }
}

/// Tolerances of all sizes, among them those on both sides of 2^31.
const TOLERANCES: [u32; 9] =
    [0, 1, 5, 300, 1 << 20, (1 << 31) - 1, 1 << 31, u32::MAX - (1 << 20), u32::MAX];

/// Pictures of all small sizes, in all modes, with samples of every kind.
fn small_pictures(random: &mut Random) -> Vec<Picture> {
    let mut pictures = Vec::new();
    for (width, height) in SMALL {
        let size = size(width, height);
        for mode in Mode::ALL {
            for values in Values::ALL {
                let samples = random.numbers(size.samples(), values);
                pictures.push(Picture { mode, size, samples });
            }
        }
    }
    pictures
}

#[test]
fn any_samples() {
    let mut random = Random::new(121);
    for picture in small_pictures(&mut random) {
        for tolerance in TOLERANCES {
            picture.find(tolerance, &mut random);
        }
    }
}

/// Where every coefficient is a multiple of a step, its index passes with any tolerance.
#[test]
fn multiples_of_a_step() {
    let mut random = Random::new(122);
    for (width, height) in SMALL {
        let size = size(width, height);
        for mode in Mode::ALL {
            for index in [2, 3, 15, 16, 40, 57, 100, 200, 254, 255] {
                let step = step_sizes::step(index).unwrap() as i32;
                let values = any(&mut random, &Values::ALL);
                let planes = random_planes(&mut random, size.macroblocks(), values)
                    .map(|plane| plane.iter().map(|i| i % (i32::MAX / step) * step).collect());
                let picture = Picture::of_planes(mode, size, &planes);
                assert!(picture.passes(0, index), "index {index}");
                assert_ne!(picture.find(0, &mut random), 0, "{mode:?}, {size:?}, index {index}");
            }
        }
    }
}

/// With the least tolerance that any index keeps the answer is such an index, and with one less it
/// is 0.
#[test]
fn least_tolerance() {
    let mut random = Random::new(123);
    for picture in small_pictures(&mut random) {
        let (mode, size, least) = (picture.mode, picture.size, picture.least_difference());
        assert_ne!(picture.find(least, &mut random), 0, "{mode:?}, {size:?}");
        if least > 0 {
            assert_eq!(picture.find(least - 1, &mut random), 0, "{mode:?}, {size:?}");
        }
    }
}

/// A sample at an end of the range, which the smallest and the largest step take across to the other
/// end: it alone keeps their indices from passing, at whatever place it stands.
#[test]
fn every_sample_counts() {
    let (mut random, tolerance) = (Random::new(129), 1 << 31);
    let every = (0..256).map(|place| (size(1, 1), place));
    let some = [0, 255, 256, 511, 512, 767].map(|place| (size(3, 1), place));
    for (size, place) in every.chain(some) {
        let picture = loop {
            let mut samples = random.numbers(size.samples(), Values::Small);
            samples[place] = any(&mut random, &[i32::MIN, i32::MAX]);
            let picture = Picture { mode: any(&mut random, &Mode::ALL), size, samples };
            if [2, 255].iter().all(|&index| picture.is_outside_only_at(place, tolerance, index)) {
                break picture;
            }
        };
        picture.find(tolerance, &mut random);
    }
}

/// Planes of two macroblocks: in the first, one number at an end of the range, which index 253 takes
/// outside; in the second, only multiples of that index's step, with samples so near the ends of their
/// range that 254 and 255 take one of them across.
fn planes_for_index_253(plane: usize, end: i32, random: &mut Random) -> [Vec<i32>; 3] {
    // 29 × 2^14
    let step = step_sizes::step(253).unwrap() as i32;
    loop {
        let mut planes = random_planes(random, 2, Values::Wild);
        for numbers in &mut planes {
            let half = numbers.len() / 2;
            numbers[..half].fill(0);
            numbers[half..].iter_mut().for_each(|number| *number = *number / step * step);
        }
        let picture = Picture::of_planes(Mode::Unfiltered, size(2, 1), &planes);
        if ![254, 255].iter().any(|&index| picture.passes(NEARLY_ALL, index)) {
            planes[plane][0] = end;
            return planes;
        }
    }
}

/// Kept but where a sample goes from one end of the range to the other.
const NEARLY_ALL: u32 = u32::MAX - (1 << 24);

/// The samples of index 253 would be near enough if its product were reduced to 32 bits, and those of
/// the larger indices are not: whoever lets such a product pass answers 253.
#[test]
fn products_outside_the_range() {
    let mut random = Random::new(124);
    for plane in 0..3 {
        for end in [i32::MIN, i32::MAX] {
            let planes = planes_for_index_253(plane, end, &mut random);
            let picture = Picture::of_planes(Mode::Unfiltered, size(2, 1), &planes);
            assert_eq!(picture.restored(253), None, "plane {plane}, {end}");
            assert!(![254, 255].iter().any(|&index| picture.passes(NEARLY_ALL, index)));
            picture.find(NEARLY_ALL, &mut random);
            picture.find(u32::MAX, &mut random);
        }
    }
}

/// Step 2 takes 2147483647, alone in a plane, outside the range and −2147483648 not.
#[test]
fn ends_of_the_range() {
    let mut random = Random::new(125);
    for mode in Mode::ALL {
        for plane in 0..3 {
            for (end, by_two) in [(i32::MIN, true), (i32::MAX, false)] {
                let mut planes = [vec![0; 2], vec![0; 30], vec![0; 480]];
                *planes[plane].last_mut().unwrap() = end;
                let picture = Picture::of_planes(mode, size(2, 1), &planes);
                assert_eq!(picture.passes(0, 2), by_two, "{mode:?}, plane {plane}, {end}");
                for tolerance in TOLERANCES {
                    picture.find(tolerance, &mut random);
                }
            }
        }
    }
}

/// Every tolerance is kept by index 255, none of whose products leaves the range.
#[test]
fn largest_picture() {
    let (mode, size) = (Mode::BothLevels, size(525, 413));
    let samples = Random::new(126).numbers(size.samples(), Values::Wild);
    let found = Found::within(mode, size, u32::MAX, &samples).unwrap();
    let picture = Picture { mode, size, samples };
    assert!(found.index > 1, "index {}", found.index);
    let back = picture.restored(found.index.into()).expect("products in the range");
    let lapped::Planes { dc, low, high, .. } = found.planes;
    assert_planes(&[dc, low, high], &back.planes, "largest picture");
    assert_same(&found.samples, &back.samples, "largest picture");
}

const FIND_STEP: Operation<5> = Operation {
    checks: &[1, 2, 3, 7, 7, 4, 5, 6],
    lent: [7, 4, 5, 6, 7],
    library: |a, slices, _| {
        let found = raw::find_step(a.mode, a.size, a.tolerance, slices);
        assert_eq!(found.index, 0, "refused with {}", found.number);
        found.number
    },
    reference: |a, [samples, dc, low, high, second], _| {
        let (size, planes) = (a.reference_size(), [dc, low, high]);
        find_step::find_step(a.mode, size, a.tolerance, samples, planes, second).map(|_| ())
    },
};

#[test]
fn every_set_of_faults() {
    FIND_STEP.assert_refuses_every_set_of_faults(&mut Random::new(127));
}

#[test]
fn limits_with_matching_lengths() {
    FIND_STEP.assert_refuses_outside_the_limits(&mut Random::new(128));
}

/// Which slice has a wrong length is told by the name of the refusal, of samples before planes.
#[test]
fn lent_slices_of_wrong_lengths() {
    const NAMES: [Refusal; 5] = [
        Refusal::SamplesLength,
        Refusal::SamplesLength,
        Refusal::DcLength,
        Refusal::LowPassLength,
        Refusal::HighPassLength,
    ];
    for first in 0..5 {
        for also in first..5 {
            let mut lengths = [512, 512, 2, 30, 480];
            lengths[first] += 1;
            lengths[also] -= 1;
            if first == also {
                lengths[first] -= 1;
            }
            let [samples, mut second, mut dc, mut low, mut high] = lengths.map(|len| vec![0; len]);
            let planes = lapped::PlanesMut { dc: &mut dc, low: &mut low, high: &mut high };
            let (mode, size) = (Mode::SampleLevel, size(2, 1));
            let answer = lapped::find_step(mode, size, 5, &samples, planes, &mut second);
            assert_eq!(answer, Err(NAMES[first]), "slices {first} and {also}");
        }
    }
    let answer = Found::within(Mode::SampleLevel, size(2, 1), 5, &[0; 511]);
    assert_eq!(answer, Err(Refusal::SamplesLength));
}
