//! Steps, quantising and restoring against the reference and the rules of 02 a).

mod common;
use common::refusals::{Operation, Refusing, BAD_INDICES};
use common::*;
use lapped::{Mode, PlanesMut, PlanesRef, Refusal, Size, Steps};
use reference::random::{Random, Values};
use reference::step_sizes;

/// The planes of DC, low-pass and high-pass, of coefficients or of levels.
type Three = [Vec<i32>; 3];

type Library = fn(Mode, Size, Steps, PlanesRef, PlanesMut) -> Result<(), Refusal>;
type Reference =
    fn(u32, reference::Size, [u32; 3], [&[i32]; 3], [&mut [i32]; 3]) -> Result<(), u32>;

/// One of the two calls, of the library and of the reference.
struct Call {
    library: Library,
    reference: Reference,
}

const QUANTISE: Call = Call { library: lapped::quantise, reference: step_sizes::quantise };
const RESTORE: Call = Call { library: lapped::restore, reference: step_sizes::restore };

impl Call {
    /// Calls the library on lent memory, and checks that it wrote all that it was to write and no more,
    /// and nothing where it refused.
    fn run(
        &self,
        mode: Mode,
        size: Size,
        steps: Steps,
        planes: &Three,
        random: &mut Random,
    ) -> Result<Three, Refusal> {
        let read = lend_planes(random, planes);
        let mut written = [0, 1, 2].map(|i| lend_filled(random, planes[i].len()));
        let answer = (self.library)(mode, size, steps, lent_ref(&read), lent_mut(&mut written));
        read.iter().for_each(|plane| plane.assert_unchanged("a plane read"));
        if answer.is_err() {
            written.iter().for_each(|plane| plane.assert_unchanged("a plane written"));
        }
        answer.map(|()| {
            written.map(|plane| {
                let result = plane.slice().to_vec();
                plane.assert_holds(&result, "a plane written");
                result
            })
        })
    }

    /// What the library gives, which must be what the reference gives, a refusal too.
    fn agreed(
        &self,
        mode: Mode,
        size: Size,
        steps: Steps,
        planes: &Three,
        random: &mut Random,
    ) -> Result<Three, Refusal> {
        let what = format!("{mode:?}, {size:?}, {steps:?}");
        let mut expected = [0, 1, 2].map(|i| vec![0; planes[i].len()]);
        let answer = {
            let indices = [steps.dc, steps.low, steps.high].map(u32::from);
            let [dc, low, high] = planes;
            let [to_dc, to_low, to_high] = &mut expected;
            let (read, written) = ([&dc[..], low, high], [&mut to_dc[..], to_low, to_high]);
            (self.reference)(mode.number(), reference_size(size), indices, read, written)
        };
        let found = self.run(mode, size, steps, planes, random);
        match &found {
            Ok(planes) => {
                assert_eq!(answer, Ok(()), "{what}");
                assert_planes(planes, &expected, &what);
            }
            Err(refusal) => assert_eq!(answer, Err(refusal.number()), "{what}"),
        }
        found
    }
}

/// A picture as wide as there are numbers, all of which stand in each of its planes.
fn spread(numbers: &[i32]) -> (Size, Three) {
    let planes = [1, 15, 240].map(|times| numbers.repeat(times));
    (size(numbers.len() as u32, 1), planes)
}

/// A picture of two macroblocks with a number first or last in one plane and zeros everywhere else,
/// for every such place.
fn single_number(number: i32) -> Vec<(Size, Three)> {
    let mut pictures = Vec::new();
    for plane in 0..3 {
        for last in [false, true] {
            let mut planes = [vec![0; 2], vec![0; 30], vec![0; 480]];
            let place = if last { planes[plane].len() - 1 } else { 0 };
            planes[plane][place] = number;
            pictures.push((size(2, 1), planes));
        }
    }
    pictures
}

/// Those of the numbers that have 32 bits, each once.
fn in_range(numbers: impl IntoIterator<Item = i64>) -> Vec<i32> {
    let mut numbers: Vec<i32> = numbers.into_iter().filter_map(|i| i32::try_from(i).ok()).collect();
    numbers.sort_unstable();
    numbers.dedup();
    numbers
}

/// Coefficients at zero and at the ends of the range, about multiples of the step and about half a
/// step from them, and any others.
fn telling_coefficients(step: i64, random: &mut Random) -> Vec<i32> {
    let most = i64::from(i32::MAX) / step;
    let ends = [i32::MIN, i32::MIN + 1, i32::MAX - 1, i32::MAX];
    let others = random.numbers(100, Values::Wild);
    let mut numbers: Vec<i64> = others.into_iter().chain(ends).map(i64::from).collect();
    let some = [0; 4].map(|_| random.below(most as usize) as i64);
    for times in [0, 1, 2, 3, most / 2, most - 1, most, most + 1].into_iter().chain(some) {
        for half in [-(step / 2), 0, step / 2] {
            for near in [-1, 0, 1] {
                let number = times * step + half + near;
                numbers.extend([number, -number]);
            }
        }
    }
    in_range(numbers)
}

/// The least and the largest level whose product with the step is in the range.
fn limits(step: i64) -> [i64; 2] {
    [i32::MIN, i32::MAX].map(|end| i64::from(end) / step)
}

/// The numbers above as levels, and how many steps they are, as far as these can be restored.
fn telling_levels(step: i64, random: &mut Random) -> Vec<i32> {
    let [least, most] = limits(step);
    let numbers = telling_coefficients(step, random).into_iter().map(i64::from);
    let levels = numbers.flat_map(|number| [number, number / step]);
    in_range(levels.filter(|level| (least..=most).contains(level)))
}

/// Every index with its step.
fn indices() -> impl Iterator<Item = (u8, i64)> {
    (0..=255).map(|index| (index, step_sizes::step(index.into()).unwrap().into()))
}

/// The steps begin 1, 1, 2, .. 31, and sixteen indices further on they are twice as large.
#[test]
fn every_index_has_its_step() {
    let mut steps: Vec<u32> = [1].into_iter().chain(1..32).collect();
    for index in 32..256 {
        steps.push(2 * steps[index - 16]);
    }
    for (index, step) in steps.into_iter().enumerate() {
        assert_eq!(raw::step(index as u32), step, "index {index}");
        assert_eq!(lapped::step(index as u8), step, "index {index}");
        assert_eq!(step_sizes::step(index as u32), Some(step), "the reference: index {index}");
    }
    for index in BAD_INDICES {
        assert_eq!(raw::step(index), 0, "index {index}");
        assert_eq!(step_sizes::step(index), None, "the reference: index {index}");
    }
}

#[test]
fn coefficients_of_every_index() {
    let mut random = Random::new(101);
    for (index, step) in indices() {
        let (size, planes) = spread(&telling_coefficients(step, &mut random));
        let mode = any(&mut random, &Mode::ALL);
        let steps = Steps::all(index);
        let levels = QUANTISE.agreed(mode, size, steps, &planes, &mut random).unwrap();
        for (coefficient, level) in planes[0].iter().zip(&levels[0]) {
            let error = i64::from(*level) * step - i64::from(*coefficient);
            assert!(error.abs() <= step / 2, "{coefficient} by step {step} gives {level}");
            assert!(*coefficient != 0 || *level == 0, "zero by step {step} gives {level}");
        }
        if step == 1 {
            assert_planes(&levels, &planes, "step 1 changes nothing");
        }
    }
}

#[test]
fn levels_of_every_index() {
    let mut random = Random::new(102);
    for (index, step) in indices() {
        let (size, levels) = spread(&telling_levels(step, &mut random));
        let mode = any(&mut random, &Mode::ALL);
        let steps = Steps::all(index);
        let planes = RESTORE.agreed(mode, size, steps, &levels, &mut random).unwrap();
        if step == 1 {
            assert_planes(&planes, &levels, "step 1 changes nothing");
        }
        let again = QUANTISE.run(mode, size, steps, &planes, &mut random).unwrap();
        assert_planes(&again, &levels, &format!("levels restored by step {step} and quantised"));
    }
}

/// The first levels whose products are outside the range, for every step that has such levels.
#[test]
fn levels_too_large_for_every_index() {
    let mut random = Random::new(103);
    for (index, step) in indices().filter(|(_, step)| *step > 1) {
        let [least, most] = limits(step);
        for level in in_range([least - 1, most + 1]) {
            for (size, levels) in single_number(level) {
                let mode = any(&mut random, &Mode::ALL);
                let found = RESTORE.agreed(mode, size, Steps::all(index), &levels, &mut random);
                assert_eq!(found, Err(Refusal::Product), "level {level}, step {step}");
            }
        }
    }
}

#[test]
fn ends_of_the_range_by_steps_one_and_two() {
    let mut random = Random::new(104);
    let mode = Mode::BothLevels;
    let pictures = |number| single_number(number).into_iter();
    for (index, least, most) in [(1, i32::MIN, i32::MAX), (2, -1_073_741_824, 1_073_741_824)] {
        let steps = Steps::all(index);
        for ((size, planes), (_, levels)) in pictures(i32::MIN).zip(pictures(least)) {
            let found = QUANTISE.run(mode, size, steps, &planes, &mut random).unwrap();
            assert_planes(&found, &levels, "levels");
            let found = RESTORE.run(mode, size, steps, &levels, &mut random).unwrap();
            assert_planes(&found, &planes, "−2147483648 comes back");
        }
        for ((size, planes), (_, levels)) in pictures(i32::MAX).zip(pictures(most)) {
            let found = QUANTISE.run(mode, size, steps, &planes, &mut random).unwrap();
            assert_planes(&found, &levels, "levels");
            let found = RESTORE.run(mode, size, steps, &levels, &mut random);
            let expected = if index == 1 { Ok(planes) } else { Err(Refusal::Product) };
            assert_eq!(found, expected, "step {index}");
        }
    }
}

#[test]
fn each_band_by_its_own_step() {
    let mut random = Random::new(105);
    let (mode, size) = (Mode::Unfiltered, size(3, 2));
    let of = |dc, low, high| [vec![dc; 6], vec![low; 6 * 15], vec![high; 6 * 240]];
    // Indices of the steps 1, 10 and 100, with the level of -1234 and what that is restored to.
    let known = [(0, -1234, -1234), (10, -123, -1230), (57, -12, -1200)];
    for (dc, low, high) in [(0, 1, 2), (0, 2, 1), (1, 0, 2), (1, 2, 0), (2, 0, 1), (2, 1, 0)] {
        let (dc, low, high) = (known[dc], known[low], known[high]);
        let steps = Steps { dc: dc.0, low: low.0, high: high.0 };
        let levels = of(dc.1, low.1, high.1);
        let found = QUANTISE.run(mode, size, steps, &of(-1234, -1234, -1234), &mut random).unwrap();
        assert_planes(&found, &levels, &format!("levels, {steps:?}"));
        let found = RESTORE.run(mode, size, steps, &levels, &mut random).unwrap();
        assert_planes(&found, &of(dc.2, low.2, high.2), &format!("coefficients, {steps:?}"));
    }
}

/// Indices of three different steps.
fn different_steps(random: &mut Random) -> Steps {
    loop {
        let [dc, low, high] = [0; 3].map(|_| random.below(256) as u8);
        let [a, b, c] = [dc, low, high].map(|index| step_sizes::step(index.into()));
        if a != b && b != c && c != a {
            return Steps { dc, low, high };
        }
    }
}

/// Levels that can be restored by these steps, up to the largest.
fn restorable(mut numbers: Three, steps: Steps) -> Three {
    for (plane, index) in numbers.iter_mut().zip([steps.dc, steps.low, steps.high]) {
        let most = i64::from(i32::MAX / step_sizes::step(index.into()).unwrap() as i32);
        plane.iter_mut().for_each(|number| *number = (i64::from(*number) % (most + 1)) as i32);
    }
    numbers
}

fn assert_agrees_both_ways(
    mode: Mode,
    size: Size,
    steps: Steps,
    numbers: Three,
    random: &mut Random,
) {
    QUANTISE.agreed(mode, size, steps, &numbers, random).unwrap();
    let levels = restorable(numbers, steps);
    RESTORE.agreed(mode, size, steps, &levels, random).unwrap();
}

#[test]
fn random_pictures() {
    let mut random = Random::new(106);
    for (width, height) in SHAPES {
        let shape = size(width, height);
        for mode in Mode::ALL {
            for values in Values::ALL {
                let steps = different_steps(&mut random);
                let numbers = random_planes(&mut random, shape.macroblocks(), values);
                // As levels they are refused or not, as it comes.
                let _ = RESTORE.agreed(mode, shape, steps, &numbers, &mut random);
                assert_agrees_both_ways(mode, shape, steps, numbers, &mut random);
            }
        }
    }
}

#[test]
fn largest_picture() {
    let mut random = Random::new(107);
    let steps = different_steps(&mut random);
    let numbers = random_planes(&mut random, 525 * 413, Values::Wild);
    assert_agrees_both_ways(Mode::BothLevels, size(525, 413), steps, numbers, &mut random);
}

const QUANTISE_REFUSALS: Operation<6> = Operation {
    checks: &[1, 2, 3, 14, 4, 5, 6, 4, 5, 6],
    lent: [4, 5, 6, 4, 5, 6],
    library: |a, slices, _| raw::quantise(a.mode, a.size, a.steps, slices),
    reference: |a, [dc, low, high, to_dc, to_low, to_high], _| {
        let (planes, levels) = ([&*dc, low, high], [to_dc, to_low, to_high]);
        step_sizes::quantise(a.mode, a.reference_size(), a.steps, planes, levels)
    },
};

const RESTORE_REFUSALS: Operation<6> = Operation {
    checks: &[1, 2, 3, 14, 4, 5, 6, 4, 5, 6, 15],
    lent: [4, 5, 6, 4, 5, 6],
    library: |a, slices, _| raw::restore(a.mode, a.size, a.steps, slices),
    reference: |a, [dc, low, high, to_dc, to_low, to_high], _| {
        let (levels, planes) = ([&*dc, low, high], [to_dc, to_low, to_high]);
        step_sizes::restore(a.mode, a.reference_size(), a.steps, levels, planes)
    },
};

#[test]
fn every_set_of_faults_of_quantise() {
    QUANTISE_REFUSALS.assert_refuses_every_set_of_faults(&mut Random::new(108));
}

#[test]
fn every_set_of_faults_of_restore() {
    RESTORE_REFUSALS.assert_refuses_every_set_of_faults(&mut Random::new(109));
}

#[test]
fn limits_with_matching_lengths() {
    QUANTISE_REFUSALS.assert_refuses_outside_the_limits(&mut Random::new(110));
    RESTORE_REFUSALS.assert_refuses_outside_the_limits(&mut Random::new(111));
}

/// Which plane has a wrong length is told by the name of the refusal, of those read before those
/// written.
#[test]
fn lent_planes_of_wrong_lengths() {
    let names = [Refusal::DcLength, Refusal::LowPassLength, Refusal::HighPassLength];
    let planes = |wrong: usize| {
        let mut planes = [vec![0; 2], vec![0; 30], vec![0; 480]];
        if let Some(plane) = planes.get_mut(wrong) {
            plane.pop();
        }
        planes
    };
    for call in [QUANTISE, RESTORE] {
        for read in 0..=3 {
            for written in 0..=3 {
                let [mut dc, mut low, mut high] = planes(written);
                let to = PlanesMut { dc: &mut dc, low: &mut low, high: &mut high };
                let (size, steps) = (size(2, 1), Steps::all(40));
                let from = planes(read);
                let answer = (call.library)(Mode::SampleLevel, size, steps, planes_ref(&from), to);
                let name = names.get(read).or_else(|| names.get(written));
                assert_eq!(answer.err(), name.copied(), "planes {read} and {written}");
            }
        }
    }
}
