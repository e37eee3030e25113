//! The inverse call against the reference and the values of 01.

mod common;
use common::refusals::{number_of, Arguments, Operation, Refusing};
use common::*;
use lapped::{Mode, Size, Wrapped};
use reference::random::{Random, Values};

/// Calls the library on lent memory, and checks that it only wrote the samples. Gives these and whether
/// a sum wrapped.
fn inverse(
    mode: Mode,
    size: Size,
    planes: &[Vec<i32>; 3],
    random: &mut Random,
) -> (Vec<i32>, Wrapped) {
    let lent = lend_planes(random, planes);
    let mut samples = lend_filled(random, size.samples());
    let wrapped = lapped::inverse(mode, size, lent_ref(&lent), samples.slice_mut()).unwrap();
    for plane in lent {
        plane.assert_unchanged("a plane");
    }
    let result = samples.slice().to_vec();
    samples.assert_holds(&result, "samples");
    (result, wrapped)
}

fn assert_agrees(mode: Mode, size: Size, planes: &[Vec<i32>; 3], random: &mut Random) {
    let [dc, low, high] = planes;
    let mut expected = vec![0; 256 * dc.len()];
    let told =
        reference::inverse(mode.number(), reference_size(size), dc, low, high, &mut expected);
    let (samples, wrapped) = inverse(mode, size, planes, random);
    let what = format!("{mode:?}, {size:?}");
    assert_same(&samples, &expected, &what);
    assert_eq!(Ok(wrapped.is_yes()), told, "{what}: whether a sum wrapped");
}

#[test]
fn dc_one_gives_nine_ones() {
    let planes = [vec![1], vec![0; 15], vec![0; 240]];
    let (samples, wrapped) = inverse(Mode::Unfiltered, size(1, 1), &planes, &mut Random::new(1));
    let mut expected = [[0; 16]; 16];
    for (block_row, block_column) in [(0, 1), (1, 0), (1, 1)] {
        for (row, column) in [(0, 1), (1, 0), (1, 1)] {
            expected[4 * block_row + row][4 * block_column + column] = 1;
        }
    }
    assert_same(&samples, &expected.concat(), "samples");
    assert_eq!(wrapped, Wrapped::No);
}

#[test]
fn dc_64_gives_fours() {
    let planes = [vec![64], vec![0; 15], vec![0; 240]];
    let (samples, wrapped) = inverse(Mode::Unfiltered, size(1, 1), &planes, &mut Random::new(1));
    assert_same(&samples, &[4; 256], "samples");
    assert_eq!(wrapped, Wrapped::No);
}

#[test]
fn random_pictures() {
    let mut random = Random::new(3);
    for (width, height) in SHAPES {
        for mode in Mode::ALL {
            for values in Values::ALL {
                let n = (width * height) as usize;
                let planes = random_planes(&mut random, n, values);
                assert_agrees(mode, size(width, height), &planes, &mut random);
            }
        }
    }
}

/// Small numbers on a few places: what is lost among random numbers everywhere shows here.
#[test]
fn sparse_pictures() {
    let mut random = Random::new(4);
    for (width, height) in [(1, 1), (1, 3), (3, 1), (3, 3)] {
        let n = (width * height) as usize;
        for mode in Mode::ALL {
            for _ in 0..100 {
                let mut planes = [vec![0; n], vec![0; 15 * n], vec![0; 240 * n]];
                for plane in &mut planes {
                    let place = random.below(plane.len());
                    plane[place] = random.number(Values::Small);
                }
                assert_agrees(mode, size(width, height), &planes, &mut random);
            }
        }
    }
}

#[test]
fn largest_picture() {
    let mut random = Random::new(5);
    let planes = random_planes(&mut random, 525 * 413, Values::Wild);
    assert_agrees(Mode::BothLevels, size(525, 413), &planes, &mut random);
}

const INVERSE: Operation<4> = Operation {
    checks: &[1, 2, 3, 4, 5, 6, 7],
    lent: [4, 5, 6, 7],
    library: |a, slices, _| number_of(raw::inverse(a.mode, a.size, slices)),
    reference: |a, [dc, low, high, samples], _| {
        reference::inverse(a.mode, a.reference_size(), dc, low, high, samples).map(|_| ())
    },
};

#[test]
fn every_set_of_faults() {
    INVERSE.assert_refuses_every_set_of_faults(&mut Random::new(6));
}

#[test]
fn limits_with_matching_lengths() {
    let mut random = Random::new(7);
    INVERSE.assert_refuses_outside_the_limits(&mut random);
    let arguments = Arguments::fitting(2, 526, 414);
    INVERSE.assert_refuses(&arguments, 2, "one beyond the largest picture", &mut random);
}
