//! The forward call against the reference, and round trips both ways.

mod common;
use common::refusals::{number_of, Operation, Refusing};
use common::*;
use lapped::{Mode, Size, Wrapped};
use reference::random::{Random, Values};

/// Calls the library on lent memory, and checks that it only wrote the planes. Gives these and whether
/// a sum wrapped.
fn forward(
    mode: Mode,
    size: Size,
    samples: &[i32],
    random: &mut Random,
) -> ([Vec<i32>; 3], Wrapped) {
    let n = samples.len() / 256;
    let samples = lend_numbers(random, samples);
    let mut planes = [n, 15 * n, 240 * n].map(|count| lend_filled(random, count));
    let wrapped = lapped::forward(mode, size, samples.slice(), lent_mut(&mut planes)).unwrap();
    samples.assert_unchanged("samples");
    let planes = planes.map(|plane| {
        let result = plane.slice().to_vec();
        plane.assert_holds(&result, "a plane");
        result
    });
    (planes, wrapped)
}

fn assert_agrees(mode: Mode, size: Size, samples: &[i32], random: &mut Random) {
    let n = samples.len() / 256;
    let mut expected = [vec![0; n], vec![0; 15 * n], vec![0; 240 * n]];
    let [dc, low, high] = &mut expected;
    let told = reference::forward(mode.number(), reference_size(size), samples, dc, low, high);
    let (planes, wrapped) = forward(mode, size, samples, random);
    let what = format!("{mode:?}, {size:?}");
    assert_planes(&planes, &expected, &what);
    assert_eq!(Ok(wrapped.is_yes()), told, "{what}: whether a sum wrapped");
}

#[test]
fn random_pictures_and_round_trips() {
    let mut random = Random::new(21);
    for (width, height) in SHAPES {
        let shape = size(width, height);
        let n = (width * height) as usize;
        for mode in Mode::ALL {
            for values in Values::ALL {
                let what = format!("{mode:?}, {shape:?}, {values:?}");
                let samples = random.numbers(256 * n, values);
                assert_agrees(mode, shape, &samples, &mut random);

                let (planes, _) = forward(mode, shape, &samples, &mut random);
                let back = samples_of(mode, shape, &planes);
                assert_same(&back, &samples, &format!("{what}, inverse of forward"));

                let planes = random_planes(&mut random, n, values);
                let samples = samples_of(mode, shape, &planes);
                let (back, _) = forward(mode, shape, &samples, &mut random);
                assert_planes(&back, &planes, &format!("{what}, forward of inverse"));
            }
        }
    }
}

#[test]
fn largest_picture() {
    let mut random = Random::new(22);
    let samples = random.numbers(256 * 525 * 413, Values::Wild);
    assert_agrees(Mode::BothLevels, size(525, 413), &samples, &mut random);
}

const FORWARD: Operation<4> = Operation {
    checks: &[1, 2, 3, 7, 4, 5, 6],
    lent: [7, 4, 5, 6],
    library: |a, slices, _| number_of(raw::forward(a.mode, a.size, slices)),
    reference: |a, [samples, dc, low, high], _| {
        reference::forward(a.mode, a.reference_size(), samples, dc, low, high).map(|_| ())
    },
};

#[test]
fn every_set_of_faults() {
    FORWARD.assert_refuses_every_set_of_faults(&mut Random::new(23));
}

#[test]
fn limits_with_matching_lengths() {
    FORWARD.assert_refuses_outside_the_limits(&mut Random::new(24));
}
