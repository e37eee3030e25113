//! The corners of filtered levels (02, f), above all in pictures one macroblock wide or high.

mod common;
use common::*;
use lapped::{Mode, Size};
use reference::number::plain;
use reference::operators::{forward, inverse};
use reference::random::{Random, Values};

/// One macroblock, one wide, one high, and two where the corners lie apart.
const SIZES: [(u32, u32); 9] =
    [(1, 1), (1, 2), (2, 1), (1, 5), (5, 1), (1, 413), (525, 1), (2, 2), (3, 4)];

/// The places of the four corners of a grid, each row by row.
fn corners(width: usize, height: usize) -> [[usize; 4]; 4] {
    let firsts = [(0, 0), (0, width - 2), (height - 2, 0), (height - 2, width - 2)];
    firsts.map(|(row, column)| {
        let first = row * width + column;
        [first, first + 1, first + width, first + width + 1]
    })
}

/// Each corner of `filtered` is that of `unfiltered` through Figure 4.13, and is not what the same
/// numbers column by column would give.
fn assert_corners(
    (width, height): (usize, usize),
    unfiltered: &[i32],
    filtered: &[i32],
    what: &str,
) {
    for places in corners(width, height) {
        let [a, b, c, d] = places.map(|place| unfiltered[place]);
        let found = places.map(|place| filtered[place]);
        assert_eq!(found, plain(inverse::overlap_four, [a, b, c, d]), "{what}, {places:?}");
        assert_ne!(found, plain(inverse::overlap_four, [a, c, b, d]), "{what}, {places:?}");
    }
}

fn view_shape(size: Size) -> (usize, usize) {
    (size.view_across(), size.view_down())
}

fn sample_shape(size: Size) -> (usize, usize) {
    (size.samples_across(), size.samples_down())
}

/// Mode 2 filters the corners of the view and mode 1 does not; both filter those of the samples.
#[test]
fn each_corner_of_each_filtered_level() {
    let mut random = Random::new(131);
    for (width, height) in SIZES {
        let shape = size(width, height);
        for values in [Values::Small, Values::Wild] {
            let planes = random_planes(&mut random, shape.macroblocks(), values);
            let what = format!("{width} x {height}, {values:?}");
            let view = view_of(Mode::Unfiltered, shape, &planes);
            assert_same(&view_of(Mode::SampleLevel, shape, &planes), &view, &what);
            assert_corners(
                view_shape(shape),
                &view,
                &view_of(Mode::BothLevels, shape, &planes),
                &what,
            );
            let samples = samples_of(Mode::Unfiltered, shape, &planes);
            let filtered = samples_of(Mode::SampleLevel, shape, &planes);
            assert_corners(sample_shape(shape), &samples, &filtered, &what);
        }
    }
}

/// Of 1 × 1 macroblocks the view in mode 2 is its four corners and nothing else.
#[test]
fn the_view_of_one_macroblock() {
    let mut random = Random::new(132);
    for _ in 0..1000 {
        let planes = random_planes(&mut random, 1, Values::Wild);
        let mut expected = view_of(Mode::Unfiltered, size(1, 1), &planes);
        for places in corners(4, 4) {
            let filtered = plain(inverse::overlap_four, places.map(|place| expected[place]));
            places.into_iter().zip(filtered).for_each(|(place, number)| expected[place] = number);
        }
        assert_same(&view_of(Mode::BothLevels, size(1, 1), &planes), &expected, "the view");
    }
}

/// Samples that are zero but in one corner: the forward call undoes the filter there and nowhere else,
/// so that mode 0 gives the same planes for the corner's numbers undone, and the way back is exact.
#[test]
fn one_corner_alone_undone() {
    let mut random = Random::new(133);
    for (width, height) in SIZES {
        let shape = size(width, height);
        let (across, down) = sample_shape(shape);
        for places in corners(across, down) {
            let numbers: [i32; 4] = random.numbers(4, Values::Wild).try_into().unwrap();
            let samples = |numbers: [i32; 4]| {
                let mut samples = vec![0; shape.samples()];
                places.into_iter().zip(numbers).for_each(|(place, number)| samples[place] = number);
                samples
            };
            let filtered = samples(numbers);
            let undone = samples(plain(forward::overlap_four, numbers));
            let what = format!("{width} x {height}, {places:?}");
            let planes = planes_of(Mode::SampleLevel, shape, &filtered);
            assert_planes(&planes, &planes_of(Mode::Unfiltered, shape, &undone), &what);
            assert_same(&samples_of(Mode::SampleLevel, shape, &planes), &filtered, &what);
            let planes = planes_of(Mode::BothLevels, shape, &filtered);
            assert_same(&samples_of(Mode::BothLevels, shape, &planes), &filtered, &what);
        }
    }
}

/// The planes that the library finds for these samples.
fn planes_of(mode: Mode, size: Size, samples: &[i32]) -> [Vec<i32>; 3] {
    let n = size.macroblocks();
    let [mut dc, mut low, mut high] = [vec![0; n], vec![0; 15 * n], vec![0; 240 * n]];
    let planes = lapped::PlanesMut { dc: &mut dc, low: &mut low, high: &mut high };
    lapped::forward(mode, size, samples, planes).unwrap();
    [dc, low, high]
}
