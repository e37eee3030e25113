//! The core transform and the overlap filters against jxrlib's kernels, bit for bit.
//!
//! The main below runs the comparisons where Debian's libjxr0 is installed. Where it is not, it says
//! so and counts nothing as passed; a test of the usual kind would have to pass in silence.

mod common;
use common::*;
use jxrlib::Kernels;
use lapped::{Mode, Size};
use reference::level::Grid;
use reference::number::{plain, Plain};
use reference::operators::{inverse, Block};
use reference::random::{Random, Values};

type Comparison = fn(&Kernels);

const COMPARISONS: [(&str, Comparison); 6] = [
    ("core_transform_of_the_reference", core_transform_of_the_reference),
    ("filters_of_the_reference", filters_of_the_reference),
    ("core_transform_of_level_one", core_transform_of_level_one),
    ("core_transform_of_level_two", core_transform_of_level_two),
    ("filters_of_level_one", filters_of_level_one),
    ("filters_of_level_two", filters_of_level_two),
];

fn main() {
    let kernels = match Kernels::load() {
        Ok(kernels) => kernels,
        Err(why) => return println!("jxrlib: comparison skipped: {why}"),
    };
    for (name, compare) in COMPARISONS {
        compare(&kernels);
        println!("test {name} ... ok");
    }
    println!("jxrlib: compared");
    // The line by which cargo's tests are counted. A comparison that fails ends the program.
    println!("test result: ok. {} passed; 0 failed; 0 ignored", COMPARISONS.len());
}

/// Numbers of this many bits and a sign. Where a sum inside a kernel leaves 32 bits, C does not say
/// what comes of it, so such numbers are not compared. The sums inside an operator are at most 12
/// times, those of a picture of two filtered levels at most 410 times the largest number that goes in
/// (the sum of the sizes of its weights): 26 bits are safe in an operator and 20 in a picture.
fn numbers(random: &mut Random, count: usize, bits: u32) -> Vec<i32> {
    (0..count).map(|_| random.number(Values::Wild) >> (31 - bits)).collect()
}

/// What an operator of the reference gives for random numbers is what the kernel gives.
fn assert_operator<const N: usize>(
    operator: fn([Plain; N]) -> [Plain; N],
    kernel: impl Fn([i32; N]) -> [i32; N],
) {
    let mut random = Random::new(71);
    for bits in [1, 3, 8, 16, 26] {
        for _ in 0..20_000 {
            let numbers: [i32; N] = numbers(&mut random, N, bits).try_into().unwrap();
            assert_eq!(plain(operator, numbers), kernel(numbers), "of {numbers:?}");
        }
    }
}

fn core_transform_of_the_reference(kernels: &Kernels) {
    assert_operator(inverse::core, |block| kernels.core(block));
}

fn filters_of_the_reference(kernels: &Kernels) {
    assert_operator(inverse::overlap_square, |square| kernels.square_filter(square));
    assert_operator(inverse::overlap_four, |four| kernels.four_filter(four));
}

/// Runs a comparison on planes of small and of large numbers, in pictures of several shapes.
fn for_random_planes(seed: u64, compare: impl Fn(Size, &[Vec<i32>; 3], &str)) {
    let mut random = Random::new(seed);
    for (width, height) in [(1, 1), (1, 2), (2, 1), (2, 2), (3, 5), (1, 9), (9, 1), (13, 11)] {
        for bits in [1, 3, 8, 14, 20] {
            let n = (width * height) as usize;
            let planes = [n, 15 * n, 240 * n].map(|count| numbers(&mut random, count, bits));
            let what = format!("{width} x {height}, {bits} bits");
            compare(size(width, height), &planes, &what);
        }
    }
}

fn block(first: i32, rest: &[i32]) -> Block {
    [&[first], rest].concat().try_into().unwrap()
}

/// Mode 0 filters nothing: the quarter view is the core transforms of DC and low-pass numbers.
fn core_transform_of_level_one(kernels: &Kernels) {
    for_random_planes(72, |size, planes, what| {
        let mut view = view_of(Mode::Unfiltered, size, planes);
        let [dc, low, _] = planes;
        let width = size.width() as usize;
        let grid = Grid::new(size.view_across(), size.view_down(), &mut view);
        for (i, rest) in low.chunks_exact(15).enumerate() {
            let expected = kernels.core(block(dc[i], rest));
            assert_same(&grid.square(4 * (i / width), 4 * (i % width)), &expected, what);
        }
    });
}

/// … and the samples are the core transforms of the view's numbers and the high-pass numbers.
fn core_transform_of_level_two(kernels: &Kernels) {
    for_random_planes(73, |size, planes, what| {
        let view = view_of(Mode::Unfiltered, size, planes);
        let mut samples = samples_of(Mode::Unfiltered, size, planes);
        let width = size.width() as usize;
        let grid = Grid::new(size.samples_across(), size.samples_down(), &mut samples);
        for (i, rest) in planes[2].chunks_exact(15).enumerate() {
            let (macroblock, block_in_it) = (i / 16, i % 16);
            let row = 4 * (macroblock / width) + block_in_it / 4;
            let column = 4 * (macroblock % width) + block_in_it % 4;
            let expected = kernels.core(block(view[4 * width * row + column], rest));
            assert_same(&grid.square(4 * row, 4 * column), &expected, what);
        }
    });
}

/// Filters a grid in place by jxrlib's kernels, in the windows of a level.
fn filter(kernels: &Kernels, width: usize, height: usize, cells: &mut [i32]) {
    Grid::new(width, height, cells)
        .filter(|square| kernels.square_filter(square), |four| kernels.four_filter(four));
}

/// Mode 2 differs from mode 0 in the quarter view by the filters alone.
fn filters_of_level_one(kernels: &Kernels) {
    for_random_planes(74, |size, planes, what| {
        let mut expected = view_of(Mode::Unfiltered, size, planes);
        filter(kernels, size.view_across(), size.view_down(), &mut expected);
        assert_same(&view_of(Mode::BothLevels, size, planes), &expected, what);
    });
}

/// Mode 1 differs from mode 0 in the samples by the filters alone.
fn filters_of_level_two(kernels: &Kernels) {
    for_random_planes(75, |size, planes, what| {
        let mut expected = samples_of(Mode::Unfiltered, size, planes);
        filter(kernels, size.samples_across(), size.samples_down(), &mut expected);
        assert_same(&samples_of(Mode::SampleLevel, size, planes), &expected, what);
    });
}
