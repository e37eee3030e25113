//! What it costs to tell whether a sum wrapped: the calls on ordinary numbers and on four kinds of larger ones.

use crate::measure::{black_box, median_nanoseconds};
use crate::{split, split_mut};
use lapped::{Mode, Size, Wrapped};
use reference::random::{Random, Values};

/// Small enough for the nearest cache, large, and larger than the caches.
const SIZES: [(u32, u32); 3] = [(4, 4), (64, 64), (200, 200)];

const HEADING: &str = "\
wraps: nanoseconds per sample of the proved calls on ordinary numbers (as in the sections above), and how many
times that they take on others: on ordinary numbers with one in 1000 high-pass numbers of up to 160000000 (few);
on high-pass numbers of up to 40000000 (large) and of up to 160000000 (huge: nearly every operator is judged);
on any numbers of 32 bits (wild). A sum wraps in the wild ones alone.";

const KINDS: usize = 5;

/// One picture in planes and in samples, and what the library tells of it.
struct Numbers {
    planes: Vec<i32>,
    samples: Vec<i32>,
    wrapped: Wrapped,
}

impl Numbers {
    fn new(mode: Mode, size: Size, planes: Vec<i32>) -> Self {
        let mut samples = vec![0; size.samples()];
        let read = split(&planes, size.macroblocks());
        let wrapped = lapped::inverse(mode, size, read, &mut samples).unwrap();
        Numbers { planes, samples, wrapped }
    }

    /// Ordinary, few, large, huge and wild ones.
    fn of_each_kind(mode: Mode, size: Size) -> [Self; KINDS] {
        let mut random = Random::new(4);
        let ordinary = random.numbers(size.samples(), Values::Small);
        let mut with_high = |most: i32, one_in: usize| {
            let mut planes = ordinary.clone();
            for number in &mut planes[16 * size.macroblocks()..] {
                if random.below(one_in) == 0 {
                    *number = random.below(2 * most as usize + 1) as i32 - most;
                }
            }
            planes
        };
        let few = with_high(160_000_000, 1000);
        let large = with_high(40_000_000, 1);
        let huge = with_high(160_000_000, 1);
        let wild = random.numbers(size.samples(), Values::Wild);
        [ordinary, few, large, huge, wild].map(|planes| Numbers::new(mode, size, planes))
    }
}

pub fn section() {
    println!();
    println!("{HEADING}");
    println!(
        "{:<10} {:>9} {:>5} {:>9} {:>8} {:>8} {:>8} {:>8}",
        "wraps", "size", "mode", "ordinary", "few", "large", "huge", "wild"
    );
    for (width, height) in SIZES {
        let size = Size::new(width, height).unwrap();
        for mode in Mode::ALL {
            let numbers = Numbers::of_each_kind(mode, size);
            for (kind, picture) in numbers.iter().enumerate() {
                let wild = kind == KINDS - 1;
                assert_eq!(picture.wrapped.is_yes(), wild, "mode {}, kind {kind}", mode.number());
            }
            row("inverse", mode, size, inverse_times(mode, size, &numbers));
            row("forward", mode, size, forward_times(mode, size, &numbers));
        }
    }
}

fn row(name: &str, mode: Mode, size: Size, [ordinary, others @ ..]: [f64; KINDS]) {
    let [few, large, huge, wild] = others.map(|time| time / ordinary);
    println!(
        "{name:<10} {:>9} {:>5} {ordinary:>9.3} {few:>8.2} {large:>8.2} {huge:>8.2} {wild:>8.2}",
        format!("{}x{}", size.width(), size.height()),
        mode.number(),
    );
}

fn inverse_times(mode: Mode, size: Size, numbers: &[Numbers; KINDS]) -> [f64; KINDS] {
    let calls = [0, 1, 2, 3, 4].map(|kind| {
        move |samples: &mut Vec<i32>| {
            let planes = split(&numbers[kind].planes, size.macroblocks());
            lapped::inverse(mode, size, planes, black_box(samples)).unwrap();
        }
    });
    let [a, b, c, d, e] = &calls;
    median_nanoseconds(size.samples(), &mut vec![1; size.samples()], [a, b, c, d, e])
}

fn forward_times(mode: Mode, size: Size, numbers: &[Numbers; KINDS]) -> [f64; KINDS] {
    let calls = [0, 1, 2, 3, 4].map(|kind| {
        move |planes: &mut Vec<i32>| {
            let planes = split_mut(black_box(planes), size.macroblocks());
            lapped::forward(mode, size, &numbers[kind].samples, planes).unwrap();
        }
    });
    let [a, b, c, d, e] = &calls;
    median_nanoseconds(size.samples(), &mut vec![1; size.samples()], [a, b, c, d, e])
}
