//! One try of the finder beside the four calls that it is made of.

use crate::measure::{black_box, median_nanoseconds, Job};
use crate::{split, split_mut, Picture};
use lapped::{Mode, Steps};

/// Small enough for the nearest cache, and large.
const SIZES: [(u32, u32); 2] = [(4, 4), (64, 64)];

/// Kept by every index whose products stay in the range, as all those of these samples do: whatever
/// index is tried first is answered.
const ANY_DIFFERENCE: u32 = u32::MAX;

const HEADING: &str = "\
finder: nanoseconds per sample of a call that answers at its first try, of forward, quantise, restore
and inverse with the same index, and how many times their sum the try takes.";

/// What all five calls work on.
struct Buffers {
    picture: Picture,
    levels: Vec<i32>,
    second: Vec<i32>,
}

impl Buffers {
    fn new(width: u32, height: u32) -> Self {
        let picture = Picture::new(width, height);
        let [levels, second] = [1, 2].map(|number| vec![number; picture.samples.len()]);
        Buffers { picture, levels, second }
    }

    /// One try; gives the index that is answered.
    fn find(&mut self, mode: Mode) -> u8 {
        let Buffers { picture: Picture { size, n, planes, samples, .. }, second, .. } = self;
        let planes = split_mut(black_box(planes), *n);
        lapped::find_step(mode, *size, ANY_DIFFERENCE, samples, planes, black_box(second)).unwrap()
    }
}

pub fn section() {
    println!();
    println!("{HEADING}");
    println!(
        "{:<10} {:>9} {:>5} {:>8} {:>8} {:>8} {:>8} {:>8} {:>8} {:>8}",
        "finder",
        "size",
        "mode",
        "try",
        "forward",
        "quantise",
        "restore",
        "inverse",
        "sum",
        "try/sum"
    );
    for (width, height) in SIZES {
        let mut buffers = Buffers::new(width, height);
        for mode in Mode::ALL {
            row(mode, &mut buffers);
        }
    }
}

fn row(mode: Mode, buffers: &mut Buffers) {
    let size = buffers.picture.size;
    let times = times(mode, buffers);
    let (one_try, sum) = (times[0], times[1..].iter().sum::<f64>());
    let figures = times.map(|time| format!("{time:>8.3}")).join(" ");
    println!(
        "{:<10} {:>9} {:>5} {figures} {sum:>8.3} {:>8.2}",
        "finder",
        format!("{}x{}", size.width(), size.height()),
        mode.number(),
        one_try / sum
    );
}

/// The nanoseconds of one try, then of the four calls.
fn times(mode: Mode, buffers: &mut Buffers) -> [f64; 5] {
    let steps = Steps::all(buffers.find(mode));
    let by_one_try = (buffers.picture.planes.clone(), buffers.second.clone());
    let find = |buffers: &mut Buffers| {
        black_box(buffers.find(mode));
    };
    let forward = |buffers: &mut Buffers| {
        let Picture { size, n, planes, samples, .. } = &mut buffers.picture;
        lapped::forward(mode, *size, samples, split_mut(black_box(planes), *n)).unwrap();
    };
    let quantise = |buffers: &mut Buffers| {
        let Buffers { picture: Picture { size, n, planes, .. }, levels, .. } = buffers;
        let levels = split_mut(black_box(levels), *n);
        lapped::quantise(mode, *size, steps, split(planes, *n), levels).unwrap();
    };
    let restore = |buffers: &mut Buffers| {
        let Buffers { picture: Picture { size, n, planes, .. }, levels, .. } = buffers;
        let planes = split_mut(black_box(planes), *n);
        lapped::restore(mode, *size, steps, split(levels, *n), planes).unwrap();
    };
    let inverse = |buffers: &mut Buffers| {
        let Buffers { picture: Picture { size, n, planes, .. }, second, .. } = buffers;
        lapped::inverse(mode, *size, split(planes, *n), black_box(second)).unwrap();
    };
    let calls: [Job<Buffers>; 4] = [&forward, &quantise, &restore, &inverse];
    calls.iter().for_each(|call| call(buffers));
    let by_calls = (&buffers.picture.planes, &buffers.second);
    assert!(by_calls == (&by_one_try.0, &by_one_try.1), "the finder and the four calls differ");
    let [forward, quantise, restore, inverse] = calls;
    let count = buffers.picture.samples.len();
    median_nanoseconds(count, buffers, [&find, forward, quantise, restore, inverse])
}
