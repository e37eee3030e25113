//! The proved inverse beside jxrlib's kernels, on the same number of blocks.

use crate::measure::{black_box, median_nanoseconds, Job};
use crate::{split, Picture};
use jxrlib::{Kernels, SQUARE_CELLS};
use lapped::{Mode, Size};

/// Small enough for the nearest cache, large, and one with many edges.
const SIZES: [(u32, u32); 3] = [(4, 4), (64, 64), (525, 1)];

/// How many blocks, squares and fours of numbers an inverse call runs its operators on.
#[derive(Clone, Copy)]
struct Counts {
    cores: usize,
    squares: usize,
    fours: usize,
}

impl Counts {
    /// The core transforms of both levels, and the filters of those that the mode filters.
    fn of(mode: Mode, size: Size) -> Self {
        let (width, height) = (size.width() as usize, size.height() as usize);
        let mut counts = Counts { cores: 17 * width * height, squares: 0, fours: 0 };
        let levels = [(4, mode != Mode::Unfiltered), (1, mode == Mode::BothLevels)];
        for (blocks, filtered) in levels {
            if filtered {
                // Filters lie between blocks; along each of the four sides they come in twos, and each
                // corner has one.
                let (across, down) = (blocks * width - 1, blocks * height - 1);
                counts.squares += across * down;
                counts.fours += 4 * (across + down) + 4;
            }
        }
        counts
    }

    fn total(self) -> usize {
        self.cores + self.squares + self.fours
    }
}

/// The picture of the proved calls, and as many blocks for the kernels in the order of their own.
struct Buffers {
    picture: Picture,
    /// As many coefficients as the core transforms take, and the room where they are transformed.
    coefficients: Vec<[i32; 16]>,
    blocks: Vec<[i32; 16]>,
    /// Zeros for the filters, which make zeros of them: run over and over in place on other numbers,
    /// they would leave 32 bits. They take the same time for all numbers.
    squares: Vec<i32>,
    fours: Vec<[i32; 4]>,
}

impl Buffers {
    fn new(width: u32, height: u32) -> Self {
        let picture = Picture::new(width, height);
        let most = Counts::of(Mode::BothLevels, picture.size);
        let numbers = picture.planes.chunks_exact(16).cycle().take(most.cores);
        let coefficients: Vec<[i32; 16]> =
            numbers.map(|numbers| numbers.try_into().unwrap()).collect();
        Buffers {
            blocks: coefficients.clone(),
            coefficients,
            squares: vec![0; 16 * most.squares + SQUARE_CELLS],
            fours: vec![[0; 4]; most.fours],
            picture,
        }
    }
}

const HEADING: &str = "\
jxrlib: nanoseconds for one operator (a core transform, a square filter or a four-number filter).
Proved is a whole inverse call divided by the operators that it runs; it also checks, takes the
numbers from the planes and puts the samples in raster order. jxrlib is the kernels alone, called as
often, on numbers that lie together in the kernels' own order; each block is copied there first.";

pub fn section() {
    println!();
    let kernels = match Kernels::load() {
        Ok(kernels) => kernels,
        Err(why) => return println!("jxrlib     not timed: {why}"),
    };
    println!("{HEADING}");
    println!(
        "{:<10} {:>9} {:>8} {:>7} {:>8} {:>6} {:>8} {:>8} {:>14}",
        "jxrlib", "size", "mode", "cores", "squares", "fours", "proved", "jxrlib", "proved/jxrlib"
    );
    for (width, height) in SIZES {
        rows(&kernels, &mut Buffers::new(width, height));
    }
}

/// The rows of one size: each mode, the filters alone, then each kernel alone.
fn rows(kernels: &Kernels, buffers: &mut Buffers) {
    let size = buffers.picture.size;
    let name = format!("{}x{}", size.width(), size.height());
    let [none, one, both, core, square, four] = times(kernels, buffers);
    let row = |mode: &str, counts: Counts, proved: f64| {
        let Counts { cores, squares, fours } = counts;
        let jxrlib = core * cores as f64 + square * squares as f64 + four * fours as f64;
        let [proved, jxrlib] = [proved, jxrlib].map(|time| time / counts.total() as f64);
        let counts = format!("{cores:>7} {squares:>8} {fours:>6}");
        let ratio = proved / jxrlib;
        println!(
            "{:<10} {name:>9} {mode:>8} {counts} {proved:>8.2} {jxrlib:>8.2} {ratio:>14.2}",
            "jxrlib"
        );
    };
    let counts = Mode::ALL.map(|mode| Counts::of(mode, size));
    row("0", counts[0], none);
    row("1", counts[1], one);
    row("2", counts[2], both);
    row("1 less 0", Counts { cores: 0, ..counts[1] }, one - none);
    println!(
        "{:<10} {name:>9}  kernels: strIDCT4x4Stage1 {core:.2}, strPost4x4Stage1Split {square:.2}, \
         strPost4 {four:.2}",
        "jxrlib"
    );
}

/// The nanoseconds of the proved inverse in each mode, and of each kernel for one block.
fn times(kernels: &Kernels, buffers: &mut Buffers) -> [f64; 6] {
    let proved = |mode: Mode| {
        move |buffers: &mut Buffers| {
            let Picture { size, n, planes, samples, .. } = &mut buffers.picture;
            lapped::inverse(mode, *size, split(planes, *n), black_box(samples)).unwrap();
        }
    };
    let cores = |buffers: &mut Buffers| {
        for (block, coefficients) in buffers.blocks.iter_mut().zip(&buffers.coefficients) {
            *block = *coefficients;
            kernels.core_in_place(block);
        }
    };
    let squares = |buffers: &mut Buffers| {
        let last = buffers.squares.len() - SQUARE_CELLS;
        for start in (0..last).step_by(16) {
            let cells = &mut buffers.squares[start..start + SQUARE_CELLS];
            kernels.square_filter_in_place(cells.try_into().unwrap());
        }
    };
    let fours = |buffers: &mut Buffers| {
        for numbers in &mut buffers.fours {
            kernels.four_filter_in_place(numbers);
        }
    };
    let Counts { cores: c, squares: s, fours: f } =
        Counts::of(Mode::BothLevels, buffers.picture.size);
    let [none, one, both] = Mode::ALL.map(proved);
    let jobs: [Job<Buffers>; 6] = [&none, &one, &both, &cores, &squares, &fours];
    let [none, one, both, core, square, four] = median_nanoseconds(1, buffers, jobs);
    [none, one, both, core / c as f64, square / s as f64, four / f as f64]
}
