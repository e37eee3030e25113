//! The proved library timed beside the plain reference, memcpy and, where it is installed, jxrlib.
//!
//! Usage: bench [--inverse] [--forward] [--wraps] [--levels] [--finder] [--file] [--jxrlib]; without a
//! flag, every section.

mod finder;
mod kernels;
mod levels;
mod measure;
mod wraps;

use lapped::{Mode, Planes, PlanesMut, PlanesRef, Size};
use measure::{black_box, median_nanoseconds};
use reference::number::Plain;
use reference::picture::{forward_by, inverse_by, Scratch};
use reference::plane_file;
use reference::random::{Random, Values};

/// Sizes in macroblocks, from one macroblock to the largest picture.
const SIZES: [(u32, u32); 4] = [(1, 1), (4, 4), (64, 64), (525, 413)];

const HEADING: &str = "\
Nanoseconds of processor time per sample (for levels and files: per number of the planes; for wraps,
finder and jxrlib: as said there), medians. The columns take turns in one run, on the same buffers.
Every buffer is written once before the clock starts, so no first touch of a page is timed; no buffer
is cleared between runs. The plain reference's working memory is allocated beforehand, and it does not
look for sums that wrap.";

fn main() {
    let flags: Vec<String> = std::env::args().skip(1).collect();
    if let Some(flag) = flags.iter().find(|flag| !SECTIONS.iter().any(|(name, _)| name == flag)) {
        let [first @ .., last] = SECTIONS.map(|(name, _)| name);
        eprintln!("bench: {flag} is none of {} and {last}", first.join(", "));
        std::process::exit(2);
    }
    println!("{HEADING}");
    for (name, section) in SECTIONS {
        if flags.is_empty() || flags.iter().any(|flag| flag == name) {
            section();
        }
    }
}

const SECTIONS: [(&str, fn()); 7] = [
    ("--inverse", inverse_section),
    ("--forward", forward_section),
    ("--wraps", wraps::section),
    ("--levels", levels::section),
    ("--finder", finder::section),
    ("--file", file_section),
    ("--jxrlib", kernels::section),
];

/// A picture's planes and samples, each in one buffer.
struct Picture {
    size: Size,
    n: usize,
    /// DC, low-pass and high-pass one after another: as many bytes as the samples.
    planes: Vec<i32>,
    samples: Vec<i32>,
    scratch: Scratch,
}

impl Picture {
    fn new(width: u32, height: u32) -> Self {
        let n = (width * height) as usize;
        let mut random = Random::new(1);
        Picture {
            size: Size::new(width, height).unwrap(),
            n,
            planes: random.numbers(256 * n, Values::Small),
            samples: random.numbers(256 * n, Values::Small),
            scratch: Scratch::new(reference::Size::new(width, height)),
        }
    }

    fn reference_size(&self) -> reference::Size {
        reference::Size::new(self.size.width(), self.size.height())
    }
}

fn split(planes: &[i32], n: usize) -> PlanesRef<'_> {
    let (dc, rest) = planes.split_at(n);
    let (low, high) = rest.split_at(15 * n);
    PlanesRef { dc, low, high }
}

fn split_mut(planes: &mut [i32], n: usize) -> PlanesMut<'_> {
    let (dc, rest) = planes.split_at_mut(n);
    let (low, high) = rest.split_at_mut(15 * n);
    PlanesMut { dc, low, high }
}

/// The heading of a section whose rows differ in their size and in the choice of this name.
fn heading(section: &str, choice: &str) {
    println!();
    println!(
        "{section:<10} {:>9} {choice:>5} {:>8} {:>8} {:>8} {:>13} {:>14}",
        "size", "proved", "plain", "memcpy", "proved/plain", "proved/memcpy"
    );
}

fn row(section: &str, size: Size, choice: &str, [proved, plain, memcpy]: [f64; 3]) {
    println!(
        "{section:<10} {:>9} {choice:>5} {proved:>8.3} {plain:>8.3} {memcpy:>8.3} {:>13.2} {:>14.2}",
        format!("{}x{}", size.width(), size.height()),
        proved / plain,
        proved / memcpy
    );
}

/// The table of one direction: a row for each size and mode, then what size costs.
fn section(name: &str, measure: impl Fn(Mode, &mut Picture) -> [f64; 3]) {
    heading(name, "mode");
    let mut proved = [[0.0; 3]; SIZES.len()];
    for (i, (width, height)) in SIZES.into_iter().enumerate() {
        let mut picture = Picture::new(width, height);
        for (j, mode) in Mode::ALL.into_iter().enumerate() {
            let times = measure(mode, &mut picture);
            row(name, picture.size, &mode.number().to_string(), times);
            proved[i][j] = times[0];
        }
    }
    let growth = [0, 1, 2].map(|mode| format!("{:.2}", proved[3][mode] / proved[2][mode]));
    println!("{name:<10} proved, 525x413 against 64x64, modes 0 to 2: {}", growth.join(", "));
}

fn inverse_section() {
    section("inverse", |mode, picture| {
        let proved = |picture: &mut Picture| {
            let Picture { size, n, planes, samples, .. } = picture;
            lapped::inverse(mode, *size, split(planes, *n), black_box(samples)).unwrap();
        };
        let plain = |picture: &mut Picture| {
            let size = picture.reference_size();
            let Picture { n, planes, samples, scratch, .. } = picture;
            let PlanesRef { dc, low, high } = split(planes, *n);
            let (number, samples) = (mode.number(), black_box(samples));
            inverse_by::<Plain>(number, size, dc, low, high, samples, &mut scratch.quarter);
        };
        let memcpy = |picture: &mut Picture| {
            black_box(&mut picture.samples).copy_from_slice(black_box(&picture.planes));
        };
        proved(picture);
        let by_proved = picture.samples.clone();
        plain(picture);
        assert!(picture.samples == by_proved, "the proved inverse and the plain one differ");
        median_nanoseconds(256 * picture.n, picture, [&proved, &plain, &memcpy])
    });
}

fn forward_section() {
    section("forward", |mode, picture| {
        let proved = |picture: &mut Picture| {
            let Picture { size, n, planes, samples, .. } = picture;
            lapped::forward(mode, *size, samples, split_mut(black_box(planes), *n)).unwrap();
        };
        let plain = |picture: &mut Picture| {
            let size = picture.reference_size();
            let Picture { n, planes, samples, scratch, .. } = picture;
            let PlanesMut { dc, low, high } = split_mut(black_box(planes), *n);
            forward_by::<Plain>(mode.number(), size, samples, dc, low, high, scratch);
        };
        let memcpy = |picture: &mut Picture| {
            black_box(&mut picture.planes).copy_from_slice(black_box(&picture.samples));
        };
        proved(picture);
        let by_proved = picture.planes.clone();
        plain(picture);
        assert!(picture.planes == by_proved, "the proved forward call and the plain one differ");
        median_nanoseconds(256 * picture.n, picture, [&proved, &plain, &memcpy])
    });
}

/// Planes, a file of them, and memory of the same length for the copy.
struct File {
    planes: Planes,
    bytes: Vec<u8>,
    copy: Vec<u8>,
}

fn file_section() {
    let (width, height) = SIZES[3];
    let size = Size::new(width, height).unwrap();
    let plain_size = reference::Size::new(width, height);
    let mut random = Random::new(2);
    let mut planes = Planes::zeroed(size);
    for plane in [&mut planes.dc, &mut planes.low, &mut planes.high] {
        *plane = random.numbers(plane.len(), Values::Small);
    }
    let [bytes, copy] = [1, 2].map(|byte| vec![byte; size.file_bytes()]);
    let mut file = File { planes, bytes, copy };

    let save = |file: &mut File| {
        let File { planes, bytes, .. } = file;
        lapped::save(Mode::SampleLevel, size, planes.as_ref(), black_box(bytes)).unwrap();
    };
    let plain_save = |file: &mut File| {
        let File { planes: Planes { dc, low, high, .. }, bytes, .. } = file;
        plane_file::save(1, plain_size, dc, low, high, black_box(bytes)).unwrap();
    };
    let load = |file: &mut File| {
        lapped::load(black_box(&file.bytes), file.planes.as_mut()).unwrap();
    };
    let plain_load = |file: &mut File| {
        let File { planes: Planes { dc, low, high, .. }, bytes, .. } = file;
        plane_file::load(black_box(bytes), dc, low, high).unwrap();
    };
    let memcpy = |file: &mut File| {
        black_box(&mut file.copy).copy_from_slice(black_box(&file.bytes));
    };
    heading("file", "mode");
    let times = median_nanoseconds(size.samples(), &mut file, [&save, &plain_save, &memcpy]);
    row("save", size, "", times);
    let times = median_nanoseconds(size.samples(), &mut file, [&load, &plain_load, &memcpy]);
    row("load", size, "", times);
}
