//! What is black and white in an exported picture, how many bits it has, and what is clipped.

mod common;
use common::pictures::Grey;
use common::*;
use reference::random::{Random, Values};
use reference::Size;

/// A plane file of one macroblock whose samples are these and, after them, the last of them.
fn write_samples(folder: &Folder, samples: &[i32]) -> (String, Vec<i32>) {
    let mut samples = samples.to_vec();
    samples.resize(256, samples[samples.len() - 1]);
    (folder.write("planes", &file_of_samples(0, Size::new(1, 1), &samples)), samples)
}

/// Whether a sum wraps on the way to these samples, which is whether one wraps on the way back.
fn wraps_of_samples(samples: &[i32]) -> bool {
    let (mut dc, mut low, mut high) = ([0], [0; 15], [0; 240]);
    reference::forward(0, Size::new(1, 1), samples, &mut dc, &mut low, &mut high).unwrap()
}

/// The grey of a sample to the nearest, in the arithmetic of doubles, which is exact enough for 32
/// bits.
fn grey(sample: i32, low: i32, high: i32, white: f64) -> i32 {
    let above = f64::from(sample.clamp(low, high)) - f64::from(low);
    (above * white / (f64::from(high) - f64::from(low)) + 0.5).floor() as i32
}

/// Exports with these options and compares; says on standard error how many were clipped, and before
/// that whether a sum wrapped.
fn assert_shown(
    folder: &Folder,
    samples: &[i32],
    options: &[&str],
    low: i32,
    high: i32,
    bits: u32,
) {
    let (file, samples) = write_samples(folder, samples);
    let white = f64::from((1 << bits) - 1);
    let expected: Vec<i32> = samples.iter().map(|&s| grey(s, low, high, white)).collect();
    let clipped = samples.iter().filter(|&&sample| sample < low || sample > high).count();
    let mut note = note_of_wraps(&file, wraps_of_samples(&samples));
    if clipped > 0 {
        note += &format!(
            "lapped: {file}: {clipped} of 256 samples clipped, being outside {low}:{high}\n"
        );
    }
    for format in ["png", "pgm"] {
        let name = format!("out.{format}");
        let ran = lapped(&[&["export", &file, "-o", &folder.path(&name)], options].concat());
        assert_eq!((ran.status, ran.err.as_str()), (0, note.as_str()), "{options:?}");
        let shown = Grey::from_file(format, &folder.read(&name));
        assert_eq!((shown.width, shown.height, shown.bits), (16, 16, bits), "{options:?}");
        assert_eq!(shown.samples, expected, "{options:?}");
    }
}

#[test]
fn without_a_range_samples_are_written_as_they_are() {
    let folder = Folder::new("as_they_are");
    let all: Vec<i32> = (0..256).collect();
    for (samples, options, bits) in [
        (&all[..], &[][..], 8),
        (&all, &["--bits", "8"], 8),
        (&all, &["--bits", "16"], 16),
        (&[255], &[], 8),
        (&[0, 256], &[], 16),
        (&[300], &[], 16),
        (&[1, 65535], &[], 16),
        (&[1, 65535], &["--bits", "16"], 16),
    ] {
        assert_shown(&folder, samples, options, 0, (1 << bits) - 1, bits);
    }
}

/// Samples that the picture cannot hold are clipped only where a range is given.
#[test]
fn without_a_range_nothing_is_clipped() {
    let folder = Folder::new("nothing_clipped");
    for (samples, options, bits) in [
        (&[-1, 0, 255][..], &[][..], 16),
        (&[0, 65536], &[], 16),
        (&[i32::MIN, i32::MAX], &[], 16),
        (&[-1, 0, 255], &["--bits", "8"], 8),
        (&[0, 256], &["--bits", "8"], 8),
        (&[7, 65536], &["--bits", "16"], 16),
    ] {
        let (file, _) = write_samples(&folder, samples);
        let ran = lapped(&[&["export", &file, "-o", &folder.path("no.png")], options].concat());
        let (smallest, largest) = (samples.iter().min().unwrap(), samples.iter().max().unwrap());
        let message = format!(
            "lapped: {file}: samples from {smallest} to {largest}, and {bits} bits hold 0 to {}; \
             --range LO:HI or --range auto says what is black and what is white\n",
            (1 << bits) - 1
        );
        assert_eq!((ran.status, ran.text()), (1, ""), "{samples:?} {options:?}");
        assert_eq!(ran.err, message, "{samples:?} {options:?}");
        assert_eq!(folder.names(), ["planes"]);
        let clipping = [&["--range", "0:255"], options].concat();
        let bits = if options == ["--bits", "16"] { 16 } else { 8 };
        assert_shown(&folder, samples, &clipping, 0, 255, bits);
        for name in ["out.png", "out.pgm"] {
            std::fs::remove_file(folder.path(name)).unwrap();
        }
    }
}

#[test]
fn given_ranges() {
    let folder = Folder::new("given_ranges");
    let samples: Vec<i32> = (-128..128).collect();
    assert_shown(&folder, &samples, &["--range", "-128:127"], -128, 127, 8);
    assert_shown(&folder, &samples, &["--range", "-10:10"], -10, 10, 8);
    assert_shown(&folder, &samples, &["--range=-10:10", "--bits", "16"], -10, 10, 16);
    assert_shown(&folder, &samples, &["--range", "0:256"], 0, 256, 16);
    assert_shown(&folder, &samples, &["--range", "0:256", "--bits", "8"], 0, 256, 8);
    assert_shown(&folder, &samples, &["--range", "0:1"], 0, 1, 8);
    let wild = Random::new(7).numbers(256, Values::Wild);
    let all = format!("{}:{}", i32::MIN, i32::MAX);
    assert_shown(&folder, &wild, &["--range", &all], i32::MIN, i32::MAX, 16);
    assert_shown(
        &folder,
        &wild,
        &["--range", "-1000000000:2000000000"],
        -1_000_000_000,
        2_000_000_000,
        16,
    );
}

#[test]
fn range_of_the_samples_themselves() {
    let folder = Folder::new("auto_range");
    let auto = ["--range", "auto"];
    assert_shown(&folder, &[3, 4, 100, 50], &auto, 3, 100, 8);
    assert_shown(&folder, &[-300, 300, 0], &auto, -300, 300, 16);
    assert_shown(&folder, &[-300, 300, 0], &["--range", "auto", "--bits", "8"], -300, 300, 8);
    assert_shown(&folder, &[i32::MIN, -1, 0, i32::MAX], &auto, i32::MIN, i32::MAX, 16);
    // A flat picture is black.
    for flat in [0, 77, i32::MIN, i32::MAX - 1] {
        assert_shown(&folder, &[flat], &auto, flat, flat + 1, 8);
    }
}
