//! The quarter view of an exported picture: in the picture's own greys, and with its bits.

mod common;
use common::pictures::Grey;
use common::*;
use reference::random::Random;
use reference::Size;

/// The numbers of the view that the reference gives for a picture.
fn view_of(mode: u32, size: Size, samples: &[i32]) -> Vec<i32> {
    let n = size.macroblocks() as usize;
    let [mut dc, mut low, mut high] = [n, 15 * n, 240 * n].map(|count| vec![0; count]);
    reference::forward(mode, size, samples, &mut dc, &mut low, &mut high).unwrap();
    let mut view = vec![0; 16 * n];
    reference::quarter_view(mode, size, &dc, &low, &mut view).unwrap();
    view
}

/// The view in greys: each number by the gain that a flat picture of this size has at its place.
fn greys_of(mode: u32, size: Size, samples: &[i32]) -> Vec<i32> {
    let bright = 1 << 23;
    let flat = view_of(mode, size, &vec![bright; samples.len()]);
    let gains = flat.iter().map(|&number| f64::from(number) / f64::from(bright));
    let view = view_of(mode, size, samples);
    view.iter().zip(gains).map(|(&v, gain)| (f64::from(v) / gain + 0.5).floor() as i32).collect()
}

fn extremes(samples: &[i32]) -> (i32, i32) {
    (*samples.iter().min().unwrap(), *samples.iter().max().unwrap())
}

fn noise(random: &mut Random, size: Size, white: i32) -> Vec<i32> {
    let count = 256 * size.macroblocks() as usize;
    let bytes = random.bytes(2 * count);
    let any = bytes.chunks(2).map(|pair| i32::from(pair[0]) * 256 + i32::from(pair[1]));
    let mut samples: Vec<i32> = any.map(|sample| sample % (white + 1)).collect();
    samples[count / 2] = white;
    samples
}

/// Vertical stripes of black and white, eight samples wide: nowhere is an edge sharper.
fn stripes(size: Size, white: i32) -> Vec<i32> {
    let across = 16 * size.width as usize;
    let count = 256 * size.macroblocks() as usize;
    (0..count).map(|i| if (i % across + 2) / 8 % 2 == 0 { 0 } else { white }).collect()
}

/// Exports the view with these options; gives the picture and what was said.
fn export(
    folder: &Folder,
    mode: u32,
    size: Size,
    samples: &[i32],
    options: &[&str],
) -> (Grey, Ran) {
    let file = folder.write("planes", &file_of_samples(mode, size, samples));
    let out = folder.path("out.png");
    let ran = lapped(&[&["export", "--quarter", &file, "-o", &out], options].concat());
    assert_eq!(ran.status, 0, "{options:?}: {}", ran.err);
    (Grey::from_file("png", &folder.read("out.png")), ran)
}

/// Every picture of 8 or 16 bits has a view of as many, in which nothing is clipped; where the filters
/// overshoot, the picture's own extremes stand.
#[test]
fn in_the_pictures_own_greys() {
    let folder = Folder::new("own_greys");
    let mut random = Random::new(80);
    let mut overshoot = 0;
    for mode in 0..=2 {
        for (width, height) in [(1, 1), (3, 2), (1, 4)] {
            let size = Size::new(width, height);
            for (white, bits) in [(255, 8), (256, 16), (4000, 16), (65535, 16)] {
                for samples in [noise(&mut random, size, white), stripes(size, white)] {
                    let (smallest, largest) = extremes(&samples);
                    let greys = greys_of(mode, size, &samples);
                    let held = |grey: &i32| (*grey).clamp(smallest, largest);
                    overshoot += greys.iter().filter(|&grey| held(grey) != *grey).count();
                    let (width, height) = (4 * width as usize, 4 * height as usize);
                    let samples_of_view = greys.iter().map(held).collect();
                    let expected = Grey { width, height, bits, samples: samples_of_view };
                    let (view, ran) = export(&folder, mode, size, &samples, &[]);
                    ran.assert_done("without a range");
                    assert_eq!(view, expected, "mode {mode}, {width} × {height}, up to {white}");
                }
            }
        }
    }
    assert!(overshoot > 100, "the stripes are sharp: {overshoot}");
}

/// The view of a picture that is flat but for its middle is as bright as the picture in every mode, at
/// the rim as well.
#[test]
fn as_bright_as_the_picture() {
    let folder = Folder::new("as_bright");
    let (size, across, down) = (Size::new(3, 3), 12, 12);
    for mode in 0..=2 {
        for bright in [2, 100, 180, 250, 255, 60_000] {
            let mut samples = vec![bright; 256 * 9];
            // So that the picture's own extremes allow what is too dark or too bright.
            for (row, column, sample) in
                [(23, 23, 0), (24, 24, if bright > 255 { 65535 } else { 255 })]
            {
                samples[48 * row + column] = sample;
            }
            let (view, ran) = export(&folder, mode, size, &samples, &[]);
            ran.assert_done("flat");
            for (place, grey) in view.samples.iter().enumerate() {
                let (row, column) = (place / across, place % across);
                let middle = (4..down - 4).contains(&row) && (4..across - 4).contains(&column);
                assert!(
                    middle || (bright - grey).abs() <= 1,
                    "mode {mode}, {bright}: {grey} at row {row}, column {column}"
                );
            }
        }
    }
}

/// A range is one of greys, and what lies outside is clipped and counted.
#[test]
fn with_a_range() {
    let folder = Folder::new("view_range");
    let size = Size::new(3, 2);
    for mode in 0..=2 {
        let samples = stripes(size, 255);
        let greys = greys_of(mode, size, &samples);
        let (smallest, largest) = extremes(&greys);
        let auto = if largest - smallest <= 255 { 8 } else { 16 };
        for (range, low, high, bits) in [
            ("0:255", 0, 255, 8),
            ("50:200", 50, 200, 8),
            ("-65535:0", -65535, 0, 16),
            ("auto", smallest, largest, auto),
        ] {
            let (view, ran) = export(&folder, mode, size, &samples, &["--range", range]);
            let clipped = greys.iter().filter(|&&grey| grey < low || grey > high).count();
            let note = format!(" {clipped} of 96 samples clipped, being outside {low}:{high}\n");
            assert_eq!(ran.err.is_empty(), clipped == 0, "{range}: {}", ran.err);
            assert!(clipped == 0 || ran.err.ends_with(&note), "{range}: {}", ran.err);
            let white = f64::from((1 << bits) - 1);
            let span = f64::from(high - low);
            let shown = |&grey: &i32| {
                (f64::from(grey.clamp(low, high) - low) * white / span + 0.5).floor() as i32
            };
            let expected =
                Grey { width: 12, height: 8, bits, samples: greys.iter().map(shown).collect() };
            assert_eq!(view, expected, "mode {mode}, {range}");
        }
    }
}

/// What the samples' picture is refused for, the view's is too.
#[test]
fn a_picture_that_does_not_fit() {
    let folder = Folder::new("view_refused");
    let mut samples = vec![100; 512];
    for (sample, options, words) in [
        (-1, &[][..], "samples from -1 to 100, and 16 bits hold 0 to 65535; "),
        (65536, &[], "samples from 100 to 65536, and 16 bits hold 0 to 65535; "),
        (256, &["--bits", "8"], "samples from 100 to 256, and 8 bits hold 0 to 255; "),
    ] {
        samples[300] = sample;
        let file = folder.write("planes", &file_of_samples(2, Size::new(2, 1), &samples));
        let out = folder.path("out.png");
        let ran = lapped(&[&["export", "--quarter", &file, "-o", &out], options].concat());
        assert_eq!((ran.status, ran.text()), (1, ""), "{sample}");
        assert!(ran.err.starts_with(&format!("lapped: {file}: {words}")), "{}", ran.err);
        assert_eq!(folder.names(), ["planes"], "{sample}");
    }
}
