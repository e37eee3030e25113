//! Pictures in and out, PNG and PGM, at odd sizes, against the plane files of the reference.

mod common;
use common::pictures::{pgm, Grey};
use common::*;
use reference::Size;

/// Sides in samples: the smallest, one less and one more than a macroblock, long and thin, and
/// whole macroblocks.
const SIDES: [(usize, usize); 10] = [
    (1, 1),
    (1, 40),
    (40, 1),
    (15, 16),
    (16, 17),
    (17, 15),
    (16, 16),
    (48, 32),
    (53, 70),
    (111, 23),
];

/// The picture with its edge repeated to whole macroblocks.
fn filled(grey: &Grey) -> (Size, Grey) {
    let size = Size::new((grey.width as u32 + 15) / 16, (grey.height as u32 + 15) / 16);
    let (width, height) = (16 * size.width as usize, 16 * size.height as usize);
    let mut samples = Vec::new();
    for row in 0..height {
        for column in 0..width {
            let (row, column) = (row.min(grey.height - 1), column.min(grey.width - 1));
            samples.push(grey.samples[row * grey.width + column]);
        }
    }
    (size, Grey { width, height, bits: grey.bits, samples })
}

/// What import says about filling.
fn note(path: &str, grey: &Grey, filled: &Grey) -> String {
    if (grey.width, grey.height) == (filled.width, filled.height) {
        return String::new();
    }
    format!(
        "lapped: {path}: {} × {} samples, filled to {} × {} by repeating the edge\n",
        grey.width, grey.height, filled.width, filled.height
    )
}

fn there_and_back(format: &str, bits: u32) {
    let folder = Folder::new(&format!("there_and_back_{format}_{bits}"));
    for (width, height) in SIDES {
        let grey = Grey::any(width, height, bits);
        let (size, expected) = filled(&grey);
        let picture = folder.write(&format!("in.{format}"), &grey.to_file(format));
        for mode in 0..=2 {
            let what = format!("{width} × {height} in mode {mode}");
            let (planes, out) = (folder.path("planes"), folder.path(&format!("out.{format}")));
            let ran = lapped(&["import", &picture, "-m", &mode.to_string(), "-o", &planes]);
            assert_eq!((ran.status, ran.err), (0, note(&picture, &grey, &expected)), "{what}");
            let plane_file = file_of_samples(mode, size, &expected.samples);
            assert!(folder.read("planes") == plane_file, "{what}: the plane file");

            // As many bits as the samples need, or as are asked for; the numbers are the same.
            let needed = if expected.samples.iter().any(|&sample| sample > 255) { 16 } else { 8 };
            let asked = bits.to_string();
            for (options, bits) in [(&[][..], needed), (&["--bits", asked.as_str()], bits)] {
                let arguments = [&["export", &planes, "-o", &out], options].concat();
                lapped(&arguments).assert_done(&what);
                let back = Grey::from_file(format, &folder.read(&format!("out.{format}")));
                assert_eq!(back, Grey { bits, ..expected.clone() }, "{what} {options:?}");
            }
        }
    }
}

#[test]
fn png_of_8_bits() {
    there_and_back("png", 8);
}

#[test]
fn png_of_16_bits() {
    there_and_back("png", 16);
}

#[test]
fn pgm_of_8_bits() {
    there_and_back("pgm", 8);
}

#[test]
fn pgm_of_16_bits() {
    there_and_back("pgm", 16);
}

/// The longest sides pass; that one more does not is among the refusals.
#[test]
fn longest_sides() {
    let folder = Folder::new("longest_sides");
    let (planes, out) = (folder.path("planes"), folder.path("out.png"));
    for (width, height) in [(8400, 1), (1, 6608)] {
        let grey = Grey::any(width, height, 8);
        let (_, expected) = filled(&grey);
        for format in ["png", "pgm"] {
            let picture = folder.write("in", &grey.to_file(format));
            assert_eq!(lapped(&["import", &picture, "-m", "2", "-o", &planes]).status, 0);
            lapped(&["export", &planes, "-o", &out]).assert_done("export");
            assert!(
                Grey::from_file("png", &folder.read("out.png")) == expected,
                "{width} × {height}"
            );
        }
    }
}

/// Comments and blanks where PGM allows them, and a greatest grey that is neither 255 nor 65535:
/// the samples are the numbers of the file, and only the bytes a sample has follow from it.
#[test]
fn pgm_headers_of_others() {
    let folder = Folder::new("pgm_headers_of_others");
    let samples: Vec<i32> = (0..256).map(|i| i % 100).collect();
    let one_byte: Vec<u8> = samples.iter().map(|&sample| sample as u8).collect();
    let two_bytes: Vec<u8> = samples.iter().flat_map(|&s| (s as u16).to_be_bytes()).collect();
    let files: [(&str, Vec<u8>); 4] = [
        ("99", pgm(16, 16, 99, &one_byte)),
        ("1023", pgm(16, 16, 1023, &two_bytes)),
        ("comments", [b"P5 # made by hand\n#\n16\t16 # sides\n 255\n", &one_byte[..]].concat()),
        ("one line", [b"P5 16 16 255 ", &one_byte[..]].concat()),
    ];
    for (what, file) in files {
        let picture = folder.write("in", &file);
        let planes = folder.path("planes");
        lapped(&["import", &picture, "-m", "1", "-o", &planes]).assert_done(what);
        assert!(folder.read("planes") == file_of_samples(1, Size::new(1, 1), &samples), "{what}");
    }
}
