//! What is refused, with its number or in words, with exit status 1 and nothing written.

mod common;
use common::pictures::{pgm, png, Grey};
use common::*;
use png::{BitDepth, ColorType};
use reference::random::Random;

/// What each command does with one plane file, in which there is a fault.
fn commands<'a>(faulty: &'a str, sound: &'a str, out: &'a str) -> [Vec<&'a str>; 10] {
    [
        vec!["info", faulty],
        vec!["forecast", faulty],
        vec!["export", faulty, "-o", out],
        vec!["find-step", faulty, "-t", "5"],
        vec!["find-step", faulty, "-t", "5", "-o", out],
        vec!["quantise", faulty, "-s", "40", "-o", out],
        vec!["restore", faulty, "-s", "40", "-o", out],
        vec!["roundtrip", faulty],
        vec!["diff", faulty, sound, "-o", out],
        vec!["diff", sound, faulty],
    ]
}

/// Every command refuses the file with this number and these words, from a file and from a pipe. A
/// remark follows where the word after mode and size is not 32, as it is in every plane file.
fn assert_refused(folder: &Folder, bytes: &[u8], number: u32, words: &str) {
    let remark = match bytes.get(12..16) {
        Some([32, 0, 0, 0]) => "",
        _ => " (this does not look like a plane file)",
    };
    let faulty = folder.write("faulty", bytes);
    let (sound, out) = (folder.write("sound", &some_file(1)), folder.path("out.png"));
    for name in [faulty.as_str(), "-"] {
        for arguments in commands(name, &sound, &out) {
            let ran = lapped_reading(&arguments, bytes);
            let message = format!("lapped: {name}: refused {number}: {words}{remark}\n");
            assert_eq!(ran.err, message, "{arguments:?}");
            assert_eq!((ran.status, ran.text()), (1, ""), "{arguments:?}");
        }
    }
    assert_eq!(folder.names(), ["faulty", "sound"], "nothing is left behind");
}

const SHORT: (u32, &str) = (9, "the file has fewer than 32 bytes");
const MODE: (u32, &str) = (1, "the mode is above 2");
const WIDTH: (u32, &str) = (2, "the width is not 1 to 525 macroblocks");
const HEIGHT: (u32, &str) = (3, "the height is not 1 to 413 macroblocks");
const LAST_WORD: (u32, &str) = (10, "the last word of the file's header is not zero");
const OFFSETS: (u32, &str) = (11, "an offset or the total in the header is not as laid down");
const LENGTH: (u32, &str) = (12, "the bytes are not as many as the file's total");

#[test]
fn headers() {
    let folder = Folder::new("headers");
    for (index, word, (number, words)) in [
        (0, 3, MODE),
        (0, u32::MAX, MODE),
        (1, 0, WIDTH),
        (1, 526, WIDTH),
        (2, 0, HEIGHT),
        (2, 414, HEIGHT),
        (3, 33, OFFSETS),
        (4, 32, OFFSETS),
        (5, 0, OFFSETS),
        (6, 0x8000_0000, OFFSETS),
        (6, u32::MAX, OFFSETS),
        (7, 1, LAST_WORD),
    ] {
        let mut bytes = some_file(2);
        set_word(&mut bytes, index, word);
        assert_refused(&folder, &bytes, number, words);
    }
}

/// Files of other kinds, which are told to be that.
#[test]
fn no_plane_files() {
    let folder = Folder::new("no_plane_files");
    let grey = Grey::any(16, 16, 8);
    let text = b"A text, as it stands in many a file of a folder with pictures.".to_vec();
    for (bytes, (number, words)) in [
        (grey.to_file("png"), MODE),
        (grey.to_file("pgm"), MODE),
        (text, MODE),
        (vec![0; 100], WIDTH),
        (Vec::new(), SHORT),
    ] {
        assert_ne!(bytes.get(12..16), Some(&[32, 0, 0, 0][..]), "the remark is wanted");
        assert_refused(&folder, &bytes, number, words);
    }
}

#[test]
fn cut_and_overlong_files() {
    let folder = Folder::new("cut_and_overlong");
    let sound = some_file(3);
    for length in [0, 1, 31] {
        assert_refused(&folder, &sound[..length], SHORT.0, SHORT.1);
    }
    for length in [32, 33, 1000, sound.len() - 1] {
        assert_refused(&folder, &sound[..length], LENGTH.0, LENGTH.1);
    }
    for more in [1, 2, 100_000] {
        let longer = [&sound[..], &Random::new(4).bytes(more)].concat();
        assert_refused(&folder, &longer, LENGTH.0, LENGTH.1);
    }
}

/// A sound file that never ends is read to its total and refused.
#[test]
fn input_without_end() {
    let folder = Folder::new("without_end");
    let file = folder.write("sound", &some_file(5));
    let line = "cat \"$1\" /dev/zero | timeout 60 \"$lapped\" \"$2\" -";
    for command in ["info", "forecast", "roundtrip"] {
        let ran = shell(line, &[&file, command]);
        assert_eq!(
            ran.err,
            format!("lapped: -: refused {}: {}\n", LENGTH.0, LENGTH.1),
            "{command}"
        );
        assert_eq!(ran.status, 1, "{command}");
    }
}

/// A refused file among others: the others are dealt with, in their order, and the status tells.
#[test]
fn one_of_several() {
    let folder = Folder::new("one_of_several");
    let sound: Vec<String> =
        (0..4u64).map(|i| folder.write(&i.to_string(), &some_file(i))).collect();
    let faulty = folder.write("faulty", &some_file(6)[..40]);
    let missing = folder.path("missing");
    let files = [&sound[0], &faulty, &sound[1], &sound[2], &missing, &sound[3]];
    let messages = format!(
        "lapped: {faulty}: refused {}: {}\n\
         lapped: {missing}: No such file or directory (os error 2)\n",
        LENGTH.0, LENGTH.1
    );
    for command in ["info", "roundtrip"] {
        let arguments: Vec<&str> =
            [command].into_iter().chain(files.iter().map(|file| file.as_str())).collect();
        let ran = lapped(&arguments);
        assert_eq!((ran.status, &ran.err), (1, &messages), "{command}");
        let places: Vec<usize> = sound
            .iter()
            .map(|file| ran.text().find(file.as_str()).expect("a line of its own"))
            .collect();
        assert!(places.windows(2).all(|pair| pair[0] < pair[1]), "{command}: {}", ran.text());
    }
}

/// Import refuses the picture with words that hold these, from a file and from a pipe.
fn assert_unread(folder: &Folder, picture: &[u8], words: &str) {
    let path = folder.write("in", picture);
    for name in [path.as_str(), "-"] {
        let ran = lapped_reading(&["import", name, "-m", "2", "-o", &folder.path("out")], picture);
        assert_eq!((ran.status, ran.text()), (1, ""), "{words}: {}", ran.err);
        assert!(ran.err.starts_with(&format!("lapped: {name}: ")), "{words}: {}", ran.err);
        assert!(ran.err.contains(words), "{words}: {}", ran.err);
        assert_eq!(ran.err.lines().count(), 1, "{words}: {}", ran.err);
    }
    assert_eq!(folder.names(), ["in"], "{words}: nothing is left behind");
}

#[test]
fn coloured_and_transparent_pictures() {
    let folder = Folder::new("coloured");
    let eight = BitDepth::Eight;
    for (colour, channels) in [(ColorType::Rgb, 3), (ColorType::Rgba, 4), (ColorType::Indexed, 1)] {
        let picture = png(16, 16, colour, eight, &vec![0; 256 * channels]);
        assert_unread(&folder, &picture, "a colour picture; only grey ones are read");
    }
    let picture = png(16, 16, ColorType::GrayscaleAlpha, BitDepth::Sixteen, &[0; 1024]);
    assert_unread(&folder, &picture, "transparent");
    assert_unread(&folder, &[b"P6\n16 16\n255\n", &[0; 768][..]].concat(), "a colour picture");
    assert_unread(&folder, b"P3\n1 1\n255\n1 2 3\n", "a colour picture");
}

#[test]
fn depths_and_kinds_that_are_not_read() {
    let folder = Folder::new("depths");
    for (depth, bits, row) in [(BitDepth::One, 1, 2), (BitDepth::Two, 2, 4), (BitDepth::Four, 4, 8)]
    {
        let picture = png(16, 16, ColorType::Grayscale, depth, &vec![0; 16 * row]);
        assert_unread(&folder, &picture, &format!("{bits} bits a sample; only 8 and 16 are read"));
    }
    assert_unread(&folder, b"P2\n1 1\n255\n7\n", "(P2)");
    assert_unread(&folder, b"P4\n8 1\n\0", "neither a PNG nor a PGM file");
    assert_unread(&folder, &some_file(7), "neither a PNG nor a PGM file");
    assert_unread(&folder, b"", "neither a PNG nor a PGM file");
    assert_unread(&folder, b"P", "neither a PNG nor a PGM file");
}

/// Too long a side is refused by the header, before the picture is read: these have none.
#[test]
fn sides_that_are_too_long() {
    let folder = Folder::new("too_long");
    for (width, height) in [(8401, 1), (1, 6609), (8401, 6609), (1_000_000, 1_000_000)] {
        let words = format!("{width} × {height} samples; a picture has at most 8400 × 6608");
        assert_unread(&folder, &pgm(width, height, 255, b""), &words);
        let mut picture = Grey::any(16, 16, 16).to_file("png");
        picture[16..20].copy_from_slice(&(width as u32).to_be_bytes());
        picture[20..24].copy_from_slice(&(height as u32).to_be_bytes());
        let crc = crc32(&picture[12..29]);
        picture[29..33].copy_from_slice(&crc.to_be_bytes());
        assert_unread(&folder, &picture, &words);
    }
    assert_unread(&folder, b"P5 99999999999999999999 1 255 ", "a picture has at most 8400 × 6608");
}

/// The check sum of a PNG chunk.
fn crc32(bytes: &[u8]) -> u32 {
    let mut crc = !0u32;
    for byte in bytes {
        crc ^= u32::from(*byte);
        for _ in 0..8 {
            crc = if crc & 1 == 1 { (crc >> 1) ^ 0xEDB8_8320 } else { crc >> 1 };
        }
    }
    !crc
}

#[test]
fn pgm_files_with_faults() {
    let folder = Folder::new("pgm_faults");
    let sound = Grey::any(20, 10, 8).to_file("pgm");
    for length in [2, 3, 8, 12] {
        assert_unread(&folder, &sound[..length], "the file ends within its header");
    }
    for length in [13, 14, sound.len() - 1] {
        assert_unread(&folder, &sound[..length], "the file ends before the picture does");
    }
    assert_unread(&folder, &[&sound[..], b"\n"].concat(), "the file goes on after the picture");
    assert_unread(
        &folder,
        &pgm(2, 1, 100, &[100, 101]),
        "a sample above the file's greatest grey, 100",
    );
    assert_unread(&folder, &pgm(1, 1, 0, &[0]), "a greatest grey of 0");
    assert_unread(&folder, &pgm(1, 1, 65536, &[0; 4]), "a greatest grey of 65536");
    assert_unread(&folder, &pgm(0, 1, 255, b""), "a picture without samples");
    assert_unread(&folder, &pgm(1, 0, 255, b""), "a picture without samples");
    assert_unread(&folder, b"P5 -1 1 255 ", "where a number belongs");
    assert_unread(&folder, b"P5 1x 1 255 ", "after a number");
}

/// A PNG file cut anywhere before its last chunk, or changed anywhere within its data.
#[test]
fn png_files_with_faults() {
    let folder = Folder::new("png_faults");
    let sound = Grey::any(20, 10, 8).to_file("png");
    let words = ": a PNG file that is cut or damaged\n";
    for length in (2..sound.len() - 12).step_by(7).chain([sound.len() - 13]) {
        assert_unread(&folder, &sound[..length], words);
    }
    for place in (2..sound.len() - 12).step_by(5) {
        let mut changed = sound.clone();
        changed[place] ^= 0x10;
        assert_unread(&folder, &changed, words);
    }
}

/// Files of two modes or two sizes are not compared.
#[test]
fn diff_of_unlike_files() {
    let folder = Folder::new("unlike");
    let file = |name: &str, mode, width, height| {
        let size = reference::Size::new(width, height);
        let planes = random_planes(&mut Random::new(9), size, reference::random::Values::Small);
        folder.write(name, &file_of_planes(mode, size, &planes))
    };
    let one = file("one", 1, 2, 3);
    for (mode, width, height) in [(2, 2, 3), (1, 3, 2), (1, 2, 4)] {
        let other = file("other", mode, width, height);
        let ran = lapped(&["diff", &one, &other, "-o", &folder.path("out.png")]);
        let message = format!(
            "lapped: {other}: mode {mode}, {width} × {height} macroblocks; \
             the first file has mode 1, 2 × 3 macroblocks: not to be compared\n"
        );
        assert_eq!((ran.status, ran.text(), ran.err.as_str()), (1, "", message.as_str()));
    }
    assert_eq!(folder.names(), ["one", "other"]);
}
