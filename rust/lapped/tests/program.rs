//! The program `samples`, run on plane files, against the reference's text.

mod common;
use common::faults::try_sets_of_faults;
use common::file::{set_word, Loading};
use reference::random::{Random, Values};
use reference::{plane_file, program, Size};
use std::io::Write;
use std::path::{Path, PathBuf};
use std::process::{Command, Stdio};
use std::time::Duration;

fn binary() -> PathBuf {
    let path = match std::env::var_os("LAPPED_SAMPLES_BIN") {
        Some(path) => PathBuf::from(path),
        None => Path::new(env!("CARGO_MANIFEST_DIR")).join("../../target/bin/samples"),
    };
    assert!(
        path.is_file(),
        "{} is not there: run `bin/build samples` at the root of the repository, \
         or set LAPPED_SAMPLES_BIN to the program's path",
        path.display()
    );
    path
}

/// What the program prints when its standard input comes in these pieces.
fn run_in_pieces(pieces: Vec<Vec<u8>>, pause: Duration) -> String {
    let mut child = Command::new(binary())
        .stdin(Stdio::piped())
        .stdout(Stdio::piped())
        .spawn()
        .expect("the program starts");
    let mut input = child.stdin.take().unwrap();
    // The program may print before it has read all, and stop reading before the input ends.
    let writer = std::thread::spawn(move || {
        for piece in pieces {
            if input.write_all(&piece).is_err() {
                return;
            }
            std::thread::sleep(pause);
        }
    });
    let output = child.wait_with_output().expect("the program ends");
    writer.join().unwrap();
    assert!(output.status.code().is_some(), "the program was stopped: {}", output.status);
    String::from_utf8(output.stdout).expect("the program prints text")
}

fn run(input: &[u8]) -> String {
    run_in_pieces(vec![input.to_vec()], Duration::ZERO)
}

fn file(mode: u32, size: Size, random: &mut Random, values: Values) -> Vec<u8> {
    let n = size.macroblocks() as usize;
    let [dc, low, high] = [n, 15 * n, 240 * n].map(|count| random.numbers(count, values));
    let mut bytes = vec![0; 32 + 1024 * n];
    plane_file::save(mode, size, &dc, &low, &high, &mut bytes).unwrap();
    bytes
}

/// The program refuses with this number, and so does the reference.
fn assert_refused(input: &[u8], number: u32, what: &str) {
    assert_eq!(run(input), format!("refused {number}\n"), "{what}");
    assert_eq!(program::output(input), format!("refused {number}\n"), "the reference: {what}");
}

#[test]
fn dc_64_prints_sixteen_lines_of_fours() {
    let mut bytes = vec![0; 32 + 1024];
    plane_file::save(0, Size::new(1, 1), &[64], &[0; 15], &[0; 240], &mut bytes).unwrap();
    assert_eq!(run(&bytes), "4 4 4 4 4 4 4 4 4 4 4 4 4 4 4 4\n".repeat(16));
}

#[test]
fn random_files() {
    let mut random = Random::new(61);
    let narrow = [(1, 1), (1, 2), (3, 1), (1, 16), (16, 1)].map(|shape| (shape, 1));
    let others = [(2, 2), (3, 5), (5, 3), (2, 8), (8, 2), (4, 4)].map(|shape| (shape, 2));
    for ((width, height), most) in narrow.into_iter().chain(others) {
        for mode in 0..=most {
            for values in Values::ALL {
                let bytes = file(mode, Size::new(width, height), &mut random, values);
                let text = run(&bytes);
                assert!(
                    text == program::output(&bytes),
                    "mode {mode}, {width} x {height}, {values:?}: the program printed\n{text}"
                );
            }
        }
    }
}

/// Planes chosen so that the samples are the numbers with the most and the fewest digits.
#[test]
fn numbers_of_every_length() {
    let mut samples = Vec::new();
    for digits in 0..10 {
        let power = 10i32.pow(digits);
        samples.extend([power - 1, power, power + 1, 1 - power, -power, -power - 1]);
    }
    samples.extend([i32::MIN, i32::MIN + 1, i32::MAX, i32::MAX - 1, 0, 1, -1]);
    samples.resize(4 * 256, 42);
    let size = Size::new(2, 2);
    for mode in 0..=2 {
        let (mut dc, mut low, mut high) = (vec![0; 4], vec![0; 4 * 15], vec![0; 4 * 240]);
        reference::forward(mode, size, &samples, &mut dc, &mut low, &mut high).unwrap();
        let mut bytes = vec![0; 32 + 4 * 1024];
        plane_file::save(mode, size, &dc, &low, &high, &mut bytes).unwrap();

        let text = run(&bytes);
        let mut expected = String::new();
        for (i, sample) in samples.iter().enumerate() {
            expected += &format!("{sample}{}", if i % 32 == 31 { '\n' } else { ' ' });
        }
        assert_eq!(text, expected, "mode {mode}");
    }
}

#[test]
fn refusals() {
    let mut random = Random::new(62);
    assert_refused(&[], 9, "empty input");
    let sound = file(1, Size::new(2, 1), &mut random, Values::Small);
    assert_refused(&sound[..1], 9, "one byte");
    assert_refused(&sound[..31], 9, "31 bytes");
    assert_refused(&sound[..32], 12, "a header alone");
    assert_refused(&sound[..sound.len() - 1], 12, "a byte missing");
    assert_refused(&[&sound[..], &[0]].concat(), 12, "a byte more");
    assert_refused(&[&sound[..], &random.bytes(100_000)].concat(), 12, "far longer");

    let damaged = |words: &[(usize, u32)]| {
        let mut bytes = sound.clone();
        for &(index, word) in words {
            set_word(&mut bytes, index, word);
        }
        bytes
    };
    for mode in [3, 256, 0x8000_0000, u32::MAX] {
        assert_refused(&damaged(&[(0, mode)]), 1, "mode");
    }
    for width in [0, 526, 0x8000_0000, u32::MAX] {
        assert_refused(&damaged(&[(1, width)]), 2, "width");
    }
    for height in [0, 414, 0x8000_0000, u32::MAX] {
        assert_refused(&damaged(&[(2, height)]), 3, "height");
    }
    assert_refused(&damaged(&[(7, 1)]), 10, "last word");
    assert_refused(&damaged(&[(7, 0x8000_0000)]), 10, "last word");
    for index in 3..7 {
        for word in [0, 31, 33, u32::MAX] {
            assert_refused(&damaged(&[(index, word)]), 11, "an offset or the total");
        }
    }
    assert_refused(&damaged(&[(1, 3)]), 11, "the offsets of another n");
}

#[test]
fn more_than_sixteen_macroblocks() {
    let mut random = Random::new(63);
    for (mode, width, height) in [(1, 1, 17), (0, 17, 1), (2, 6, 3), (1, 525, 1), (0, 1, 413)] {
        let bytes = file(mode, Size::new(width, height), &mut random, Values::Small);
        assert_refused(&bytes, 13, "whole");
        assert_refused(&bytes[..32], 13, "a header alone");
        assert_refused(&bytes[..bytes.len() - 1], 13, "cut");
        assert_refused(&[&bytes[..], &[0]].concat(), 13, "longer");
    }
    // The largest size of all: only its header needs to be there.
    let mut header = vec![0; 32];
    let n = 525 * 413;
    let words = [2, 525, 413, 32, 32 + 4 * n, 32 + 64 * n, 32 + 1024 * n, 0];
    for (index, word) in words.into_iter().enumerate() {
        set_word(&mut header, index, word);
    }
    assert_refused(&header, 13, "the largest size");
}

/// The largest file that is accepted, with one byte more and with many.
#[test]
fn one_byte_more_than_sixteen_macroblocks() {
    let mut random = Random::new(64);
    let bytes = file(1, Size::new(4, 4), &mut random, Values::Small);
    assert_eq!(bytes.len(), 16_416);
    for more in [1, 2, 4096, 200_000] {
        let longer = [&bytes[..], &random.bytes(more)].concat();
        assert_refused(&longer, 12, &format!("{more} bytes more"));
    }
}

#[test]
fn order_of_the_checks() {
    let checks = Loading::checks(&[9, 1, 2, 3, 10, 11, 13, 12]);
    try_sets_of_faults(&checks, Loading::sound, &mut Random::new(65), |case, _| {
        assert_refused(&case.arguments.bytes, case.number, &case.what);
    });
}

/// Input that comes bit by bit, as through a slow pipe.
#[test]
fn input_in_pieces() {
    let mut random = Random::new(66);
    let bytes = file(2, Size::new(2, 2), &mut random, Values::Wild);
    let mut pieces = Vec::new();
    let mut rest = &bytes[..];
    while !rest.is_empty() {
        let (piece, later) = rest.split_at(rest.len().min(1 + random.below(400)));
        pieces.push(piece.to_vec());
        rest = later;
    }
    let text = run_in_pieces(pieces, Duration::from_millis(2));
    assert_eq!(text, program::output(&bytes));
}
