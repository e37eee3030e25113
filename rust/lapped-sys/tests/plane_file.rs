//! Header, load and save called from C and C++, where the first two return structs by value.

mod common;
use common::*;
use reference::plane_file::save;
use reference::random::{Random, Values};
use reference::Size;
use std::fmt::Write;
use std::path::Path;
use std::process::Command;

/// A sound plane file, and what the program prints for it.
fn file(mode: u32, size: Size, random: &mut Random) -> (Vec<u8>, String) {
    let n = size.macroblocks() as usize;
    let [dc, low, high] = [n, 15 * n, 240 * n].map(|count| random.numbers(count, Values::Wild));
    let mut bytes = vec![0; 32 + 1024 * n];
    save(mode, size, &dc, &low, &high, &mut bytes).unwrap();

    let header = format!("0, mode {mode}, {} x {}", size.width, size.height);
    let mut text = format!("header: {header}\nload: {header}\n");
    for (name, plane) in [("DC", dc), ("low-pass", low), ("high-pass", high)] {
        let numbers: Vec<String> = plane.iter().map(i32::to_string).collect();
        writeln!(text, "{name}: {}", numbers.join(" ")).unwrap();
    }
    let refused = |number| format!("{number}, mode 0, 0 x 0");
    writeln!(text, "load, a number short: {}", refused(6)).unwrap();
    text += "save: 0, same\nsave, a byte short: 12\n";
    for length in ["short", "long"] {
        writeln!(text, "header, a byte {length}: {}", refused(12)).unwrap();
    }
    for call in ["header", "load"] {
        writeln!(text, "{call}, last word 1: {}", refused(10)).unwrap();
    }
    (bytes, text)
}

#[test]
fn header_load_and_save_from_c_and_cxx() {
    let mut random = Random::new(81);
    for language in [C99, CXX[0], CXX[1]] {
        let program = language.build(Path::new("tests/c/plane_file.c"), "plane_file");
        for (mode, width, height) in [(0, 1, 1), (1, 1, 5), (2, 4, 2)] {
            let (bytes, expected) = file(mode, Size::new(width, height), &mut random);
            let path = program_path("plane_file.planes");
            std::fs::write(&path, bytes).unwrap();
            let text = succeed(Command::new(&program).arg(&path));
            assert_eq!(text, expected, "{language:?}, mode {mode}, {width} x {height}");
        }
    }
}
