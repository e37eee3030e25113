//! Finding a step called from C and C++, where it returns a struct in one register.

mod common;
use common::*;
use reference::find_step::{indices, passes, restored};
use reference::Size;
use std::fmt::Write;
use std::path::Path;
use std::process::Command;

const SIZE: Size = Size { width: 2, height: 1 };

/// The samples of the program.
fn samples() -> Vec<i32> {
    (0..512).map(|i| i * i / 7 % 256).collect()
}

/// What the program prints for this mode where the answer is this index.
fn expected(mode: u32, index: u32) -> String {
    let mut text = format!("refused: 1 0\nrefused: 7 0\nrefused: 6 0\nfound: 0 {index}\n");
    let back = restored(mode, SIZE, index, &samples()).unwrap();
    let [dc, low, high] = back.planes;
    for (name, numbers) in [
        ("DC", dc),
        ("low-pass", low),
        ("high-pass", high),
        ("samples", samples()),
        ("second samples", back.samples),
    ] {
        let numbers: Vec<String> = numbers.iter().map(i32::to_string).collect();
        writeln!(text, "{name}: {}", numbers.join(" ")).unwrap();
    }
    text
}

/// The index that the program says it found, of which it is only known that it passes.
fn found(text: &str) -> u32 {
    let line = text.lines().find_map(|line| line.strip_prefix("found: 0 ")).expect(text);
    line.parse().unwrap()
}

#[test]
fn find_step_from_c_and_cxx() {
    for language in [C99, CXX[0], CXX[1]] {
        let program = language.build(Path::new("tests/c/find_step.c"), "find_step");
        for mode in 0..3 {
            for tolerance in [0, 1, 5, 300, u32::MAX] {
                let arguments = [mode, tolerance].map(|word| word.to_string());
                let text = succeed(Command::new(&program).args(arguments));
                let what = format!("{language:?}, mode {mode}, tolerance {tolerance}");
                let index = found(&text);
                let passing = |index| passes(mode, SIZE, tolerance, index, &samples());
                let right = if index == 0 { !indices().any(passing) } else { passing(index) };
                assert!(right && index != 1, "{what}: index {index}");
                assert_eq!(text, expected(mode, index), "{what}");
            }
        }
    }
}
