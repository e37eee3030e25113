//! The values of lapped.h: that C99 and C++ take it without a warning, and that they are the papers' and the wrapper's.

mod common;
use common::*;
use lapped::{Mode, Refusal};
use lapped_sys::{
    lapped_answer, lapped_found, lapped_header, lapped_size, lapped_steps, lapped_work,
};
use std::fmt::Write;
use std::mem::size_of;
use std::path::Path;
use std::process::Command;

/// What the program prints if the header says what it should.
fn expected() -> String {
    let mut text = String::new();
    let version = env!("CARGO_PKG_VERSION");
    let parts: Vec<u32> = version.split('.').map(|part| part.parse().unwrap()).collect();
    let number = 10_000 * parts[0] + 100 * parts[1] + parts[2];
    writeln!(text, "version {version} is {number}").unwrap();

    writeln!(text, "size {}: 0 4", size_of::<lapped_size>()).unwrap();
    writeln!(text, "steps {}: 0 4 8", size_of::<lapped_steps>()).unwrap();
    writeln!(text, "answer {}: 0 4", size_of::<lapped_answer>()).unwrap();
    writeln!(text, "header {}: 0 4 8", size_of::<lapped_header>()).unwrap();
    writeln!(text, "found {}: 0 4", size_of::<lapped_found>()).unwrap();
    writeln!(text, "work {}: 0 4 8 12 16 20", size_of::<lapped_work>()).unwrap();
    let [none, samples, both] = Mode::ALL.map(Mode::number);
    writeln!(text, "modes {none} {samples} {both}").unwrap();

    writeln!(text, "number 0: done").unwrap();
    for number in 1..=15 {
        writeln!(text, "number {number}: {}", Refusal::from_number(number).unwrap()).unwrap();
    }
    for number in [16, u32::MAX] {
        writeln!(text, "{number}: a number that this header does not list").unwrap();
    }
    for n in [1, 6, 525 * 413] {
        let planes = format!("{n} {} {}", 15 * n, 240 * n);
        writeln!(text, "lengths {n}: {planes}, {}, {}, {}", 256 * n, 16 * n, 32 + 1024 * n)
            .unwrap();
    }
    text
}

#[test]
fn c99_and_cxx_take_the_header() {
    let source = Path::new("tests/c/header.c");
    for language in [C99, CXX[0], CXX[1]] {
        let program = language.build(source, "header");
        assert_eq!(succeed(&mut Command::new(program)), expected(), "{language:?}");
    }
}
