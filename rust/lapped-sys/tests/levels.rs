//! Quantising and restoring called from C and C++, which pass the step indices as a struct by value.

mod common;
use common::*;
use reference::step_sizes::{quantise_number, restore_number, step};
use std::fmt::Write;
use std::path::Path;
use std::process::Command;

const PLANES: [(&str, i32); 3] = [("DC", 2), ("low-pass", 30), ("high-pass", 480)];

/// What the program prints for these step indices.
fn expected(indices: [u32; 3]) -> String {
    let steps = indices.map(|index| step(index).unwrap());
    let mut texts = [String::from("quantise: 0\n"), String::from("restore: 0\n")];
    for ((name, count), step) in PLANES.into_iter().zip(steps) {
        let coefficients = (0..count).map(|i| if i % 2 == 0 { 1001 * i } else { -1001 * i });
        let levels = coefficients.map(|coefficient| quantise_number(coefficient, step));
        let restored = levels.clone().map(|level| restore_number(level, step).unwrap());
        for (text, plane) in texts.iter_mut().zip([levels.collect(), restored.collect()]) {
            let plane: Vec<i32> = plane;
            let numbers: Vec<String> = plane.iter().map(i32::to_string).collect();
            writeln!(text, "{name}: {}", numbers.join(" ")).unwrap();
        }
    }
    let [dc, low, high] = steps;
    let refused = "refused: 14 14\n".repeat(3) + "refused: 15\n";
    format!("steps: {dc} {low} {high}\n{}{refused}", texts.concat())
}

#[test]
fn quantise_and_restore_from_c_and_cxx() {
    for language in [C99, CXX[0], CXX[1]] {
        let program = language.build(Path::new("tests/c/levels.c"), "levels");
        for indices in [[0, 40, 100], [100, 0, 40], [40, 100, 7]] {
            let text = succeed(Command::new(&program).args(indices.map(|i| i.to_string())));
            assert_eq!(text, expected(indices), "{language:?}, {indices:?}");
        }
    }
}
