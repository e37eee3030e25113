//! Inverse, quarter view and forward called from C and C++, where they return a struct in one register,
//! a number and a bool.

mod common;
use common::*;
use reference::{forward, inverse, quarter_view, Size};
use std::path::Path;
use std::process::Command;

/// What the program prints for this mode and DC number, by the reference.
fn expected(mode: u32, dc: i32) -> String {
    let size = Size::new(1, 1);
    let (mut dc, mut low, mut high) = ([dc], [0; 15], [0; 240]);
    let (mut samples, mut view) = ([0; 256], [0; 16]);
    let of_inverse = inverse(mode, size, &dc, &low, &high, &mut samples).unwrap();
    let of_quarter = quarter_view(mode, size, &dc, &low, &mut view).unwrap();
    let of_forward = forward(mode, size, &samples, &mut dc, &mut low, &mut high).unwrap();
    let [of_inverse, of_quarter, of_forward] = [of_inverse, of_quarter, of_forward]
        .map(|wrapped| if wrapped { "wrapped" } else { "not wrapped" });
    format!(
        "inverse: 0, {of_inverse}\n\
         quarter: 0, {of_quarter}\n\
         refused inverse: 7, not wrapped\n\
         refused quarter: 8, not wrapped\n\
         refused forward: 4, not wrapped\n\
         forward: 0, {of_forward}\n"
    )
}

#[test]
fn wrapped_from_c_and_cxx() {
    for language in [C99, CXX[0], CXX[1]] {
        let program = language.build(Path::new("tests/c/wrapped.c"), "wrapped");
        for mode in 0..3 {
            for dc in [0, 64, i32::MAX - 1, i32::MAX, i32::MIN] {
                let arguments = [mode.to_string(), dc.to_string()];
                let text = succeed(Command::new(&program).args(arguments));
                assert_eq!(text, expected(mode, dc), "{language:?}, mode {mode}, DC {dc}");
            }
        }
    }
}
