//! The forecast called from C and C++, where it returns a struct that does not fit registers.

mod common;
use common::*;
use reference::forecast::{forecast, Work};
use reference::Size;
use std::path::Path;
use std::process::Command;

/// What the program prints for this mode and size.
fn expected([mode, width, height]: [u32; 3]) -> String {
    let (number, work) = match forecast(mode, Size::new(width, height)) {
        Ok(work) => (0, work),
        Err(number) => (number, Work::default()),
    };
    format!(
        "{number}: {} cores, {} square filters, {} four filters, {} bytes of planes, {} of samples\n",
        work.cores, work.square_filters, work.four_filters, work.plane_bytes, work.sample_bytes
    )
}

#[test]
fn forecast_from_c_and_cxx() {
    for language in [C99, CXX[0], CXX[1]] {
        let program = language.build(Path::new("tests/c/forecast.c"), "forecast");
        for shape in
            [[0, 1, 1], [1, 3, 2], [2, 2, 3], [2, 525, 413], [3, 1, 1], [0, 526, 1], [1, 1, 0]]
        {
            let text = succeed(Command::new(&program).args(shape.map(|word| word.to_string())));
            assert_eq!(text, expected(shape), "{language:?}, {shape:?}");
        }
    }
}
