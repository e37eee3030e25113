//! `lapped forecast`: what it says of a size and of a plane file.

mod common;
use common::*;
use reference::random::{Random, Values};
use reference::Size;

const MODES: [&str; 3] =
    ["no level filtered", "the level of the samples filtered", "both levels filtered"];

/// The report but for the file's name, with what the reference counts.
fn expected(mode: u32, size: Size) -> String {
    let work = reference::forecast::forecast(mode, size).unwrap();
    let Size { width, height } = size;
    format!(
        "  mode       {mode} ({})\n  \
         size       {width} × {height} macroblocks, {} × {} samples\n  \
         cores      {}\n  \
         filters    {} of squares, {} of four numbers\n  \
         bytes      {} of planes, {} of samples\n",
        MODES[mode as usize],
        16 * width,
        16 * height,
        work.cores,
        work.square_filters,
        work.four_filters,
        work.plane_bytes,
        work.sample_bytes,
    )
}

#[test]
fn of_a_size() {
    for mode in 0..3 {
        for size in [Size::new(1, 1), Size::new(1, 4), Size::new(3, 2), Size::new(525, 413)] {
            let (text, number) = (format!("{}x{}", size.width, size.height), mode.to_string());
            let ran = lapped(&["forecast", "--size", &text, "--mode", &number]);
            ran.assert_done(&text);
            assert_eq!(ran.text(), expected(mode, size));
        }
    }
}

#[test]
fn of_a_file() {
    let folder = Folder::new("forecast");
    let mut random = Random::new(92);
    for mode in 0..3 {
        let size = Size::new(3, 2);
        let planes = random_planes(&mut random, size, Values::Wild);
        let file = folder.write("planes", &file_of_planes(mode, size, &planes));
        let ran = lapped(&["forecast", &file]);
        ran.assert_done(&file);
        assert_eq!(ran.text(), format!("{file}\n{}", expected(mode, size)));
    }
}
