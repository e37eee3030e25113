//! `lapped info`: what it says of a plane file.

mod common;
use common::*;
use reference::random::{Random, Values};
use reference::Size;

#[test]
fn mode_size_and_extremes() {
    let folder = Folder::new("info");
    let mut random = Random::new(20);
    let modes = ["no level filtered", "the level of the samples filtered", "both levels filtered"];
    for (mode, words) in modes.iter().enumerate() {
        for values in Values::ALL {
            let size = Size::new(3, 2);
            let mut planes = random_planes(&mut random, size, values);
            // The extremes at the ends of the planes, where they are missed first.
            planes[0] = vec![-5, 0, 1, 2, 3, 70_000];
            planes[1][0] = i32::MAX;
            planes[2][240 * 6 - 1] = i32::MIN;
            let file = folder.write("planes", &file_of_planes(mode as u32, size, &planes));
            let ran = lapped(&["info", &file]);
            ran.assert_done("info");
            let least = |plane: &[i32]| *plane.iter().min().unwrap();
            let most = |plane: &[i32]| *plane.iter().max().unwrap();
            let expected = format!(
                "{file}\n  mode       {mode} ({words})\n  \
                 size       3 × 2 macroblocks, 48 × 32 samples\n  bytes      6176\n  DC         -5 to 70000\n  low-pass   {} to 2147483647\n  \
                 high-pass  -2147483648 to {}\n  sums       {}\n",
                least(&planes[1]),
                most(&planes[2]),
                sums(wraps_of_planes(mode as u32, size, &planes)),
            );
            assert_eq!(ran.text(), expected);
        }
    }
}

fn sums(wraps: bool) -> &'static str {
    if wraps {
        "a sum wrapped"
    } else {
        "no sum wrapped"
    }
}

/// By one number of the picture, in the last block of its last macroblock.
#[test]
fn a_sum_that_wraps() {
    let folder = Folder::new("wrapping_info");
    let size = Size::new(2, 2);
    for mode in 0..=2 {
        let told = [0, i32::MIN].map(|number| {
            let mut planes = random_planes(&mut Random::new(21), size, Values::Small);
            planes[2][240 * 4 - 8] = number;
            let file = folder.write("planes", &file_of_planes(mode, size, &planes));
            let ran = lapped(&["info", &file]);
            ran.assert_done("info");
            let wraps = wraps_of_planes(mode, size, &planes);
            let line = format!("\n  sums       {}\n", sums(wraps));
            assert!(ran.text().ends_with(&line), "{}", ran.text());
            wraps
        });
        assert_eq!(told, [false, true], "mode {mode}");
    }
}

#[test]
fn the_largest_size() {
    let folder = Folder::new("largest_info");
    let (n, size) = (525 * 413, Size::new(525, 413));
    let mut planes = [n, 15 * n, 240 * n].map(|count| vec![0; count]);
    planes[2][240 * n - 1] = 1;
    let file = folder.write("planes", &file_of_planes(2, size, &planes));
    let ran = lapped(&["info", &file]);
    ran.assert_done("info");
    for line in [
        "  size       525 × 413 macroblocks, 8400 × 6608 samples\n",
        "  bytes      222028832\n",
        "  DC         0 to 0\n",
        "  high-pass  0 to 1\n",
        "  sums       no sum wrapped\n",
    ] {
        assert!(ran.text().contains(line), "{}", ran.text());
    }
}
