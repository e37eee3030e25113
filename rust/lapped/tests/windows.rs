//! Where a change of the planes may show in the samples (01, "Windows of influence").

mod common;
use common::*;
use lapped::{Mode, Size};
use reference::random::{Random, Values};

/// Samples `first_row` to `end_row` - 1 and `first_column` to `end_column` - 1, not yet clipped.
#[derive(Clone, Copy, Debug)]
struct Window {
    first_row: i32,
    end_row: i32,
    first_column: i32,
    end_column: i32,
}

impl Window {
    /// The square of `side` samples at (row, column) and `beyond` samples more on each side.
    fn around(row: i32, column: i32, side: i32, beyond: i32) -> Self {
        Window {
            first_row: row - beyond,
            end_row: row + side + beyond,
            first_column: column - beyond,
            end_column: column + side + beyond,
        }
    }

    fn holds(&self, row: i32, column: i32) -> bool {
        (self.first_row..self.end_row).contains(&row)
            && (self.first_column..self.end_column).contains(&column)
    }
}

/// The window of one high-pass number, by its place in the plane of a picture `width` wide.
fn high_pass_window(mode: Mode, width: usize, place: usize) -> Window {
    let (macroblock, block) = (place / 240, place / 15 % 16);
    let row = 16 * (macroblock / width) + 4 * (block / 4);
    let column = 16 * (macroblock % width) + 4 * (block % 4);
    Window::around(row as i32, column as i32, 4, [0, 2, 2][mode.number() as usize])
}

/// The window of the DC and low-pass numbers of one macroblock.
fn macroblock_window(mode: Mode, width: usize, macroblock: usize) -> Window {
    let (row, column) = (16 * (macroblock / width), 16 * (macroblock % width));
    Window::around(row as i32, column as i32, 16, [0, 2, 10][mode.number() as usize])
}

/// Changes one number of the planes; gives the window that 01 allows the change.
fn change_one(mode: Mode, width: usize, planes: &mut [Vec<i32>; 3], random: &mut Random) -> Window {
    // The three planes alike, though the high-pass plane holds most of the numbers.
    let plane = random.below(3);
    let place = random.below(planes[plane].len());
    let old = planes[plane][place];
    planes[plane][place] = match random.below(3) {
        0 => old.wrapping_add(1),
        1 => old.wrapping_add(1000),
        _ => random.number(Values::Wild),
    };
    if planes[plane][place] == old {
        planes[plane][place] = !old;
    }
    match plane {
        0 => macroblock_window(mode, width, place),
        1 => macroblock_window(mode, width, place / 15),
        _ => high_pass_window(mode, width, place),
    }
}

/// The (row, column) of each sample that differs. Never empty: the inverse loses nothing.
fn differences(size: Size, one: &[i32], other: &[i32]) -> Vec<(i32, i32)> {
    let width = size.samples_across();
    let places: Vec<(i32, i32)> = (0..one.len())
        .filter(|&i| one[i] != other[i])
        .map(|i| ((i / width) as i32, (i % width) as i32))
        .collect();
    assert!(!places.is_empty(), "two sets of planes share a picture");
    places
}

fn assert_inside(places: &[(i32, i32)], windows: &[Window], what: &str) {
    for &(row, column) in places {
        assert!(
            windows.iter().any(|window| window.holds(row, column)),
            "{what}: sample ({row}, {column}) lies in none of {windows:?}"
        );
    }
}

const SHAPES: [(u32, u32); 9] =
    [(1, 1), (1, 2), (2, 1), (1, 5), (5, 1), (3, 3), (4, 2), (2, 4), (4, 4)];

#[test]
fn a_single_change_stays_in_its_window() {
    let mut random = Random::new(31);
    for (width, height) in SHAPES {
        let n = (width * height) as usize;
        for mode in Mode::ALL {
            for values in Values::ALL {
                for _ in 0..60 {
                    let mut planes = random_planes(&mut random, n, values);
                    let before = samples_of(mode, size(width, height), &planes);
                    let window = change_one(mode, width as usize, &mut planes, &mut random);
                    let after = samples_of(mode, size(width, height), &planes);
                    let places = differences(size(width, height), &before, &after);
                    assert_inside(&places, &[window], &format!("{mode:?}, {width} x {height}"));
                }
            }
        }
    }
}

#[test]
fn several_changes_stay_in_their_windows_together() {
    let mut random = Random::new(32);
    for (width, height) in SHAPES {
        let n = (width * height) as usize;
        for mode in Mode::ALL {
            for _ in 0..40 {
                let mut planes = random_planes(&mut random, n, Values::Wild);
                let before = samples_of(mode, size(width, height), &planes);
                let old_planes = planes.clone();
                let windows: Vec<Window> = (0..1 + random.below(4))
                    .map(|_| change_one(mode, width as usize, &mut planes, &mut random))
                    .collect();
                if planes == old_planes {
                    continue; // Two changes of one number may cancel.
                }
                let after = samples_of(mode, size(width, height), &planes);
                let places = differences(size(width, height), &before, &after);
                assert_inside(&places, &windows, &format!("{mode:?}, {width} x {height}"));
            }
        }
    }
}

/// Changes in the middle reach all four sides of their windows, so the windows that the tests above
/// allow are not too wide.
#[test]
fn the_windows_are_no_wider_than_needed() {
    let mut random = Random::new(33);
    let shape = size(3, 3);
    let middle = 4;
    for mode in Mode::ALL {
        for (plane, place) in [(0, middle), (1, 15 * middle + 3), (2, 240 * middle + 15 * 5 + 3)] {
            let window = match plane {
                2 => high_pass_window(mode, 3, place),
                _ => macroblock_window(mode, 3, middle),
            };
            let mut reached = [false; 4];
            for _ in 0..200 {
                let mut planes = random_planes(&mut random, 9, Values::Small);
                let before = samples_of(mode, shape, &planes);
                planes[plane][place] = random.number(Values::Wild);
                let after = samples_of(mode, shape, &planes);
                for (row, column) in differences(shape, &before, &after) {
                    reached[0] |= row == window.first_row;
                    reached[1] |= row == window.end_row - 1;
                    reached[2] |= column == window.first_column;
                    reached[3] |= column == window.end_column - 1;
                }
            }
            assert_eq!(reached, [true; 4], "{mode:?}, plane {plane}, {window:?}");
        }
    }
}
