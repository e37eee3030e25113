//! `lapped diff`: edits in chosen blocks of each mode, and the outlines of their windows.

mod common;
use common::pictures::coloured;
use common::*;
use reference::random::{Random, Values};
use reference::Size;

const WIDTH: u32 = 5;
const HEIGHT: u32 = 4;

/// A number of the planes: its plane (0 DC, 1 low-pass, 2 high-pass), its macroblock, and its place
/// among the 1, 15 or 240 numbers of that macroblock.
type Edit = (usize, usize, usize);

/// The window that 01, "Windows of influence", gives an edit: first row, first column, side, before
/// it is clipped.
fn window(mode: u32, (plane, macroblock, place): Edit) -> (i32, i32, i32) {
    let (row, column) = (16 * (macroblock / WIDTH as usize), 16 * (macroblock % WIDTH as usize));
    let (row, column) = (row as i32, column as i32);
    if plane < 2 {
        let beyond = [0, 2, 10][mode as usize];
        return (row - beyond, column - beyond, 16 + 2 * beyond);
    }
    let (block, beyond) = ((place / 15) as i32, [0, 2, 2][mode as usize]);
    (row + 4 * (block / 4) - beyond, column + 4 * (block % 4) - beyond, 4 + 2 * beyond)
}

/// Which samples lie in a window of these edits.
fn allowed(mode: u32, edits: &[Edit]) -> Vec<bool> {
    let mut samples = vec![false; 256 * (WIDTH * HEIGHT) as usize];
    for &edit in edits {
        let (first_row, first_column, side) = window(mode, edit);
        for row in first_row.max(0)..(first_row + side).min(16 * HEIGHT as i32) {
            for column in first_column.max(0)..(first_column + side).min(16 * WIDTH as i32) {
                samples[(row * 16 * WIDTH as i32 + column) as usize] = true;
            }
        }
    }
    samples
}

/// Whether a neighbour of this place, diagonal ones too, is set.
fn beside(set: &[bool], place: usize) -> bool {
    let width = 16 * WIDTH as usize;
    let (row, column) = (place / width, place % width);
    (row.saturating_sub(1)..=row + 1)
        .flat_map(|row| (column.saturating_sub(1)..=column + 1).map(move |column| (row, column)))
        .any(|(row, column)| {
            row < 16 * HEIGHT as usize && column < width && set[row * width + column]
        })
}

fn differing(one: &[i32], other: &[i32]) -> Vec<usize> {
    (0..one.len()).filter(|&place| one[place] != other[place]).collect()
}

/// The report on these edits, all of different places, from what the reference makes of them.
fn report(edits: &[Edit], one: &[i32], other: &[i32]) -> String {
    let width = 16 * WIDTH as usize;
    let places = differing(one, other);
    let count = |plane| edits.iter().filter(|edit| edit.0 == plane).count();
    let mut macroblocks: Vec<usize> =
        edits.iter().filter(|edit| edit.0 < 2).map(|edit| edit.1).collect();
    let mut blocks: Vec<(usize, usize)> =
        edits.iter().filter(|edit| edit.0 == 2).map(|edit| (edit.1, edit.2 / 15)).collect();
    macroblocks.sort_unstable();
    macroblocks.dedup();
    blocks.sort_unstable();
    blocks.dedup();
    let largest =
        places.iter().map(|&p| (i64::from(one[p]) - i64::from(other[p])).abs()).max().unwrap();
    let columns = places.iter().map(|place| place % width);
    format!(
        "coefficients  differ: {} of DC, {} of low-pass, {} of high-pass\n\
         windows       macroblocks: {}, blocks: {}\n\
         samples       {} of {} differ, by at most {largest}\n\
         where         rows {} to {}, columns {} to {}, counted from 0\n              \
         none of them lies outside the windows, as is proved\n",
        count(0),
        count(1),
        count(2),
        macroblocks.len(),
        blocks.len(),
        places.len(),
        one.len(),
        places[0] / width,
        places[places.len() - 1] / width,
        columns.clone().min().unwrap(),
        columns.max().unwrap(),
    )
}

/// Makes the edits, and compares report and picture with what they must be.
fn assert_diff(mode: u32, edits: &[Edit], by: i32) {
    let folder = Folder::new(&format!("diff_{mode}_{}_{by}", edits.len()));
    let size = Size::new(WIDTH, HEIGHT);
    let planes = random_planes(&mut Random::new(u64::from(mode)), size, Values::Small);
    let mut edited = planes.clone();
    for &(plane, macroblock, place) in edits {
        let number = &mut edited[plane][macroblock * [1, 15, 240][plane] + place];
        *number = number.wrapping_add(by);
    }
    let one = folder.write("one", &file_of_planes(mode, size, &planes));
    let other = folder.write("other", &file_of_planes(mode, size, &edited));
    let ran = lapped(&["diff", &one, &other, "-o", &folder.path("heat.png")]);
    let what = format!("mode {mode}, {edits:?} by {by}");
    let [one, other] = [&planes, &edited].map(|planes| samples_of_planes(mode, size, planes));
    assert_eq!(ran.text(), report(edits, &one, &other), "{what}");
    assert_eq!((ran.status, ran.err.as_str()), (1, ""), "{what}");
    assert_heat(&folder.read("heat.png"), &allowed(mode, edits), &one, &other, &what);
}

/// Black where samples are the same, blue just outside the windows, and some red wherever samples
/// differ, white where they differ most.
fn assert_heat(file: &[u8], allowed: &[bool], one: &[i32], other: &[i32], what: &str) {
    let (width, height, pixels) = coloured(file);
    assert_eq!((width, height), (16 * WIDTH as usize, 16 * HEIGHT as usize), "{what}");
    let largest = (0..one.len()).map(|place| one[place].abs_diff(other[place])).max().unwrap();
    for (place, pixel) in pixels.into_iter().enumerate() {
        let outline = !allowed[place] && beside(allowed, place);
        let (row, column) = (place / width, place % width);
        match one[place].abs_diff(other[place]) {
            0 if outline => assert_eq!(pixel, [0, 128, 255], "{what}: outline at {row}, {column}"),
            0 => assert_eq!(pixel, [0, 0, 0], "{what}: the same at {row}, {column}"),
            difference if difference == largest => assert_eq!(pixel, [255, 255, 255], "{what}"),
            _ => assert!(pixel[0] >= 96 && pixel[0] >= pixel[1] && pixel[1] >= pixel[2], "{what}"),
        }
    }
}

/// One number in each plane, in the middle of the picture, at its corners and along its sides.
#[test]
fn single_edits() {
    for mode in 0..=2 {
        for macroblock in [0, 2, 4, 5, 7, 9, 15, 17, 19] {
            for edit in [(0, macroblock, 0), (1, macroblock, 7)] {
                assert_diff(mode, &[edit], 1000);
            }
            for block in [0, 3, 5, 12, 15] {
                assert_diff(mode, &[(2, macroblock, 15 * block + 4)], 500);
            }
        }
    }
}

/// Windows that touch, overlap and lie apart, and blocks inside a macroblock that differs too.
#[test]
fn several_edits() {
    let sets: [&[Edit]; 4] = [
        &[(0, 0, 0), (2, 19, 239), (2, 19, 238)],
        &[(2, 7, 0), (2, 7, 15), (2, 7, 60), (2, 8, 0)],
        &[(0, 6, 0), (1, 6, 3), (1, 8, 14), (2, 6, 100), (2, 13, 45)],
        &[(1, 3, 0), (1, 3, 1), (1, 3, 2), (2, 0, 1), (2, 0, 2), (2, 10, 233)],
    ];
    for mode in 0..=2 {
        for edits in sets {
            assert_diff(mode, edits, 300);
            // Far beyond any picture: differences are taken exactly, also where sums wrap.
            assert_diff(mode, edits, i32::MIN);
        }
    }
}

/// Every number of a file is another: everything lies in a window, and there is nothing to outline.
#[test]
fn everything_differs() {
    let n = (WIDTH * HEIGHT) as usize;
    let all =
        |plane, count| (0..n).flat_map(move |m| (0..count).map(move |place| (plane, m, place)));
    let edits: Vec<Edit> = all(0, 1).chain(all(1, 15)).chain(all(2, 240)).collect();
    for mode in 0..=2 {
        assert_diff(mode, &edits, 77);
    }
}

#[test]
fn nothing_differs() {
    let folder = Folder::new("nothing_differs");
    let (one, other) = (folder.write("one", &some_file(40)), folder.write("other", &some_file(40)));
    let ran = lapped(&["diff", &one, &other, "-o", &folder.path("heat.png")]);
    ran.assert_done("diff");
    assert_eq!(ran.text(), "no coefficient and no sample differs\n");
    let (width, height, pixels) = coloured(&folder.read("heat.png"));
    assert_eq!((width, height), (32, 16));
    assert!(pixels.iter().all(|pixel| *pixel == [0, 0, 0]));
}
