//! The values that 01 gives, starred and unstarred, and values worked out by hand from the rules of 02,
//! held against the reference.

use reference::level::Grid;
use reference::number::plain;
use reference::operators::inverse as op;
use reference::operators::{FORWARD_REORDER, INVERSE_REORDER};
use reference::plane_file::{read_header, save};
use reference::step_sizes::{quantise_number, restore_number, step};
use reference::{inverse, program, quarter_view, Size};

#[test]
fn two_by_two_hadamard() {
    assert_eq!(plain(|v| op::hadamard(v, 0), [4, 0, 0, 0]), [2, 2, 2, 2]);
    assert_eq!(plain(|v| op::hadamard(v, 0), [1, 0, 0, 0]), [1, 0, 0, 0]);
    assert_eq!(plain(|v| op::hadamard(v, 0), [-1, 0, 0, 0]), [0, -1, -1, -1]);
    assert_eq!(plain(|v| op::hadamard(v, 1), [1, 0, 0, 0]), [0, 1, 1, 1]);
    assert_eq!(plain(|v| op::hadamard(v, 1), [-1, 0, 0, 0]), [-1, 0, 0, 0]);
    assert_eq!(
        plain(|v| op::hadamard(v, 0), [2147483647, 0, 0, 1]),
        [-1073741824, -1073741825, -1073741825, -1073741824]
    );
}

#[test]
fn other_small_operators() {
    assert_eq!(plain(op::odd, [8, 0, 0, 0]), [6, 5, 2, 2]);
    assert_eq!(plain(op::odd_odd, [8, 0, 0, 0]), [7, -3, -3, 1]);
    assert_eq!(plain(op::rotation, [0, 1]), [-1, 1]);
    assert_eq!(plain(op::scale, [8, 0]), [9, 5]);
    assert_eq!(plain(op::scale, [-1, 0]), [-2, -2]);
    assert_eq!(plain(op::post_hadamard, [8, 0, 0, 0]), [4, 0, 0, 4]);
}

#[test]
fn core_transform() {
    let mut coefficients = [0; 16];
    coefficients[0] = 16;
    assert_eq!(plain(op::core, coefficients), [4; 16]);

    coefficients = [0; 16];
    coefficients[1] = 8;
    let rows = [[3, 1, -1, -3], [3, 1, -1, -3], [3, 1, -1, -3], [2, 1, -1, -3]];
    assert_eq!(plain(op::core, coefficients), rows.concat()[..]);
}

#[test]
fn each_reorder_undoes_the_other() {
    for k in 0..16 {
        assert_eq!(FORWARD_REORDER[INVERSE_REORDER[k]], k);
        assert_eq!(INVERSE_REORDER[FORWARD_REORDER[k]], k);
    }
}

/// The samples of a 1 × 1 picture in mode 0 whose only number is its DC.
fn samples_of_dc(dc: i32) -> Vec<i32> {
    let mut samples = vec![7; 256];
    inverse(0, Size::new(1, 1), &[dc], &[0; 15], &[0; 240], &mut samples).unwrap();
    samples
}

#[test]
fn dc_one_gives_nine_ones() {
    let samples = samples_of_dc(1);
    for row in 0..16 {
        for column in 0..16 {
            let block = (row / 4) * 4 + column / 4;
            let place = (row % 4, column % 4);
            let one = [1, 4, 5].contains(&block) && [(0, 1), (1, 0), (1, 1)].contains(&place);
            assert_eq!(samples[16 * row + column], i32::from(one), "row {row}, column {column}");
        }
    }
}

fn file_of_dc(mode: u32, size: Size, dc: i32) -> Vec<u8> {
    let n = size.macroblocks() as usize;
    let mut bytes = vec![0; 32 + 1024 * n];
    save(mode, size, &vec![dc; n], &vec![0; 15 * n], &vec![0; 240 * n], &mut bytes).unwrap();
    bytes
}

#[test]
fn program_on_dc_64_prints_sixteen_lines_of_fours() {
    let text = program::output(&file_of_dc(0, Size::new(1, 1), 64));
    assert_eq!(text, "4 4 4 4 4 4 4 4 4 4 4 4 4 4 4 4\n".repeat(16));
}

#[test]
fn limits_of_mode_and_size() {
    // The first check after the sizes is that of the DC plane: 4 says that the sizes passed.
    let answer = |mode, width, height| {
        quarter_view(mode, Size::new(width, height), &[], &[], &mut []).unwrap_err()
    };
    assert_eq!(answer(0, 0, 1), 2);
    assert_eq!(answer(0, 1, 1), 4);
    assert_eq!(answer(0, 525, 1), 4);
    assert_eq!(answer(0, 526, 1), 2);
    assert_eq!(answer(0, 1, 413), 4);
    assert_eq!(answer(0, 1, 414), 3);
    assert_eq!(answer(3, 0, 1), 1);
}

#[test]
fn limits_of_files() {
    let sound = file_of_dc(0, Size::new(1, 1), 64);
    assert!(read_header(&sound).is_ok());
    assert_eq!(read_header(&sound[..31]), Err(9));
    let longer = [&sound[..], &[0]].concat();
    assert_eq!(read_header(&longer), Err(12));
    assert_eq!(program::output(&file_of_dc(0, Size::new(17, 1), 64)), "refused 13\n");
}

#[test]
fn steps_of_indices() {
    for (index, expected) in [(0, 1), (1, 1), (2, 2), (15, 15), (16, 16), (31, 31)] {
        assert_eq!(step(index), Some(expected), "index {index}");
    }
    // (16 + 1) × 2, (16 + 15) × 2, (16 + 8) × 4, (16 + 8) × 2^11 and (16 + 15) × 2^14.
    for (index, expected) in [(33, 34), (47, 62), (56, 96), (200, 49_152), (255, 507_904)] {
        assert_eq!(step(index), Some(expected), "index {index}");
    }
    assert_eq!([256, u32::MAX].map(step), [None, None]);
}

/// Half a step counts as one more; an odd step has no number at its half.
#[test]
fn levels_of_coefficients() {
    let by = |step, coefficients: [i32; 6]| coefficients.map(|c| quantise_number(c, step));
    assert_eq!(by(4, [0, 1, 2, 5, 6, 9]), [0, 0, 1, 1, 2, 2]);
    assert_eq!(by(4, [-1, -2, -5, -6, -9, -10]), [0, -1, -1, -2, -2, -3]);
    assert_eq!(by(5, [2, 3, 7, 8, -2, -3]), [0, 1, 1, 2, 0, -1]);
    assert_eq!(quantise_number(-2_147_483_648, 1), -2_147_483_648);
    assert_eq!(quantise_number(-2_147_483_648, 2), -1_073_741_824);
    assert_eq!(quantise_number(2_147_483_647, 2), 1_073_741_824);
    assert_eq!(quantise_number(2_147_483_647, 507_904), 4_228);
}

#[test]
fn coefficients_of_levels() {
    assert_eq!(restore_number(-3, 40), Some(-120));
    assert_eq!(restore_number(-1_073_741_824, 2), Some(-2_147_483_648));
    assert_eq!(restore_number(1_073_741_824, 2), None);
    assert_eq!(restore_number(-4_228, 507_904), Some(-2_147_418_112));
    assert_eq!(restore_number(-4_229, 507_904), None);
}

/// The numbers 0, 100, 400, 900, .. of one square, of which each corner goes through Figure 4.13, its
/// four numbers row by row: worked out line by line, apart from the reference.
#[test]
fn corners_of_one_square() {
    let mut cells: Vec<i32> = (0..16).map(|i| 100 * i * i).collect();
    let four_filter = |four| plain(op::overlap_four, four);
    Grid::new(4, 4, &mut cells).filter(|_| panic!("one square has no window"), four_filter);
    let expected = [
        [420, 922, 1240, 2529],
        [1128, 2596, 2898, 5155],
        [9491, 13141, 14173, 18609],
        [13993, 18615, 19619, 25030],
    ];
    assert_eq!(cells, expected.concat());
}

/// No number lies in two windows of a filtered level, and each lies in one.
#[test]
fn windows_tile_the_grid() {
    for (width, height) in [(4, 4), (4, 8), (8, 4), (4, 28), (28, 4), (8, 8), (12, 20)] {
        let mut cells: Vec<i32> = (0..(width * height) as i32).collect();
        let (mut squares, mut fours) = (Vec::new(), Vec::new());
        Grid::new(width, height, &mut cells).filter(
            |square| {
                squares.extend(square);
                square
            },
            |four| {
                fours.extend(four);
                four
            },
        );
        let mut places = [squares, fours].concat();
        places.sort_unstable();
        assert_eq!(places, cells, "{width} x {height}");
    }
}
