//! Whether a sum wrapped, against the reference: pictures of all magnitudes, large numbers alone, and
//! pictures of which one block or one window alone wraps.

mod common;
use common::*;
use lapped::{Mode, Size};
use reference::level::Grid;
use reference::number::{told, Plain, Telling};
use reference::operators::{forward, inverse, Block};
use reference::random::{Random, Values};

/// Up to this magnitude no number of a level makes a sum wrap in it, so that a library may leave off
/// looking at steps there.
const CALM: i32 = 1 << 25;

/// And up to this one no block or window wraps by its own sixteen numbers.
const CALM_ALONE: i32 = 1 << 27;

/// The library tells of these planes what the reference does, and this is given.
fn assert_agrees(mode: Mode, size: Size, planes: &[Vec<i32>; 3], what: &str) -> bool {
    let [dc, low, high] = planes;
    let mut samples = vec![0; size.samples()];
    let number = mode.number();
    let wraps =
        reference::inverse(number, reference_size(size), dc, low, high, &mut samples).unwrap();
    let what = format!("{what}, {mode:?}, {size:?}");
    assert_told_of_planes(number, size, planes, wraps, &what);
    wraps
}

/// The same of samples.
fn assert_agrees_of_samples(mode: Mode, size: Size, samples: &[i32], what: &str) -> bool {
    let n = size.macroblocks();
    let mut planes = [n, 15 * n, 240 * n].map(|count| vec![0; count]);
    let [dc, low, high] = &mut planes;
    let wraps =
        reference::forward(mode.number(), reference_size(size), samples, dc, low, high).unwrap();
    assert_eq!(assert_agrees(mode, size, &planes, what), wraps, "{what}: there and back");
    wraps
}

/// Numbers of this many bits and a sign.
fn numbers(random: &mut Random, count: usize, bits: u32) -> Vec<i32> {
    (0..count).map(|_| random.number(Values::Wild) >> (31 - bits)).collect()
}

/// From pictures of which none wraps to pictures of which all do.
#[test]
fn pictures_of_all_magnitudes() {
    let mut random = Random::new(111);
    let mut wrapped = [0; 32];
    for (width, height) in SHAPES.into_iter().filter(|(width, height)| width * height < 100) {
        let shape = size(width, height);
        let n = shape.macroblocks();
        for mode in Mode::ALL {
            for bits in 22..=31 {
                let what = format!("{bits} bits");
                let planes = [n, 15 * n, 240 * n].map(|count| numbers(&mut random, count, bits));
                let samples = numbers(&mut random, 256 * n, bits);
                wrapped[bits as usize] += usize::from(assert_agrees(mode, shape, &planes, &what));
                wrapped[bits as usize] +=
                    usize::from(assert_agrees_of_samples(mode, shape, &samples, &what));
            }
        }
    }
    assert_eq!((wrapped[22], wrapped[31]), (0, 14 * 3 * 2), "{wrapped:?}");
    assert!((23..31).any(|bits| (10..74).contains(&wrapped[bits])), "{wrapped:?}");
}

/// The magnitudes around which a library may change its way, and those at which a number wraps alone.
const ALONE: [i32; 16] = [
    CALM,
    CALM + 1,
    -CALM,
    -CALM - 1,
    CALM - 1,
    CALM_ALONE,
    CALM_ALONE + 1,
    -CALM_ALONE,
    -CALM_ALONE - 1,
    1 << 30,
    715_827_883,
    -715_827_883,
    i32::MAX - 1,
    i32::MAX,
    i32::MIN + 1,
    i32::MIN,
];

/// All places of a few numbers, and the ends of many.
fn places(count: usize) -> Vec<usize> {
    match count {
        0..=768 => (0..count).collect(),
        _ => vec![0, 1, 15, 16, count / 2, count - 17, count - 16, count - 2, count - 1],
    }
}

/// A number that nothing else is near: whoever looks for large ones must not miss a place, least of all
/// the first or the last of what is lent.
#[test]
fn large_numbers_alone() {
    for (width, height) in [(1, 1), (2, 1), (1, 3), (3, 2), (5, 1), (7, 1), (3, 3), (13, 1)] {
        let shape = size(width, height);
        let n = shape.macroblocks();
        for mode in Mode::ALL {
            for (plane, count) in [n, 15 * n, 240 * n].into_iter().enumerate() {
                for place in places(count) {
                    assert_some_wrap(|number| {
                        let mut planes = [n, 15 * n, 240 * n].map(|count| vec![0; count]);
                        planes[plane][place] = number;
                        let what = format!("{number} at place {place} of plane {plane}");
                        assert_agrees(mode, shape, &planes, &what)
                    });
                }
            }
            for place in places(256 * n) {
                assert_some_wrap(|number| {
                    let mut samples = vec![0; 256 * n];
                    samples[place] = number;
                    let what = format!("sample {number} at place {place}");
                    assert_agrees_of_samples(mode, shape, &samples, &what)
                });
            }
        }
    }
}

/// Of the numbers alone, those around 2^25 and 2^27 do not wrap and some of the others do.
fn assert_some_wrap(wraps: impl Fn(i32) -> bool) {
    let wrapped = ALONE.map(wraps);
    assert!(wrapped[..9] == [false; 9] && wrapped[9..].contains(&true), "{wrapped:?}");
}

/// Sixteen numbers of one magnitude.
fn block_of(signs: u32, magnitude: i32) -> Block {
    std::array::from_fn(|k| if signs >> k & 1 == 1 { -magnitude } else { magnitude })
}

/// The least magnitude at which an operator wraps on sixteen numbers of it, and signs with which it does.
fn least_that_wraps(operator: fn([Telling; 16]) -> [Telling; 16]) -> (u32, i32) {
    let wraps = |signs, magnitude| told(operator, block_of(signs, magnitude)).1;
    let mut least = (0, i32::MAX);
    for signs in 0..1 << 16 {
        while wraps(signs, least.1 - 1) {
            let (mut calm, mut wrapping) = (CALM_ALONE, least.1 - 1);
            while wrapping - calm > 1 {
                let middle = calm + (wrapping - calm) / 2;
                if wraps(signs, middle) {
                    wrapping = middle;
                } else {
                    calm = middle;
                }
            }
            least = (signs, wrapping);
        }
    }
    least
}

/// A library may pass over blocks and windows whose numbers are all at most 2^27. The least with which one
/// wraps are not much larger, and are told of; those with numbers one less are not.
#[test]
fn blocks_and_windows_of_the_least_numbers_that_wrap() {
    let shape = size(1, 1);
    let (signs, least) = least_that_wraps(inverse::core);
    assert!((CALM_ALONE..2 * CALM_ALONE).contains(&least), "{least}");
    for magnitude in [least - 1, least] {
        let block = block_of(signs, magnitude);
        let planes = [block[..1].to_vec(), block[1..].to_vec(), vec![0; 240]];
        let what = format!("a block of numbers of magnitude {magnitude}");
        let [[cores, ..], _] = wrapping(Mode::Unfiltered, shape, &planes);
        assert_eq!(cores, magnitude == least, "{what}");
        assert_agrees(Mode::Unfiltered, shape, &planes, &what);
    }
    let window = &uses(1, 16, 16)[0];
    let (signs, least) = least_that_wraps(forward::overlap_square);
    assert!((CALM_ALONE..2 * CALM_ALONE).contains(&least), "{least}");
    for magnitude in [least - 1, least] {
        let mut samples = vec![0; 256];
        for (&place, number) in window.iter().zip(block_of(signs, magnitude)) {
            samples[place] = number;
        }
        let what = format!("a window of numbers of magnitude {magnitude}");
        let wraps = assert_agrees_of_samples(Mode::SampleLevel, shape, &samples, &what);
        assert_eq!(wraps, magnitude == least, "{what}");
    }
}

/// Large numbers everywhere, just as large as makes no sum of their level wrap and one more, with signs
/// at random; in all planes at once and in each alone.
#[test]
fn large_numbers_everywhere() {
    let mut random = Random::new(112);
    let shape = size(2, 3);
    let n = shape.macroblocks();
    for _ in 0..100 {
        for mode in Mode::ALL {
            for magnitude in [CALM, CALM + 1] {
                let mut signed = |count| -> Vec<i32> {
                    (0..count).map(|_| any(&mut random, &[magnitude, -magnitude])).collect()
                };
                let what = format!("numbers of magnitude {magnitude}");
                let planes = [signed(n), signed(15 * n), signed(240 * n)];
                assert_agrees(mode, shape, &planes, &what);
                for plane in 0..3 {
                    let mut alone = [n, 15 * n, 240 * n].map(|count| vec![0; count]);
                    alone[plane] = planes[plane].clone();
                    assert_agrees(mode, shape, &alone, &what);
                }
                assert_agrees_of_samples(mode, shape, &signed(256 * n), &what);
            }
        }
    }
}

/// Which operators wrap in a picture: at each level the core transform, the filter of squares and that
/// of four numbers.
fn wrapping(mode: Mode, size: Size, planes: &[Vec<i32>; 3]) -> [[bool; 3]; 2] {
    let [dc, low, high] = planes;
    let width = size.width() as usize;
    let block =
        |first: i32, rest: &[i32]| -> Block { [&[first], rest].concat().try_into().unwrap() };
    let mut view = vec![0; size.view_samples()];
    let mut grid = Grid::new(size.view_across(), size.view_down(), &mut view);
    let cores = grid.inverse::<Telling>(false, |i, j| {
        let macroblock = i * width + j;
        block(dc[macroblock], &low[15 * macroblock..][..15])
    });
    let [squares, fours] = filtering(&mut grid, mode == Mode::BothLevels);
    let level_one = [cores, squares, fours];

    let mut samples = vec![0; size.samples()];
    let mut grid = Grid::new(size.samples_across(), size.samples_down(), &mut samples);
    let cores = grid.inverse::<Telling>(false, |i, j| {
        let block_before = 16 * (i / 4 * width + j / 4) + 4 * (i % 4) + j % 4;
        block(view[i * size.view_across() + j], &high[15 * block_before..][..15])
    });
    let [squares, fours] = filtering(&mut grid, mode != Mode::Unfiltered);
    [level_one, [cores, squares, fours]]
}

/// Runs the filters of a level where it is filtered, and tells which of the two kinds wrap.
fn filtering(grid: &mut Grid, filtered: bool) -> [bool; 2] {
    let [mut squares, mut fours] = [false; 2];
    if filtered {
        grid.filter(
            |square| {
                let (results, wrapped) = told(inverse::overlap_square, square);
                squares |= wrapped;
                results
            },
            |four| {
                let (results, wrapped) = told(inverse::overlap_four, four);
                fours |= wrapped;
                results
            },
        );
    }
    [squares, fours]
}

/// The planes from which a level's core transforms make these cells, all else being zero.
fn planes_of(mode: Mode, size: Size, level: usize, mut cells: Vec<i32>) -> [Vec<i32>; 3] {
    if level == 0 {
        return planes_of_view(size, cells, false);
    }
    let width = size.width() as usize;
    let (mut view, mut high) = (vec![0; size.view_samples()], vec![0; size.high_coefficients()]);
    let mut grid = Grid::new(size.samples_across(), size.samples_down(), &mut cells);
    grid.forward::<Plain>(false, |i, j, coefficients| {
        let block_before = 16 * (i / 4 * width + j / 4) + 4 * (i % 4) + j % 4;
        view[i * size.view_across() + j] = coefficients[0];
        high[15 * block_before..][..15].copy_from_slice(&coefficients[1..]);
    });
    let [dc, low, _] = planes_of_view(size, view, mode == Mode::BothLevels);
    [dc, low, high]
}

/// The planes from which level one makes this view, with a high-pass plane of zeros.
fn planes_of_view(size: Size, mut view: Vec<i32>, filtered: bool) -> [Vec<i32>; 3] {
    let (n, width) = (size.macroblocks(), size.width() as usize);
    let mut planes = [n, 15 * n, 240 * n].map(|count| vec![0; count]);
    let [dc, low, _] = &mut planes;
    let mut grid = Grid::new(size.view_across(), size.view_down(), &mut view);
    grid.forward::<Plain>(filtered, |i, j, coefficients| {
        let macroblock = i * width + j;
        dc[macroblock] = coefficients[0];
        low[15 * macroblock..][..15].copy_from_slice(&coefficients[1..]);
    });
    planes
}

/// The places of the cells of every block, square or four of a grid, first and last among them.
fn uses(operator: usize, width: usize, height: usize) -> Vec<Vec<usize>> {
    let square = |row: usize, column: usize| -> Vec<usize> {
        (0..16).map(|k| (row + k / 4) * width + column + k % 4).collect()
    };
    let mut uses = Vec::new();
    match operator {
        0 => {
            for row in (0..height).step_by(4) {
                uses.extend((0..width).step_by(4).map(|column| square(row, column)));
            }
        }
        1 => {
            for row in (2..height - 3).step_by(4) {
                uses.extend((2..width - 3).step_by(4).map(|column| square(row, column)));
            }
        }
        _ => {
            for row in [0, 1, height - 2, height - 1] {
                for column in (2..width - 3).step_by(4) {
                    uses.push((0..4).map(|k| row * width + column + k).collect());
                }
            }
            for column in [0, 1, width - 2, width - 1] {
                for row in (2..height - 3).step_by(4) {
                    uses.push((0..4).map(|k| (row + k) * width + column).collect());
                }
            }
            for row in [0, height - 2] {
                for column in [0, width - 2] {
                    uses.push((0..4).map(|k| (row + k / 2) * width + column + k % 2).collect());
                }
            }
        }
    }
    uses
}

/// Pictures of which one use of one operator wraps, and no other: every use of it in its turn, from the
/// first to that in the last corner.
#[test]
fn one_block_or_window_alone() {
    let mut random = Random::new(113);
    for (width, height) in [(1, 1), (2, 2), (3, 1), (1, 3), (3, 2)] {
        let shape = size(width, height);
        for (level, across, down) in [
            (0, shape.view_across(), shape.view_down()),
            (1, shape.samples_across(), shape.samples_down()),
        ] {
            for operator in 0..3 {
                for places in uses(operator, across, down) {
                    for mode in Mode::ALL {
                        let filtered = [mode == Mode::BothLevels, mode != Mode::Unfiltered];
                        if operator > 0 && !filtered[level] {
                            continue;
                        }
                        let planes = (0..10_000).find_map(|_| {
                            let mut cells = vec![0; across * down];
                            for _ in 0..1 + random.below(4) {
                                let number = random.number(Values::Wild) >> random.below(2);
                                cells[any(&mut random, &places)] = number;
                            }
                            let planes = planes_of(mode, shape, level, cells);
                            let mut only = [[false; 3]; 2];
                            only[level][operator] = true;
                            (wrapping(mode, shape, &planes) == only).then_some(planes)
                        });
                        let what = format!("level {level}, operator {operator} at {}", places[0]);
                        let planes = planes.unwrap_or_else(|| panic!("nothing found: {what}"));
                        assert!(assert_agrees(mode, shape, &planes, &what), "{what}");
                    }
                }
            }
        }
    }
}

/// In the quarter view nothing of the second level is seen, whatever the high-pass plane holds.
#[test]
fn the_view_tells_of_level_one_alone() {
    let shape = size(3, 2);
    let mut random = Random::new(114);
    for mode in Mode::ALL {
        let planes = [vec![0; 6], vec![0; 90], random.numbers(1440, Values::Wild)];
        assert!(assert_agrees(mode, shape, &planes, "wild high-pass numbers"));
        let mut view = vec![0; shape.view_samples()];
        let told = lapped::quarter_view(mode, shape, planes_ref(&planes), &mut view);
        assert_eq!(told.map(bool::from), Ok(false), "{mode:?}");
    }
}

/// Level two can wrap by what level one left alone: the four blocks about the corner where four
/// macroblocks meet are bright beyond all measure, and nothing is in the high-pass plane.
#[test]
fn level_two_by_the_view_alone() {
    let mut random = Random::new(115);
    let (mode, shape) = (Mode::SampleLevel, size(2, 2));
    let mut found = 0;
    for _ in 0..2000 {
        let mut view = vec![0; shape.view_samples()];
        for place in [27, 28, 35, 36] {
            view[place] = 1_200_000_000 + random.below(400_000_000) as i32;
        }
        let planes = planes_of_view(shape, view, false);
        if let [[false, false, false], [_, true, _]] = wrapping(mode, shape, &planes) {
            assert!(assert_agrees(mode, shape, &planes, "no high-pass numbers"));
            found += 1;
        }
    }
    assert!(found > 100, "{found} found");
}

/// The last block of the largest picture: with b = MIN + 1 in its first Hadamard, a - b + 1 wraps.
#[test]
fn the_last_corner_of_the_largest_picture() {
    let shape = size(525, 413);
    let mut planes = random_planes(&mut Random::new(116), shape.macroblocks(), Values::Small);
    let last = planes[2].len() - 8;
    for number in [0, i32::MIN + 1] {
        planes[2][last] = number;
        let wraps = assert_agrees(Mode::BothLevels, shape, &planes, "one number");
        assert_eq!(wraps, number != 0);
    }
}
