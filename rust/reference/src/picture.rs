//! Inverse, forward and quarter view over whole pictures, with their checks (01, "Both levels"), and
//! whether a sum wrapped in them (02, e: "Say when a sum wrapped").

use crate::level::Grid;
use crate::number::{Number, Telling};
use crate::operators::Block;

/// The largest width and height of a picture, in macroblocks.
pub const MAX_WIDTH: u32 = 525;
pub const MAX_HEIGHT: u32 = 413;

/// The size of a picture, in macroblocks.
#[derive(Clone, Copy, Debug, PartialEq, Eq)]
pub struct Size {
    pub width: u32,
    pub height: u32,
}

impl Size {
    pub fn new(width: u32, height: u32) -> Self {
        Size { width, height }
    }

    /// The number of macroblocks, n. Wide enough for sizes that no operation accepts.
    pub fn macroblocks(self) -> u64 {
        u64::from(self.width) * u64::from(self.height)
    }
}

/// Working memory of the inverse and the forward transform of one size, for callers that time them.
pub struct Scratch {
    pub quarter: Vec<i32>,
    pub samples: Vec<i32>,
}

impl Scratch {
    pub fn new(size: Size) -> Self {
        let n = size.macroblocks() as usize;
        Scratch { quarter: vec![0; 16 * n], samples: vec![0; 256 * n] }
    }
}

/// The checks that every operation starts with. Gives n.
pub(crate) fn check_mode_and_size(mode: u32, size: Size) -> Result<usize, u32> {
    if mode > 2 {
        return Err(1);
    }
    if !(1..=MAX_WIDTH).contains(&size.width) {
        return Err(2);
    }
    if !(1..=MAX_HEIGHT).contains(&size.height) {
        return Err(3);
    }
    Ok(size.macroblocks() as usize)
}

/// Refuses with `number` unless a slice has its length.
pub(crate) fn check_length(length: usize, expected: usize, number: u32) -> Result<(), u32> {
    if length == expected {
        Ok(())
    } else {
        Err(number)
    }
}

/// The checks of the three planes.
pub(crate) fn check_planes(n: usize, dc: &[i32], low: &[i32], high: &[i32]) -> Result<(), u32> {
    check_length(dc.len(), n, 4)?;
    check_length(low.len(), 15 * n, 5)?;
    check_length(high.len(), 240 * n, 6)
}

pub(crate) fn filters_level_one(mode: u32) -> bool {
    mode == 2
}

pub(crate) fn filters_level_two(mode: u32) -> bool {
    mode >= 1
}

/// Coefficient 0 and then coefficients 1 to 15.
fn block(first: i32, rest: &[i32]) -> Block {
    let mut block = [first; 16];
    block[1..].copy_from_slice(rest);
    block
}

/// Where the high-pass numbers of the block in block row i and block column j start.
fn high_pass_start(width: usize, i: usize, j: usize) -> usize {
    let macroblock = (i / 4) * width + j / 4;
    let block = (i % 4) * 4 + j % 4;
    (16 * macroblock + block) * 15
}

fn inverse_level_one<N: Number>(
    mode: u32,
    size: Size,
    dc: &[i32],
    low: &[i32],
    grid: &mut [i32],
) -> bool {
    let (width, height) = (size.width as usize, size.height as usize);
    Grid::new(4 * width, 4 * height, grid).inverse::<N>(filters_level_one(mode), |i, j| {
        let macroblock = i * width + j;
        block(dc[macroblock], &low[15 * macroblock..15 * macroblock + 15])
    })
}

/// From coefficient planes to samples. Gives whether a sum wrapped.
pub fn inverse(
    mode: u32,
    size: Size,
    dc: &[i32],
    low: &[i32],
    high: &[i32],
    samples: &mut [i32],
) -> Result<bool, u32> {
    let n = check_mode_and_size(mode, size)?;
    check_planes(n, dc, low, high)?;
    check_length(samples.len(), 256 * n, 7)?;
    let mut quarter = vec![0; 16 * n];
    Ok(inverse_by::<Telling>(mode, size, dc, low, high, samples, &mut quarter))
}

/// The inverse of arguments that are known to be right by numbers of any kind, with 16 n numbers of the
/// caller's for the quarter view.
pub fn inverse_by<N: Number>(
    mode: u32,
    size: Size,
    dc: &[i32],
    low: &[i32],
    high: &[i32],
    samples: &mut [i32],
    quarter: &mut [i32],
) -> bool {
    let (width, height) = (size.width as usize, size.height as usize);
    let level_one = inverse_level_one::<N>(mode, size, dc, low, quarter);
    let mut grid = Grid::new(16 * width, 16 * height, samples);
    let level_two = grid.inverse::<N>(filters_level_two(mode), |i, j| {
        let start = high_pass_start(width, i, j);
        block(quarter[i * 4 * width + j], &high[start..start + 15])
    });
    level_one || level_two
}

/// The quarter view: the grid after level one. Gives whether a sum wrapped in this level.
pub fn quarter_view(
    mode: u32,
    size: Size,
    dc: &[i32],
    low: &[i32],
    view: &mut [i32],
) -> Result<bool, u32> {
    let n = check_mode_and_size(mode, size)?;
    check_length(dc.len(), n, 4)?;
    check_length(low.len(), 15 * n, 5)?;
    check_length(view.len(), 16 * n, 8)?;
    Ok(inverse_level_one::<Telling>(mode, size, dc, low, view))
}

/// From samples to coefficient planes. Gives whether a sum wrapped.
pub fn forward(
    mode: u32,
    size: Size,
    samples: &[i32],
    dc: &mut [i32],
    low: &mut [i32],
    high: &mut [i32],
) -> Result<bool, u32> {
    let n = check_mode_and_size(mode, size)?;
    check_length(samples.len(), 256 * n, 7)?;
    check_planes(n, dc, low, high)?;
    let mut scratch = Scratch::new(size);
    Ok(forward_by::<Telling>(mode, size, samples, dc, low, high, &mut scratch))
}

/// The forward transform of arguments that are known to be right by numbers of any kind, in working
/// memory of the caller's.
pub fn forward_by<N: Number>(
    mode: u32,
    size: Size,
    samples: &[i32],
    dc: &mut [i32],
    low: &mut [i32],
    high: &mut [i32],
    scratch: &mut Scratch,
) -> bool {
    let (width, height) = (size.width as usize, size.height as usize);
    let quarter = &mut scratch.quarter;
    // The filters are undone in place and the samples are only lent for reading: hence the copy.
    scratch.samples.copy_from_slice(samples);
    let mut grid = Grid::new(16 * width, 16 * height, &mut scratch.samples);
    let level_two = grid.forward::<N>(filters_level_two(mode), |i, j, coefficients| {
        let start = high_pass_start(width, i, j);
        quarter[i * 4 * width + j] = coefficients[0];
        high[start..start + 15].copy_from_slice(&coefficients[1..]);
    });
    let mut grid = Grid::new(4 * width, 4 * height, quarter);
    let level_one = grid.forward::<N>(filters_level_one(mode), |i, j, coefficients| {
        let macroblock = i * width + j;
        dc[macroblock] = coefficients[0];
        low[15 * macroblock..15 * macroblock + 15].copy_from_slice(&coefficients[1..]);
    });
    level_two || level_one
}
