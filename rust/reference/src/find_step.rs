//! Finding a step for a tolerance (02, c: "A step that keeps the gauge honest").

use crate::picture::{check_length, check_mode_and_size, check_planes, forward, inverse, Size};
use crate::step_sizes::{quantise_number, restore_number, step};
use std::ops::RangeInclusive;

/// The indices besides 0 that may be answered: "Any passing index from 2 to 255 will do."
pub fn indices() -> RangeInclusive<u32> {
    2..=255
}

/// What an index makes of a picture.
#[derive(Clone, Debug, PartialEq, Eq)]
pub struct Restored {
    /// The restored coefficients of DC, low-pass and high-pass.
    pub planes: [Vec<i32>; 3],
    /// The samples of these coefficients.
    pub samples: Vec<i32>,
}

/// "forward, quantise, restore and inverse" with an index "used for all bands". None where the index is
/// one "whose products leave the range". The mode, the size and the samples are known to be right.
pub fn restored(mode: u32, size: Size, index: u32, samples: &[i32]) -> Option<Restored> {
    let n = size.macroblocks() as usize;
    let [mut dc, mut low, mut high] = [n, 15 * n, 240 * n].map(|count| vec![0; count]);
    forward(mode, size, samples, &mut dc, &mut low, &mut high).expect("a picture that is right");
    let step = step(index).expect("an index up to 255");
    for coefficient in dc.iter_mut().chain(&mut low).chain(&mut high) {
        *coefficient = restore_number(quantise_number(*coefficient, step), step)?;
    }
    let mut back = vec![0; 256 * n];
    inverse(mode, size, &dc, &low, &high, &mut back).expect("planes of the same size");
    Some(Restored { planes: [dc, low, high], samples: back })
}

/// By how much two pictures differ at most, "the difference taken exactly": in 64 bits, where every
/// difference of two samples has its place.
pub fn largest_difference(one: &[i32], other: &[i32]) -> i64 {
    let differences = one.iter().zip(other).map(|(&a, &b)| (i64::from(a) - i64::from(b)).abs());
    differences.max().unwrap_or(0)
}

/// Whether an index is one "such that forward, quantise, restore and inverse leave every sample within
/// the tolerance, the difference taken exactly. An index whose products leave the range doesn't pass."
pub fn passes(mode: u32, size: Size, tolerance: u32, index: u32, samples: &[i32]) -> bool {
    match restored(mode, size, index, samples) {
        Some(back) => largest_difference(samples, &back.samples) <= i64::from(tolerance),
        None => false,
    }
}

/// "Any passing index from 2 to 255 will do. Index 0, which always passes, is the answer only where none
/// of those does." Of several that pass, this gives the finest. "The lent planes and second samples end
/// holding the restored coefficients and samples of the answered index."
pub fn find_step(
    mode: u32,
    size: Size,
    tolerance: u32,
    samples: &[i32],
    planes: [&mut [i32]; 3],
    second: &mut [i32],
) -> Result<u32, u32> {
    // "It checks as the forward call; a second sample slice is tested by 7 too."
    let n = check_mode_and_size(mode, size)?;
    check_length(samples.len(), 256 * n, 7)?;
    check_length(second.len(), 256 * n, 7)?;
    check_planes(n, planes[0], planes[1], planes[2])?;
    let index = indices().find(|&index| passes(mode, size, tolerance, index, samples)).unwrap_or(0);
    let back = restored(mode, size, index, samples).expect("products of an index that passes");
    for (lent, plane) in planes.into_iter().zip(&back.planes) {
        lent.copy_from_slice(plane);
    }
    second.copy_from_slice(&back.samples);
    Ok(index)
}
