//! Steps, quantising and restoring (02, a: "Step sizes").

use crate::picture::{check_mode_and_size, check_planes, Size};

/// "A step index of 0 to 255 chooses a step: index 0 gives 1, 1 to 15 give the index, and above that
/// (16 + index mod 16) × 2^(index div 16 − 1)." None for any other index.
pub fn step(index: u32) -> Option<u32> {
    match index {
        0 => Some(1),
        1..=15 => Some(index),
        16..=255 => Some((16 + index % 16) * 2u32.pow(index / 16 - 1)),
        _ => None,
    }
}

/// "Quantising gives the sign of the coefficient with magnitude (magnitude + step div 2) div step."
pub fn quantise_number(coefficient: i32, step: u32) -> i32 {
    // In 64 bits, where −2147483648 has a magnitude.
    let (coefficient, step) = (i64::from(coefficient), i64::from(step));
    let magnitude = (coefficient.abs() + step / 2) / step;
    (coefficient.signum() * magnitude) as i32
}

/// "Restoring multiplies level by step." None where the product is outside the signed 32-bit range.
pub fn restore_number(level: i32, step: u32) -> Option<i32> {
    i32::try_from(i64::from(level) * i64::from(step)).ok()
}

/// The steps of the three bands, or 14: "a step index above 255".
fn steps(indices: [u32; 3]) -> Result<[u32; 3], u32> {
    let [dc, low, high] = indices.map(|index| step(index).ok_or(14u32));
    Ok([dc?, low?, high?])
}

/// From coefficients to levels. The indices and the planes are those of DC, low-pass and high-pass.
pub fn quantise(
    mode: u32,
    size: Size,
    indices: [u32; 3],
    planes: [&[i32]; 3],
    levels: [&mut [i32]; 3],
) -> Result<(), u32> {
    let n = check_mode_and_size(mode, size)?;
    let steps = steps(indices)?;
    check_planes(n, planes[0], planes[1], planes[2])?;
    check_planes(n, levels[0], levels[1], levels[2])?;
    for ((plane, levels), step) in planes.into_iter().zip(levels).zip(steps) {
        for (coefficient, level) in plane.iter().zip(levels) {
            *level = quantise_number(*coefficient, step);
        }
    }
    Ok(())
}

/// From levels to coefficients. The indices and the planes are those of DC, low-pass and high-pass.
pub fn restore(
    mode: u32,
    size: Size,
    indices: [u32; 3],
    levels: [&[i32]; 3],
    planes: [&mut [i32]; 3],
) -> Result<(), u32> {
    let n = check_mode_and_size(mode, size)?;
    let steps = steps(indices)?;
    check_planes(n, levels[0], levels[1], levels[2])?;
    check_planes(n, planes[0], planes[1], planes[2])?;
    for (levels, step) in levels.into_iter().zip(steps) {
        if levels.iter().any(|&level| restore_number(level, step).is_none()) {
            return Err(15);
        }
    }
    for ((levels, plane), step) in levels.into_iter().zip(planes).zip(steps) {
        for (level, coefficient) in levels.iter().zip(plane) {
            *coefficient = restore_number(*level, step).expect("a product tested above");
        }
    }
    Ok(())
}
