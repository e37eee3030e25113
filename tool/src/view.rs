//! The quarter view in the picture's own greys.
//!
//! A number of the view is the grey of its place times a gain: 4 where the level of the samples is not
//! filtered; where it is, 2.75 inside the picture, 3.04 at its edges and 3.17 to 3.18 at its corners,
//! since less is filtered there.

use lapped::{Mode, Planes, Refusal, Size};

/// The grey of the flat picture by which gains are measured: large, so that roundings do not show, and
/// far from where a sum wraps.
const FLAT: i32 = 1 << 24;

/// The greys of a view from its numbers.
pub fn to_greys(mode: Mode, size: Size, view: &mut [i32]) -> Result<(), Refusal> {
    let gains = Gains::measured(mode)?;
    let (across, down) = (size.view_across(), size.view_down());
    for (row, numbers) in view.chunks_exact_mut(across).enumerate() {
        for (column, number) in numbers.iter_mut().enumerate() {
            *number = gains.grey(place(row, down), place(column, across), *number);
        }
    }
    Ok(())
}

/// The place along a side of one macroblock, 0 to 3, that is as near the picture's rim.
fn place(place: usize, count: usize) -> usize {
    match place {
        0 => 0,
        _ if place + 1 == count => 3,
        _ => 1,
    }
}

/// The view of a flat picture of one macroblock, which has all the places that there are: the four
/// corners, the four edges and the inside.
struct Gains([i32; 16]);

impl Gains {
    fn measured(mode: Mode) -> Result<Self, Refusal> {
        let (planes, _) = Planes::from_samples(mode, Size::new(1, 1)?, &[FLAT; 256])?;
        let mut gains = [0; 16];
        lapped::quarter_view(mode, planes.size, planes.as_ref(), &mut gains)?;
        Ok(Gains(gains))
    }

    /// To the nearest, a half upward.
    fn grey(&self, row: usize, column: usize, number: i32) -> i32 {
        let gain = i64::from(self.0[4 * row + column]);
        let doubled = 2 * i64::from(number) * i64::from(FLAT);
        (doubled + gain).div_euclid(2 * gain) as i32
    }
}
