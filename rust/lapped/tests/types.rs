//! Modes, sizes and refusals: that the wrapper draws its lines where the library does.

mod common;
use common::refusals::{bad_sides, number_of, BAD_MODES};
use common::*;
use lapped::{Mode, Planes, PlanesMut, PlanesRef, Refusal, Size, Wrapped};
use std::collections::HashSet;

/// The library's answer to this mode and size with nothing lent: 4 says that both passed.
fn library_answer(mode: u32, width: u32, height: u32) -> u32 {
    number_of(raw::quarter(mode, raw_size(width, height), [&mut [], &mut [], &mut []]))
}

/// The number that a value of the wrapper is refused with, or 4 like the library's.
fn answer<T>(made: Result<T, Refusal>) -> u32 {
    made.map_or_else(Refusal::number, |_| 4)
}

#[test]
fn modes_are_those_of_the_library() {
    for number in (0..10).chain(BAD_MODES) {
        assert_eq!(answer(Mode::try_from(number)), library_answer(number, 1, 1), "mode {number}");
    }
    for (number, mode) in Mode::ALL.into_iter().enumerate() {
        assert_eq!(mode.number(), number as u32);
        assert_eq!(Mode::try_from(mode.number()), Ok(mode));
    }
}

#[test]
fn sizes_are_those_of_the_library() {
    let widths = (0..4).chain(523..528).chain(bad_sides(525));
    for width in widths {
        for height in (0..4).chain(411..416).chain(bad_sides(413)) {
            let made = Size::new(width, height);
            assert_eq!(answer(made), library_answer(0, width, height), "{width} x {height}");
            if let Ok(size) = made {
                assert_eq!((size.width(), size.height()), (width, height));
            }
        }
    }
    assert!(Size::new(Size::MAX_WIDTH, Size::MAX_HEIGHT).is_ok());
    assert_eq!(Size::new(Size::MAX_WIDTH + 1, 1), Err(Refusal::Width));
    assert_eq!(Size::new(1, Size::MAX_HEIGHT + 1), Err(Refusal::Height));
}

#[test]
fn lengths_of_a_size() {
    let size = size(3, 2);
    assert_eq!(size.macroblocks(), 6);
    assert_eq!((size.samples_across(), size.samples_down(), size.samples()), (48, 32, 48 * 32));
    assert_eq!((size.view_across(), size.view_down(), size.view_samples()), (12, 8, 12 * 8));
    let planes = [size.dc_coefficients(), size.low_coefficients(), size.high_coefficients()];
    assert_eq!(planes, [6, 90, 1440]);
    assert_eq!(size.file_bytes(), 32 + 4 * (6 + 90 + 1440));
}

/// No number makes the wrapper panic, and each refusal has its own number and words.
#[test]
fn every_number_is_an_answer() {
    assert_eq!(Refusal::from_number(0), None);
    let mut words = HashSet::new();
    for number in (1..=100).chain([1 << 31, u32::MAX - 1, u32::MAX]) {
        let refusal = Refusal::from_number(number).unwrap();
        assert_eq!(refusal.number(), number);
        assert!(words.insert(refusal.to_string()), "{refusal} is said of two numbers");
    }
}

#[test]
fn rows_of_a_picture() {
    let shape = size(2, 1);
    let mut samples: Vec<i32> = (0..512).collect();
    let rows: Vec<&[i32]> = shape.rows(&samples).unwrap().collect();
    assert_eq!(rows.len(), 16);
    for (y, row) in rows.iter().enumerate() {
        assert_eq!((row[0], row[31]), (32 * y as i32, 32 * y as i32 + 31));
    }
    shape.rows_mut(&mut samples).unwrap().nth(3).unwrap()[5] = -1;
    assert_eq!(samples[3 * 32 + 5], -1);
    let view: Vec<i32> = (0..32).collect();
    let firsts: Vec<i32> = shape.view_rows(&view).unwrap().map(|row| row[0]).collect();
    assert_eq!(firsts, [0, 8, 16, 24]);

    for wrong in [0, 511, 513, 1024] {
        let mut samples = vec![0; wrong];
        assert_eq!(shape.rows(&samples).err(), Some(Refusal::SamplesLength));
        assert_eq!(shape.rows_mut(&mut samples).err(), Some(Refusal::SamplesLength));
        assert_eq!(shape.view_rows(&samples).err(), Some(Refusal::ViewLength));
    }
}

/// A yes is a yes from C to words.
#[test]
fn yes_and_no() {
    for (wrapped, expected, words) in
        [(Wrapped::No, false, "no sum wrapped"), (Wrapped::Yes, true, "a sum wrapped")]
    {
        assert_eq!((Wrapped::from(expected), bool::from(wrapped)), (wrapped, expected));
        assert_eq!((wrapped.is_yes(), wrapped.to_string().as_str()), (expected, words));
    }
}

/// Which slice has a wrong length is told by the name of the refusal.
#[test]
fn lent_slices_of_wrong_lengths() {
    let shape = size(2, 1);
    let names = [Refusal::DcLength, Refusal::LowPassLength, Refusal::HighPassLength];
    for (wrong, name) in names.into_iter().enumerate() {
        let mut lengths = [2, 30, 480];
        lengths[wrong] += 1;
        let [mut dc, mut low, mut high] = lengths.map(|length| vec![0; length]);
        let planes = PlanesRef { dc: &dc, low: &low, high: &high };
        let (mode, mut samples, mut view) = (Mode::BothLevels, [0; 512], [0; 32]);
        assert_eq!(lapped::inverse(mode, shape, planes, &mut samples), Err(name));
        assert_eq!(lapped::save(mode, shape, planes, &mut [0; 2080]), Err(name));
        // The view asks nothing of the high-pass plane.
        let expected = if wrong == 2 { Ok(Wrapped::No) } else { Err(name) };
        assert_eq!(lapped::quarter_view(mode, shape, planes, &mut view), expected);
        let planes = PlanesMut { dc: &mut dc, low: &mut low, high: &mut high };
        assert_eq!(lapped::forward(mode, shape, &samples, planes), Err(name));
    }
    let mut planes = Planes::zeroed(shape);
    let mode = Mode::Unfiltered;
    let answer = lapped::forward(mode, shape, &[0; 511], planes.as_mut());
    assert_eq!(answer, Err(Refusal::SamplesLength));
    let answer = lapped::inverse(mode, shape, planes.as_ref(), &mut [0; 513]);
    assert_eq!(answer, Err(Refusal::SamplesLength));
    let answer = lapped::quarter_view(mode, shape, planes.as_ref(), &mut [0; 31]);
    assert_eq!(answer, Err(Refusal::ViewLength));
}
