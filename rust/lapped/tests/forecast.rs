//! The forecast against the reference, which counts place by place.

mod common;
use common::faults::{try_sets_of_faults, Refused};
use common::refusals::Arguments;
use common::*;
use lapped::{Mode, Size, Work};
use lapped_sys::lapped_work;
use reference::random::Random;

/// The reference's count, which must be the library's through both interfaces.
fn assert_counted(mode: Mode, size: Size) {
    let what = format!("{mode:?}, {size:?}");
    let number = mode.number();
    let counted = reference::forecast::forecast(number, reference_size(size)).expect(&what);
    let narrow = |figure: u64| u32::try_from(figure).expect("a figure of 32 bits");
    let expected = Work {
        cores: narrow(counted.cores),
        square_filters: narrow(counted.square_filters),
        four_filters: narrow(counted.four_filters),
        plane_bytes: narrow(counted.plane_bytes),
        sample_bytes: narrow(counted.sample_bytes),
    };
    assert_eq!(lapped::forecast(mode, size), expected, "{what}");
    let Work { cores, square_filters, four_filters, plane_bytes, sample_bytes } = expected;
    assert_eq!(
        raw::forecast(number, raw_size(size.width(), size.height())),
        lapped_work { number: 0, cores, square_filters, four_filters, plane_bytes, sample_bytes },
        "{what}"
    );
}

#[test]
fn every_small_size() {
    for width in 1..=24 {
        for height in 1..=24 {
            Mode::ALL.iter().for_each(|&mode| assert_counted(mode, size(width, height)));
        }
    }
}

#[test]
fn ends_of_the_sizes() {
    for (width, height) in
        [(524, 1), (525, 1), (525, 2), (1, 412), (1, 413), (2, 413), (524, 412), (525, 413)]
    {
        Mode::ALL.iter().for_each(|&mode| assert_counted(mode, size(width, height)));
    }
}

/// The bytes are those of the slices that the other calls take.
#[test]
fn bytes_are_those_of_the_lengths() {
    for (width, height) in SHAPES {
        let size = size(width, height);
        let work = lapped::forecast(Mode::SampleLevel, size);
        let numbers = size.dc_coefficients() + size.low_coefficients() + size.high_coefficients();
        assert_eq!(work.plane_bytes as usize, 4 * numbers, "{size:?}");
        assert_eq!(work.sample_bytes as usize, 4 * size.samples(), "{size:?}");
        assert_eq!(work.plane_bytes as usize + 32, size.file_bytes(), "{size:?}");
    }
}

/// Refused, every figure is zero.
#[test]
fn every_set_of_faults() {
    let (checks, mut random) = (Arguments::checks(&[1, 2, 3]), Random::new(91));
    try_sets_of_faults(&checks, Arguments::sound, &mut random, |case, _| {
        let Refused { arguments, number, what } = case;
        let expected = lapped_work {
            number,
            cores: 0,
            square_filters: 0,
            four_filters: 0,
            plane_bytes: 0,
            sample_bytes: 0,
        };
        assert_eq!(raw::forecast(arguments.mode, arguments.size), expected, "{what}");
        let answer = reference::forecast::forecast(arguments.mode, arguments.reference_size());
        assert_eq!(answer, Err(number), "the reference: {what}");
    });
}
