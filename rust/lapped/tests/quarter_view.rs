//! The quarter view against the reference.

mod common;
use common::refusals::{number_of, Operation, Refusing};
use common::*;
use lapped::{Mode, Planes, PlanesRef, Wrapped};
use reference::random::{Random, Values};

#[test]
fn random_pictures() {
    let mut random = Random::new(11);
    for (width, height) in SHAPES.into_iter().chain([(525, 413)]) {
        for mode in Mode::ALL {
            for values in Values::ALL {
                let shape = size(width, height);
                let what = format!("{mode:?}, {shape:?}, {values:?}");
                let n = (width * height) as usize;
                let [dc, low] = [n, 15 * n].map(|count| random.numbers(count, values));
                let mut expected = vec![0; 16 * n];
                let (number, size) = (mode.number(), reference_size(shape));
                let told = reference::quarter_view(number, size, &dc, &low, &mut expected).unwrap();

                let [dc, low] = [dc, low].map(|plane| lend_numbers(&mut random, &plane));
                let mut view = lend_filled(&mut random, 16 * n);
                let planes = PlanesRef { dc: dc.slice(), low: low.slice(), high: &[] };
                let answer = lapped::quarter_view(mode, shape, planes, view.slice_mut());
                assert_eq!(answer, Ok(Wrapped::from(told)), "{what}: whether a sum wrapped");
                view.assert_holds(&expected, &what);
                dc.assert_unchanged(&what);
                low.assert_unchanged(&what);
            }
        }
    }
}

/// What the documentation says of a flat picture of samples v. In mode 0 a block's DC is 16 v / 4. Else
/// Figures 4.11 and 4.10, undone without rounding, take four equal numbers v to 13 v / 8, 0, 0 and v,
/// and 13 v / 8 with v to 2821 v / 2048, of which a block's DC is twice as much.
#[test]
fn scale_of_a_flat_picture() {
    const V: i32 = 1 << 20; // many halves of it are whole
    let shape = size(3, 3);
    for (mode, middle, edge, corner) in [
        (Mode::Unfiltered, 4 * V, 100.0, 100.0),
        (Mode::SampleLevel, 2821 * (V / 1024), 110.0, 115.0),
        (Mode::BothLevels, 2821 * (V / 1024), 110.0, 115.0),
    ] {
        let (planes, _) = Planes::from_samples(mode, shape, &vec![V; shape.samples()]).unwrap();
        let (view, _) = planes.to_quarter_view(mode).unwrap();
        let across = shape.view_across();
        let rim = |i: usize| i == 0 || i == across - 1;
        for (i, &number) in view.iter().enumerate() {
            let (y, x) = (i / across, i % across);
            let what = format!("{mode:?}, row {y}, column {x}: {number}");
            let percent = 100.0 * f64::from(number) / f64::from(middle);
            match (rim(y), rim(x)) {
                (false, false) => assert_eq!(number, middle, "{what}"),
                (true, true) => assert!((percent - corner).abs() < 0.6, "{what}"),
                _ => assert!((percent - edge).abs() < 0.6, "{what}"),
            }
        }
    }
}

const QUARTER_VIEW: Operation<3> = Operation {
    checks: &[1, 2, 3, 4, 5, 8],
    lent: [4, 5, 8],
    library: |a, slices, _| number_of(raw::quarter(a.mode, a.size, slices)),
    reference: |a, [dc, low, view], _| {
        reference::quarter_view(a.mode, a.reference_size(), dc, low, view).map(|_| ())
    },
};

#[test]
fn every_set_of_faults() {
    QUARTER_VIEW.assert_refuses_every_set_of_faults(&mut Random::new(12));
}

#[test]
fn limits_with_matching_lengths() {
    QUARTER_VIEW.assert_refuses_outside_the_limits(&mut Random::new(13));
}
