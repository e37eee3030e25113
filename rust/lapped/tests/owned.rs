//! The calls that allocate their results, against the reference.

mod common;
use common::*;
use lapped::{Found, Mode, PlaneFile, Planes, Refusal, Steps, Wrapped};
use reference::random::{Random, Values};
use reference::{find_step, step_sizes};

fn random_owned(random: &mut Random, width: u32, height: u32) -> Planes {
    let shape = size(width, height);
    let [dc, low, high] = random_planes(random, shape.macroblocks(), Values::Wild);
    Planes { size: shape, dc, low, high }
}

#[test]
fn results_are_those_of_the_reference() {
    let mut random = Random::new(91);
    for (width, height, modes) in
        [(1, 1, &Mode::ALL[..2]), (1, 7, &Mode::ALL[..2]), (3, 2, &Mode::ALL[..])]
    {
        for &mode in modes {
            let planes = random_owned(&mut random, width, height);
            let Planes { size, dc, low, high } = &planes;
            let what = format!("{mode:?}, {size:?}");
            let (number, plain_size) = (mode.number(), reference_size(*size));

            let mut samples = vec![0; size.samples()];
            let told = reference::inverse(number, plain_size, dc, low, high, &mut samples).unwrap();
            let samples = (samples, Wrapped::from(told));
            assert_eq!(planes.to_samples(mode).as_ref(), Ok(&samples), "{what}");
            let back = Planes::from_samples(mode, *size, &samples.0);
            assert_eq!(back, Ok((planes.clone(), samples.1)), "{what}");

            let mut view = vec![0; size.view_samples()];
            let told = reference::quarter_view(number, plain_size, dc, low, &mut view).unwrap();
            let view = (view, Wrapped::from(told));
            assert_eq!(planes.to_quarter_view(mode).as_ref(), Ok(&view), "{what}");

            let mut bytes = vec![0; size.file_bytes()];
            reference::plane_file::save(number, plain_size, dc, low, high, &mut bytes).unwrap();
            let file = PlaneFile { mode, planes };
            assert_same(&file.to_bytes().unwrap(), &bytes, &what);
            assert_eq!(file.to_samples(), Ok(samples), "{what}");
            assert_eq!(file.to_quarter_view(), Ok(view), "{what}");
            assert_eq!(PlaneFile::from_bytes(&bytes), Ok(file), "{what}");
        }
    }
}

/// What the reference makes of each number of the planes and its band's step.
fn by_number(planes: &Planes, steps: Steps, number: fn(i32, u32) -> i32) -> Planes {
    let of = |plane: &[i32], index: u8| {
        let step = step_sizes::step(index.into()).unwrap();
        plane.iter().map(|&value| number(value, step)).collect()
    };
    Planes {
        size: planes.size,
        dc: of(&planes.dc, steps.dc),
        low: of(&planes.low, steps.low),
        high: of(&planes.high, steps.high),
    }
}

#[test]
fn levels_are_those_of_the_reference() {
    let mut random = Random::new(92);
    let steps = Steps { dc: 3, low: 40, high: 200 };
    for mode in Mode::ALL {
        let planes = random_owned(&mut random, 3, 2);
        let mut levels = by_number(&planes, steps, step_sizes::quantise_number);
        assert_eq!(planes.quantised(mode, steps).as_ref(), Ok(&levels), "{mode:?}");
        let restored = |level, step| step_sizes::restore_number(level, step).unwrap();
        let restored = by_number(&levels, steps, restored);
        assert_eq!(levels.restored(mode, steps), Ok(restored), "{mode:?}");

        levels.high[0] = i32::MAX;
        assert_eq!(levels.restored(mode, steps), Err(Refusal::Product), "{mode:?}");
    }
}

#[test]
fn what_is_found_is_the_references() {
    let (mut random, shape) = (Random::new(93), size(3, 2));
    for mode in Mode::ALL {
        let samples = random.numbers(shape.samples(), Values::Small);
        for tolerance in [0, 40] {
            let Found { index, planes, samples: back } =
                Found::within(mode, shape, tolerance, &samples).unwrap();
            let (number, plain_size, index) =
                (mode.number(), reference_size(shape), u32::from(index));
            let passes = find_step::passes(number, plain_size, tolerance, index, &samples);
            assert!(passes, "{mode:?}, index {index}");
            let expected = find_step::restored(number, plain_size, index, &samples).unwrap();
            assert_eq!(planes.size, shape);
            assert_planes(&[planes.dc, planes.low, planes.high], &expected.planes, "the planes");
            assert_same(&back, &expected.samples, "the samples");
        }
    }
}

/// The fields are open, so lengths may come not to fit; every call says so.
#[test]
fn planes_that_do_not_fit_their_size() {
    let (mode, steps) = (Mode::BothLevels, Steps::all(40));
    let sound = Planes::zeroed(size(2, 1));
    let mut file = PlaneFile { mode, planes: sound.clone() };
    file.planes.dc.pop();
    assert_eq!(file.to_samples(), Err(Refusal::DcLength));
    assert_eq!(file.to_quarter_view(), Err(Refusal::DcLength));
    assert_eq!(file.to_bytes(), Err(Refusal::DcLength));
    assert_eq!(file.planes.quantised(mode, steps), Err(Refusal::DcLength));
    assert_eq!(file.planes.restored(mode, steps), Err(Refusal::DcLength));

    file.planes = sound.clone();
    file.planes.low.push(0);
    assert_eq!(file.to_samples(), Err(Refusal::LowPassLength));
    assert_eq!(file.to_quarter_view(), Err(Refusal::LowPassLength));
    assert_eq!(file.to_bytes(), Err(Refusal::LowPassLength));
    assert_eq!(file.planes.quantised(mode, steps), Err(Refusal::LowPassLength));
    assert_eq!(file.planes.restored(mode, steps), Err(Refusal::LowPassLength));

    file.planes = sound;
    file.planes.size = size(1, 2);
    assert!(file.to_samples().is_ok(), "as many macroblocks in another shape");
    file.planes.high.clear();
    assert_eq!(file.to_samples(), Err(Refusal::HighPassLength));
    assert!(file.to_quarter_view().is_ok(), "the view asks nothing of the high-pass plane");
    assert_eq!(file.to_bytes(), Err(Refusal::HighPassLength));
    assert_eq!(file.planes.quantised(mode, steps), Err(Refusal::HighPassLength));
    assert_eq!(file.planes.restored(mode, steps), Err(Refusal::HighPassLength));

    assert_eq!(Planes::from_samples(mode, size(1, 1), &[0; 257]), Err(Refusal::SamplesLength));
    assert_eq!(PlaneFile::from_bytes(&[0; 32]), Err(Refusal::Width));
}
