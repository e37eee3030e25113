//! Header, load and save against the reference and the layout of 01.

mod common;
use common::faults::try_sets_of_faults;
use common::file::{damaged, layout, set_word, word, Loading};
use common::refusals::{Arguments, Operation, Refusing};
use common::*;
use lapped::{Header, Mode, PlaneFile, Planes, PlanesMut, Refusal};
use lapped_sys::{lapped_header, lapped_size};
use reference::random::{Random, Values};

/// Shapes with the modes in which files of them are tried: one macroblock wide or high in 0 and 1 alone.
const SOUND_SHAPES: [(u32, u32, u32); 11] = [
    (1, 1, 1),
    (1, 2, 1),
    (2, 1, 1),
    (7, 1, 1),
    (1, 413, 1),
    (525, 1, 1),
    (2, 2, 2),
    (2, 3, 2),
    (11, 13, 2),
    (2, 413, 2),
    (525, 2, 2),
];

fn refused(number: u32) -> lapped_header {
    lapped_header { number, mode: 0, size: raw_size(0, 0) }
}

/// What the reference says of a header, in the form of the C interface.
fn reference_header(answer: Result<reference::plane_file::Header, u32>) -> lapped_header {
    match answer {
        Ok(header) => lapped_header {
            number: 0,
            mode: header.mode,
            size: raw_size(header.size.width, header.size.height),
        },
        Err(number) => refused(number),
    }
}

/// Header and load refuse this file with `expected` and change nothing, whatever planes are lent.
fn assert_file_refused(bytes: &[u8], expected: u32, what: &str, random: &mut Random) {
    let bytes = lend_bytes(random, bytes);
    assert_eq!(raw::read_header(bytes.slice()), refused(expected), "header: {what}");
    // Planes right for the file's own size where that is small, and now and then wrong ones.
    let n = match bytes.slice().len() {
        0..=31 => 1,
        _ => (word(bytes.slice(), 1) as usize).wrapping_mul(word(bytes.slice(), 2) as usize),
    };
    let n = if n > 1000 || random.below(4) == 0 { random.below(5) } else { n };
    let mut planes = [n, 15 * n, 240 * n].map(|count| lend_filled(random, count));
    assert_eq!(raw::load(bytes.slice(), slices(&mut planes)), refused(expected), "load: {what}");
    for plane in &planes {
        plane.assert_unchanged(what);
    }
    bytes.assert_unchanged(what);
    let answer = reference::plane_file::read_header(bytes.slice());
    assert_eq!(answer.err(), Some(expected), "the reference: {what}");
}

fn assert_file_sound(
    bytes: &[u8],
    header: lapped_header,
    expected: &[Vec<i32>; 3],
    random: &mut Random,
) {
    let what = format!("{header:?}");
    let bytes = lend_bytes(random, bytes);
    assert_eq!(raw::read_header(bytes.slice()), header);
    let mut planes = [0, 1, 2].map(|i| lend_filled(random, expected[i].len()));
    assert_eq!(raw::load(bytes.slice(), slices(&mut planes)), header);
    for (plane, expected) in planes.iter().zip(expected) {
        plane.assert_holds(expected, &what);
    }
    bytes.assert_unchanged(&what);
}

fn save(mode: u32, size: lapped_size, planes: &[Vec<i32>; 3], random: &mut Random) -> Vec<u8> {
    let mut lent = lend_planes(random, planes);
    let mut bytes = lend_filled_bytes(random, 32 + 1024 * planes[0].len());
    let answer = raw::save(mode, size, slices(&mut lent), bytes.slice_mut());
    assert_eq!(answer, 0, "mode {mode}, {size:?}");
    for plane in lent {
        plane.assert_unchanged("a plane");
    }
    let result = bytes.slice().to_vec();
    bytes.assert_holds(&result, "file");
    result
}

#[test]
fn random_files() {
    let mut random = Random::new(41);
    for (width, height, most) in SOUND_SHAPES {
        for mode in 0..=most {
            for values in Values::ALL {
                let shape = raw_size(width, height);
                let planes = random_planes(&mut random, (width * height) as usize, values);
                let bytes = layout(mode, shape, &planes);
                let header = lapped_header { number: 0, mode, size: shape };
                assert_file_sound(&bytes, header, &planes, &mut random);
                let saved = save(mode, shape, &planes, &mut random);
                assert_same(&saved, &bytes, &format!("file of mode {mode}, {shape:?}"));

                // The reference and the layout above were written apart.
                let mut by_reference = vec![0; bytes.len()];
                let [dc, low, high] = &planes;
                let shape = reference::Size::new(width, height);
                reference::plane_file::save(mode, shape, dc, low, high, &mut by_reference).unwrap();
                assert_same(&by_reference, &bytes, "the reference's file");
            }
        }
    }
}

/// The safe calls give the mode, the size and the planes, and the names of the numbers.
#[test]
fn safe_calls_give_what_the_c_calls_give() {
    let mut random = Random::new(42);
    let planes = random_planes(&mut random, 6, Values::Wild);
    let shape = size(2, 3);
    let mut bytes = layout(1, raw_size(2, 3), &planes);
    let header = Header { mode: Mode::SampleLevel, size: shape };
    assert_eq!(lapped::read_header(&bytes), Ok(header));
    let mut loaded = Planes::zeroed(shape);
    assert_eq!(lapped::load(&bytes, loaded.as_mut()), Ok(header));
    assert_eq!(loaded.as_ref(), planes_ref(&planes));

    let mut saved = vec![0; shape.file_bytes()];
    lapped::save(Mode::SampleLevel, shape, loaded.as_ref(), &mut saved).unwrap();
    assert_eq!(saved, bytes);
    let owned = PlaneFile { mode: Mode::SampleLevel, planes: loaded };
    assert_eq!(owned.to_bytes().as_ref(), Ok(&bytes));
    assert_eq!(PlaneFile::from_bytes(&bytes), Ok(owned));

    set_word(&mut bytes, 7, 1);
    assert_eq!(lapped::read_header(&bytes), Err(Refusal::LastWord));
    let nothing = PlanesMut { dc: &mut [], low: &mut [], high: &mut [] };
    assert_eq!(lapped::load(&bytes, nothing), Err(Refusal::LastWord));
    assert_eq!(PlaneFile::from_bytes(&bytes), Err(Refusal::LastWord));
}

#[test]
fn largest_file() {
    let mut random = Random::new(43);
    let shape = raw_size(525, 413);
    let planes = random_planes(&mut random, 525 * 413, Values::Wild);
    let bytes = layout(2, shape, &planes);
    let header = lapped_header { number: 0, mode: 2, size: shape };
    assert_file_sound(&bytes, header, &planes, &mut random);
    assert_same(&save(2, shape, &planes, &mut random), &bytes, "largest file");
    assert_file_refused(&bytes[..bytes.len() - 1], 12, "largest file cut by one byte", &mut random);
}

#[test]
fn every_length_near_the_right_one() {
    let mut random = Random::new(44);
    for (width, height) in [(1, 1), (2, 1), (3, 4)] {
        let shape = raw_size(width, height);
        let planes = random_planes(&mut random, (width * height) as usize, Values::Wild);
        let sound = layout(1, shape, &planes);
        let longer = [&sound[..], &random.bytes(80)].concat();
        let near = sound.len() - 80..sound.len() + 80;
        for length in (0..80).chain(near) {
            let what = format!("{length} bytes of {}", sound.len());
            let bytes = &longer[..length];
            if length == sound.len() {
                let header = lapped_header { number: 0, mode: 1, size: shape };
                assert_file_sound(bytes, header, &planes, &mut random);
            } else {
                let expected = if length < 32 { 9 } else { 12 };
                assert_file_refused(bytes, expected, &what, &mut random);
            }
        }
    }
}

#[test]
fn each_header_word_damaged_in_turn() {
    let mut random = Random::new(45);
    for (mode, width, height) in [(0, 2, 2), (1, 3, 2), (2, 2, 5)] {
        let shape = raw_size(width, height);
        let planes = random_planes(&mut random, (width * height) as usize, Values::Wild);
        let sound = layout(mode, shape, &planes);
        for index in 0..8 {
            for damage in damaged(word(&sound, index), &mut random) {
                let mut bytes = sound.clone();
                set_word(&mut bytes, index, damage);
                let what = format!("word {index} is {damage}, mode {mode}, {shape:?}");
                let expected = match index {
                    0 if damage > 2 => 1,
                    1 if !(1..=525).contains(&damage) => 2,
                    2 if !(1..=413).contains(&damage) => 3,
                    // Another mode is as good as the old one.
                    0 => {
                        let header = lapped_header { number: 0, mode: damage, size: shape };
                        assert_file_sound(&bytes, header, &planes, &mut random);
                        continue;
                    }
                    7 => 10,
                    // Another side has another n, and so other offsets.
                    _ => 11,
                };
                assert_file_refused(&bytes, expected, &what, &mut random);
            }
        }
    }
}

/// Sides whose product leaves 32 bits, in files whose offsets fit the product that is left.
#[test]
fn huge_sides() {
    let mut random = Random::new(46);
    let huge = [526, 1 << 16, 1 << 31, u32::MAX - 1, u32::MAX];
    for side in huge {
        for (width, height, expected) in
            [(side, 1, 2), (1, side, 3), (side, side, 2), (side, 0, 2), (525, side, 3)]
        {
            let n = width.wrapping_mul(height);
            for total in [32, 1056] {
                let mut bytes = random.bytes(total);
                let [low, high, end] =
                    [4, 64, 1024].map(|step: u32| n.wrapping_mul(step).wrapping_add(32));
                for (index, word) in [2, width, height, 32, low, high, end, 0].iter().enumerate() {
                    set_word(&mut bytes, index, *word);
                }
                let what = format!("{width} x {height} in {total} bytes");
                assert_file_refused(&bytes, expected, &what, &mut random);
            }
        }
    }
}

/// Load refuses this file into planes of these lengths, and changes nothing.
fn assert_load_refused(
    bytes: &[u8],
    arguments: Arguments,
    expected: u32,
    what: &str,
    random: &mut Random,
) {
    let bytes = lend_bytes(random, bytes);
    let mut planes = [4, 5, 6].map(|number| lend_filled(random, arguments.length(number)));
    assert_eq!(raw::load(bytes.slice(), slices(&mut planes)), refused(expected), "{what}");
    bytes.assert_unchanged(what);
    for plane in &planes {
        plane.assert_unchanged(what);
    }
    let [dc, low, high] = slices(&mut planes);
    let answer = reference_header(reference::plane_file::load(bytes.slice(), dc, low, high));
    assert_eq!(answer, refused(expected), "the reference: {what}");
}

#[test]
fn every_set_of_faults_of_load() {
    let checks = Loading::checks(&[9, 1, 2, 3, 10, 11, 12, 4, 5, 6]);
    try_sets_of_faults(&checks, Loading::sound, &mut Random::new(47), |case, random| {
        let Loading { bytes, arguments } = case.arguments;
        // The header knows nothing of the planes.
        let header = match case.number {
            4..=6 => lapped_header { number: 0, mode: arguments.mode, size: arguments.size },
            _ => refused(case.number),
        };
        assert_eq!(raw::read_header(&bytes), header, "{}", case.what);
        assert_load_refused(&bytes, arguments, case.number, &case.what, random);
    });
}

#[test]
fn load_into_planes_of_every_wrong_length() {
    let mut random = Random::new(51);
    for (width, height) in [(1, 1), (2, 3)] {
        let sound = Arguments::fitting(1, width, height);
        let planes = random_planes(&mut random, sound.length(4), Values::Wild);
        let bytes = layout(sound.mode, sound.size, &planes);
        for number in [4, 5, 6] {
            for arguments in sound.broken(number) {
                let what = format!("{arguments:?}");
                assert_load_refused(&bytes, arguments, number, &what, &mut random);
            }
        }
    }
}

const SAVE: Operation<3> = Operation {
    checks: &[1, 2, 3, 4, 5, 6, 12],
    lent: [4, 5, 6],
    library: |a, planes, bytes| raw::save(a.mode, a.size, planes, bytes),
    reference: |a, [dc, low, high], bytes| {
        reference::plane_file::save(a.mode, a.reference_size(), dc, low, high, bytes)
    },
};

#[test]
fn every_set_of_faults_of_save() {
    SAVE.assert_refuses_every_set_of_faults(&mut Random::new(48));
}

#[test]
fn limits_of_save_with_matching_lengths() {
    SAVE.assert_refuses_outside_the_limits(&mut Random::new(52));
}

/// Save refuses every length near the right one.
#[test]
fn save_into_every_length_near_the_right_one() {
    let mut random = Random::new(49);
    let planes = random_planes(&mut random, 2, Values::Wild);
    let shape = size(2, 1);
    let right = 32 + 1024 * 2;
    for length in (0..40).chain(right - 40..right).chain(right + 1..right + 40) {
        let mut bytes = lend_filled_bytes(&mut random, length);
        let planes = planes_ref(&planes);
        let answer = lapped::save(Mode::Unfiltered, shape, planes, bytes.slice_mut());
        assert_eq!(answer, Err(Refusal::FileLength), "{length} bytes");
        bytes.assert_unchanged(&format!("{length} bytes"));
    }
}

/// Random bytes are no file; whatever they are, both say the same of them.
#[test]
fn random_bytes() {
    let mut random = Random::new(50);
    for _ in 0..2000 {
        let count = random.below(100);
        let mut bytes = random.bytes(count);
        // Some with a likely start, so that the later checks are met too.
        for index in 0..random.below(1 + bytes.len() / 4).min(8) {
            let word = random.below(4) as u32;
            set_word(&mut bytes, index, word);
        }
        let expected = reference_header(reference::plane_file::read_header(&bytes));
        assert_eq!(raw::read_header(&bytes), expected);
    }
}
