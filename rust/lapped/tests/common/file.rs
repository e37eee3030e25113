//! Plane files, sound and faulty.

use super::faults::Check;
use super::refusals::{bad_sides, Arguments, BAD_MODES};
use super::{any, random_planes};
use lapped_sys::lapped_size;
use reference::random::{Random, Values};
use std::fmt;

/// The eight words of a header, as laid down in 01.
fn header([mode, width, height]: [u32; 3]) -> [u32; 8] {
    let n = width * height;
    [mode, width, height, 32, 32 + 4 * n, 32 + 64 * n, 32 + 1024 * n, 0]
}

/// The layout of 01, written out byte by byte.
pub fn layout(mode: u32, size: lapped_size, planes: &[Vec<i32>; 3]) -> Vec<u8> {
    let words = header([mode, size.width, size.height]);
    let numbers = planes.iter().flatten().map(|&number| number as u32);
    words.into_iter().chain(numbers).flat_map(u32::to_le_bytes).collect()
}

/// A word of a file's header.
pub fn word(bytes: &[u8], index: usize) -> u32 {
    u32::from_le_bytes(bytes[4 * index..4 * index + 4].try_into().unwrap())
}

/// Puts a word into the header of a plane file.
pub fn set_word(bytes: &mut [u8], index: usize, word: u32) {
    bytes[4 * index..4 * index + 4].copy_from_slice(&word.to_le_bytes());
}

/// The values that a damaged word takes: each bit flipped, the neighbours, the ends of the range.
pub fn damaged(old: u32, random: &mut Random) -> Vec<u32> {
    let mut words: Vec<u32> = (0..32).map(|bit| old ^ 1 << bit).collect();
    words.extend([old.wrapping_add(1), old.wrapping_sub(1), 0, 1, 0x7FFF_FFFF, 0x8000_0000]);
    words.extend([u32::MAX, old.swap_bytes(), random.bits() as u32]);
    words.retain(|&word| word != old);
    words
}

/// A plane file, and the planes that it is to be loaded into: 4, 5 and 6 are checks of these.
#[derive(Clone)]
pub struct Loading {
    pub bytes: Vec<u8>,
    pub arguments: Arguments,
}

/// The header, and not every number.
impl fmt::Debug for Loading {
    fn fmt(&self, f: &mut fmt::Formatter) -> fmt::Result {
        let Loading { bytes, arguments } = self;
        let words: Vec<u32> = (0..bytes.len().min(32) / 4).map(|i| word(bytes, i)).collect();
        write!(f, "{} bytes that begin {words:?}, for {arguments:?}", bytes.len())
    }
}

impl Loading {
    /// A sound file, and planes that fit it.
    pub fn sound(random: &mut Random) -> Self {
        let arguments = Arguments::sound(random);
        let planes = random_planes(random, arguments.length(4), Values::Wild);
        Loading { bytes: layout(arguments.mode, arguments.size, &planes), arguments }
    }

    /// The checks of these numbers, in the same order.
    pub fn checks(numbers: &[u32]) -> Vec<Check<Loading>> {
        let check =
            |&number| Check::new(number, move |a: &Loading, random| a.broken(number, random));
        numbers.iter().map(check).collect()
    }

    /// Some ways to make a check fail.
    fn broken(&self, number: u32, random: &mut Random) -> Vec<Loading> {
        let mut broken = self.clone();
        match number {
            4..=6 => {
                let with = |&arguments| Loading { arguments, ..self.clone() };
                return self.arguments.broken(number).iter().map(with).collect();
            }
            _ => break_file(&mut broken.bytes, number, random),
        }
        vec![broken]
    }
}

/// Breaks a file so that this number's check fails.
fn break_file(bytes: &mut Vec<u8>, number: u32, random: &mut Random) {
    match number {
        1 => set_word(bytes, 0, any(random, &BAD_MODES)),
        2 => set_word(bytes, 1, any(random, &bad_sides(525))),
        3 => set_word(bytes, 2, any(random, &bad_sides(413))),
        10 => set_word(bytes, 7, 1 << random.below(32)),
        11 => {
            let index = 3 + random.below(4);
            let damages = damaged(word(bytes, index), random);
            set_word(bytes, index, any(random, &damages));
        }
        12 if random.below(2) == 0 => {
            let more = 1 + random.below(100);
            bytes.extend(random.bytes(more));
        }
        12 => bytes.truncate(32 + random.below(bytes.len() - 32)),
        13 => {
            let [width, height] = any(random, &[[6, 3], [9, 2], [2, 9], [525, 413]]);
            let words = header([word(bytes, 0), width, height]);
            words.into_iter().enumerate().for_each(|(index, word)| set_word(bytes, index, word));
        }
        9 => bytes.truncate(random.below(32)),
        _ => unreachable!("no check of a file has the number {number}"),
    }
}
