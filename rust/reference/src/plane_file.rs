//! The plane file: header, load and save (01, "The plane file").

use crate::picture::{check_length, check_mode_and_size, check_planes, Size};

pub const HEADER_BYTES: usize = 32;

/// What a sound header tells.
#[derive(Clone, Copy, Debug, PartialEq, Eq)]
pub struct Header {
    pub mode: u32,
    pub size: Size,
}

impl Header {
    /// The eight words as laid down: mode, W, H, three offsets, the total length and a zero.
    pub fn words(self) -> [u32; 8] {
        let n = self.size.macroblocks() as u32;
        let Size { width, height } = self.size;
        [self.mode, width, height, 32, 32 + 4 * n, 32 + 64 * n, 32 + 1024 * n, 0]
    }
}

/// The checks of a header before its total is compared with the bytes at hand.
pub(crate) fn check_words(bytes: &[u8]) -> Result<Header, u32> {
    if bytes.len() < HEADER_BYTES {
        return Err(9);
    }
    let mut words = [0; 8];
    for (word, bytes) in words.iter_mut().zip(bytes.chunks_exact(4)) {
        *word = u32::from_le_bytes(bytes.try_into().unwrap());
    }
    let header = Header { mode: words[0], size: Size::new(words[1], words[2]) };
    check_mode_and_size(header.mode, header.size)?;
    if words[7] != 0 {
        return Err(10);
    }
    if words != header.words() {
        return Err(11);
    }
    Ok(header)
}

/// The header of a plane file that is lent whole.
pub fn read_header(bytes: &[u8]) -> Result<Header, u32> {
    let header = check_words(bytes)?;
    check_length(bytes.len(), header.words()[6] as usize, 12)?;
    Ok(header)
}

/// Fills the planes from a plane file.
pub fn load(
    bytes: &[u8],
    dc: &mut [i32],
    low: &mut [i32],
    high: &mut [i32],
) -> Result<Header, u32> {
    let header = read_header(bytes)?;
    let n = header.size.macroblocks() as usize;
    check_planes(n, dc, low, high)?;
    let [low_start, high_start] = [32 + 4 * n, 32 + 64 * n];
    read_numbers(&bytes[HEADER_BYTES..low_start], dc);
    read_numbers(&bytes[low_start..high_start], low);
    read_numbers(&bytes[high_start..], high);
    Ok(header)
}

/// Writes a plane file.
pub fn save(
    mode: u32,
    size: Size,
    dc: &[i32],
    low: &[i32],
    high: &[i32],
    bytes: &mut [u8],
) -> Result<(), u32> {
    let n = check_mode_and_size(mode, size)?;
    check_planes(n, dc, low, high)?;
    check_length(bytes.len(), HEADER_BYTES + 1024 * n, 12)?;
    let [low_start, high_start] = [32 + 4 * n, 32 + 64 * n];
    for (place, word) in bytes.chunks_exact_mut(4).zip(Header { mode, size }.words()) {
        place.copy_from_slice(&word.to_le_bytes());
    }
    write_numbers(dc, &mut bytes[HEADER_BYTES..low_start]);
    write_numbers(low, &mut bytes[low_start..high_start]);
    write_numbers(high, &mut bytes[high_start..]);
    Ok(())
}

fn read_numbers(bytes: &[u8], numbers: &mut [i32]) {
    for (number, bytes) in numbers.iter_mut().zip(bytes.chunks_exact(4)) {
        *number = i32::from_le_bytes(bytes.try_into().unwrap());
    }
}

fn write_numbers(numbers: &[i32], bytes: &mut [u8]) {
    for (place, number) in bytes.chunks_exact_mut(4).zip(numbers) {
        place.copy_from_slice(&number.to_le_bytes());
    }
}
