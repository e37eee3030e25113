//! The text that the program prints for a plane file (01, "Program").

use crate::{inverse, plane_file};

/// The program reads no more than this: one byte more than the largest file that it accepts.
pub const MAX_INPUT: usize = 16_417;

/// The largest picture that the program accepts, in macroblocks.
pub const MAX_MACROBLOCKS: u64 = 16;

/// All that the program prints for this standard input.
pub fn output(input: &[u8]) -> String {
    match rows(&input[..input.len().min(MAX_INPUT)]) {
        Ok(text) => text,
        Err(number) => format!("refused {number}\n"),
    }
}

fn rows(input: &[u8]) -> Result<String, u32> {
    let header = plane_file::check_words(input)?;
    if header.size.macroblocks() > MAX_MACROBLOCKS {
        return Err(13);
    }
    let n = header.size.macroblocks() as usize;
    let (mut dc, mut low, mut high) = (vec![0; n], vec![0; 15 * n], vec![0; 240 * n]);
    plane_file::load(input, &mut dc, &mut low, &mut high)?;
    let mut samples = vec![0; 256 * n];
    inverse(header.mode, header.size, &dc, &low, &high, &mut samples)?;

    let mut text = String::new();
    for row in samples.chunks_exact(16 * header.size.width as usize) {
        let decimals: Vec<String> = row.iter().map(i32::to_string).collect();
        text += &decimals.join(" ");
        text.push('\n');
    }
    Ok(text)
}
