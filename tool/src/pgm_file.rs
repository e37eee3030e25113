//! PGM files of bytes (P5), in and out.

use crate::grey::{unreadable, Depth, Picture, Shape};
use crate::input;
use std::io::{self, BufRead, Read, Write};

/// Writes a picture; `fill` gives the bytes of each row.
pub fn write(
    out: &mut dyn Write,
    shape: Shape,
    mut fill: impl FnMut(usize, &mut [u8]),
) -> io::Result<()> {
    let Shape { width, height, depth } = shape;
    write!(out, "P5\n{width} {height}\n{}\n", depth.white())?;
    let mut bytes = vec![0; shape.row_bytes()];
    for row in 0..height {
        fill(row, &mut bytes);
        out.write_all(&bytes)?;
    }
    Ok(())
}

/// Reads a picture that is alone in its file.
pub fn read(mut input: impl BufRead) -> io::Result<Picture> {
    input.read_exact(&mut [0; 2])?;
    let (width, height) = (number(&mut input)?, number(&mut input)?);
    let white = number(&mut input)?;
    let depth = match white {
        1..=255 => Depth::Eight,
        256..=65535 => Depth::Sixteen,
        _ => return Err(unreadable(format!("a greatest grey of {white}; it can be 1 to 65535"))),
    };
    let shape = Shape::told(width, height, depth)?;

    let mut bytes = vec![0; shape.height * shape.row_bytes()];
    if input::fill(&mut input, &mut bytes)? < bytes.len() {
        return Err(unreadable("the file ends before the picture does"));
    }
    if !input.fill_buf()?.is_empty() {
        return Err(unreadable("the file goes on after the picture"));
    }
    let picture = Picture { shape, bytes };
    let too_white = |row| picture.row(row).any(|sample| sample > white as i32);
    if (0..shape.height).any(too_white) {
        return Err(unreadable(format!("a sample above the file's greatest grey, {white}")));
    }
    Ok(picture)
}

/// The next number of the header and the one byte after it; blanks and comments before it are
/// passed over.
fn number(input: &mut impl Read) -> io::Result<u32> {
    let mut next = byte(input)?;
    while next.is_ascii_whitespace() || next == b'#' {
        if next == b'#' {
            while byte(input)? != b'\n' {}
        }
        next = byte(input)?;
    }
    if !next.is_ascii_digit() {
        return Err(unreadable("a PGM header with something else where a number belongs"));
    }
    let mut number = 0u32;
    while next.is_ascii_digit() {
        // A number too large for its type is too large for a picture as well.
        number = number.saturating_mul(10).saturating_add(u32::from(next - b'0'));
        next = byte(input)?;
    }
    match next.is_ascii_whitespace() {
        true => Ok(number),
        false => Err(unreadable("a PGM header with something else after a number")),
    }
}

fn byte(input: &mut impl Read) -> io::Result<u8> {
    let mut byte = [0];
    match input::fill(input, &mut byte)? {
        0 => Err(unreadable("the file ends within its header")),
        _ => Ok(byte[0]),
    }
}
