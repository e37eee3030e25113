//! PNG files: grey ones in and out, coloured ones out.

use crate::grey::{unreadable, Depth, Picture, Shape};
use png::{BitDepth, ColorType, Compression, Decoder, DecodingError, Encoder, FilterType};
use std::io::{self, Read, Write};

/// Writes a grey picture; `fill` gives the bytes of each row.
pub fn write_grey(
    out: &mut dyn Write,
    shape: Shape,
    fill: impl FnMut(usize, &mut [u8]),
) -> io::Result<()> {
    let mut encoder = Encoder::new(out, shape.width as u32, shape.height as u32);
    encoder.set_color(ColorType::Grayscale);
    encoder.set_depth(match shape.depth {
        Depth::Eight => BitDepth::Eight,
        Depth::Sixteen => BitDepth::Sixteen,
    });
    write(encoder, shape.height, shape.row_bytes(), fill)
}

/// Writes a picture of red, green and blue, 8 bits each; `fill` gives the bytes of each row.
pub fn write_coloured(
    out: &mut dyn Write,
    width: usize,
    height: usize,
    fill: impl FnMut(usize, &mut [u8]),
) -> io::Result<()> {
    let mut encoder = Encoder::new(out, width as u32, height as u32);
    encoder.set_color(ColorType::Rgb);
    encoder.set_depth(BitDepth::Eight);
    write(encoder, height, 3 * width, fill)
}

fn write(
    mut encoder: Encoder<&mut dyn Write>,
    height: usize,
    row_bytes: usize,
    mut fill: impl FnMut(usize, &mut [u8]),
) -> io::Result<()> {
    // Compressing takes the most time of an export.
    encoder.set_compression(Compression::Fast);
    // Not Up, Avg or Paeth: in the stream of png 0.17.7 these work from the row above as it is
    // filtered, not as it was given, and every reader then shows a wrong picture. Sub works within
    // its row.
    encoder.set_filter(FilterType::Sub);
    let mut writer = encoder.write_header()?;
    let mut rows = writer.stream_writer()?;
    let mut bytes = vec![0; row_bytes];
    for row in 0..height {
        fill(row, &mut bytes);
        rows.write_all(&bytes)?;
    }
    rows.finish()?;
    writer.finish()?;
    Ok(())
}

/// Reads a grey picture.
pub fn read(input: impl Read) -> io::Result<Picture> {
    let mut reader = Decoder::new(input).read_info().map_err(in_words)?;
    let info = reader.info();
    match info.color_type {
        ColorType::Grayscale if info.trns.is_none() => {}
        ColorType::Grayscale | ColorType::GrayscaleAlpha => {
            return Err(unreadable("a picture with transparent samples; only opaque ones are read"))
        }
        _ => return Err(unreadable("a colour picture; only grey ones are read")),
    }
    let depth = match info.bit_depth {
        BitDepth::Eight => Depth::Eight,
        BitDepth::Sixteen => Depth::Sixteen,
        other => {
            let bits = other as u8;
            return Err(unreadable(format!("{bits} bits a sample; only 8 and 16 are read")));
        }
    };
    let shape = Shape::told(info.width, info.height, depth)?;
    let mut bytes = vec![0; shape.height * shape.row_bytes()];
    reader.next_frame(&mut bytes).map_err(in_words)?;
    Ok(Picture { shape, bytes })
}

/// The decoder's own words are for programmers.
fn in_words(error: DecodingError) -> io::Error {
    match error {
        DecodingError::IoError(error) if error.kind() != io::ErrorKind::UnexpectedEof => error,
        DecodingError::LimitsExceeded => {
            unreadable("a PNG file that takes too much memory to read")
        }
        _ => unreadable("a PNG file that is cut or damaged"),
    }
}
