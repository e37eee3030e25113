//! Grey picture files: their shape, their format, and their rows as bytes, which PNG and PGM share.

use crate::failure::Failure;
use crate::range::Range;
use crate::{input, pgm_file, png_file};
use clap::ValueEnum;
use lapped::Size;
use std::io::{self, BufReader, Cursor, Read, Write};
use std::path::Path;

/// How many bits a sample has in a picture file.
#[derive(Clone, Copy, Debug, PartialEq, Eq, ValueEnum)]
pub enum Depth {
    #[value(name = "8")]
    Eight,
    #[value(name = "16")]
    Sixteen,
}

impl Depth {
    /// The white of a picture; black is 0.
    pub fn white(self) -> u16 {
        match self {
            Depth::Eight => u8::MAX.into(),
            Depth::Sixteen => u16::MAX,
        }
    }

    /// From black to white: the samples that are written as they are.
    pub fn range(self) -> Range {
        Range { low: 0, high: self.white().into() }
    }

    pub fn bits(self) -> usize {
        8 * self.bytes()
    }

    pub fn bytes(self) -> usize {
        match self {
            Depth::Eight => 1,
            Depth::Sixteen => 2,
        }
    }
}

/// The sides of a picture file in samples, and its depth.
#[derive(Clone, Copy, Debug, PartialEq, Eq)]
pub struct Shape {
    pub width: usize,
    pub height: usize,
    pub depth: Depth,
}

/// The most samples that a picture can have across and down.
const MOST: (usize, usize) = (16 * Size::MAX_WIDTH as usize, 16 * Size::MAX_HEIGHT as usize);

impl Shape {
    /// The shape that the header of a picture file tells. It is checked before any memory is asked
    /// for: a header of a few bytes can tell any number.
    pub fn told(width: u32, height: u32, depth: Depth) -> io::Result<Self> {
        let shape = Shape { width: width as usize, height: height as usize, depth };
        if shape.width == 0 || shape.height == 0 {
            return Err(unreadable("a picture without samples"));
        }
        if shape.width > MOST.0 || shape.height > MOST.1 {
            let (most_across, most_down) = MOST;
            return Err(unreadable(format!(
                "{width} × {height} samples; a picture has at most {most_across} × {most_down}"
            )));
        }
        Ok(shape)
    }

    pub fn row_bytes(self) -> usize {
        self.width * self.depth.bytes()
    }
}

/// Says in words why a picture file is not read.
pub fn unreadable(words: impl Into<String>) -> io::Error {
    io::Error::new(io::ErrorKind::InvalidData, words.into())
}

/// A grey picture as it is in its file: rows from the top, samples of 16 bits with the high byte
/// first.
pub struct Picture {
    pub shape: Shape,
    pub bytes: Vec<u8>,
}

impl Picture {
    /// Reads a PNG or PGM file, which one its first bytes say.
    pub fn read(path: &Path) -> io::Result<Self> {
        let mut file = input::open(path)?;
        let mut front = [0; 2];
        let filled = input::fill(&mut file, &mut front)?;
        let whole = BufReader::new(Cursor::new(&front[..filled]).chain(file));
        match &front[..filled] {
            b"\x89P" => png_file::read(whole),
            b"P5" => pgm_file::read(whole),
            b"P3" | b"P6" => Err(unreadable("a colour picture; only grey ones are read")),
            b"P2" => {
                Err(unreadable("a PGM file of decimals (P2); only that of bytes (P5) is read"))
            }
            _ => Err(unreadable("neither a PNG nor a PGM file")),
        }
    }

    /// The samples of a row.
    pub fn row(&self, row: usize) -> impl Iterator<Item = i32> + '_ {
        let step = self.shape.depth.bytes();
        let bytes = &self.bytes[row * self.shape.row_bytes()..][..self.shape.row_bytes()];
        bytes
            .chunks_exact(step)
            .map(|sample| sample.iter().fold(0, |high, &low| high << 8 | i32::from(low)))
    }
}

/// A format in which grey pictures are written.
#[derive(Clone, Copy, Debug, PartialEq, Eq, ValueEnum)]
pub enum Format {
    Png,
    Pgm,
}

impl Format {
    /// The format that was asked for or, without one, that of the name's ending; PNG for `-`.
    pub fn of(path: &Path, asked: Option<Format>) -> Result<Format, Failure> {
        let ending = path.extension().map(|ending| ending.to_ascii_lowercase());
        match (asked, ending.as_ref().and_then(|ending| ending.to_str())) {
            (Some(format), _) => Ok(format),
            (None, Some("png")) => Ok(Format::Png),
            (None, Some("pgm")) => Ok(Format::Pgm),
            (None, _) if path == Path::new("-") => Ok(Format::Png),
            _ => Err(Failure::usage(path, "the name ends neither in .png nor in .pgm")),
        }
    }

    /// Writes a picture; `fill` gives the bytes of each row, from the top.
    pub fn write(
        self,
        out: &mut dyn Write,
        shape: Shape,
        fill: impl FnMut(usize, &mut [u8]),
    ) -> io::Result<()> {
        match self {
            Format::Png => png_file::write_grey(out, shape, fill),
            Format::Pgm => pgm_file::write(out, shape, fill),
        }
    }
}
