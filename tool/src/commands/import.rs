//! `lapped import`: a grey picture into a plane file.

use crate::failure::{tell, Failure, Outcome};
use crate::grey::Picture;
use crate::output::Place;
use crate::progress::Progress;
use crate::{plane_file, shape, wraps};
use lapped::{Mode, PlaneFile, Planes, Refusal, Size};
use std::path::{Path, PathBuf};

pub const EXAMPLE: &str = "lapped import ring.png -m 2 -o ring.planes";

/// Write a grey PNG or PGM picture, 8 or 16 bits, as a plane file
///
/// Sides that are no multiple of 16 are filled by repeating the edge.
#[derive(clap::Args)]
pub struct Args {
    /// A picture; `-` is standard input
    #[arg(value_name = "IN")]
    input: PathBuf,
    /// 0 filters no level, 1 the level of the samples, 2 both
    #[arg(short, long, value_parser = shape::parse_mode)]
    mode: Mode,
    /// The plane file; `-` is standard output
    #[arg(short, long, value_name = "FILE")]
    output: PathBuf,
}

pub fn run(args: &Args, progress: &Progress) -> Result<Outcome, Failure> {
    let place = Place::new(&args.output, &[&args.input])?;
    let refused = |refusal| Failure::refused(&args.input, refusal);
    let picture =
        Picture::read(&args.input).map_err(|error| Failure::system(&args.input, error))?;
    let size = size_for(&picture).map_err(refused)?;
    let samples = filled(&picture, size);
    tell_of_filling(&args.input, &picture, size);
    drop(picture); // From here on, samples and planes, then planes and bytes.

    let (planes, wrapped) = Planes::from_samples(args.mode, size, &samples).map_err(refused)?;
    drop(samples);
    wraps::tell_of(&args.input, wrapped);
    plane_file::write(&place, &PlaneFile { mode: args.mode, planes }, progress)?;
    Ok(Outcome::Done)
}

/// The smallest size that holds the picture.
fn size_for(picture: &Picture) -> Result<Size, Refusal> {
    let macroblocks = |samples: usize| (samples as u32 + 15) / 16;
    Size::new(macroblocks(picture.shape.width), macroblocks(picture.shape.height))
}

/// The samples of the picture, each row continued by its last sample, and the rows by the last row.
fn filled(picture: &Picture, size: Size) -> Vec<i32> {
    let mut samples = Vec::with_capacity(size.samples());
    for row in 0..size.samples_down() {
        let row = picture.row(row.min(picture.shape.height - 1));
        samples.extend(row);
        let last = samples[samples.len() - 1];
        samples.resize(samples.len() + size.samples_across() - picture.shape.width, last);
    }
    samples
}

fn tell_of_filling(path: &Path, picture: &Picture, size: Size) {
    let (width, height) = (picture.shape.width, picture.shape.height);
    let (across, down) = (size.samples_across(), size.samples_down());
    if (width, height) != (across, down) {
        tell(format_args!(
            "{}: {width} × {height} samples, filled to {across} × {down} by repeating the edge",
            path.display()
        ));
    }
}
