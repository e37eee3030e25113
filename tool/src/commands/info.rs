//! `lapped info`: what plane files hold.

use crate::failure::{Failure, Outcome};
use crate::progress::Progress;
use crate::range::extremes;
use crate::{input, output, plane_file, shape, wraps};
use lapped::{PlaneFile, Wrapped};
use std::path::{Path, PathBuf};

pub const EXAMPLE: &str = "lapped info ring.planes";

/// Say the mode, the size and the extreme coefficients of plane files, and whether a sum wraps
///
/// A sum wraps where numbers are so large that a step of the way to the samples leaves 32 bits. What
/// comes of it is exact and can be undone, but no picture of 16 bits or less has such numbers.
#[derive(clap::Args)]
pub struct Args {
    /// Plane files; `-` is standard input
    #[arg(value_name = "FILE", required = true)]
    files: Vec<PathBuf>,
}

pub fn run(args: &Args, progress: &Progress) -> Result<Outcome, Failure> {
    input::standard_input_once(&args.files)?;
    let bar = progress.bar(args.files.len(), "files");
    let mut outcome = Outcome::Done;
    for path in &args.files {
        match read(path) {
            Ok((file, wrapped)) => bar.aside(|| output::report(&report(path, &file, wrapped)))?,
            Err(failure) => {
                bar.aside(|| failure.tell());
                outcome = Outcome::RefusedOrDifferent;
            }
        }
        bar.one_more();
    }
    Ok(outcome)
}

/// What a file holds, and whether a sum wraps on the way to its samples, which are gone when this
/// returns.
fn read(path: &Path) -> Result<(PlaneFile, Wrapped), Failure> {
    let file = plane_file::read(path)?;
    let (_, wrapped) = file.to_samples().map_err(|refusal| Failure::refused(path, refusal))?;
    Ok((file, wrapped))
}

fn report(path: &Path, file: &PlaneFile, wrapped: Wrapped) -> String {
    let planes = &file.planes;
    let size = planes.size;
    let mut text = format!(
        "{}\n{}  bytes      {}\n",
        path.display(),
        shape::lines(file.mode, size),
        size.file_bytes()
    );
    for (band, plane) in
        [("DC", &planes.dc), ("low-pass", &planes.low), ("high-pass", &planes.high)]
    {
        let (smallest, largest) = extremes(plane);
        text += &format!("  {band:<9}  {smallest} to {largest}\n");
    }
    text + &wraps::line(wrapped)
}
