//! `lapped restore`: a plane file's levels as coefficients again, each band by its own step.

use crate::failure::{Failure, Outcome};
use crate::output::{self, Place};
use crate::progress::Progress;
use crate::{plane_file, steps};
use std::path::PathBuf;

pub const EXAMPLE: &str = "lapped restore ring.levels -s 10,20,40 -o restored.planes";

/// Write the levels of a plane file as coefficients again
///
/// A coefficient is its level times the band's step. The step indices are those that `lapped
/// quantise` was given: the plane file does not hold them. If a product is outside the signed 32-bit
/// range the file is refused and nothing is written.
#[derive(clap::Args)]
pub struct Args {
    /// A plane file of levels; `-` is standard input
    file: PathBuf,
    #[command(flatten)]
    asked: steps::Asked,
    /// The plane file of coefficients; `-` is standard output, and the report then goes to standard
    /// error
    #[arg(short, long, value_name = "OUT")]
    output: PathBuf,
}

pub fn run(args: &Args, progress: &Progress) -> Result<Outcome, Failure> {
    let place = Place::new(&args.output, &[&args.file])?;
    let steps = args.asked.steps;
    plane_file::convert(&args.file, &place, progress, |mode, levels| levels.restored(mode, steps))?;
    let report = steps::lines(steps).map(|line| line + "\n").concat();
    output::report_beside(&place, &report)?;
    Ok(Outcome::Done)
}
