//! `lapped find-step`: a step index for all bands that keeps every sample within a tolerance.

use crate::failure::{Failure, Outcome};
use crate::output::{self, Place};
use crate::plane_file;
use crate::progress::Progress;
use lapped::{Mode, PlaneFile, Planes, Refusal};
use std::path::{Path, PathBuf};
use std::time::{Duration, Instant};

pub const EXAMPLE: &str = "lapped find-step ring.planes -t 5";

const DOING: &str = "finding a step";

/// The indices from 255 down to 2.
const MOST_TRIES: u32 = 254;

/// Find a step index for all bands that keeps every sample within a tolerance
///
/// An index passes if the samples of a plane file, taken to levels and back by its step, come back
/// with no sample further off than the tolerance. One from 2 to 255 that passes is told or, where
/// none does, 0, which changes nothing. Up to 254 indices are tried.
#[derive(clap::Args)]
pub struct Args {
    /// A plane file of coefficients; `-` is standard input
    file: PathBuf,
    /// How far a sample may be off, from 0 to 4294967295
    #[arg(short, long, allow_hyphen_values = true)]
    tolerance: u32,
    /// A plane file of the coefficients that come back by this index; `-` is standard output, and the
    /// report then goes to standard error
    #[arg(short, long, value_name = "OUT")]
    output: Option<PathBuf>,
}

pub fn run(args: &Args, progress: &Progress) -> Result<Outcome, Failure> {
    let place = match &args.output {
        Some(path) => Some(Place::new(path, &[&args.file])?),
        None => None,
    };
    let PlaneFile { mode, planes } = plane_file::read(&args.file)?;
    let mut search = Search::start(mode, planes, args.tolerance)
        .map_err(|refusal| Failure::refused(&args.file, refusal))?;
    let index = search.run(progress).map_err(|refusal| Failure::refused(&args.file, refusal))?;
    let report = search.report(&args.file, index);
    let planes = search.into_planes();
    match &place {
        Some(place) => {
            plane_file::write(place, &PlaneFile { mode, planes }, progress)?;
            output::report_beside(place, &report)?;
        }
        None => output::report(&report)?,
    }
    Ok(Outcome::Done)
}

/// What the library is lent to find a step.
struct Search {
    mode: Mode,
    tolerance: u32,
    samples: Vec<i32>,
    /// What comes back by an index.
    planes: Planes,
    back: Vec<i32>,
}

impl Search {
    fn start(mode: Mode, planes: Planes, tolerance: u32) -> Result<Self, Refusal> {
        let (samples, _) = planes.to_samples(mode)?;
        let back = samples.clone();
        Ok(Search { mode, tolerance, samples, planes, back })
    }

    /// The library's answer. Since its call tells nothing on the way, what is shown of it is
    /// reckoned by the time of one try.
    fn run(&mut self, progress: &Progress) -> Result<u8, Refusal> {
        let one_try = match progress.is_shown() && self.is_tame() {
            true => Some(self.time_of_a_try()?),
            false => None,
        };
        let _shown = match one_try {
            Some(time) => progress.tries(DOING, MOST_TRIES, time),
            None => progress.spinner(DOING),
        };
        self.find(self.tolerance)
    }

    fn find(&mut self, tolerance: u32) -> Result<u8, Refusal> {
        let size = self.planes.size;
        let (planes, back) = (self.planes.as_mut(), &mut self.back);
        lapped::find_step(self.mode, size, tolerance, &self.samples, planes, back)
    }

    /// Whether every level by every step can be restored, so that a tolerance that allows all is kept
    /// by the first index that is tried. The largest step is far below this bound.
    fn is_tame(&self) -> bool {
        let Planes { dc, low, high, .. } = &self.planes;
        [dc, low, high].iter().all(|plane| plane.iter().all(|c| c.unsigned_abs() <= 1 << 30))
    }

    fn time_of_a_try(&mut self) -> Result<Duration, Refusal> {
        let start = Instant::now();
        self.find(u32::MAX)?;
        Ok(start.elapsed())
    }

    /// The samples are gone when this returns: writing holds the planes and their bytes.
    fn into_planes(self) -> Planes {
        self.planes
    }

    fn report(&self, path: &Path, index: u8) -> String {
        let tolerance = self.tolerance;
        if index == 0 {
            return format!(
                "tolerance  {tolerance}: no index from 2 to 255 keeps it\n\
                 all bands  index 0, step 1, which changes nothing\n"
            );
        }
        let differences =
            self.samples.iter().zip(&self.back).map(|(one, other)| one.abs_diff(*other));
        let count = differences.clone().filter(|&difference| difference > 0).count();
        let samples = match differences.max() {
            None | Some(0) => "none differs".to_string(),
            Some(largest) => format!("{count} of {} differ, by at most {largest}", self.back.len()),
        };
        format!(
            "tolerance  {tolerance}\n\
             all bands  index {index}, step {}\n\
             samples    {samples}\n           \
             to go on: lapped quantise {} -s {index} -o OUT\n",
            lapped::step(index),
            path.display()
        )
    }
}
