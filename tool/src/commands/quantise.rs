//! `lapped quantise`: a plane file's coefficients as levels, each band by its own step.

use crate::failure::{Failure, Outcome};
use crate::output::{self, Place};
use crate::progress::Progress;
use crate::{plane_file, steps};
use lapped::{Planes, Steps};
use std::fmt;
use std::path::PathBuf;

pub const EXAMPLE: &str = "lapped quantise ring.planes -s 10,20,40 -o ring.levels";

/// Write the coefficients of a plane file as levels, and say how many are zero
///
/// A level is its coefficient divided by the band's step, to the nearest, a half away from zero. The
/// more levels are zero, the smaller an archive of the file becomes. The levels are written as a
/// plane file of the same mode and size, which does not hold the step indices: keep them, since
/// `lapped restore` needs the same ones.
#[derive(clap::Args)]
pub struct Args {
    /// A plane file of coefficients; `-` is standard input
    file: PathBuf,
    #[command(flatten)]
    asked: steps::Asked,
    /// The plane file of levels; `-` is standard output, and the report then goes to standard error
    #[arg(short, long, value_name = "OUT")]
    output: PathBuf,
}

pub fn run(args: &Args, progress: &Progress) -> Result<Outcome, Failure> {
    let place = Place::new(&args.output, &[&args.file])?;
    let steps = args.asked.steps;
    let levels = plane_file::convert(&args.file, &place, progress, |mode, planes| {
        planes.quantised(mode, steps)
    })?;
    output::report_beside(&place, &report(steps, &levels))?;
    Ok(Outcome::Done)
}

/// How many of some levels are zero.
#[derive(Clone, Copy)]
struct Zeros {
    count: usize,
    of: usize,
}

impl Zeros {
    fn among(levels: &[i32]) -> Self {
        Zeros { count: levels.iter().filter(|&&level| level == 0).count(), of: levels.len() }
    }
}

impl fmt::Display for Zeros {
    fn fmt(&self, f: &mut fmt::Formatter) -> fmt::Result {
        let Zeros { count, of } = self;
        // In tenths of a percent to the nearest, a half upward; there is no picture without levels.
        let tenths = (2000 * count + of) / (2 * of);
        write!(f, "{count} of {of} levels are zero ({}.{}%)", tenths / 10, tenths % 10)
    }
}

fn report(steps: Steps, levels: &Planes) -> String {
    let zeros = [&levels.dc, &levels.low, &levels.high].map(|plane| Zeros::among(plane));
    let mut text = String::new();
    for (line, zeros) in steps::lines(steps).iter().zip(zeros) {
        text += &format!("{line}: {zeros}\n");
    }
    let count = zeros.iter().map(|zeros| zeros.count).sum();
    let of = zeros.iter().map(|zeros| zeros.of).sum();
    let indices = steps::text(steps);
    text += &format!(
        "all bands  {}\n           \
         the file does not hold the indices; to restore it: -s {indices}\n",
        Zeros { count, of }
    );
    text
}

#[cfg(test)]
mod tests {
    use super::Zeros;

    #[test]
    fn percent_to_the_nearest_tenth() {
        for (count, of, percent) in [
            (0, 1, "0.0"),
            (1, 1, "100.0"),
            (2, 3, "66.7"),
            (1, 2000, "0.1"),
            (999, 2_000_000, "0.0"),
            (3, 2000, "0.2"),
            (1997, 2000, "99.9"),
            (525 * 413 * 240 - 1, 525 * 413 * 240, "100.0"),
        ] {
            let text = Zeros { count, of }.to_string();
            assert_eq!(text, format!("{count} of {of} levels are zero ({percent}%)"));
        }
    }
}
