//! `lapped diff`: how two plane files differ in their samples, and the windows that allow it.

use crate::failure::{Failure, Outcome};
use crate::heat::Heat;
use crate::output::{self, Place};
use crate::progress::Progress;
use crate::windows::Windows;
use crate::{input, plane_file};
use lapped::{PlaneFile, Size};
use std::path::{Path, PathBuf};

pub const EXAMPLE: &str = "lapped diff before.planes after.planes -o heat.png";

/// Say how many samples of two plane files differ, and where
///
/// The two are of one mode and one size. Where coefficients differ, samples may differ in the
/// windows of their blocks and macroblocks and nowhere else, which is proved; what is found is
/// compared with it.
#[derive(clap::Args)]
pub struct Args {
    /// A plane file; `-` is standard input
    #[arg(value_name = "A")]
    one: PathBuf,
    /// Another; `-` is standard input
    #[arg(value_name = "B")]
    other: PathBuf,
    /// A picture of the differences (PNG): from dark red to white where samples differ, with blue
    /// outlines just outside the windows; `-` is standard output, and the report then goes to
    /// standard error
    #[arg(short, long, value_name = "HEAT")]
    output: Option<PathBuf>,
}

pub fn run(args: &Args, progress: &Progress) -> Result<Outcome, Failure> {
    input::standard_input_once([&args.one, &args.other])?;
    let place = match &args.output {
        Some(path) => {
            check_name(path)?;
            Some(Place::new(path, &[&args.one, &args.other])?)
        }
        None => None,
    };
    let (one, other) = (plane_file::read(&args.one)?, plane_file::read(&args.other)?);
    check_alike(&args.other, &one, &other)?;
    let size = one.planes.size;
    let windows = Windows::between(one.mode, &one.planes, &other.planes);
    // One after another: of each file the planes or the samples are in memory, and of one both.
    let one = samples(&args.one, one)?;
    let other = samples(&args.other, other)?;

    let found = Found::between(size, &one, &other, &windows);
    if let Some(place) = &place {
        let (width, height) = (size.samples_across(), size.samples_down());
        let heat = Heat {
            width,
            height,
            one: &one,
            other: &other,
            largest: found.largest,
            windows: &windows,
        };
        let bar = progress.bar(height, "rows");
        output::write_whole(place, |out| heat.write(out, || bar.one_more()))?;
    }
    let report = found.report(size, &windows);
    match &place {
        Some(place) => output::report_beside(place, &report)?,
        None => output::report(&report)?,
    }
    Ok(if found.nothing(&windows) { Outcome::Done } else { Outcome::RefusedOrDifferent })
}

/// The picture has colours, which PGM does not.
fn check_name(path: &Path) -> Result<(), Failure> {
    match path.extension() {
        Some(ending) if ending.eq_ignore_ascii_case("png") => Ok(()),
        None if path == Path::new("-") => Ok(()),
        _ => Err(Failure::usage(path, "the name does not end in .png")),
    }
}

/// Windows compare planes of one mode and one size.
fn check_alike(path: &Path, one: &PlaneFile, other: &PlaneFile) -> Result<(), Failure> {
    if (one.mode, one.planes.size) == (other.mode, other.planes.size) {
        return Ok(());
    }
    let [one, other] = [one, other].map(|PlaneFile { mode, planes }| {
        let (width, height) = (planes.size.width(), planes.size.height());
        format!("mode {}, {width} × {height} macroblocks", mode.number())
    });
    Err(Failure::words(path, format!("{other}; the first file has {one}: not to be compared")))
}

/// The samples of a file, whose planes are gone when this returns.
fn samples(path: &Path, file: PlaneFile) -> Result<Vec<i32>, Failure> {
    let (samples, _) = file.to_samples().map_err(|refusal| Failure::refused(path, refusal))?;
    Ok(samples)
}

/// What differs between two pictures of one size.
struct Found {
    count: usize,
    /// By how much at most.
    largest: u32,
    /// The rows and columns, first and last, between which all of it lies.
    rows: (usize, usize),
    columns: (usize, usize),
    /// How many of them lie in no window.
    outside: usize,
}

impl Found {
    fn between(size: Size, one: &[i32], other: &[i32], windows: &Windows) -> Self {
        let nowhere = (usize::MAX, 0);
        let mut found = Found { count: 0, largest: 0, rows: nowhere, columns: nowhere, outside: 0 };
        let take_in =
            |(first, last): (usize, usize), place: usize| (first.min(place), last.max(place));
        for (place, (one, other)) in one.iter().zip(other).enumerate() {
            if one == other {
                continue;
            }
            let (row, column) = (place / size.samples_across(), place % size.samples_across());
            found.count += 1;
            found.largest = found.largest.max(one.abs_diff(*other));
            found.rows = take_in(found.rows, row);
            found.columns = take_in(found.columns, column);
            found.outside += usize::from(!windows.hold(row, column));
        }
        found
    }

    /// Whether the files are the same.
    fn nothing(&self, windows: &Windows) -> bool {
        self.count == 0 && windows.coefficients == [0; 3]
    }

    fn report(&self, size: Size, windows: &Windows) -> String {
        let [dc, low, high] = windows.coefficients;
        if self.nothing(windows) {
            return "no coefficient and no sample differs\n".to_string();
        }
        let outside = match self.outside {
            0 => "none of them lies outside the windows, as is proved".to_string(),
            count => format!("{count} OF THEM LIE OUTSIDE THE WINDOWS, which is proved impossible"),
        };
        format!(
            "coefficients  differ: {dc} of DC, {low} of low-pass, {high} of high-pass\n\
             windows       macroblocks: {}, blocks: {}\n\
             samples       {} of {} differ, by at most {}\n\
             where         rows {} to {}, columns {} to {}, counted from 0\n              \
             {outside}\n",
            windows.macroblocks(),
            windows.blocks(),
            self.count,
            size.samples(),
            self.largest,
            self.rows.0,
            self.rows.1,
            self.columns.0,
            self.columns.1,
        )
    }
}

#[cfg(test)]
mod tests {
    use super::*;
    use lapped::{Mode, Planes};

    /// What no two files can show, since it is proved impossible.
    #[test]
    fn a_difference_outside_the_windows_would_be_told() {
        let size = Size::new(2, 1).unwrap();
        let (one, mut other) = (Planes::zeroed(size), Planes::zeroed(size));
        // In the first block, whose window in mode 1 ends before row 6 and column 6.
        other.high[0] = 1;
        let windows = Windows::between(Mode::SampleLevel, &one, &other);
        let (flat, mut dotted) = (vec![0; 512], vec![0; 512]);
        for (row, column) in [(5, 5), (6, 5), (5, 6), (15, 31)] {
            dotted[32 * row + column] = -1;
        }
        let found = Found::between(size, &flat, &dotted, &windows);
        assert_eq!((found.count, found.outside), (4, 3));
        assert!(found.report(size, &windows).contains("3 OF THEM LIE OUTSIDE THE WINDOWS"));

        let no_windows = Windows::between(Mode::SampleLevel, &one, &one);
        assert!(!Found::between(size, &flat, &dotted, &no_windows).nothing(&no_windows));
    }
}
