//! `lapped export`: the samples of a plane file, or their quarter view, as a grey picture.

use crate::failure::{tell, Failure, Outcome};
use crate::grey::{Depth, Format, Shape};
use crate::output::{self, Place};
use crate::progress::Progress;
use crate::range::{extremes, Range, Wanted};
use crate::stopwatch::Stopwatch;
use crate::{plane_file, view, wraps};
use lapped::{PlaneFile, Refusal, Wrapped};
use std::path::PathBuf;

pub const EXAMPLE: &str = "lapped export ring.planes -o ring.png";

/// Write the samples of a plane file as a grey picture
///
/// Samples are written as they are, with 8 bits where all of them lie in 0 to 255 and with 16 where
/// they lie in 0 to 65535. Other pictures need `--range`, which says what is black and what is white.
#[derive(clap::Args)]
pub struct Args {
    /// A plane file; `-` is standard input
    file: PathBuf,
    /// The picture, a name that ends in .png or .pgm; `-` is standard output
    #[arg(short, long, value_name = "OUT")]
    output: PathBuf,
    /// The format, whatever the name ends in
    #[arg(short, long, value_enum)]
    format: Option<Format>,
    /// The picture at a quarter of its width and height, in its own greys
    #[arg(long)]
    quarter: bool,
    /// The sample shown black and the one shown white, or auto for the smallest and the largest.
    /// Samples between are stretched to the picture's bits, samples outside are clipped, and it is
    /// said how many
    #[arg(long, value_name = "LO:HI", allow_hyphen_values = true)]
    range: Option<Wanted>,
    /// Bits of a sample, whatever the samples are; with a range, the default is 8 where it spans up to
    /// 255 and 16 beyond
    #[arg(long, value_enum)]
    bits: Option<Depth>,
    /// Say how long reading, the transform and writing took
    #[arg(long)]
    times: bool,
}

pub fn run(args: &Args, progress: &Progress) -> Result<Outcome, Failure> {
    let format = Format::of(&args.output, args.format)?;
    let place = Place::new(&args.output, &[&args.file])?;
    let mut times = Stopwatch::started();
    let file = plane_file::read(&args.file)?;
    times.lap("reading");
    let numbers =
        args.transformed(file).map_err(|refusal| Failure::refused(&args.file, refusal))?;
    times.lap("the transform");

    let (range, depth) = args.shown(numbers.extremes)?;
    let clipped = numbers.write(&place, format, range, depth, progress)?;
    times.lap("writing");

    wraps::tell_of(&args.file, numbers.wrapped);
    let name = args.file.display();
    if clipped > 0 {
        let of = numbers.samples.len();
        tell(format_args!("{name}: {clipped} of {of} samples clipped, being outside {range}"));
    }
    if args.times {
        tell(format_args!("{name}: {times}"));
    }
    Ok(Outcome::Done)
}

impl Args {
    /// The samples of a file or its quarter view; its planes are gone when this returns.
    fn transformed(&self, file: PlaneFile) -> Result<Numbers, Refusal> {
        let size = file.planes.size;
        if !self.quarter {
            let (samples, wrapped) = file.to_samples()?;
            let (width, height) = (size.samples_across(), size.samples_down());
            return Ok(Numbers { extremes: extremes(&samples), samples, wrapped, width, height });
        }
        let (mut samples, wrapped) = file.to_quarter_view()?;
        view::to_greys(file.mode, size, &mut samples)?;
        let extremes = match self.range {
            Some(_) => extremes(&samples),
            None => {
                let (smallest, largest) = extremes(&file.to_samples()?.0);
                // Beside sharp edges the filters overshoot what the picture holds.
                samples.iter_mut().for_each(|grey| *grey = (*grey).clamp(smallest, largest));
                (smallest, largest)
            }
        };
        let (width, height) = (size.view_across(), size.view_down());
        Ok(Numbers { extremes, samples, wrapped, width, height })
    }

    /// What is black and what is white, and how many bits a sample has.
    fn shown(&self, extremes: (i32, i32)) -> Result<(Range, Depth), Failure> {
        let range = match self.range {
            None => return self.as_they_are(extremes),
            Some(Wanted::Auto) => Range::from_extremes(extremes),
            Some(Wanted::Given(range)) => range,
        };
        let narrow = range.span() <= Depth::Eight.white().into();
        let usual = if narrow { Depth::Eight } else { Depth::Sixteen };
        Ok((range, self.bits.unwrap_or(usual)))
    }

    /// Samples are clipped only where it was asked for.
    fn as_they_are(&self, (smallest, largest): (i32, i32)) -> Result<(Range, Depth), Failure> {
        let fits = |depth: Depth| depth.range().holds(smallest) && depth.range().holds(largest);
        let usual = if fits(Depth::Eight) { Depth::Eight } else { Depth::Sixteen };
        let depth = self.bits.unwrap_or(usual);
        if fits(depth) {
            return Ok((depth.range(), depth));
        }
        let (bits, white) = (depth.bits(), depth.white());
        let words = format!(
            "samples from {smallest} to {largest}, and {bits} bits hold 0 to {white}; \
             --range LO:HI or --range auto says what is black and what is white"
        );
        Err(Failure::words(&self.file, words))
    }
}

/// What is to be shown, in raster order, and whether a sum wrapped on the way to it.
struct Numbers {
    samples: Vec<i32>,
    /// The smallest and the largest sample of the picture.
    extremes: (i32, i32),
    wrapped: Wrapped,
    width: usize,
    height: usize,
}

impl Numbers {
    /// Writes the picture row by row; gives how many samples were clipped.
    fn write(
        &self,
        place: &Place,
        format: Format,
        range: Range,
        depth: Depth,
        progress: &Progress,
    ) -> Result<usize, Failure> {
        let Numbers { ref samples, width, height, .. } = *self;
        let bar = progress.bar(height, "rows");
        let mut clipped = 0;
        output::write_whole(place, |out| {
            format.write(out, Shape { width, height, depth }, |row, bytes| {
                clipped += range.write_row(&samples[row * width..][..width], depth, bytes);
                bar.one_more();
            })
        })?;
        Ok(clipped)
    }
}
