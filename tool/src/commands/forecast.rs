//! `lapped forecast`: how much work a picture will be.

use crate::failure::{Failure, Outcome};
use crate::progress::Progress;
use crate::{output, plane_file, shape};
use lapped::{Header, Mode, Size, Work};
use std::path::PathBuf;

pub const EXAMPLE: &str = "lapped forecast --size 525x413 --mode 2";

/// Say how much work a picture will be, from its mode and size alone
///
/// Told are the operators that take planes to samples, at both levels together, and the bytes of the
/// planes and of the samples in memory. Mode and size are those of a plane file, or the options say
/// them.
#[derive(clap::Args)]
pub struct Args {
    /// A plane file; `-` is standard input
    #[arg(required_unless_present_any = ["size", "mode"], conflicts_with_all = ["size", "mode"])]
    file: Option<PathBuf>,
    /// Width and height in macroblocks of 16 × 16 samples, as in 525x413
    #[arg(long, value_parser = shape::parse_size, requires = "mode")]
    size: Option<Size>,
    /// 0 filters no level, 1 the level of the samples, 2 both
    #[arg(short, long, value_parser = shape::parse_mode, requires = "size")]
    mode: Option<Mode>,
}

pub fn run(args: &Args, _: &Progress) -> Result<Outcome, Failure> {
    let text = match &args.file {
        Some(file) => {
            let Header { mode, size } = plane_file::header(file)?;
            format!("{}\n{}", file.display(), report(mode, size))
        }
        None => {
            let (mode, size) = args.mode.zip(args.size).expect("clap asks for both without a file");
            report(mode, size)
        }
    };
    output::report(&text)?;
    Ok(Outcome::Done)
}

fn report(mode: Mode, size: Size) -> String {
    let Work { cores, square_filters, four_filters, plane_bytes, sample_bytes } =
        lapped::forecast(mode, size);
    format!(
        "{}  cores      {cores}\n  \
         filters    {square_filters} of squares, {four_filters} of four numbers\n  \
         bytes      {plane_bytes} of planes, {sample_bytes} of samples\n",
        shape::lines(mode, size)
    )
}
