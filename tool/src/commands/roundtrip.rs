//! `lapped roundtrip`: plane files to samples and back, compared with the files.

use crate::failure::{Failure, Outcome};
use crate::progress::Progress;
use crate::{input, output, plane_file};
use lapped::{PlaneFile, Planes};
use rayon::prelude::*;
use std::io::{self, Read, Seek};
use std::path::{Path, PathBuf};

pub const EXAMPLE: &str = "lapped roundtrip archive/*.planes";

/// Take plane files to samples and back, and compare with the files
///
/// Many files run side by side, on all cores.
#[derive(clap::Args)]
pub struct Args {
    /// Plane files; `-` is standard input
    #[arg(value_name = "FILE", required = true)]
    files: Vec<PathBuf>,
}

pub fn run(args: &Args, progress: &Progress) -> Result<Outcome, Failure> {
    input::standard_input_once(&args.files)?;
    let bar = progress.bar(args.files.len(), "files");
    let answers: Vec<Result<Option<usize>, Failure>> = args
        .files
        .par_iter()
        .map(|path| {
            let answer = first_difference(path);
            bar.one_more();
            answer
        })
        .collect();
    drop(bar);

    let mut outcome = Outcome::Done;
    for (path, answer) in args.files.iter().zip(answers) {
        let name = path.display();
        match answer {
            Ok(None) => output::report(&format!("{name}: came back the same\n"))?,
            Ok(Some(byte)) => {
                output::report(&format!("{name}: came back different from byte {byte} on\n"))?;
                outcome = Outcome::RefusedOrDifferent;
            }
            Err(failure) => {
                failure.tell();
                outcome = Outcome::RefusedOrDifferent;
            }
        }
    }
    Ok(outcome)
}

/// The first byte in which a file differs from what its samples give. Its bytes and planes are in
/// memory, then planes and samples, then planes and bytes; for the comparison the file is read a
/// second time, piece by piece.
fn first_difference(path: &Path) -> Result<Option<usize>, Failure> {
    let system = |error| Failure::system(path, error);
    let refused = |refusal| Failure::refused(path, refusal);
    let mut file = input::open(path).map_err(system)?;
    let start = file.stream_position().ok();
    let bytes = plane_file::bytes(&mut file).map_err(system)?;
    let read = plane_file::from_bytes(path, &bytes)?;
    let mut again = input::again(file, start, &bytes).map_err(system)?;
    drop(bytes);

    let (mode, size) = (read.mode, read.planes.size);
    let (samples, _) = read.to_samples().map_err(refused)?;
    drop(read); // The way back must not find its answers lying there.
    let (planes, _) = Planes::from_samples(mode, size, &samples).map_err(refused)?;
    drop(samples);
    let bytes = PlaneFile { mode, planes }.to_bytes().map_err(refused)?;
    compare(&bytes, &mut again).map_err(system)
}

/// The first place where a file is not these bytes, in their length too.
fn compare(bytes: &[u8], file: &mut impl Read) -> io::Result<Option<usize>> {
    let mut piece = vec![0; 1 << 16];
    let mut place = 0;
    loop {
        let filled = input::fill(file, &mut piece)?;
        let rest = &bytes[place..];
        let alike =
            piece[..filled].iter().zip(rest).take_while(|(one, other)| one == other).count();
        place += alike;
        if alike < filled || filled < piece.len() {
            return Ok(if alike == filled && place == bytes.len() { None } else { Some(place) });
        }
    }
}

#[cfg(test)]
mod tests {
    use super::compare;

    /// What a round trip through the program cannot show, since it always comes back the same.
    #[test]
    fn the_first_difference_is_found() {
        let bytes: Vec<u8> = (0..200_000u64).map(|i| ((i * i) >> 7) as u8).collect();
        let found = |file: &[u8]| compare(&bytes, &mut &file[..]).unwrap();
        assert_eq!(found(&bytes), None);
        for place in [0, 1, 65_535, 65_536, 65_537, 131_072, 199_999] {
            let mut file = bytes.clone();
            file[place] ^= 0x40;
            assert_eq!(found(&file), Some(place));
            assert_eq!(found(&bytes[..place]), Some(place), "cut");
        }
        assert_eq!(found(&[&bytes[..], &[0]].concat()), Some(200_000), "longer");
        assert_eq!(compare(&bytes[..65_536], &mut &bytes[..65_536]).unwrap(), None);
    }
}
