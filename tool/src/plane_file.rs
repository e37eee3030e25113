//! Plane files: read no further than their header tells, and written.

use crate::failure::Failure;
use crate::input;
use crate::output::{self, Place};
use crate::progress::Progress;
use lapped::{Header, Mode, PlaneFile, Planes, Refusal};
use std::io::{self, Read};
use std::ops::Range;
use std::path::Path;

/// The bytes of a header, and where in it the offset of the DC plane and the file's total stand.
const HEADER: usize = 32;
const DC_OFFSET: Range<usize> = 12..16;
const TOTAL: Range<usize> = 24..28;

/// The planes of a file. The file's bytes are gone when this returns.
pub fn read(path: &Path) -> Result<PlaneFile, Failure> {
    from_bytes(path, &bytes_of(path)?)
}

/// The mode and the size of a file, which must be whole.
pub fn header(path: &Path) -> Result<Header, Failure> {
    let bytes = bytes_of(path)?;
    lapped::read_header(&bytes).map_err(|refusal| refused(path, refusal, &bytes))
}

fn bytes_of(path: &Path) -> Result<Vec<u8>, Failure> {
    let bytes = input::open(path).and_then(|mut file| bytes(&mut file));
    bytes.map_err(|error| Failure::system(path, error))
}

/// The planes of a file from its bytes.
pub fn from_bytes(path: &Path, bytes: &[u8]) -> Result<PlaneFile, Failure> {
    PlaneFile::from_bytes(bytes).map_err(|refusal| refused(path, refusal, bytes))
}

/// The library's refusal of a file, and a remark where it is no plane file at all: every one of these
/// has the same offset of its DC plane.
fn refused(path: &Path, refusal: Refusal, bytes: &[u8]) -> Failure {
    let offset = (HEADER as u32).to_le_bytes();
    match bytes.get(DC_OFFSET) == Some(&offset[..]) {
        true => Failure::refused(path, refusal),
        false => Failure::refused_as_foreign(path, refusal),
    }
}

/// The bytes of a plane file, at most one more than its header tells: that is enough for the
/// library to refuse it, and a file without end does not fill the memory.
pub fn bytes(file: &mut impl Read) -> io::Result<Vec<u8>> {
    let mut bytes = vec![0; HEADER];
    let filled = input::fill(file, &mut bytes)?;
    bytes.truncate(filled);
    // Of a header without its planes the library says that bytes are missing, if it finds no other
    // fault.
    if lapped::read_header(&bytes) == Err(Refusal::FileLength) {
        let mut total = [0; 4];
        total.copy_from_slice(&bytes[TOTAL]);
        bytes.resize(u32::from_le_bytes(total) as usize + 1, 0);
        let filled = HEADER + input::fill(file, &mut bytes[HEADER..])?;
        bytes.truncate(filled);
    }
    Ok(bytes)
}

/// Writes a plane file. Its planes and its bytes are in memory, so the caller holds nothing more.
pub fn write(place: &Place, file: &PlaneFile, progress: &Progress) -> Result<(), Failure> {
    let bytes = file.to_bytes().map_err(|refusal| Failure::refused(place.path, refusal))?;
    let pieces = bytes.chunks(1_000_000);
    let bar = progress.bar(pieces.len(), "megabytes");
    output::write_whole(place, |out| {
        for piece in pieces {
            out.write_all(piece)?;
            bar.one_more();
        }
        Ok(())
    })
}

/// Writes what `make` makes of a file's planes as a plane file of the same mode and size, and gives
/// it. In memory are the file's bytes and its planes, then these and what is made of them, then that
/// and its bytes: two copies at a time.
pub fn convert(
    from: &Path,
    to: &Place,
    progress: &Progress,
    make: impl FnOnce(Mode, &Planes) -> Result<Planes, Refusal>,
) -> Result<Planes, Failure> {
    let PlaneFile { mode, planes } = read(from)?;
    let made = make(mode, &planes).map_err(|refusal| Failure::refused(from, refusal))?;
    drop(planes);
    let file = PlaneFile { mode, planes: made };
    write(to, &file, progress)?;
    Ok(file.planes)
}
