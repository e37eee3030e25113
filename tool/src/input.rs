//! Where a command reads from: a file, or standard input for `-`.

use crate::failure::Failure;
use crate::temporary::Temporary;
use std::env;
use std::fs::File;
use std::io::{self, Read, Seek, SeekFrom, Write};
use std::os::unix::io::AsFd;
use std::path::{Path, PathBuf};

/// Opens a file to be read once.
pub fn open(path: &Path) -> io::Result<File> {
    if path == Path::new("-") {
        // As a file of its own: Rust's handle would read ahead, and give no way to seek.
        return Ok(File::from(io::stdin().as_fd().try_clone_to_owned()?));
    }
    File::open(path)
}

/// Refuses a list in which standard input stands twice: it can be read once.
pub fn standard_input_once<'a>(
    paths: impl IntoIterator<Item = &'a PathBuf>,
) -> Result<(), Failure> {
    let standard_input = Path::new("-");
    if paths.into_iter().filter(|path| *path == standard_input).count() > 1 {
        return Err(Failure::usage(standard_input, "standard input can be read only once"));
    }
    Ok(())
}

/// A file that was read once, to be read again from `start`. What came through a pipe has no start
/// and cannot be had again: these are its `bytes`, kept on the disk and not in memory.
pub fn again(mut file: File, start: Option<u64>, bytes: &[u8]) -> io::Result<File> {
    let start = match start {
        Some(start) => start,
        None => {
            let (name, kept) = Temporary::in_folder(&env::temp_dir())?;
            drop(name); // The file lives on without a name until it is closed.
            file = kept;
            file.write_all(bytes)?;
            0
        }
    };
    file.seek(SeekFrom::Start(start))?;
    Ok(file)
}

/// Fills the front of `buffer` as far as the input goes; gives how far that is.
pub fn fill(input: &mut impl Read, buffer: &mut [u8]) -> io::Result<usize> {
    let mut filled = 0;
    while filled < buffer.len() {
        match input.read(&mut buffer[filled..]) {
            Ok(0) => break,
            Ok(count) => filled += count,
            Err(error) if error.kind() == io::ErrorKind::Interrupted => {}
            Err(error) => return Err(error),
        }
    }
    Ok(filled)
}
