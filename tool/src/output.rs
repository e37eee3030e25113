//! Where a command writes to: a file that appears whole or not at all, or standard output for `-`.

use crate::failure::Failure;
use crate::temporary::Temporary;
use rustix::termios::isatty;
use std::fs::{self, File, Metadata, OpenOptions};
use std::io::{self, BufWriter, Write};
use std::os::unix::fs::{FileTypeExt, MetadataExt};
use std::os::unix::io::AsFd;
use std::path::Path;

/// The place of an output: neither an input of the same command nor a terminal.
pub struct Place<'a> {
    pub path: &'a Path,
}

impl<'a> Place<'a> {
    /// Says in words why a place is not written to. Nothing has been read yet.
    pub fn new(path: &'a Path, inputs: &[&Path]) -> Result<Self, Failure> {
        if is_terminal(path) {
            let words = "binary data is not written to a terminal; name a file or use a pipe";
            return Err(Failure::words(path, words));
        }
        match inputs.iter().find(|input| is_same_file(path, input)) {
            Some(input) => {
                let words = format!(
                    "this is the same file as the input {}, which is not overwritten",
                    input.display()
                );
                Err(Failure::words(path, words))
            }
            None => Ok(Place { path }),
        }
    }
}

fn is_terminal(path: &Path) -> bool {
    if path == Path::new("-") {
        return isatty(io::stdout());
    }
    // Only a device is opened to ask: a pipe would wait for its reader.
    fs::metadata(path).map_or(false, |found| found.file_type().is_char_device())
        && OpenOptions::new().write(true).open(path).map_or(false, isatty)
}

/// Whether two names lead to one file, through links of any kind. A device or a pipe can well be read
/// and written at a time.
fn is_same_file(output: &Path, input: &Path) -> bool {
    let output = match output == Path::new("-") {
        true => metadata_of(io::stdout()),
        false => fs::metadata(output),
    };
    let input = match input == Path::new("-") {
        true => metadata_of(io::stdin()),
        false => fs::metadata(input),
    };
    let place = |found: &Metadata| (found.dev(), found.ino());
    matches!((output, input), (Ok(one), Ok(other)) if one.is_file() && place(&one) == place(&other))
}

fn metadata_of(open: impl AsFd) -> io::Result<Metadata> {
    File::from(open.as_fd().try_clone_to_owned()?).metadata()
}

/// Has `write` write a file. A file appears under its name only once all of it is on the disk;
/// until then it is a temporary one beside it, which is removed if anything fails.
pub fn write_whole(
    place: &Place,
    write: impl FnOnce(&mut dyn Write) -> io::Result<()>,
) -> Result<(), Failure> {
    let path = place.path;
    let done = if path == Path::new("-") {
        write_all_to(io::stdout().lock(), write).map(|_| ())
    } else if fs::metadata(path).map_or(false, |found| !found.is_file()) {
        // A pipe or a device takes bytes as they come, and must not be replaced by a file.
        OpenOptions::new()
            .write(true)
            .open(path)
            .and_then(|file| write_all_to(file, write))
            .map(|_| ())
    } else {
        write_beside(path, write)
    };
    done.map_err(|error| Failure::system(path, error))
}

fn write_beside(
    path: &Path,
    write: impl FnOnce(&mut dyn Write) -> io::Result<()>,
) -> io::Result<()> {
    // Where the name is a link, the file that it leads to is replaced, and the link stays.
    let target = fs::canonicalize(path).unwrap_or_else(|_| path.to_path_buf());
    let folder = match target.parent() {
        Some(folder) if folder != Path::new("") => folder,
        _ => Path::new("."),
    };
    let (temporary, file) = Temporary::in_folder(folder)?;
    if let Ok(found) = fs::metadata(&target) {
        file.set_permissions(found.permissions())?;
    }
    write_all_to(file, write)?.sync_all()?;
    temporary.rename(&target)
}

/// Has `write` write to `sink` through a buffer, and gives back the sink after the last byte.
fn write_all_to<W: Write>(
    sink: W,
    write: impl FnOnce(&mut dyn Write) -> io::Result<()>,
) -> io::Result<W> {
    let mut sink = Remembering { inner: BufWriter::new(sink), failed: None };
    let done = write(&mut sink).and_then(|()| sink.flush());
    // The sink's own failure comes first: the PNG encoder passes on its words and not its kind.
    match sink.failed {
        Some(error) => Err(error),
        None => done.and_then(|()| sink.inner.into_inner().map_err(|error| error.into_error())),
    }
}

/// A sink that remembers its first failure. The PNG encoder writes its last bytes when it is
/// dropped, and can then tell nobody that they did not fit on the disk.
struct Remembering<W: Write> {
    inner: BufWriter<W>,
    failed: Option<io::Error>,
}

impl<W: Write> Remembering<W> {
    fn remember<T>(&mut self, done: io::Result<T>) -> io::Result<T> {
        if let Err(error) = &done {
            if error.kind() != io::ErrorKind::Interrupted && self.failed.is_none() {
                self.failed = Some(match error.raw_os_error() {
                    Some(code) => io::Error::from_raw_os_error(code),
                    None => io::Error::from(error.kind()),
                });
            }
        }
        done
    }
}

impl<W: Write> Write for Remembering<W> {
    fn write(&mut self, bytes: &[u8]) -> io::Result<usize> {
        let done = self.inner.write(bytes);
        self.remember(done)
    }

    fn flush(&mut self) -> io::Result<()> {
        let done = self.inner.flush();
        self.remember(done)
    }
}

/// Writes the report of a command to standard output.
pub fn report(text: &str) -> Result<(), Failure> {
    let mut out = io::stdout().lock();
    let done = out.write_all(text.as_bytes()).and_then(|()| out.flush());
    done.map_err(|error| Failure::system(Path::new("standard output"), error))
}

/// Writes the report of a command that wrote a file. Where that went to standard output, the file's
/// bytes are alone there and the report goes to standard error.
pub fn report_beside(place: &Place, text: &str) -> Result<(), Failure> {
    if place.path != Path::new("-") {
        return report(text);
    }
    eprint!("{text}");
    Ok(())
}

#[cfg(test)]
mod tests {
    use super::*;

    /// A sink that fails the first time and then takes all, as a disk on which room is made
    /// meanwhile.
    struct FullOnce(bool);

    impl Write for FullOnce {
        fn write(&mut self, bytes: &[u8]) -> io::Result<usize> {
            match std::mem::replace(&mut self.0, false) {
                true => Err(io::Error::from_raw_os_error(28)),
                false => Ok(bytes.len()),
            }
        }

        fn flush(&mut self) -> io::Result<()> {
            Ok(())
        }
    }

    #[test]
    fn a_failure_that_the_writer_keeps_to_itself_is_found() {
        let careless = |out: &mut dyn Write| {
            let _ = out.write_all(&[0; 10_000]);
            Ok(())
        };
        assert!(write_all_to(FullOnce(false), careless).is_ok());
        let failed = write_all_to(FullOnce(true), careless).map(|_| ()).unwrap_err();
        assert_eq!(failed.raw_os_error(), Some(28));
    }
}
