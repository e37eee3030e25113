//! Files that are there only for a while: a failure does not leave one behind, nor does a signal.

use crate::signals::Watch;
use std::fs::{self, File, OpenOptions};
use std::path::{Path, PathBuf};
use std::sync::{Mutex, MutexGuard, PoisonError};
use std::{io, process};

/// The names of all temporary files. Whoever makes, renames or removes one holds the lock meanwhile,
/// so that the list is right whenever a signal comes.
static NAMES: Mutex<Vec<PathBuf>> = Mutex::new(Vec::new());

fn names() -> MutexGuard<'static, Vec<PathBuf>> {
    NAMES.lock().unwrap_or_else(PoisonError::into_inner)
}

/// Removes every temporary file. No other is made and none renamed until the answer is dropped.
pub fn remove_all() -> impl Drop {
    let names = names();
    for name in names.iter() {
        // There is nobody to tell of a failure.
        let _ = fs::remove_file(name);
    }
    names
}

/// The name of a file, which is removed when this goes out of scope, unless it was renamed.
pub struct Temporary {
    path: PathBuf,
    watch: Watch,
}

impl Temporary {
    /// A new file in a folder, to be written and read.
    pub fn in_folder(folder: &Path) -> io::Result<(Self, File)> {
        let watch = Watch::start()?;
        let mut names = names();
        // The number of a process comes again, and one that was killed may have left its file.
        let mut tries = 0;
        loop {
            let path = folder.join(format!(".lapped-{}-{tries}.partial", process::id()));
            match OpenOptions::new().read(true).write(true).create_new(true).open(&path) {
                Ok(file) => {
                    names.push(path.clone());
                    return Ok((Temporary { path, watch }, file));
                }
                Err(error) if error.kind() == io::ErrorKind::AlreadyExists => tries += 1,
                Err(error) => return Err(error),
            }
        }
    }

    /// Gives the file its lasting name, in place of a file that has it.
    pub fn rename(self, path: &Path) -> io::Result<()> {
        self.watch.pass();
        let mut names = names();
        fs::rename(&self.path, path)?;
        names.retain(|name| *name != self.path);
        Ok(())
    }
}

impl Drop for Temporary {
    fn drop(&mut self) {
        let mut names = names();
        if names.contains(&self.path) {
            // The failure that leads here is told already; there is nobody to tell of another.
            let _ = fs::remove_file(&self.path);
            names.retain(|name| *name != self.path);
        }
    }
}
