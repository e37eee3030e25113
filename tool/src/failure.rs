//! How a command ends: done, refused or different, or stopped, and what is then said.

use lapped::Refusal;
use std::path::Path;
use std::{fmt, io};

/// How a command ended that ran to its end.
#[derive(Clone, Copy, Debug, PartialEq, Eq)]
pub enum Outcome {
    Done,
    RefusedOrDifferent,
}

/// Why a command stopped, and at which file.
#[derive(Debug)]
pub struct Failure {
    /// The file as the user wrote it.
    file: String,
    cause: Cause,
}

#[derive(Debug)]
enum Cause {
    Refused(Refusal),
    /// Refused, and nothing like what was wanted.
    Foreign(Refusal),
    System(io::Error),
    Words(String),
    Usage(String),
}

impl Failure {
    /// The library's answer to what is in a file.
    pub fn refused(file: &Path, refusal: Refusal) -> Self {
        Failure::at(file, Cause::Refused(refusal))
    }

    /// The library's answer to a file that seems to be something else than a plane file.
    pub fn refused_as_foreign(file: &Path, refusal: Refusal) -> Self {
        Failure::at(file, Cause::Foreign(refusal))
    }

    /// The system's answer to reading or writing a file.
    pub fn system(file: &Path, error: io::Error) -> Self {
        Failure::at(file, Cause::System(error))
    }

    /// An answer of the tool's own.
    pub fn words(file: &Path, words: impl Into<String>) -> Self {
        Failure::at(file, Cause::Words(words.into()))
    }

    /// What was asked for cannot be meant; nothing was read or written.
    pub fn usage(file: &Path, words: impl Into<String>) -> Self {
        Failure::at(file, Cause::Usage(words.into()))
    }

    fn at(file: &Path, cause: Cause) -> Self {
        Failure { file: file.display().to_string(), cause }
    }

    /// The program's exit status.
    pub fn status(&self) -> u8 {
        match self.cause {
            Cause::Usage(_) => 2,
            _ => 1,
        }
    }

    /// Says on standard error what happened. Whoever closed the pipe that we write to, as `head`
    /// does, has what they wanted and needs no message.
    pub fn tell(&self) {
        if !matches!(&self.cause, Cause::System(error) if error.kind() == io::ErrorKind::BrokenPipe)
        {
            tell(self);
        }
    }
}

impl fmt::Display for Failure {
    fn fmt(&self, f: &mut fmt::Formatter) -> fmt::Result {
        write!(f, "{}: ", self.file)?;
        match &self.cause {
            Cause::Refused(refusal) => write!(f, "refused {}: {refusal}", refusal.number()),
            Cause::Foreign(refusal) => {
                let number = refusal.number();
                write!(f, "refused {number}: {refusal} (this does not look like a plane file)")
            }
            Cause::System(error) => write!(f, "{error}"),
            Cause::Words(words) | Cause::Usage(words) => f.write_str(words),
        }
    }
}

/// A message on standard error.
pub fn tell(message: impl fmt::Display) {
    eprintln!("lapped: {message}");
}
