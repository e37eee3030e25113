//! What is said where a sum wrapped in the transform.

use crate::failure::tell;
use lapped::Wrapped;
use std::path::Path;

/// Says on standard error that a sum wrapped on the way from this file, if one did. The result is
/// exact all the same, but no picture of 16 bits or less comes near it.
pub fn tell_of(path: &Path, wrapped: Wrapped) {
    if wrapped.is_yes() {
        tell(format_args!("{}: {wrapped}, as only wild numbers make it", path.display()));
    }
}

/// The line of a report that says it.
pub fn line(wrapped: Wrapped) -> String {
    format!("  sums       {wrapped}\n")
}
