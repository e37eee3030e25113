//! The program `lapped`.

use std::process::ExitCode;

fn main() -> ExitCode {
    lapped_tool::run()
}
