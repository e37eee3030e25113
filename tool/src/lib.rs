//! The tool `lapped`: one component of a JPEG XR picture between picture files and plane files. It is
//! a library for the tool's two programs alone.

mod commands;
mod failure;
mod grey;
mod heat;
mod input;
mod output;
pub mod pages;
mod pgm_file;
mod plane_file;
mod png_file;
mod progress;
mod range;
mod shape;
mod signals;
mod steps;
mod stopwatch;
mod temporary;
mod view;
mod windows;
mod wraps;

use clap::{CommandFactory, Parser};
use failure::Outcome;
use progress::Progress;
use std::process::ExitCode;

const ABOUT: &str =
    "Pictures into plane files and back, exact to the bit, and what can be asked about plane files";

const CONVENTIONS: &str =
    "FILE is a plane file; `-` stands for standard input or output. Messages \
                           go to standard error.";

const EXIT_STATUS: &str = "The exit status is 0 when all is done, 1 when something was refused or \
                           differs, 2 for wrong usage.";

// Not documentation: the help is made of the lines above.
#[derive(Parser)]
#[command(
    name = "lapped",
    version,
    about = ABOUT,
    long_about = [ABOUT, CONVENTIONS, EXIT_STATUS].join("\n\n"),
    after_help = commands::examples(),
)]
struct Cli {
    #[command(subcommand)]
    command: commands::Command,
    /// Show no progress
    #[arg(short, long, global = true)]
    quiet: bool,
}

/// The program `lapped`.
pub fn run() -> ExitCode {
    let cli = Cli::parse();
    match cli.command.run(&Progress::new(cli.quiet)) {
        Ok(Outcome::Done) => ExitCode::SUCCESS,
        Ok(Outcome::RefusedOrDifferent) => ExitCode::from(1),
        Err(failure) => {
            failure.tell();
            ExitCode::from(failure.status())
        }
    }
}

/// Commands, options and help of the program `lapped`.
pub fn command_line() -> clap::Command {
    Cli::command()
}
