//! The list of commands: each is a file in the folder of this name and a line in the list below.

mod diff;
mod export;
mod find_step;
mod forecast;
mod import;
mod info;
mod quantise;
mod restore;
mod roundtrip;

use crate::failure::{Failure, Outcome};
use crate::progress::Progress;
use clap::Subcommand;

/// The commands as clap reads them. A command's file has `Args`, whose first line of documentation
/// is the command's line in the help, `EXAMPLE` and `run`.
macro_rules! commands {
    ($($name:ident in $file:ident,)*) => {
        #[derive(Subcommand)]
        pub enum Command {
            $(
                #[command(after_help = example($file::EXAMPLE))]
                $name($file::Args),
            )*
        }

        impl Command {
            pub fn run(&self, progress: &Progress) -> Result<Outcome, Failure> {
                match self {
                    $(Command::$name(args) => $file::run(args, progress),)*
                }
            }
        }

        const EXAMPLES: &[&str] = &[$($file::EXAMPLE),*];
    };
}

commands! {
    Info in info,
    Forecast in forecast,
    Export in export,
    Import in import,
    FindStep in find_step,
    Quantise in quantise,
    Restore in restore,
    Roundtrip in roundtrip,
    Diff in diff,
}

/// What stands under the help of a command.
fn example(example: &str) -> String {
    format!("Example:\n  {example}")
}

/// What stands under the help of the program.
pub fn examples() -> String {
    format!("Examples:\n  {}", EXAMPLES.join("\n  "))
}
