//! The program `lapped-pages`: writes what an installation of `lapped` has beside it, the manual pages
//! and the completions for shells, into a folder.

use clap_complete::{generate_to, Shell};
use lapped_tool::{command_line, pages};
use std::path::Path;
use std::process::ExitCode;
use std::{env, fs, io};

fn main() -> ExitCode {
    let arguments: Vec<_> = env::args_os().skip(1).collect();
    let folder = match arguments.as_slice() {
        [folder] if !folder.to_string_lossy().starts_with('-') => Path::new(folder),
        _ => {
            eprintln!("Usage: lapped-pages DIR\nWrites DIR/man/man1 and DIR/completions.");
            return ExitCode::from(2);
        }
    };
    match write(folder) {
        Ok(()) => ExitCode::SUCCESS,
        Err(error) => {
            eprintln!("lapped-pages: {}: {error}", folder.display());
            ExitCode::from(1)
        }
    }
}

fn write(folder: &Path) -> io::Result<()> {
    let (manual, completions) = (folder.join("man/man1"), folder.join("completions"));
    fs::create_dir_all(&manual)?;
    for (name, page) in pages::manual(command_line()) {
        fs::write(manual.join(name), page)?;
    }
    fs::create_dir_all(&completions)?;
    for shell in [Shell::Bash, Shell::Zsh, Shell::Fish] {
        generate_to(shell, &mut command_line(), "lapped", &completions)?;
    }
    Ok(())
}
