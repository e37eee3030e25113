//! What the tests share: C and C++ programs compiled against the header and the library, and run.
#![allow(dead_code)] // Each test file is a crate of its own and uses a part of this.

use std::env;
use std::path::{Path, PathBuf};
use std::process::{Command, Output};

/// The folder of liblapped.a that this crate links.
pub const LIBRARY: &str = env!("LAPPED_LIB_DIR");

/// The root of the repository.
pub fn root() -> PathBuf {
    Path::new(env!("CARGO_MANIFEST_DIR")).join("../..")
}

/// A compiler and the language that it is to take a source for.
#[derive(Clone, Copy, Debug)]
pub struct Language {
    /// The variable that names another compiler, and the usual one.
    compiler: [&'static str; 2],
    flags: [&'static str; 3],
}

pub const C99: Language = Language { compiler: ["CC", "cc"], flags: ["-std=c99", "-x", "c"] };

/// The oldest C++ and one of today: the header must do for both.
pub const CXX: [Language; 2] = [
    Language { compiler: ["CXX", "c++"], flags: ["-std=c++98", "-x", "c++"] },
    Language { compiler: ["CXX", "c++"], flags: ["-std=c++17", "-x", "c++"] },
];

impl Language {
    /// The compiler, asked for all warnings as errors and given this source.
    pub fn compiler(&self, source: &Path, program: &Path) -> Command {
        let [variable, usual] = self.compiler;
        let mut command = Command::new(env::var(variable).unwrap_or_else(|_| usual.into()));
        command.args(["-Wall", "-Wextra", "-pedantic", "-Wconversion", "-Werror", "-O2"]);
        command.args(self.flags).arg(source).args(["-x", "none", "-o"]).arg(program);
        command
    }

    /// A program of this source, with the header and the library of the repository.
    pub fn build(&self, source: &Path, name: &str) -> PathBuf {
        let program = program_path(&format!("{name}-{}", self.flags[0]));
        let mut compiler = self.compiler(source, &program);
        compiler.arg("-I").arg(root().join("include"));
        compiler.arg(Path::new(LIBRARY).join("liblapped.a"));
        succeed(&mut compiler);
        program
    }
}

/// Where a program of this name goes.
pub fn program_path(name: &str) -> PathBuf {
    Path::new(env!("CARGO_TARGET_TMPDIR")).join(name)
}

pub fn output(command: &mut Command) -> Output {
    command.output().unwrap_or_else(|why| panic!("{command:?}: {why} (bin/setup installs it)"))
}

/// What a command prints, which must end well.
pub fn succeed(command: &mut Command) -> String {
    let Output { status, stdout, stderr } = output(command);
    let stderr = String::from_utf8_lossy(&stderr);
    assert!(status.success(), "{command:?} ended with {status}:\n{stderr}");
    String::from_utf8(stdout).expect("the command prints text")
}
