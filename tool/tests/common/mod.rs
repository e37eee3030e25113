//! What the tests share: the built program, folders, and plane files made by the reference.
#![allow(dead_code)] // Each test file is a crate of its own and uses a part of this.

pub mod pictures;

use reference::random::{Random, Values};
use reference::{plane_file, Size};
use std::fs;
use std::io::Write;
use std::path::{Path, PathBuf};
use std::process::{Command, Output, Stdio};

/// The built program.
pub const LAPPED: &str = env!("CARGO_BIN_EXE_lapped");

/// What a run of the program gave.
pub struct Ran {
    pub status: i32,
    pub out: Vec<u8>,
    pub err: String,
}

impl Ran {
    pub fn of(output: Output) -> Self {
        Ran {
            // None where the program was stopped by a signal.
            status: output.status.code().unwrap_or(-1),
            out: output.stdout,
            err: String::from_utf8(output.stderr).expect("messages are text"),
        }
    }

    pub fn text(&self) -> &str {
        std::str::from_utf8(&self.out).expect("a report is text")
    }

    /// All was done, and nothing had to be said about it.
    pub fn assert_done(&self, what: &str) {
        assert_eq!((self.status, self.err.as_str()), (0, ""), "{what}");
    }
}

pub fn lapped(arguments: &[&str]) -> Ran {
    Ran::of(Command::new(LAPPED).args(arguments).stdin(Stdio::null()).output().expect("it starts"))
}

/// Runs the program with this standard input, through a pipe.
pub fn lapped_reading(arguments: &[&str], input: &[u8]) -> Ran {
    let mut command = Command::new(LAPPED);
    command.args(arguments).stdin(Stdio::piped()).stdout(Stdio::piped()).stderr(Stdio::piped());
    let mut child = command.spawn().expect("it starts");
    let mut pipe = child.stdin.take().unwrap();
    let input = input.to_vec();
    // The program may stop reading before the input ends, and write before it has read all.
    let writer = std::thread::spawn(move || drop(pipe.write_all(&input)));
    let output = child.wait_with_output().expect("it ends");
    writer.join().unwrap();
    Ran::of(output)
}

/// Runs a line of shell in which `$lapped` is the program and `$1`, `$2` and so on are the
/// arguments.
pub fn shell(line: &str, arguments: &[&str]) -> Ran {
    let mut command = Command::new("sh");
    command.env("lapped", LAPPED).arg("-c").arg(line).arg("sh").args(arguments);
    Ran::of(command.stdin(Stdio::null()).output().expect("there is a shell"))
}

/// A folder of a test's own, removed at its end.
pub struct Folder(PathBuf);

impl Folder {
    pub fn new(test: &str) -> Self {
        let path = Path::new(env!("CARGO_TARGET_TMPDIR")).join(test);
        let _ = fs::remove_dir_all(&path);
        fs::create_dir_all(&path).unwrap();
        Folder(path)
    }

    pub fn path(&self, name: &str) -> String {
        self.0.join(name).to_str().unwrap().to_string()
    }

    pub fn write(&self, name: &str, bytes: &[u8]) -> String {
        fs::write(self.path(name), bytes).unwrap();
        self.path(name)
    }

    pub fn read(&self, name: &str) -> Vec<u8> {
        fs::read(self.path(name)).unwrap_or_else(|error| panic!("{name}: {error}"))
    }

    /// Every name in the folder, hidden ones too.
    pub fn names(&self) -> Vec<String> {
        let name = |entry: fs::DirEntry| entry.file_name().into_string().unwrap();
        let mut names: Vec<String> =
            fs::read_dir(&self.0).unwrap().map(|entry| name(entry.unwrap())).collect();
        names.sort();
        names
    }
}

impl Drop for Folder {
    fn drop(&mut self) {
        let _ = fs::remove_dir_all(&self.0);
    }
}

/// The DC, low-pass and high-pass planes of a picture.
pub type Planes = [Vec<i32>; 3];

pub fn random_planes(random: &mut Random, size: Size, values: Values) -> Planes {
    let n = size.macroblocks() as usize;
    [n, 15 * n, 240 * n].map(|count| random.numbers(count, values))
}

/// The plane file of these planes.
pub fn file_of_planes(mode: u32, size: Size, planes: &Planes) -> Vec<u8> {
    let [dc, low, high] = planes;
    let mut bytes = vec![0; 32 + 1024 * dc.len()];
    plane_file::save(mode, size, dc, low, high, &mut bytes).unwrap();
    bytes
}

/// The plane file of these samples.
pub fn file_of_samples(mode: u32, size: Size, samples: &[i32]) -> Vec<u8> {
    let n = size.macroblocks() as usize;
    let [mut dc, mut low, mut high] = [n, 15 * n, 240 * n].map(|count| vec![0; count]);
    reference::forward(mode, size, samples, &mut dc, &mut low, &mut high).unwrap();
    file_of_planes(mode, size, &[dc, low, high])
}

pub fn samples_of_planes(mode: u32, size: Size, planes: &Planes) -> Vec<i32> {
    let [dc, low, high] = planes;
    let mut samples = vec![0; 256 * dc.len()];
    reference::inverse(mode, size, dc, low, high, &mut samples).unwrap();
    samples
}

/// Whether a sum wraps on the way from planes to samples.
pub fn wraps_of_planes(mode: u32, size: Size, planes: &Planes) -> bool {
    let [dc, low, high] = planes;
    let mut samples = vec![0; 256 * dc.len()];
    reference::inverse(mode, size, dc, low, high, &mut samples).unwrap()
}

/// What is said on standard error of a file in which a sum wraps, and nothing of another.
pub fn note_of_wraps(file: &str, wraps: bool) -> String {
    match wraps {
        true => format!("lapped: {file}: a sum wrapped, as only wild numbers make it\n"),
        false => String::new(),
    }
}

/// A sound plane file, small and of no particular contents.
pub fn some_file(seed: u64) -> Vec<u8> {
    let size = Size::new(2, 1);
    let planes = random_planes(&mut Random::new(seed), size, Values::Small);
    file_of_planes(1, size, &planes)
}

/// Puts a word into the header of a plane file.
pub fn set_word(bytes: &mut [u8], index: usize, word: u32) {
    bytes[4 * index..4 * index + 4].copy_from_slice(&word.to_le_bytes());
}
