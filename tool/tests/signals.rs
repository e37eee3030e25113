//! A signal in the middle of writing: no file is left behind, and an old one stays whole.

mod common;
use common::pictures::Grey;
use common::*;
use reference::random::{Random, Values};
use reference::Size;
use std::fs;
use std::io::Write;
use std::os::unix::process::ExitStatusExt;
use std::process::{Child, Command, Stdio};

/// A shell that sends signals: it is there already when one is to be sent.
struct Sender(Child);

impl Sender {
    fn new() -> Self {
        Sender(Command::new("sh").stdin(Stdio::piped()).spawn().unwrap())
    }

    /// Sends a signal after those before it. A child that has ended is there until it is waited for.
    fn send(&mut self, signal: &str, child: &Child) {
        let line = self.0.stdin.as_mut().unwrap();
        writeln!(line, "kill -s {signal} {}", child.id()).unwrap();
    }
}

impl Drop for Sender {
    fn drop(&mut self) {
        // Closes its input, which ends it.
        let _ = self.0.wait();
    }
}

/// A command that writes `out.png`, and the length of what it writes.
struct Writer {
    arguments: Vec<String>,
    length: u64,
}

/// Files whose writing takes a while, and the commands that write.
struct Station {
    folder: Folder,
    sender: Sender,
    inputs: Vec<String>,
}

impl Station {
    fn new(test: &str) -> (Self, Vec<Writer>) {
        let folder = Folder::new(test);
        let size = Size::new(120, 100);
        let mut random = Random::new(90);
        let [one, other] = ["one", "other"].map(|name| {
            let planes = random_planes(&mut random, size, Values::Small);
            folder.write(name, &file_of_planes(0, size, &planes))
        });
        let picture = folder.write("in.pgm", &Grey::any(1920, 1600, 16).to_file("pgm"));
        let inputs = folder.names();
        let out = folder.path("out.png");
        let calls: [&[&str]; 5] = [
            &["export", &one, "--range", "auto", "-o", &out],
            &["import", &picture, "-m", "2", "-o", &out],
            &["quantise", &one, "-s", "3", "-o", &out],
            &["find-step", &one, "-t", "4294967295", "-o", &out],
            &["diff", &one, &other, "-o", &out],
        ];
        let writer = |call: &[&str]| {
            let ran = lapped(call);
            assert_eq!((ran.status, ran.err.as_str()), (i32::from(call[0] == "diff"), ""));
            let arguments = call.iter().map(|word| word.to_string()).collect();
            Writer { arguments, length: fs::metadata(&out).unwrap().len() }
        };
        let writers = calls.map(writer).into();
        (Station { folder, sender: Sender::new(), inputs }, writers)
    }

    /// Starts a command by this line of shell and stops it when a part of its file is written, beside an
    /// older file of the output's name or none.
    fn stopped_in_the_middle(&mut self, old: Option<&[u8]>, line: &str, writer: &Writer) -> Child {
        for _ in 0..1000 {
            match old {
                Some(bytes) => drop(self.folder.write("out.png", bytes)),
                None => drop(fs::remove_file(self.folder.path("out.png"))),
            }
            let mut command = Command::new("sh");
            command.env("lapped", LAPPED).args(["-c", line, "sh"]).args(&writer.arguments);
            command.stdin(Stdio::null()).stdout(Stdio::null()).stderr(Stdio::piped());
            let mut child = command.spawn().unwrap();
            while self.written().is_none() && child.try_wait().unwrap().is_none() {}
            self.sender.send("STOP", &child);
            wait_until_stopped(&child);
            if self.written().map_or(false, |written| written < writer.length) {
                return child;
            }
            // It was too quick for us.
            self.sender.send("CONT", &child);
            child.wait().unwrap();
        }
        panic!("never caught in the middle: {:?}", writer.arguments);
    }

    /// How much of its file a command has written that is about it.
    fn written(&self) -> Option<u64> {
        let names = self.folder.names();
        let name = names.iter().find(|name| name.ends_with(".partial"))?;
        Some(fs::metadata(self.folder.path(name)).ok()?.len())
    }
}

/// Waits until a child is stopped or has ended.
fn wait_until_stopped(child: &Child) {
    let state = || {
        let stat = fs::read_to_string(format!("/proc/{}/stat", child.id())).unwrap_or_default();
        stat.rsplit(") ").next().unwrap().chars().next().unwrap_or('Z')
    };
    while !['T', 'Z'].contains(&state()) {}
}

const RUN: &str = "exec \"$lapped\" \"$@\"";

#[test]
fn nothing_is_left_behind() {
    let (mut station, writers) = Station::new("signals");
    for (signal, number) in [("INT", 2), ("TERM", 15), ("HUP", 1), ("QUIT", 3)] {
        for old in [None, Some(&b"an older file"[..])] {
            // Each writes in the same way; the first takes its time.
            for writer in &writers[..if signal == "INT" { writers.len() } else { 1 }] {
                let what = format!("{signal} {old:?} {:?}", writer.arguments);
                let names: Vec<String> =
                    station.inputs.iter().cloned().chain(old.map(|_| "out.png".into())).collect();
                // Without a core in the folder, which QUIT would ask for.
                let line = format!("ulimit -c 0; {RUN}");
                let child = station.stopped_in_the_middle(old, &line, writer);
                station.sender.send(signal, &child);
                station.sender.send("CONT", &child);
                let ended = child.wait_with_output().unwrap();
                assert_eq!(ended.status.signal(), Some(number), "{what}: {ended:?}");
                assert_eq!(station.folder.names(), names, "{what}");
                if let Some(bytes) = old {
                    assert_eq!(station.folder.read("out.png"), bytes, "{what}");
                }
            }
        }
    }
}

/// Signals that the program was started to ignore, as `nohup` and scripts do for what runs in the
/// background, do not stop it.
#[test]
fn ignored_signals_stay_ignored() {
    let (mut station, writers) = Station::new("ignored_signals");
    for signal in ["INT", "HUP", "QUIT", "TERM"] {
        let line = format!("trap '' {signal}; {RUN}");
        let child = station.stopped_in_the_middle(None, &line, &writers[0]);
        station.sender.send(signal, &child);
        station.sender.send("CONT", &child);
        Ran::of(child.wait_with_output().unwrap()).assert_done(signal);
        let written = Grey::from_file("png", &station.folder.read("out.png"));
        assert_eq!((written.width, written.height), (1920, 1600), "{signal}");
        fs::remove_file(station.folder.path("out.png")).unwrap();
        assert_eq!(station.folder.names(), station.inputs, "{signal}");
    }
}
