//! Standard input and output in place of files, and pipes from one run to the next.

mod common;
use common::pictures::{coloured, Grey};
use common::*;
use reference::random::{Random, Values};
use reference::Size;
use std::fs;
use std::io::{Read, Write};
use std::process::{Command, Stdio};
use std::time::Duration;

#[test]
fn each_command_reads_and_writes_pipes() {
    let folder = Folder::new("pipes");
    let (size, grey) = (Size::new(3, 2), Grey::any(48, 32, 8));
    let plane_file = file_of_samples(2, size, &grey.samples);
    let path = folder.write("planes", &plane_file);

    let ran = lapped_reading(&["import", "-", "-m", "2", "-o", "-"], &grey.to_file("png"));
    ran.assert_done("import");
    assert!(ran.out == plane_file, "import");

    for (format, options) in [("png", &[][..]), ("png", &["-f", "png"]), ("pgm", &["-f", "pgm"])] {
        let ran = lapped_reading(&[&["export", "-", "-o", "-"], options].concat(), &plane_file);
        ran.assert_done("export");
        assert_eq!(Grey::from_file(format, &ran.out), grey, "export {options:?}");
    }

    // The file on standard output, the report on standard error.
    for (command, option) in
        [("quantise", ["-s", "9,8,7"]), ("restore", ["-s", "9,8,7"]), ("find-step", ["-t", "9"])]
    {
        let out = folder.path("out");
        let [name, value] = option;
        let piped = lapped_reading(&[command, "-", name, value, "-o", "-"], &plane_file);
        let named = lapped(&[command, &path, name, value, "-o", &out]);
        named.assert_done(command);
        let report = named.text().replace(&path, "-");
        assert_eq!((piped.status, piped.err.as_str()), (0, report.as_str()), "{command}");
        assert!(!piped.err.is_empty() && piped.out == folder.read("out"), "{command}");
        fs::remove_file(out).unwrap();
    }

    for command in ["info", "forecast", "roundtrip"] {
        let (piped, named) =
            (lapped_reading(&[command, "-"], &plane_file), lapped(&[command, &path]));
        piped.assert_done(command);
        let expected = named.text().replace(&path, "-");
        assert!(!expected.is_empty() && piped.text() == expected, "{command}: {}", piped.text());
    }

    // The heat picture on standard output, the report on standard error.
    let mut changed = plane_file.clone();
    changed[32 + 64 * 6] ^= 1;
    let piped = lapped_reading(&["diff", &path, "-", "-o", "-"], &changed);
    assert_eq!(piped.status, 1);
    assert_eq!(coloured(&piped.out).0, 48);
    let named = lapped(&["diff", &path, &folder.write("changed", &changed)]);
    assert_eq!(piped.err, named.text());
    assert_eq!(folder.names(), ["changed", "planes"]);
}

/// From picture to picture without a file between.
#[test]
fn a_chain() {
    let folder = Folder::new("chain");
    let grey = Grey::any(80, 16, 16);
    let picture = folder.write("in.png", &grey.to_file("png"));
    let line = "\"$lapped\" import \"$1\" -m 1 -o - \
                | \"$lapped\" export - -f pgm -o - \
                | \"$lapped\" import - -m 2 -o - \
                | \"$lapped\" quantise - -s 0 -o - 2>/dev/null \
                | \"$lapped\" restore - -s 0 -o - 2>/dev/null \
                | \"$lapped\" export - -o -";
    let ran = shell(line, &[&picture]);
    ran.assert_done("the chain");
    assert_eq!(Grey::from_file("png", &ran.out), grey);
}

/// Input that comes in small pieces, as over a slow line.
#[test]
fn input_in_pieces() {
    let size = Size::new(2, 2);
    let planes = random_planes(&mut Random::new(10), size, Values::Wild);
    let bytes = file_of_planes(1, size, &planes);
    for command in ["info", "roundtrip"] {
        let mut child = Command::new(LAPPED)
            .args([command, "-"])
            .stdin(Stdio::piped())
            .stdout(Stdio::piped())
            .stderr(Stdio::piped())
            .spawn()
            .unwrap();
        let mut pipe = child.stdin.take().unwrap();
        for piece in [1, 30, 2, 700, 9, 5000].iter().scan(0, |place, length| {
            let piece = &bytes[*place..(*place + length).min(bytes.len())];
            *place += piece.len();
            Some(piece)
        }) {
            pipe.write_all(piece).unwrap();
            std::thread::sleep(Duration::from_millis(5));
        }
        drop(pipe);
        let ran = Ran::of(child.wait_with_output().unwrap());
        ran.assert_done(command);
        assert!(ran.text().starts_with('-'), "{}", ran.text());
    }
}

/// A file on standard input need not be read from its beginning.
#[test]
fn from_the_middle_of_a_file() {
    let folder = Folder::new("middle");
    let file = folder.write("two", &[b"twelve bytes", &some_file(11)[..]].concat());
    let line = "{ head -c 12 >/dev/null; exec \"$lapped\" roundtrip -; } <\"$1\"";
    // Not every head leaves the place right behind what it gave; dd does.
    let line = line.replace("head -c 12", "dd bs=12 count=1 2>/dev/null");
    let ran = shell(&line, &[&file]);
    ran.assert_done("roundtrip");
    assert_eq!(ran.text(), "-: came back the same\n");
}

/// Whoever reads the output may have enough before its end; that is no cause for a message.
#[test]
fn a_reader_that_goes_away() {
    let folder = Folder::new("goes_away");
    let size = Size::new(40, 40);
    let planes = random_planes(&mut Random::new(12), size, Values::Small);
    let file = folder.write("planes", &file_of_planes(0, size, &planes));
    for (format, start) in [("pgm", b"P5\n6"), ("png", b"\x89PNG")] {
        let mut child = Command::new(LAPPED)
            .args(["export", &file, "-f", format, "--range", "auto", "-o", "-"])
            .stdout(Stdio::piped())
            .stderr(Stdio::piped())
            .spawn()
            .unwrap();
        let mut front = [0; 4];
        child.stdout.take().unwrap().read_exact(&mut front).unwrap();
        let ran = Ran::of(child.wait_with_output().unwrap());
        assert_eq!((&front, ran.status, ran.err.as_str()), (start, 1, ""), "{format}");
    }
}
