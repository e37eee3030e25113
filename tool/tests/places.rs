//! Where output goes: whole under its name or not at all, with nothing left behind.

mod common;
use common::pictures::Grey;
use common::*;
use reference::Size;
use std::fs;
use std::os::unix::fs::{symlink, PermissionsExt};

/// A folder with one file of each kind, large enough that a file does not fit into a few kilobytes.
fn folder_with_files(test: &str) -> (Folder, String, String, String) {
    let folder = Folder::new(test);
    let grey = Grey::any(64, 48, 16);
    let picture = folder.write("in.pgm", &grey.to_file("pgm"));
    let one = folder.write("one", &file_of_samples(2, Size::new(4, 3), &grey.samples));
    let other = folder.write("other", &file_of_samples(2, Size::new(4, 3), &[9; 256 * 12]));
    (folder, picture, one, other)
}

const FILES: [&str; 3] = ["in.pgm", "one", "other"];

/// Every command that writes, with where it is to write.
fn writers<'a>(picture: &'a str, one: &'a str, other: &'a str, out: &'a str) -> [Vec<&'a str>; 7] {
    [
        vec!["import", picture, "-m", "1", "-o", out],
        vec!["export", one, "--range", "0:65535", "--format", "png", "-o", out],
        vec!["export", one, "--range", "0:65535", "--format", "pgm", "-o", out],
        vec!["find-step", one, "-t", "5", "-o", out],
        vec!["quantise", one, "-s", "40", "-o", out],
        vec!["restore", one, "-s", "40", "-o", out],
        vec!["diff", one, other, "-o", out],
    ]
}

/// Where nothing can be written, not even by root: under a file, in no folder, and in the system's
/// own folder.
#[test]
fn unwritable_places() {
    let (folder, picture, one, other) = folder_with_files("unwritable");
    let places = [
        folder.path("in.pgm/out.png"),
        folder.path("missing/out.png"),
        "/proc/out.png".to_string(),
    ];
    for place in &places {
        for arguments in writers(&picture, &one, &other, place) {
            let ran = lapped(&arguments);
            assert_eq!(ran.status, 1, "{arguments:?}: {}", ran.err);
            assert!(ran.err.contains(&format!("lapped: {place}: ")), "{arguments:?}: {}", ran.err);
            assert_eq!(folder.names(), FILES, "{arguments:?}");
        }
    }
}

/// A folder that has the name is not replaced, and nothing is left beside it or in it.
#[test]
fn a_folder_of_that_name() {
    let (folder, picture, one, other) = folder_with_files("folder_of_that_name");
    let place = folder.path("out.png");
    fs::create_dir(&place).unwrap();
    for arguments in writers(&picture, &one, &other, &place) {
        let ran = lapped(&arguments);
        assert_eq!(ran.status, 1, "{arguments:?}: {}", ran.err);
        assert_eq!(folder.names(), ["in.pgm", "one", "other", "out.png"], "{arguments:?}");
        assert_eq!(fs::read_dir(&place).unwrap().count(), 0, "{arguments:?}");
    }
}

/// Files that may grow to 1 kB and no more, as on a disk that fills up while they are written.
/// (Signal 25 would end the program; ignored, it is an answer to writing.) An old file of that name
/// stays as it was.
#[test]
fn a_disk_that_fills_up() {
    let (folder, picture, one, other) = folder_with_files("full");
    let place = folder.path("out.png");
    let limit = "trap '' 25; ulimit -f $1; shift; exec \"$lapped\" \"$@\"";
    for old in [false, true] {
        if old {
            folder.write("out.png", b"an older file");
        }
        for arguments in writers(&picture, &one, &other, &place) {
            // Blocks of 512 bytes: the folder holds files of 6 and 12 kB, and a heat picture of 2.
            let ran = shell(limit, &[&["2"], &arguments[..]].concat());
            assert_eq!(ran.status, 1, "{arguments:?}: {}", ran.err);
            assert!(ran.err.contains("File too large"), "{arguments:?}: {}", ran.err);
            match old {
                false => assert_eq!(folder.names(), FILES, "{arguments:?}"),
                true => {
                    assert_eq!(folder.names(), ["in.pgm", "one", "other", "out.png"]);
                    assert_eq!(folder.read("out.png"), b"an older file", "{arguments:?}");
                }
            }
        }
    }
    // The same line with room enough: it is the limit that stopped them.
    for arguments in writers(&picture, &one, &other, &place) {
        let ran = shell(limit, &[&["1000"], &arguments[..]].concat());
        assert!(ran.status == 0 || arguments[0] == "diff", "{arguments:?}: {}", ran.err);
        assert_ne!(folder.read("out.png"), b"an older file", "{arguments:?}");
    }
}

/// Every place at which the disk can be full, down to the last byte: the PNG library tells nobody
/// of an end that did not fit.
#[test]
fn a_disk_too_small_by_a_block() {
    let (folder, _, one, _) = folder_with_files("small_by_a_block");
    let place = folder.path("out.png");
    lapped(&["export", &one, "--range", "0:65535", "-o", &place]).assert_done("with room");
    let length = fs::metadata(&place).unwrap().len();
    fs::remove_file(&place).unwrap();
    let limit = "trap '' 25; ulimit -f $1; shift; exec \"$lapped\" \"$@\"";
    for blocks in 0..length / 512 + 3 {
        let arguments = [&blocks.to_string(), "export", &one, "--range", "0:65535", "-o", &place];
        let ran = shell(limit, &arguments);
        let fits = blocks * 512 >= length;
        assert_eq!(ran.status, i32::from(!fits), "{blocks} blocks for {length} bytes: {}", ran.err);
        assert_eq!(folder.names().contains(&"out.png".to_string()), fits, "{blocks} blocks");
        assert_eq!(folder.names().len(), FILES.len() + usize::from(fits), "{blocks} blocks");
    }
}

/// A device is written to and not replaced by a file: one that is always full, and one that takes
/// all.
#[test]
fn devices() {
    let (folder, picture, one, other) = folder_with_files("devices");
    for arguments in writers(&picture, &one, &other, "/dev/full") {
        // The name of a heat picture ends in .png, and so does that of no device.
        if arguments[0] == "diff" {
            continue;
        }
        let ran = lapped(&arguments);
        let message = "lapped: /dev/full: No space left on device (os error 28)\n";
        assert_eq!((ran.status, ran.err.as_str()), (1, message), "{arguments:?}");
    }
    for arguments in writers(&picture, &one, &other, "-") {
        let ran = shell("exec \"$lapped\" \"$@\" >/dev/full", &arguments);
        assert_eq!(ran.status, 1, "{arguments:?}");
        assert!(
            ran.err.contains("lapped: -: No space left on device"),
            "{arguments:?}: {}",
            ran.err
        );
    }
    let ran = shell("exec \"$lapped\" info \"$1\" >/dev/full", &[&one]);
    assert_eq!(ran.status, 1);
    assert!(ran.err.contains("No space left on device"), "{}", ran.err);

    lapped(&["export", &one, "--range", "auto", "--format", "png", "-o", "/dev/null"])
        .assert_done("/dev/null");
    assert!(!fs::metadata("/dev/null").unwrap().is_file());
    assert_eq!(folder.names(), FILES);
}

/// A link stays and the file that it leads to is replaced; that file's permissions stay too.
#[test]
fn links_and_permissions() {
    let (folder, picture, _, _) = folder_with_files("links");
    fs::create_dir(folder.path("elsewhere")).unwrap();
    let target = folder.write("elsewhere/planes", b"old");
    fs::set_permissions(&target, fs::Permissions::from_mode(0o640)).unwrap();
    let link = folder.path("link");
    symlink(&target, &link).unwrap();
    lapped(&["import", &picture, "-m", "0", "-o", &link]).assert_done("through a link");
    assert!(fs::symlink_metadata(&link).unwrap().file_type().is_symlink());
    let expected = file_of_samples(0, Size::new(4, 3), &Grey::any(64, 48, 16).samples);
    assert!(folder.read("elsewhere/planes") == expected);
    assert_eq!(fs::metadata(&target).unwrap().permissions().mode() & 0o777, 0o640);
    assert_eq!(fs::read_dir(folder.path("elsewhere")).unwrap().count(), 1);
}

/// An input is not overwritten by the output, whatever the name under which it is given.
#[test]
fn the_output_is_an_input() {
    let (folder, picture, one, other) = folder_with_files("same_file");
    let before = FILES.map(|name| folder.read(name));
    let (hard, soft) = (folder.path("hard.png"), folder.path("soft.png"));
    for input in [&picture, &one, &other] {
        fs::hard_link(input, &hard).unwrap();
        symlink("hard.png", &soft).unwrap();
        let around = input.replace("/same_file/", "/same_file/../same_file/");
        for out in [input, &around, &hard, &soft] {
            for arguments in writers(&picture, &one, &other, out) {
                // Those that read it; and a heat picture's name ends in .png.
                let named = arguments[0] != "diff" || out.ends_with(".png");
                if !named || !arguments[1..3].contains(&input.as_str()) {
                    continue;
                }
                let ran = lapped(&arguments);
                let message = format!(
                    "lapped: {out}: this is the same file as the input {input}, \
                     which is not overwritten\n"
                );
                assert_eq!((ran.status, ran.text()), (1, ""), "{arguments:?}");
                assert_eq!(ran.err, message, "{arguments:?}");
                let names = ["hard.png", "in.pgm", "one", "other", "soft.png"];
                assert_eq!(folder.names(), names, "{arguments:?}");
                assert!(FILES.map(|name| folder.read(name)) == before, "{arguments:?}");
            }
        }
        fs::remove_file(&hard).unwrap();
        fs::remove_file(&soft).unwrap();
    }
}

/// The same where the shell opened the file for standard input, for standard output, or for both.
#[test]
fn the_output_is_an_input_by_the_shell() {
    let (folder, _, one, _) = folder_with_files("same_by_shell");
    let before = folder.read("one");
    for (line, names) in [
        ("\"$lapped\" quantise - -s 3 -o \"$1\" <\"$1\"", (one.as_str(), "-")),
        ("\"$lapped\" quantise \"$1\" -s 3 -o - >>\"$1\"", ("-", one.as_str())),
        ("\"$lapped\" quantise - -s 3 -o - <\"$1\" >>\"$1\"", ("-", "-")),
    ] {
        let ran = shell(line, &[&one]);
        let (out, input) = names;
        let message = format!(
            "lapped: {out}: this is the same file as the input {input}, which is not overwritten\n"
        );
        assert_eq!((ran.status, ran.err), (1, message), "{line}");
        assert!(folder.read("one") == before, "{line}");
    }
    // A device may be both.
    let ran = shell("\"$lapped\" quantise - -s 3 -o /dev/null </dev/null", &[]);
    assert!(ran.err.contains("refused 9"), "{}", ran.err);
}

/// In the folder in which it runs, and beside a file that a killed run of the same process number
/// left.
#[test]
fn a_name_without_a_folder() {
    let (folder, _, _, _) = folder_with_files("no_folder");
    let line = "cd \"$1\" && : >.lapped-$$-0.partial \
                && exec \"$lapped\" export one -o out.png --range auto";
    shell(line, &[&folder.path("")]).assert_done("export");
    assert_eq!(Grey::from_file("png", &folder.read("out.png")).width, 64);
    let names = folder.names();
    assert_eq!(names.len(), 5, "{names:?}");
    assert!(
        names[0].starts_with(".lapped-"),
        "what another run left is not ours to remove: {names:?}"
    );
}
