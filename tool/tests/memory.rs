//! How much memory a command takes: a file's planes and samples or levels, and no third copy; where a
//! step is found, the samples that come back are the third, and there is no fourth.

mod common;
use common::pictures::Grey;
use common::*;
use reference::Size;

const WIDTH: u32 = 256;
const HEIGHT: u32 = 256;

/// The kilobytes of a file's planes, which are those of its samples.
const COPY: u32 = WIDTH * HEIGHT;

/// Runs the program with so many kilobytes for its data; one thread, since each has a stack.
fn lapped_within(kilobytes: u32, arguments: &[&str]) -> Ran {
    let line = "ulimit -d $1; shift; RAYON_NUM_THREADS=1 exec \"$lapped\" \"$@\"";
    shell(line, &[&[kilobytes.to_string().as_str()], arguments].concat())
}

/// So many copies are enough and, since they do not fit into less, needed.
fn assert_copies(copies: u32, arguments: &[&str]) {
    lapped_within(copies * COPY + COPY / 4, arguments).assert_done(&format!("{arguments:?}"));
    let ran = lapped_within(copies * COPY - COPY / 4, arguments);
    assert_ne!(ran.status, 0, "{arguments:?}");
}

#[test]
fn two_copies_and_no_third() {
    let folder = Folder::new("memory");
    let grey = Grey::any(16 * WIDTH as usize, 16 * HEIGHT as usize, 16);
    let picture = folder.write("in.png", &grey.to_file("png"));
    let file = folder.write("planes", &file_of_samples(2, Size::new(WIDTH, HEIGHT), &grey.samples));
    let (out, planes) = (folder.path("out.png"), folder.path("out.planes"));
    let (levels, restored) = (folder.path("out.levels"), folder.path("restored"));
    let range = ["--range", "0:65535"];
    let commands: [Vec<&str>; 7] = [
        vec!["info", &file],
        [&["export", &file, "-o", &out], &range[..]].concat(),
        vec!["export", &file, "--quarter", "-o", &out, "--range", "auto"],
        vec!["import", &picture, "-m", "2", "-o", &planes],
        vec!["quantise", &file, "-s", "10,20,40", "-o", &levels],
        vec!["restore", &levels, "-s", "10,20,40", "-o", &restored],
        vec!["roundtrip", &file],
    ];
    for arguments in &commands {
        assert_copies(2, arguments);
    }
    assert!(folder.read("out.planes") == folder.read("planes"));

    // Of two files, planes and samples of both.
    let two = ["diff", &file, &planes, "-o", &out];
    lapped_within(4 * COPY, &two).assert_done("diff");
}

/// The samples, and the planes and samples that come back.
#[test]
fn three_copies_to_find_a_step() {
    let folder = Folder::new("memory_of_find_step");
    let size = Size::new(WIDTH, HEIGHT);
    let samples = Grey::any(16 * WIDTH as usize, 16 * HEIGHT as usize, 16).samples;
    let file = folder.write("planes", &file_of_samples(2, size, &samples));
    let out = folder.path("out.planes");
    // Kept by the first index that is tried, so that the test does not wait for others.
    let tolerance = u32::MAX.to_string();
    assert_copies(3, &["find-step", &file, "-t", &tolerance]);
    assert_copies(3, &["find-step", &file, "-t", &tolerance, "-o", &out]);
}
