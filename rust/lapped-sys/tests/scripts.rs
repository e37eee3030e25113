//! bin/show-sample, and that it says in one line that the Rattle kit is missing.

mod common;
use common::*;
use std::fs;
use std::os::unix::fs::{symlink, PermissionsExt};
use std::path::PathBuf;
use std::process::{Command, Output};

/// A folder with an `rt` of this text, or with none, and the few commands that the scripts use.
fn commands(name: &str, rt: Option<&str>) -> PathBuf {
    let folder = program_path(name);
    if folder.exists() {
        fs::remove_dir_all(&folder).unwrap();
    }
    fs::create_dir(&folder).unwrap();
    for command in ["awk", "bash", "cat", "dirname", "install", "mktemp", "rm", "sed", "tee"] {
        let places = ["/usr/bin", "/bin"].map(|place| PathBuf::from(place).join(command));
        let place = places.into_iter().find(|place| place.exists()).expect(command);
        symlink(place, folder.join(command)).unwrap();
    }
    if let Some(text) = rt {
        let rt = folder.join("rt");
        fs::write(&rt, text).unwrap();
        fs::set_permissions(&rt, fs::Permissions::from_mode(0o755)).unwrap();
    }
    folder
}

fn run(script: &str, path: PathBuf) -> (Option<i32>, String, String) {
    let Output { status, stdout, stderr } =
        output(Command::new(root().join(script)).env("PATH", path));
    let [stdout, stderr] = [stdout, stderr].map(|text| String::from_utf8(text).unwrap());
    (status.code(), stdout, stderr)
}

#[test]
fn without_the_kit_one_line_says_so() {
    let readme = fs::read_to_string(root().join("README.md")).unwrap();
    assert!(readme.contains("\n## Two commands\n"), "the line names this heading");
    for script in ["bin/need-kit", "bin/show-sample"] {
        let (status, stdout, stderr) = run(script, commands("no_kit", None));
        assert_eq!((status, stdout.as_str()), (Some(1), ""), "{script}");
        assert_eq!(stderr.lines().count(), 1, "{script}: {stderr}");
        assert!(stderr.contains("the Rattle kit is missing"), "{script}: {stderr}");
        assert!(stderr.contains("README.md, \"Two commands\""), "{script}: {stderr}");
    }
    let with = run("bin/need-kit", commands("kit", Some("#!/bin/sh\n")));
    assert_eq!(with, (Some(0), String::new(), String::new()));
}

/// Two crates proved, one of them just now, with the lines that `rt run` prints of each.
const PROVED: &str = "#!/bin/sh
[ \"$*\" = 'run' ] || exit 2
{
    echo 'fn decimal::digits_len: proved'
    echo 'crate decimal: modules loaded=192 checked=35'
    echo 'logic=proved functions=9'
    echo 'library decimal: modules loaded=192 checked=0'
    echo 'library lifting: modules loaded=271 checked=0'
} >&2
";

/// How many crates are to be proved: the program and all that lies below it, but for what the kit
/// brings, which has no line.
fn crates_of_samples() -> usize {
    let list = fs::read_to_string(root().join("crates.txt")).unwrap();
    let line_of = |name: &str| list.lines().find_map(|line| line.strip_prefix(&format!("{name}:")));
    let mut below = vec!["samples"];
    let mut next = 0;
    while next < below.len() {
        for name in line_of(below[next]).unwrap().split_whitespace() {
            if line_of(name).is_some() && !below.contains(&name) {
                below.push(name);
            }
        }
        next += 1;
    }
    below.len()
}

/// A line for each crate, then the picture in 32 lines of text, then its rows as the program prints them.
#[test]
fn sample_is_shown() {
    let (status, text, _) = run("bin/show-sample", commands("proved", Some(PROVED)));
    assert_eq!(status, Some(0), "{text}");
    let lines: Vec<&str> = text.lines().collect();
    let crates = crates_of_samples();
    let first = format!("[ 1/{crates}] decimal proved");
    let second = format!("[ 2/{crates}] lifting proved, unchanged");
    assert_eq!(lines[1..4], [first.as_str(), second.as_str(), ""]);

    let file = fs::read(root().join("examples/ring.planes")).unwrap();
    let rows = reference::program::output(&file);
    assert!(text.contains(&format!("row by row:\n{rows}\n")), "{text}");
    let rows: Vec<Vec<usize>> = rows
        .lines()
        .map(|row| row.split(' ').map(|sample| sample.parse().unwrap()).collect())
        .collect();
    for (two, line) in rows.chunks(2).zip(&lines[4..36]) {
        let greys: Vec<char> = " .:-=+*#%@".chars().collect();
        let means = two[0].iter().zip(&two[1]).map(|(above, below)| (above + below) * 10 / 511);
        assert_eq!(means.map(|grey| greys[grey]).collect::<String>(), **line);
    }
    assert!(lines.last().unwrap().ends_with("lapped export examples/ring.planes -o ring.png"));
}

/// What is not proved is shown with all that was said of it.
#[test]
fn log_of_a_failure_is_shown() {
    let refused = "#!/bin/sh\necho 'fn g: proved' >&2\necho 'fn f: not proved' >&2\nexit 3\n";
    let (status, text, _) = run("bin/show-sample", commands("refused", Some(refused)));
    assert_eq!(status, Some(3));
    assert!(text.ends_with("fn g: proved\nfn f: not proved\n"), "{text}");
}
