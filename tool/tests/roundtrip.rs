//! `lapped roundtrip`: many files of all modes and many sizes, side by side.

mod common;
use common::*;
use reference::random::{Random, Values};
use reference::Size;

#[test]
fn many_files_in_their_order() {
    let folder = Folder::new("roundtrip");
    let mut random = Random::new(30);
    let mut files = Vec::new();
    for (width, height) in [(1, 1), (40, 30), (1, 7), (7, 1), (3, 3), (20, 2), (525, 1), (1, 413)] {
        for mode in 0..=2 {
            for values in Values::ALL {
                let size = Size::new(width, height);
                let planes = random_planes(&mut random, size, values);
                let bytes = file_of_planes(mode, size, &planes);
                files.push(folder.write(&format!("{:02}", files.len()), &bytes));
            }
        }
    }
    let arguments: Vec<&str> =
        ["roundtrip"].into_iter().chain(files.iter().map(String::as_str)).collect();
    let ran = lapped(&arguments);
    ran.assert_done("roundtrip");
    let expected: String =
        files.iter().map(|file| format!("{file}: came back the same\n")).collect();
    assert_eq!(ran.text(), expected);
    assert_eq!(folder.names().len(), files.len(), "nothing is left behind");
}
