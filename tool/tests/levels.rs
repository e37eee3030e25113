//! `lapped quantise` and `lapped restore`: levels, coefficients and reports against the reference.

mod common;
use common::*;
use reference::random::{Random, Values};
use reference::step_sizes;
use reference::Size;

/// What `-s` is given, and the indices of DC, low-pass and high-pass that it stands for: one for all
/// bands and three, both ends of the range, and both sides of where the rule for steps changes.
const STEPS: [(&str, [u32; 3]); 10] = [
    ("0", [0; 3]),
    ("1", [1; 3]),
    ("2", [2; 3]),
    ("15", [15; 3]),
    ("40", [40; 3]),
    ("255", [255; 3]),
    ("10,20,40", [10, 20, 40]),
    ("16,31,32", [16, 31, 32]),
    ("0,255,1", [0, 255, 1]),
    ("254,0,99", [254, 0, 99]),
];

const PRODUCT: &str = "refused 15: a product of level and step is outside the signed 32-bit range";

fn lent([dc, low, high]: &Planes) -> [&[i32]; 3] {
    [dc, low, high]
}

fn lent_mut([dc, low, high]: &mut Planes) -> [&mut [i32]; 3] {
    [dc, low, high]
}

/// The levels of these coefficients; the mode changes nothing but the header.
fn quantised(size: Size, indices: [u32; 3], planes: &Planes) -> Planes {
    let mut levels = planes.clone();
    step_sizes::quantise(0, size, indices, lent(planes), lent_mut(&mut levels)).unwrap();
    levels
}

/// The coefficients of these levels.
fn restored(size: Size, indices: [u32; 3], levels: &Planes) -> Result<Planes, u32> {
    let mut planes = levels.clone();
    step_sizes::restore(0, size, indices, lent(levels), lent_mut(&mut planes))?;
    Ok(planes)
}

/// The lines of the three bands, up to their steps.
fn lines(indices: [u32; 3]) -> [String; 3] {
    let [dc, low, high] =
        indices.map(|index| format!("index {index}, step {}", step_sizes::step(index).unwrap()));
    [format!("DC         {dc}"), format!("low-pass   {low}"), format!("high-pass  {high}")]
}

/// What `restore` reports.
fn restore_report(indices: [u32; 3]) -> String {
    lines(indices).map(|line| line + "\n").concat()
}

/// How many of these levels are zero, and the percentage to the nearest tenth, in the arithmetic of
/// doubles, which is exact enough for these counts.
fn zeros(levels: &[i32]) -> String {
    let (count, of) = (levels.iter().filter(|&&level| level == 0).count(), levels.len());
    let percent = (count as f64 * 1000.0 / of as f64 + 0.5).floor() / 10.0;
    format!("{count} of {of} levels are zero ({percent:.1}%)\n")
}

/// What `quantise` reports.
fn quantise_report(indices: [u32; 3], levels: &Planes) -> String {
    let mut text = String::new();
    for (line, plane) in lines(indices).iter().zip(levels) {
        text += &format!("{line}: {}", zeros(plane));
    }
    let [dc, low, high] = indices;
    text += &format!("all bands  {}", zeros(&levels.concat()));
    text += "           the file does not hold the indices; to restore it: ";
    text + &format!("-s {dc},{low},{high}\n")
}

#[test]
fn files_and_reports() {
    let folder = Folder::new("levels");
    let mut random = Random::new(60);
    let (levels_path, planes_path) = (folder.path("levels"), folder.path("restored"));
    for (mode, width, height) in [(0, 1, 1), (1, 3, 2), (2, 5, 1)] {
        let size = Size::new(width, height);
        for values in Values::ALL {
            let planes = random_planes(&mut random, size, values);
            let file = folder.write("planes", &file_of_planes(mode, size, &planes));
            for (steps, indices) in STEPS {
                let what = format!("mode {mode}, {values:?}, -s {steps}");
                let levels = quantised(size, indices, &planes);
                let ran = lapped(&["quantise", &file, "-s", steps, "-o", &levels_path]);
                ran.assert_done(&what);
                assert_eq!(ran.text(), quantise_report(indices, &levels), "{what}");
                assert!(folder.read("levels") == file_of_planes(mode, size, &levels), "{what}");

                let ran = lapped(&["restore", &levels_path, "-s", steps, "-o", &planes_path]);
                match restored(size, indices, &levels) {
                    Ok(planes) => {
                        ran.assert_done(&what);
                        assert_eq!(ran.text(), restore_report(indices), "{what}");
                        let expected = file_of_planes(mode, size, &planes);
                        assert!(folder.read("restored") == expected, "{what}");
                    }
                    Err(number) => {
                        let message = format!("lapped: {levels_path}: {PRODUCT}\n");
                        assert_eq!((number, ran.status, ran.err), (15, 1, message), "{what}");
                    }
                }
            }
        }
    }
}

/// The long name of the option, and options before the file.
#[test]
fn other_ways_to_call() {
    let folder = Folder::new("levels_calls");
    let file = folder.write("planes", &some_file(61));
    let (one, other) = (folder.path("one"), folder.path("other"));
    let given = lapped(&["quantise", &file, "-s", "3,4,5", "-o", &one]);
    let ran = lapped(&["quantise", "--output", &other, "--steps=3,4,5", &file]);
    given.assert_done("short");
    ran.assert_done("long");
    assert_eq!(ran.text(), given.text());
    assert!(folder.read("one") == folder.read("other"));
}

/// Steps of 1, which two indices choose, give the file back byte for byte, whatever it holds.
#[test]
fn step_1_changes_nothing() {
    let folder = Folder::new("step_1");
    let size = Size::new(4, 3);
    let out = folder.path("out");
    for values in Values::ALL {
        let planes = random_planes(&mut Random::new(62), size, values);
        let file = folder.write("planes", &file_of_planes(2, size, &planes));
        for command in ["quantise", "restore"] {
            for steps in ["0", "1", "0,1,0"] {
                lapped(&[command, &file, "-s", steps, "-o", &out]).assert_done(command);
                assert!(folder.read("out") == folder.read("planes"), "{command} -s {steps}");
            }
        }
    }
}

/// Quantised and restored, a file holds the reference's numbers, as `info` tells them too, and none
/// is further from the coefficient than half a step.
#[test]
fn there_and_back_within_half_a_step() {
    let folder = Folder::new("half_a_step");
    let (size, indices) = (Size::new(3, 3), [12, 33, 70]);
    let planes = random_planes(&mut Random::new(63), size, Values::Small);
    let back = restored(size, indices, &quantised(size, indices, &planes)).unwrap();
    for ((plane, back), index) in planes.iter().zip(&back).zip(indices) {
        let half = step_sizes::step(index).unwrap() / 2;
        assert!(plane.iter().zip(back).all(|(one, other)| one.abs_diff(*other) <= half));
    }

    let file = folder.write("planes", &file_of_planes(1, size, &planes));
    let (levels, out) = (folder.path("levels"), folder.path("out"));
    lapped(&["quantise", &file, "-s", "12,33,70", "-o", &levels]).assert_done("quantise");
    lapped(&["restore", &levels, "-s", "12,33,70", "-o", &out]).assert_done("restore");
    let ran = lapped(&["info", &out]);
    ran.assert_done("info");
    for (band, plane) in ["DC", "low-pass", "high-pass"].iter().zip(&back) {
        let (smallest, largest) = (plane.iter().min().unwrap(), plane.iter().max().unwrap());
        let line = format!("  {band:<9}  {smallest} to {largest}\n");
        assert!(ran.text().contains(&line), "{line}{}", ran.text());
    }
}

/// The last level whose product is in the range and the first beyond it, in each band and of both
/// signs. What is refused leaves no file, and an old one as it was.
#[test]
fn products_outside_the_range() {
    let folder = Folder::new("products");
    let (size, out) = (Size::new(2, 1), folder.path("out"));
    for (index, last, first) in [
        (2, 1_073_741_823, 1_073_741_824),
        (2, -1_073_741_824, -1_073_741_825),
        // 507904 × 4228 is 2147418112.
        (255, 4228, 4229),
        (255, -4228, -4229),
    ] {
        for plane in 0..3 {
            let mut levels = [2, 30, 480].map(|count| vec![0; count]);
            let mut indices = [0; 3];
            indices[plane] = index;
            let steps = indices.map(|index: u32| index.to_string()).join(",");
            let what = format!("-s {steps}, {first}");
            for level in [last, first] {
                *levels[plane].last_mut().unwrap() = level;
                let bytes = file_of_planes(1, size, &levels);
                let file = folder.write("levels", &bytes);
                match restored(size, indices, &levels) {
                    Ok(planes) => {
                        assert_eq!(level, last);
                        lapped(&["restore", &file, "-s", &steps, "-o", &out]).assert_done(&what);
                        assert!(folder.read("out") == file_of_planes(1, size, &planes), "{what}");
                    }
                    Err(number) => {
                        assert_eq!((level, number), (first, 15));
                        assert_refused(&folder, &bytes, &steps);
                    }
                }
            }
        }
    }
}

/// From a file and from a pipe, to a file, over an older one, and to standard output.
fn assert_refused(folder: &Folder, levels: &[u8], steps: &str) {
    let (file, new, old) =
        (folder.path("levels"), folder.path("new"), folder.write("old", b"an older file"));
    for input in [file.as_str(), "-"] {
        for output in [new.as_str(), old.as_str(), "-"] {
            let ran = lapped_reading(&["restore", input, "-s", steps, "-o", output], levels);
            let message = format!("lapped: {input}: {PRODUCT}\n");
            assert_eq!((ran.status, ran.text()), (1, ""), "-s {steps}");
            assert_eq!(ran.err, message, "-s {steps}");
        }
    }
    assert_eq!(folder.names(), ["levels", "old", "out"], "nothing is left behind");
    assert_eq!(folder.read("old"), b"an older file");
}

/// Anything but one index or three, each 0 to 255, is wrong usage, and it is said what is wanted;
/// the file, which is not there, is not looked for.
#[test]
fn wrong_indices() {
    let folder = Folder::new("wrong_indices");
    let (file, out) = (folder.path("missing"), folder.path("out"));
    let wrong =
        ["256", "-1", "1,2", "1,2,3,4", "", "x", "1,x,3", "1,2,256", "-1,2,3", "1,,3", "1.5"];
    for command in ["quantise", "restore"] {
        for steps in wrong {
            let ran = lapped(&[command, &file, "-s", steps, "-o", &out]);
            assert_eq!((ran.status, ran.text()), (2, ""), "{command} -s {steps}: {}", ran.err);
            for words in ["--steps", "One step index from 0 to 255 for all bands", "or three"] {
                assert!(ran.err.contains(words), "{command} -s {steps}: {}", ran.err);
            }
        }
    }
    assert!(folder.names().is_empty());
}
