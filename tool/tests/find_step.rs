//! `lapped find-step`: that the index it tells keeps the tolerance by the reference, and what it says
//! and writes of it.

mod common;
use common::*;
use reference::find_step::{indices, largest_difference, passes, restored};
use reference::random::{Random, Values};
use reference::step_sizes;
use reference::Size;

/// A plane file in a folder, and the samples that the reference gives for it.
struct Picture {
    mode: u32,
    size: Size,
    path: String,
    samples: Vec<i32>,
}

impl Picture {
    fn new(folder: &Folder, mode: u32, size: Size, planes: &Planes) -> Self {
        let path = folder.write("planes", &file_of_planes(mode, size, planes));
        Picture { mode, size, path, samples: samples_of_planes(mode, size, planes) }
    }

    /// The index of a report, which must be one that passes or, being 0, the only one.
    fn told(&self, tolerance: u32, report: &str) -> u32 {
        let words = report.split("all bands  index ").nth(1).expect(report);
        let index = words.split(',').next().unwrap().parse().unwrap();
        let passing = |index| passes(self.mode, self.size, tolerance, index, &self.samples);
        let right = if index == 0 { !indices().any(passing) } else { passing(index) };
        assert!(right && index != 1, "mode {}, tolerance {tolerance}: {index}", self.mode);
        index
    }

    /// The report of this index.
    fn report(&self, tolerance: u32, index: u32) -> String {
        if index == 0 {
            return format!(
                "tolerance  {tolerance}: no index from 2 to 255 keeps it\n\
                 all bands  index 0, step 1, which changes nothing\n"
            );
        }
        let back = restored(self.mode, self.size, index, &self.samples).unwrap().samples;
        let count = self.samples.iter().zip(&back).filter(|(one, other)| one != other).count();
        let samples = match largest_difference(&self.samples, &back) {
            0 => "none differs".to_string(),
            most => format!("{count} of {} differ, by at most {most}", back.len()),
        };
        format!(
            "tolerance  {tolerance}\nall bands  index {index}, step {}\nsamples    {samples}\n           \
             to go on: lapped quantise {} -s {index} -o OUT\n",
            step_sizes::step(index).unwrap(),
            self.path
        )
    }

    /// Runs the command with and without a file to write, and checks all that it gives.
    fn find(&self, folder: &Folder, tolerance: u32) -> u32 {
        let (text, out) = (tolerance.to_string(), folder.path("out"));
        let ran = lapped(&["find-step", &self.path, "-t", &text]);
        ran.assert_done(&text);
        assert_eq!(folder.names(), ["planes"], "nothing is written that was not asked for");
        let index = self.told(tolerance, ran.text());
        assert_eq!(ran.text(), self.report(tolerance, index));

        let written = lapped(&["find-step", &self.path, "-t", &text, "-o", &out]);
        written.assert_done(&text);
        assert_eq!(written.text(), ran.text(), "the report beside a file");
        let back = restored(self.mode, self.size, index, &self.samples).unwrap();
        let expected = file_of_planes(self.mode, self.size, &back.planes);
        assert!(folder.read("out") == expected, "tolerance {tolerance}, index {index}");
        std::fs::remove_file(out).unwrap();
        index
    }
}

#[test]
fn reports_and_files() {
    let folder = Folder::new("find_step");
    let mut random = Random::new(70);
    for (mode, width, height) in [(0, 1, 1), (1, 3, 2), (2, 1, 4)] {
        let size = Size::new(width, height);
        for values in Values::ALL {
            let planes = random_planes(&mut random, size, values);
            let picture = Picture::new(&folder, mode, size, &planes);
            for tolerance in [0, 1, 5, 300, 1_000_000, u32::MAX] {
                picture.find(&folder, tolerance);
            }
        }
    }
}

/// Where all coefficients are multiples of a step, no sample needs to differ.
#[test]
fn multiples_of_a_step() {
    let folder = Folder::new("find_step_multiples");
    let size = Size::new(2, 2);
    for step in [2, 9, 48] {
        let planes = random_planes(&mut Random::new(71), size, Values::Small)
            .map(|plane| plane.iter().map(|number| number * step).collect());
        let picture = Picture::new(&folder, 1, size, &planes);
        assert_ne!(picture.find(&folder, 0), 0, "step {step}");
    }
}

/// The line that says how to go on: its levels, restored by the same index, are the coefficients that
/// `-o` writes.
#[test]
fn how_to_go_on() {
    let folder = Folder::new("find_step_go_on");
    let (file, out) = (folder.write("planes", &some_file(72)), folder.path("out"));
    let found = lapped(&["find-step", &file, "-t", "20", "--output", &out]);
    found.assert_done("find-step");
    let line = found.text().split("to go on: ").nth(1).expect("a line").trim();
    let line = line.replace("OUT", &folder.path("levels"));
    let words: Vec<&str> = line.split(' ').collect();
    assert_eq!((words[0], words[3]), ("lapped", "-s"), "{line}");
    lapped(&words[1..]).assert_done(&line);

    let (levels, restored) = (folder.path("levels"), folder.path("restored"));
    lapped(&["restore", &levels, "-s", words[4], "-o", &restored]).assert_done("restore");
    assert!(folder.read("restored") == folder.read("out"));
    assert!(folder.read("restored") != folder.read("planes"), "the tolerance allows a difference");
}

/// The long name of the option, and options before the file.
#[test]
fn other_ways_to_call() {
    let folder = Folder::new("find_step_calls");
    let file = folder.write("planes", &some_file(73));
    let given = lapped(&["find-step", &file, "-t", "7"]);
    let ran = lapped(&["find-step", "--tolerance=7", &file]);
    given.assert_done("short");
    ran.assert_done("long");
    assert_eq!(ran.text(), given.text());
}
