//! The example of docs/FILE.md is what the library writes.

use lapped::{Mode, PlaneFile, Planes, Size};
use std::fs;

/// A line of the example: offset, bytes, value and name.
struct Line {
    offset: usize,
    bytes: Vec<u8>,
    value: i64,
    name: String,
}

fn lines() -> Vec<Line> {
    let document = fs::read_to_string("../../docs/FILE.md").unwrap();
    let example = document.split("```text\n").nth(1).expect("an example");
    let example = example.split("```").next().unwrap();
    let line = |text: &str| {
        let mut words = text.split_whitespace();
        let mut next = || words.next().expect(text);
        let offset = next().parse().expect(text);
        let bytes = (0..4).map(|_| u8::from_str_radix(next(), 16).expect(text)).collect();
        let value = next().parse().expect(text);
        Line { offset, bytes, value, name: words.collect::<Vec<_>>().join(" ") }
    };
    example.lines().skip(1).map(line).collect()
}

/// Puts a coefficient where its name says.
fn set(planes: &mut Planes, name: &str, value: i32) {
    let numbers: Vec<usize> = name.split(' ').filter_map(|word| word.parse().ok()).collect();
    match (name.split(' ').next().unwrap(), &numbers[..]) {
        ("DC", []) => planes.dc[0] = value,
        ("low-pass", [k]) => planes.low[k - 1] = value,
        ("high-pass", [k, block]) => planes.high[15 * block + k - 1] = value,
        _ => panic!("what is {name}?"),
    }
}

#[test]
fn example_is_what_the_library_writes() {
    let mut planes = Planes::zeroed(Size::new(1, 1).unwrap());
    let lines = lines();
    let (header, coefficients) = lines.split_at(8);
    for line in coefficients {
        set(&mut planes, &line.name, line.value.try_into().unwrap());
    }
    let bytes = PlaneFile { mode: Mode::SampleLevel, planes }.to_bytes().unwrap();
    let mut shown = vec![0; bytes.len()];
    for line in &lines {
        shown[line.offset..][..4].copy_from_slice(&line.bytes);
        let value = i64::from(i32::from_le_bytes(line.bytes[..].try_into().unwrap()));
        assert_eq!(value, line.value, "the value at {}", line.offset);
    }
    assert_eq!(shown, bytes);
    let offsets: Vec<usize> = header.iter().map(|line| line.offset).collect();
    assert_eq!(offsets, [0, 4, 8, 12, 16, 20, 24, 28]);
    assert!(coefficients.len() >= 7, "a coefficient of each plane, first and last");
}
