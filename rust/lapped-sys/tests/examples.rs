//! The C examples, compiled and run.

mod common;
use common::*;
use reference::{plane_file, quarter_view, Size};
use std::process::Command;

/// What examples/roundtrip.c prints, by the reference.
fn roundtrip_text() -> String {
    let samples: Vec<i32> = (0..256 * 6).map(|i| i * i / 7 % 256).collect();
    let (mut dc, mut low, mut high) = (vec![0; 6], vec![0; 15 * 6], vec![0; 240 * 6]);
    let size = Size::new(2, 3);
    let wrapped = reference::forward(2, size, &samples, &mut dc, &mut low, &mut high).unwrap();
    let words = if wrapped { "a sum wrapped" } else { "no sum wrapped" };
    format!("DC of the first macroblock: {}\nall 1536 samples came back, {words}\n", dc[0])
}

#[test]
fn roundtrip() {
    let program = C99.build(&root().join("examples/roundtrip.c"), "roundtrip");
    assert_eq!(succeed(&mut Command::new(program)), roundtrip_text());
}

/// The quarter view of a plane file, by the reference.
fn quarter_text(bytes: &[u8]) -> String {
    let header = plane_file::read_header(bytes).unwrap();
    let n = header.size.macroblocks() as usize;
    let (mut dc, mut low, mut high) = (vec![0; n], vec![0; 15 * n], vec![0; 240 * n]);
    plane_file::load(bytes, &mut dc, &mut low, &mut high).unwrap();
    let mut view = vec![0; 16 * n];
    quarter_view(header.mode, header.size, &dc, &low, &mut view).unwrap();
    let rows = view.chunks_exact(4 * header.size.width as usize);
    rows.map(|row| row.iter().map(i32::to_string).collect::<Vec<_>>().join(" ") + "\n").collect()
}

#[test]
fn quarter() {
    let program = C99.build(&root().join("examples/quarter.c"), "quarter");
    let sound = root().join("examples/ring.planes");
    let ran = output(Command::new(&program).arg(&sound));
    let expected = quarter_text(&std::fs::read(sound).unwrap());
    assert_eq!(String::from_utf8_lossy(&ran.stdout), expected);
    assert!(ran.status.success() && ran.stderr.is_empty());

    let extreme = program_path("extreme.planes");
    let mut bytes = vec![0; 32 + 1024];
    let dc = [i32::MAX]; // in mode 0 it makes a sum wrap by itself
    plane_file::save(0, Size::new(1, 1), &dc, &[0; 15], &[0; 240], &mut bytes).unwrap();
    std::fs::write(&extreme, &bytes).unwrap();
    let ran = output(Command::new(&program).arg(extreme));
    assert_eq!(String::from_utf8_lossy(&ran.stdout), quarter_text(&bytes));
    let told = String::from_utf8_lossy(&ran.stderr);
    assert_eq!(told, "a sum wrapped: the file has extreme values\n");

    let short = program_path("short.planes");
    std::fs::write(&short, [0; 31]).unwrap();
    let output = output(Command::new(program).arg(&short));
    assert_eq!(output.status.code(), Some(1));
    let expected = format!("{}: the file has fewer than 32 bytes\n", short.display());
    assert_eq!(String::from_utf8_lossy(&output.stderr), expected);
    assert!(output.stdout.is_empty());
}
