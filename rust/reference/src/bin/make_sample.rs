//! Writes a sample plane file to standard output: a ring whose prongs hold a stone, on a soft ground.
//!
//! Usage: make_sample [MODE WIDTH HEIGHT], sizes in macroblocks; without them 2 4 4.

use reference::{forward, plane_file, Size};
use std::io::Write;

/// A place on the drawing, which is 64 units wide and 64 high: x to the right, y down.
type Place = (f64, f64);

/// The stone's facets from the side, each with its grey: the crown above the girdle, the pavilion below.
const FACETS: [(f64, &[Place]); 6] = [
    (200.0, &[(20.0, 14.0), (26.0, 7.0), (28.0, 14.0)]),
    (255.0, &[(26.0, 7.0), (38.0, 7.0), (36.0, 14.0), (28.0, 14.0)]),
    (225.0, &[(38.0, 7.0), (44.0, 14.0), (36.0, 14.0)]),
    (235.0, &[(20.0, 14.0), (28.0, 14.0), (32.0, 28.0)]),
    (185.0, &[(28.0, 14.0), (36.0, 14.0), (32.0, 28.0)]),
    (215.0, &[(36.0, 14.0), (44.0, 14.0), (32.0, 28.0)]),
];

/// The middle lines of the prongs, from the ring to the stone's girdle.
const PRONGS: [(Place, Place); 2] = [((28.5, 28.5), (20.5, 12.5)), ((35.5, 28.5), (43.5, 12.5))];

/// Whether a place lies in a convex polygon whose corners go round clockwise.
fn inside(corners: &[Place], (x, y): Place) -> bool {
    corners
        .iter()
        .zip(corners.iter().cycle().skip(1))
        .all(|(from, to)| (to.0 - from.0) * (y - from.1) - (to.1 - from.1) * (x - from.0) >= 0.0)
}

/// How far a place is from a line between two others.
fn distance((from, to): (Place, Place), (x, y): Place) -> f64 {
    let (across, down) = (to.0 - from.0, to.1 - from.1);
    let along = ((x - from.0) * across + (y - from.1) * down) / (across * across + down * down);
    let along = along.clamp(0.0, 1.0);
    let (x, y) = (x - from.0 - along * across, y - from.1 - along * down);
    (x * x + y * y).sqrt()
}

/// The grey at a place, 0 to 255.
fn grey(place: Place) -> f64 {
    let (x, y) = place;
    if PRONGS.iter().any(|&line| distance(line, place) < 1.4) {
        return 136.0;
    }
    if let Some((grey, _)) = FACETS.iter().find(|(_, corners)| inside(corners, place)) {
        return *grey;
    }
    // The ring is lit from the upper left, and brightest in the middle of its band.
    let (right, down) = (x - 32.0, y - 43.0);
    let radius = (right * right + down * down).sqrt();
    if (13.0..18.0).contains(&radius) {
        let bulge = 1.0 - (radius - 15.5).abs() / 2.5;
        return 150.0 + 50.0 * bulge - 40.0 * (right + down) / (radius * 1.5);
    }
    // The ground fades from the middle to the rim.
    let (right, down) = (x - 32.0, y - 32.0);
    72.0 - 48.0 * (right * right + down * down) / 2048.0
}

/// The drawing in 8-bit samples, as large as the picture allows. A sample is the mean of 8 × 8 places.
fn picture(size: Size) -> Vec<i32> {
    const PLACES: i32 = 8;
    let (columns, rows) = (16 * size.width as i32, 16 * size.height as i32);
    let unit = 64.0 / f64::from(PLACES * columns.min(rows));
    let place = |fine: i32, count: i32| 32.0 + unit * (f64::from(fine - PLACES * count / 2) + 0.5);
    let mut samples = Vec::with_capacity((columns * rows) as usize);
    for row in 0..rows {
        for column in 0..columns {
            let fine = (0..PLACES * PLACES).map(|i| (i % PLACES, i / PLACES));
            let sum: f64 = fine
                .map(|(x, y)| (place(PLACES * column + x, columns), place(PLACES * row + y, rows)))
                .map(grey)
                .sum();
            samples.push((sum / f64::from(PLACES * PLACES)).round().clamp(0.0, 255.0) as i32);
        }
    }
    samples
}

fn main() {
    let numbers: Vec<u32> = std::env::args()
        .skip(1)
        .map(|word| word.parse().expect("MODE, WIDTH and HEIGHT are numbers"))
        .collect();
    let (mode, size) = match numbers[..] {
        [] => (2, Size::new(4, 4)),
        [mode, width, height] => (mode, Size::new(width, height)),
        _ => panic!("usage: make_sample [MODE WIDTH HEIGHT]"),
    };
    assert!(
        mode <= 2 && (1..=525).contains(&size.width) && (1..=413).contains(&size.height),
        "MODE is at most 2, WIDTH 1 to 525 and HEIGHT 1 to 413"
    );
    let n = size.macroblocks() as usize;
    let (mut dc, mut low, mut high) = (vec![0; n], vec![0; 15 * n], vec![0; 240 * n]);
    forward(mode, size, &picture(size), &mut dc, &mut low, &mut high).expect("right lengths");
    let mut bytes = vec![0; 32 + 1024 * n];
    plane_file::save(mode, size, &dc, &low, &high, &mut bytes).expect("right lengths");
    std::io::stdout().write_all(&bytes).expect("standard output takes the file");
}
