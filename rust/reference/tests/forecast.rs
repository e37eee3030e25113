//! The forecast against the figures of 02, and against how often the reference's filters really run.

use reference::forecast::{forecast, Work};
use reference::level::Grid;
use reference::Size;
use std::cell::Cell;

fn work(mode: u32, width: u32, height: u32) -> Work {
    forecast(mode, Size::new(width, height)).unwrap()
}

/// "p × q cores and, when filtered, (p − 1)(q − 1) square filters and 4(p − 1) + 4(q − 1) four-number
/// filters" (02, b), and 4 at the corners (02, f), worked out by hand.
#[test]
fn worked_out_by_hand() {
    let bytes = |n: u64| Work { plane_bytes: 1024 * n, sample_bytes: 1024 * n, ..Work::default() };
    let one = Work { cores: 1 + 16, ..bytes(1) };
    assert_eq!(work(0, 1, 1), one);
    let samples = Work { square_filters: 3 * 3, four_filters: 12 + 12 + 4, ..one };
    assert_eq!(work(1, 1, 1), samples);
    assert_eq!(work(2, 1, 1), Work { four_filters: 12 + 12 + 4 + 4, ..samples });

    let six = Work { cores: 6 + 96, ..bytes(6) };
    assert_eq!(work(0, 2, 3), six);
    assert_eq!(work(1, 2, 3), Work { square_filters: 7 * 11, four_filters: 28 + 44 + 4, ..six });
    let (square_filters, four_filters) = (2 + 7 * 11, 4 + 8 + 4 + 28 + 44 + 4);
    assert_eq!(work(2, 2, 3), Work { square_filters, four_filters, ..six });
}

#[test]
fn refusals() {
    for (mode, width, height, number) in
        [(3, 0, 0, 1), (0, 0, 0, 2), (2, 526, 414, 2), (1, 525, 0, 3), (0, 1, 414, 3)]
    {
        assert_eq!(forecast(mode, Size::new(width, height)), Err(number));
    }
}

/// What the filters of a level count when they are run.
#[test]
fn as_often_as_the_filters_run() {
    for (width, height) in [(1, 1), (1, 4), (4, 1), (2, 2), (3, 2), (5, 3)] {
        let [squares, fours] = [0, 0].map(Cell::new);
        let both = [4, 16].map(|side| (side * width, side * height));
        for (across, down) in both {
            let mut cells = vec![0; across * down];
            Grid::new(across, down, &mut cells).filter(
                |square| {
                    squares.set(squares.get() + 1);
                    square
                },
                |four| {
                    fours.set(fours.get() + 1);
                    four
                },
            );
        }
        let work = work(2, width as u32, height as u32);
        assert_eq!((work.square_filters, work.four_filters), (squares.get(), fours.get()));
    }
}
