//! Whether a sum wraps, worked out by hand from the figures, and the law that a way back wraps if and
//! only if the way there does.

use reference::number::told;
use reference::operators::{forward as f, inverse as i};
use reference::{forward, inverse, quarter_view, Size};

const MIN: i32 = i32::MIN;
const MAX: i32 = i32::MAX;

/// Numbers of an operator, and whether a sum wraps on them.
type Case<const K: usize> = ([i32; K], bool);

/// The sum of a line, the difference of a line, the difference and the sum of t1's expression: each has
/// the least that wraps and, one step away, the most that does not.
#[test]
fn two_by_two_hadamard() {
    let cases: [Case<4>; 8] = [
        ([MAX - 1, 0, 0, 1], false), // a += d
        ([MAX, 0, 0, 1], true),
        ([0, MAX - 1, -1, 0], false), // b -= c
        ([0, MAX, -1, 0], true),
        ([0, MIN + 1, 0, 0], false), // a - b
        ([0, MIN, 0, 0], true),
        ([0, 0, 0, MAX], false),
        ([0, 0, 0, MIN], false), // t1 is half of it, and t1 - d half of it too
    ];
    for (numbers, expected) in cases {
        assert_eq!(told(|v| i::hadamard(v, 0), numbers).1, expected, "{numbers:?}");
    }
    // With 1 added, a - b + r has less room.
    for (numbers, expected) in [([MAX - 2, 0, 0, 1], false), ([MAX - 1, 0, 0, 1], true)] {
        assert_eq!(told(|v| i::hadamard(v, 1), numbers).1, expected, "{numbers:?}");
    }
}

#[test]
fn rotation() {
    let cases: [Case<2>; 4] = [
        ([0, MAX - 1], false), // b + 1
        ([0, MAX], true),
        ([MIN, 0], false), // a -= (b + 1) >> 1
        ([MIN, 1], true),
    ];
    for (numbers, expected) in cases {
        assert_eq!(told(i::rotation, numbers).1, expected, "{numbers:?}");
    }
}

/// Of a alone, b becomes a div 2 and a grows to a + 3 (a div 2) div 8. The multiples of 3 begin to wrap
/// at 715827883: 602802427 becomes 715827881, and 602802428 becomes 715827883.
#[test]
fn scale() {
    for (numbers, expected) in
        [([602_802_427, 0], false), ([602_802_428, 0], true), ([1, MAX], true)]
    {
        assert_eq!(told(i::scale, numbers).1, expected, "{numbers:?}");
    }
}

/// A multiple of 3 that just fits leaves no room for the 4 that is added: 3 × 715827882 = MAX − 1.
#[test]
fn multiples_of_three_and_sums_in_an_expression() {
    let cases: [Case<4>; 4] = [
        ([0, 0, 0, 715_827_881], false), // d × 3 + 4 is MAX
        ([0, 0, 0, 715_827_882], true),
        ([0, 0, 0, -715_827_882], false), // d × 3 is MIN + 2
        ([0, 0, 0, -715_827_883], true),
    ];
    for (numbers, expected) in cases {
        assert_eq!(told(i::post_hadamard, numbers).1, expected, "{numbers:?}");
    }
}

/// Only the least number there is has a negation that wraps.
#[test]
fn negation() {
    assert!(told(f::odd_odd, [0, MIN, 0, 0]).1);
    assert!(told(f::odd_odd, [0, 0, MIN, 0]).1);
    assert_eq!(told(i::odd_odd, [0; 4]), ([0; 4], false));
}

/// The planes of one macroblock, all zero but for one number: DC, low-pass or high-pass, and its place.
fn planes(plane: usize, place: usize, number: i32) -> [Vec<i32>; 3] {
    let mut planes = [vec![0], vec![0; 15], vec![0; 240]];
    planes[plane][place] = number;
    planes
}

/// Whether the quarter view and the inverse of a macroblock tell of a wrap, unfiltered.
fn view_and_samples([dc, low, high]: &[Vec<i32>; 3]) -> [bool; 2] {
    let (size, mut view, mut samples) = (Size::new(1, 1), [7; 16], [7; 256]);
    let of_view = quarter_view(0, size, dc, low, &mut view).unwrap();
    let of_samples = inverse(0, size, dc, low, high, &mut samples).unwrap();

    let (mut dc_back, mut low_back, mut high_back) = ([7], [7; 15], [7; 240]);
    let back = forward(0, size, &samples, &mut dc_back, &mut low_back, &mut high_back).unwrap();
    assert_eq!(back, of_samples, "the way back");
    [of_view, of_samples]
}

/// DC is a in a Hadamard transform with r = 1, where a - b + 1 wraps at MAX alone.
#[test]
fn dc_alone() {
    for (dc, expected) in [(MAX - 1, false), (MAX, true), (MIN, false)] {
        assert_eq!(view_and_samples(&planes(0, 0, dc)), [expected; 2], "DC {dc}");
    }
}

/// The reorder takes coefficient 8, the plane's number 7, to place 1, which is b there. The quarter view
/// is told of it in the low-pass plane and not in the high-pass plane.
#[test]
fn coefficient_8_alone() {
    for (number, expected) in [(MIN + 2, false), (MIN + 1, true), (MIN, true)] {
        assert_eq!(view_and_samples(&planes(1, 7, number)), [expected; 2], "{number} low-pass");
        for block in [0, 15] {
            let planes = planes(2, 15 * block + 7, number);
            assert_eq!(view_and_samples(&planes), [false, expected], "{number} high-pass");
        }
    }
}

/// Four numbers along an edge are filtered in modes 1 and 2. In the forward call the first line undone
/// is b -= (c × 3 + 16) >> 5: c × 3 + 16 wraps from (MAX − 16) div 3 + 1 = 715827878 on. With one less
/// the line takes MAX div 32 from b, which then is 0 and leaves c as it is.
#[test]
fn edge_filter() {
    for (sample, expected) in [(715_827_877, false), (715_827_878, true)] {
        for mode in 0..=2 {
            // Columns 2 to 5 of the first row are one of the fours; b and c are in its middle.
            let mut samples = [0; 256];
            samples[3] = MAX / 32;
            samples[4] = sample;
            let (mut dc, mut low, mut high) = ([7], [7; 15], [7; 240]);
            let told = forward(mode, Size::new(1, 1), &samples, &mut dc, &mut low, &mut high);
            assert_eq!(told, Ok(expected && mode > 0), "{sample} in mode {mode}");
        }
    }
}
