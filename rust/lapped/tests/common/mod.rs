//! What the tests share: shapes, planes, and lent memory with guard cells.
#![allow(dead_code)] // Each test file is a crate of its own and uses a part of this.

pub mod faults;
pub mod file;
pub mod raw;
pub mod refusals;
pub mod traced;

use lapped::{Mode, Planes, PlanesMut, PlanesRef, Size, Wrapped};
use lapped_sys::lapped_size;
use reference::random::{Random, Values};
use std::fmt::Debug;

/// Shapes in macroblocks: small, one wide, one high, wide, tall, and at the limits 525 and 413.
pub const SHAPES: [(u32, u32); 17] = [
    (1, 1),
    (1, 2),
    (2, 1),
    (2, 2),
    (3, 2),
    (2, 3),
    (3, 3),
    (1, 7),
    (7, 1),
    (5, 4),
    (13, 11),
    (40, 2),
    (2, 40),
    (33, 1),
    (1, 33),
    (525, 1),
    (1, 413),
];

pub fn size(width: u32, height: u32) -> Size {
    Size::new(width, height).unwrap()
}

/// A size for the C interface, which may be any.
pub fn raw_size(width: u32, height: u32) -> lapped_size {
    lapped_size { width, height }
}

/// The same size for the reference.
pub fn reference_size(size: Size) -> reference::Size {
    reference::Size::new(size.width(), size.height())
}

/// Planes in a test's own form, lent to a call that reads them.
pub fn planes_ref(planes: &[Vec<i32>; 3]) -> PlanesRef<'_> {
    let [dc, low, high] = planes;
    PlanesRef { dc, low, high }
}

/// The samples that the library gives for these planes.
pub fn samples_of(mode: Mode, size: Size, planes: &[Vec<i32>; 3]) -> Vec<i32> {
    let mut samples = vec![0; size.samples()];
    lapped::inverse(mode, size, planes_ref(planes), &mut samples).unwrap();
    samples
}

/// The quarter view that the library gives for these planes.
pub fn view_of(mode: Mode, size: Size, planes: &[Vec<i32>; 3]) -> Vec<i32> {
    let mut view = vec![0; size.view_samples()];
    lapped::quarter_view(mode, size, planes_ref(planes), &mut view).unwrap();
    view
}

/// The library tells this of the inverse of planes and of the forward transform of their samples, and
/// of the quarter view it tells what the reference does. A law: a sum wraps on one way if and only if
/// one wraps on the other.
pub fn assert_told_of_planes(
    mode: u32,
    size: Size,
    planes: &[Vec<i32>; 3],
    expected: bool,
    what: &str,
) {
    let number = mode;
    let mode = Mode::try_from(mode).unwrap();
    let expected = Wrapped::from(expected);
    let mut samples = vec![0; size.samples()];
    let answer = lapped::inverse(mode, size, planes_ref(planes), &mut samples);
    assert_eq!(answer, Ok(expected), "inverse: {what}");

    let mut back = Planes::zeroed(size);
    let answer = lapped::forward(mode, size, &samples, back.as_mut());
    assert_eq!(answer, Ok(expected), "forward: {what}");
    assert_eq!(back.as_ref(), planes_ref(planes), "{what}");

    let mut view = vec![0; size.view_samples()];
    let answer = lapped::quarter_view(mode, size, planes_ref(planes), &mut view);
    let [dc, low, _] = planes;
    let told = reference::quarter_view(number, reference_size(size), dc, low, &mut view);
    assert_eq!(answer.map(bool::from).map_err(|refusal| refusal.number()), told, "view: {what}");
}

const MARGIN: usize = 64;

/// Memory lent to a call, with cells on both sides that the call must leave alone.
pub struct Lent<T> {
    cells: Vec<T>,
    before: Vec<T>,
}

impl<T: Copy + PartialEq + Debug> Lent<T> {
    fn with_margins(margins: [Vec<T>; 2], contents: &[T]) -> Self {
        let [left, right] = margins;
        let cells = [&left[..], contents, &right[..]].concat();
        Lent { before: cells.clone(), cells }
    }

    pub fn slice(&self) -> &[T] {
        &self.cells[MARGIN..self.cells.len() - MARGIN]
    }

    pub fn slice_mut(&mut self) -> &mut [T] {
        let end = self.cells.len() - MARGIN;
        &mut self.cells[MARGIN..end]
    }

    /// Nothing was written, neither what was lent nor around it.
    pub fn assert_unchanged(&self, what: &str) {
        // Not assert_eq!, which would print the whole memory.
        if let Some(i) = (0..self.cells.len()).find(|&i| self.cells[i] != self.before[i]) {
            panic!("{what}: the call wrote cell {} of what was lent", i as isize - MARGIN as isize);
        }
    }

    /// What was lent holds `expected` now, and nothing around it was written.
    pub fn assert_holds(&self, expected: &[T], what: &str) {
        assert_same(self.slice(), expected, what);
        let end = self.cells.len() - MARGIN;
        for around in [0..MARGIN, end..self.cells.len()] {
            assert_eq!(self.cells[around.clone()], self.before[around], "{what}: wrote outside");
        }
    }
}

/// Equality that names the first place where it fails, and not both lists whole.
pub fn assert_same<T: Copy + PartialEq + Debug>(found: &[T], expected: &[T], what: &str) {
    assert_eq!(found.len(), expected.len(), "{what}: length");
    if let Some(i) = (0..found.len()).find(|&i| found[i] != expected[i]) {
        panic!("{what}: place {i} has {:?} in place of {:?}", found[i], expected[i]);
    }
}

pub fn assert_planes(found: &[Vec<i32>; 3], expected: &[Vec<i32>; 3], what: &str) {
    for (i, name) in ["DC", "low-pass", "high-pass"].into_iter().enumerate() {
        assert_same(&found[i], &expected[i], &format!("{what}, {name} plane"));
    }
}

pub fn lend_numbers(random: &mut Random, contents: &[i32]) -> Lent<i32> {
    let margins = [0, 1].map(|_| random.numbers(MARGIN, Values::Wild));
    Lent::with_margins(margins, contents)
}

pub fn lend_bytes(random: &mut Random, contents: &[u8]) -> Lent<u8> {
    let margins = [0, 1].map(|_| random.bytes(MARGIN));
    Lent::with_margins(margins, contents)
}

/// Memory of `count` numbers with contents that no call should leave by chance.
pub fn lend_filled(random: &mut Random, count: usize) -> Lent<i32> {
    let contents = random.numbers(count, Values::Wild);
    lend_numbers(random, &contents)
}

pub fn lend_filled_bytes(random: &mut Random, count: usize) -> Lent<u8> {
    let contents = random.bytes(count);
    lend_bytes(random, &contents)
}

/// All that is lent, each to be written.
pub fn slices<const N: usize>(lent: &mut [Lent<i32>; N]) -> [&mut [i32]; N] {
    let mut rest = lent.iter_mut();
    [(); N].map(|()| rest.next().unwrap().slice_mut())
}

/// The DC, low-pass and high-pass planes of n macroblocks.
pub fn random_planes(random: &mut Random, n: usize, values: Values) -> [Vec<i32>; 3] {
    [n, 15 * n, 240 * n].map(|count| random.numbers(count, values))
}

pub fn lend_planes(random: &mut Random, planes: &[Vec<i32>; 3]) -> [Lent<i32>; 3] {
    [0, 1, 2].map(|i| lend_numbers(random, &planes[i]))
}

/// Lent planes for a call that reads them.
pub fn lent_ref(lent: &[Lent<i32>; 3]) -> PlanesRef<'_> {
    let [dc, low, high] = lent;
    PlanesRef { dc: dc.slice(), low: low.slice(), high: high.slice() }
}

/// Lent planes for a call that writes them.
pub fn lent_mut(lent: &mut [Lent<i32>; 3]) -> PlanesMut<'_> {
    let [dc, low, high] = slices(lent);
    PlanesMut { dc, low, high }
}

pub fn any<T: Clone>(random: &mut Random, choices: &[T]) -> T {
    choices[random.below(choices.len())].clone()
}
