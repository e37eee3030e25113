//! One level of the transform on a grid of numbers (01, "One level").

use crate::number::{by, Number};
use crate::operators::{forward, inverse, Block};

/// A grid in raster order whose sides are multiples of 4.
pub struct Grid<'a> {
    width: usize,
    height: usize,
    cells: &'a mut [i32],
}

impl<'a> Grid<'a> {
    pub fn new(width: usize, height: usize, cells: &'a mut [i32]) -> Self {
        assert!(width % 4 == 0 && height % 4 == 0 && cells.len() == width * height);
        Grid { width, height, cells }
    }

    /// The 4 × 4 numbers from this row and column on.
    pub fn square(&self, row: usize, column: usize) -> Block {
        let mut square = [0; 16];
        for (i, numbers) in square.chunks_exact_mut(4).enumerate() {
            let start = (row + i) * self.width + column;
            numbers.copy_from_slice(&self.cells[start..start + 4]);
        }
        square
    }

    fn set_square(&mut self, row: usize, column: usize, square: Block) {
        for (i, numbers) in square.chunks_exact(4).enumerate() {
            let start = (row + i) * self.width + column;
            self.cells[start..start + 4].copy_from_slice(numbers);
        }
    }

    /// Replaces the four cells at these places by what `operator` makes of them.
    fn map_four(
        &mut self,
        places: [(usize, usize); 4],
        operator: &mut impl FnMut([i32; 4]) -> [i32; 4],
    ) {
        let places = places.map(|(row, column)| row * self.width + column);
        let results = operator(places.map(|place| self.cells[place]));
        for (place, result) in places.into_iter().zip(results) {
            self.cells[place] = result;
        }
    }

    /// Runs the overlap filters of a level, in one direction or the other: `square_filter` on the
    /// squares between four blocks, `four_filter` along the edges and on the 2 × 2 corners, each row
    /// by row (02, f). The windows are disjoint, so one order serves both directions.
    pub fn filter(
        &mut self,
        mut square_filter: impl FnMut(Block) -> Block,
        mut four_filter: impl FnMut([i32; 4]) -> [i32; 4],
    ) {
        let (width, height) = (self.width, self.height);
        // A window that starts at 2, 6, … lies inside as long as its start is below side - 3.
        for row in (2..height - 3).step_by(4) {
            for column in (2..width - 3).step_by(4) {
                let square = self.square(row, column);
                self.set_square(row, column, square_filter(square));
            }
        }
        for row in [0, 1, height - 2, height - 1] {
            for column in (2..width - 3).step_by(4) {
                self.map_four([0, 1, 2, 3].map(|i| (row, column + i)), &mut four_filter);
            }
        }
        for column in [0, 1, width - 2, width - 1] {
            for row in (2..height - 3).step_by(4) {
                self.map_four([0, 1, 2, 3].map(|i| (row + i, column)), &mut four_filter);
            }
        }
        for row in [0, height - 2] {
            for column in [0, width - 2] {
                let corner = [(0, 0), (0, 1), (1, 0), (1, 1)];
                self.map_four(corner.map(|(i, j)| (row + i, column + j)), &mut four_filter);
            }
        }
    }

    /// The filters of a level by operators on numbers of any kind. Gives whether a sum wrapped.
    fn filter_by<N: Number>(
        &mut self,
        square_filter: fn([N; 16]) -> [N; 16],
        four_filter: fn([N; 4]) -> [N; 4],
    ) -> bool {
        let (mut in_squares, mut in_fours) = (false, false);
        self.filter(
            |square| telling(square_filter, square, &mut in_squares),
            |four| telling(four_filter, four, &mut in_fours),
        );
        in_squares || in_fours
    }

    /// The inverse of a level: the core transform of every block, then the filters.
    /// `coefficients(i, j)` are those of the block in block row i and block column j. Gives whether a
    /// sum wrapped.
    pub fn inverse<N: Number>(
        &mut self,
        filtered: bool,
        coefficients: impl Fn(usize, usize) -> Block,
    ) -> bool {
        let mut wrapped = false;
        for i in 0..self.height / 4 {
            for j in 0..self.width / 4 {
                let samples = telling(inverse::core::<N>, coefficients(i, j), &mut wrapped);
                self.set_square(4 * i, 4 * j, samples);
            }
        }
        if filtered {
            wrapped |= self.filter_by::<N>(inverse::overlap_square, inverse::overlap_four);
        }
        wrapped
    }

    /// The forward direction of a level: the filters undone, then the core transform of every block.
    /// `store(i, j, coefficients)` receives those of the block in block row i and block column j. Gives
    /// whether a sum wrapped.
    pub fn forward<N: Number>(
        &mut self,
        filtered: bool,
        mut store: impl FnMut(usize, usize, Block),
    ) -> bool {
        let mut wrapped = false;
        if filtered {
            wrapped |= self.filter_by::<N>(forward::overlap_square, forward::overlap_four);
        }
        for i in 0..self.height / 4 {
            for j in 0..self.width / 4 {
                store(i, j, telling(forward::core::<N>, self.square(4 * i, 4 * j), &mut wrapped));
            }
        }
        wrapped
    }
}

/// What an operator makes of these numbers; `wrapped` is set if a sum wrapped in it.
fn telling<N: Number, const K: usize>(
    operator: impl Fn([N; K]) -> [N; K],
    numbers: [i32; K],
    wrapped: &mut bool,
) -> [i32; K] {
    let (results, in_it) = by(operator, numbers);
    *wrapped |= in_it;
    results
}
