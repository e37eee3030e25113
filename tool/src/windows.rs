//! Which coefficients of two sets of planes differ, and which samples their windows hold.

use lapped::{Mode, Planes};

/// Equal squares side by side over a picture, some of them marked, each with the window around it.
struct Squares {
    marked: Vec<bool>,
    across: usize,
    down: usize,
    /// The side of a square in samples.
    side: usize,
    /// How many samples its window goes beyond it on each side.
    beyond: usize,
}

impl Squares {
    /// Whether a sample lies in the window of a marked square.
    fn hold(&self, row: usize, column: usize) -> bool {
        // A window reaches the samples of squares up to `beyond` away, so only these squares come
        // into question.
        let near = |place: usize, count: usize| {
            let first = place.saturating_sub(self.beyond) / self.side;
            let last = (place + self.beyond) / self.side;
            first..(last + 1).min(count)
        };
        let columns = near(column, self.across);
        near(row, self.down).any(|i| {
            let marked = &self.marked[i * self.across..][..self.across];
            marked[columns.clone()].contains(&true)
        })
    }

    fn count(&self) -> usize {
        self.marked.iter().filter(|&&marked| marked).count()
    }
}

/// Which coefficients differ between two sets of planes of one mode and size.
pub struct Windows {
    /// How many numbers differ in the DC, the low-pass and the high-pass plane.
    pub coefficients: [usize; 3],
    /// Marked where a high-pass number differs.
    blocks: Squares,
    /// Marked where the DC number or a low-pass number differs.
    macroblocks: Squares,
}

impl Windows {
    pub fn between(mode: Mode, one: &Planes, other: &Planes) -> Self {
        let size = one.size;
        let (across, down) = (size.width() as usize, size.height() as usize);
        // What the claim about windows allows, in samples beyond a block and beyond a macroblock.
        let (beyond_block, beyond_macroblock) = match mode {
            Mode::Unfiltered => (0, 0),
            Mode::SampleLevel => (2, 2),
            Mode::BothLevels => (2, 10),
        };
        let mut blocks = vec![false; 16 * size.macroblocks()];
        for place in differences(&one.high, &other.high) {
            let (macroblock, block) = (place / 240, place / 15 % 16);
            let row = 4 * (macroblock / across) + block / 4;
            blocks[row * 4 * across + 4 * (macroblock % across) + block % 4] = true;
        }
        let mut macroblocks = vec![false; size.macroblocks()];
        differences(&one.dc, &other.dc).for_each(|place| macroblocks[place] = true);
        differences(&one.low, &other.low).for_each(|place| macroblocks[place / 15] = true);
        Windows {
            coefficients: [(&one.dc, &other.dc), (&one.low, &other.low), (&one.high, &other.high)]
                .map(|(one, other)| differences(one, other).count()),
            blocks: Squares {
                marked: blocks,
                across: 4 * across,
                down: 4 * down,
                side: 4,
                beyond: beyond_block,
            },
            macroblocks: Squares {
                marked: macroblocks,
                across,
                down,
                side: 16,
                beyond: beyond_macroblock,
            },
        }
    }

    /// How many blocks differ in a high-pass number.
    pub fn blocks(&self) -> usize {
        self.blocks.count()
    }

    /// How many macroblocks differ in their DC number or a low-pass number.
    pub fn macroblocks(&self) -> usize {
        self.macroblocks.count()
    }

    /// Whether a sample lies in the window of a block or macroblock that differs.
    pub fn hold(&self, row: usize, column: usize) -> bool {
        self.blocks.hold(row, column) || self.macroblocks.hold(row, column)
    }
}

/// The places where two planes of one length differ.
fn differences<'a>(one: &'a [i32], other: &'a [i32]) -> impl Iterator<Item = usize> + 'a {
    one.iter().zip(other).enumerate().filter(|(_, (a, b))| a != b).map(|(place, _)| place)
}
