//! Quantising and restoring by steps of several indices.

use crate::measure::{black_box, median_nanoseconds};
use crate::{heading, row, split, split_mut};
use lapped::{Mode, PlanesMut, PlanesRef, Refusal, Size, Steps};
use reference::random::Random;
use reference::step_sizes;

/// Large, and the largest.
const SIZES: [(u32, u32); 2] = [(64, 64), (525, 413)];

/// Steps of 1, 48 and 49152, in all bands alike.
const INDICES: [u8; 3] = [0, 40, 200];

/// Both calls only check it.
const MODE: Mode = Mode::BothLevels;

type Proved = fn(Mode, Size, Steps, PlanesRef, PlanesMut) -> Result<(), Refusal>;
type Plain = fn(u32, reference::Size, [u32; 3], [&[i32]; 3], [&mut [i32]; 3]) -> Result<(), u32>;

/// One of the two calls.
struct Call {
    name: &'static str,
    proved: Proved,
    plain: Plain,
}

const QUANTISE: Call =
    Call { name: "quantise", proved: lapped::quantise, plain: step_sizes::quantise };
const RESTORE: Call = Call { name: "restore", proved: lapped::restore, plain: step_sizes::restore };

/// The planes that a call reads and those that it writes, each set in one buffer.
struct Buffers<'a> {
    size: Size,
    read: &'a [i32],
    written: &'a mut [i32],
}

pub fn section() {
    heading("levels", "index");
    for (width, height) in SIZES {
        let size = Size::new(width, height).unwrap();
        let coefficients = coefficients(size.samples());
        let [mut levels, mut restored] = [1, 2].map(|number| vec![number; size.samples()]);
        for index in INDICES {
            QUANTISE.row(index, Buffers { size, read: &coefficients, written: &mut levels });
        }
        for index in INDICES {
            let mut quantised = Buffers { size, read: &coefficients, written: &mut levels };
            QUANTISE.run_proved(index, &mut quantised);
            RESTORE.row(index, Buffers { size, read: &levels, written: &mut restored });
        }
    }
}

/// Numbers of both signs, far enough from the ends of the range that all of them can be restored.
fn coefficients(count: usize) -> Vec<i32> {
    let mut random = Random::new(3);
    (0..count).map(|_| random.below((2 << 24) + 1) as i32 - (1 << 24)).collect()
}

impl Call {
    fn run_proved(&self, index: u8, buffers: &mut Buffers) {
        let Buffers { size, read, written } = buffers;
        let n = size.macroblocks();
        let written = split_mut(black_box(written), n);
        (self.proved)(MODE, *size, Steps::all(index), split(read, n), written).unwrap();
    }

    fn run_plain(&self, index: u8, buffers: &mut Buffers) {
        let Buffers { size, read, written } = buffers;
        let n = size.macroblocks();
        let PlanesRef { dc, low, high } = split(read, n);
        let PlanesMut { dc: to_dc, low: to_low, high: to_high } = split_mut(black_box(written), n);
        let size = reference::Size::new(size.width(), size.height());
        let (indices, to) = ([index.into(); 3], [to_dc, to_low, to_high]);
        (self.plain)(MODE.number(), size, indices, [dc, low, high], to).unwrap();
    }

    /// The row of one index.
    fn row(&self, index: u8, mut buffers: Buffers) {
        let size = buffers.size;
        let proved = |buffers: &mut Buffers| self.run_proved(index, buffers);
        let plain = |buffers: &mut Buffers| self.run_plain(index, buffers);
        let memcpy = |buffers: &mut Buffers| {
            black_box(&mut *buffers.written).copy_from_slice(black_box(buffers.read));
        };
        proved(&mut buffers);
        let by_proved = buffers.written.to_vec();
        plain(&mut buffers);
        assert!(buffers.written == by_proved, "{}: proved and plain differ", self.name);
        let times = median_nanoseconds(size.samples(), &mut buffers, [&proved, &plain, &memcpy]);
        row(self.name, size, &index.to_string(), times);
    }
}
