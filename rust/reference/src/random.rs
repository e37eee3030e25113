//! Pseudo-random numbers for tests and benchmarks, the same in every run.

/// How large the numbers of a random picture are.
#[derive(Clone, Copy, Debug, PartialEq, Eq)]
pub enum Values {
    /// -300 to 300: what a picture of 8 bits meets.
    Small,
    /// Any 32-bit number, each as likely.
    Wild,
    /// The ends of the range, zero, and their neighbours: sums leave the range all the time.
    Ends,
}

impl Values {
    pub const ALL: [Values; 3] = [Values::Small, Values::Wild, Values::Ends];
}

/// The generator SplitMix64 (Steele, Lea and Flood).
pub struct Random(u64);

impl Random {
    pub fn new(seed: u64) -> Self {
        Random(seed)
    }

    pub fn bits(&mut self) -> u64 {
        self.0 = self.0.wrapping_add(0x9E37_79B9_7F4A_7C15);
        let mut z = self.0;
        z = (z ^ (z >> 30)).wrapping_mul(0xBF58_476D_1CE4_E5B9);
        z = (z ^ (z >> 27)).wrapping_mul(0x94D0_49BB_1331_11EB);
        z ^ (z >> 31)
    }

    /// A number below `bound`, which is small against 2^64.
    pub fn below(&mut self, bound: usize) -> usize {
        (self.bits() % bound as u64) as usize
    }

    pub fn number(&mut self, values: Values) -> i32 {
        const ENDS: [i32; 8] = [i32::MIN, i32::MIN + 1, i32::MAX, i32::MAX - 1, 0, -1, 1, 1 << 30];
        match values {
            Values::Small => self.below(601) as i32 - 300,
            Values::Wild => self.bits() as i32,
            Values::Ends => ENDS[self.below(ENDS.len())],
        }
    }

    pub fn numbers(&mut self, count: usize, values: Values) -> Vec<i32> {
        (0..count).map(|_| self.number(values)).collect()
    }

    pub fn bytes(&mut self, count: usize) -> Vec<u8> {
        (0..count).map(|_| self.bits() as u8).collect()
    }
}
