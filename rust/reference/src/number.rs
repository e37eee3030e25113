//! What the figures compute with: numbers of 32 bits, and such that also tell when a sum wrapped.

use std::ops::{Add, AddAssign, Mul, Neg, Shr, Sub, SubAssign};

/// A number of 32 bits. Every sum, difference, negation and product is reduced into the signed 32-bit
/// range, and `>>` rounds toward minus infinity.
pub trait Number:
    Copy
    + Add<Output = Self>
    + Add<i32, Output = Self>
    + AddAssign
    + Sub<Output = Self>
    + SubAssign
    + Mul<i32, Output = Self>
    + Neg<Output = Self>
    + Shr<u32, Output = Self>
{
    /// A number that is given and not yet computed with.
    fn given(number: i32) -> Self;

    fn number(self) -> i32;

    /// Whether a reduction changed a result on the way to this number. No line of a figure drops what
    /// a step before it made, so that the numbers that come out of an operator have passed all of its
    /// steps. A number that does not look for it says no.
    fn wrapped(self) -> bool;
}

/// Gives a number its operators, from what it makes of a sum, a difference, a product and a shift.
macro_rules! arithmetic {
    ($number:ty) => {
        impl Add for $number {
            type Output = Self;

            #[inline]
            fn add(self, other: Self) -> Self {
                self.plus(other)
            }
        }

        impl Add<i32> for $number {
            type Output = Self;

            #[inline]
            fn add(self, constant: i32) -> Self {
                self.plus(Self::given(constant))
            }
        }

        impl AddAssign for $number {
            #[inline]
            fn add_assign(&mut self, other: Self) {
                *self = self.plus(other);
            }
        }

        impl Sub for $number {
            type Output = Self;

            #[inline]
            fn sub(self, other: Self) -> Self {
                self.minus(other)
            }
        }

        impl SubAssign for $number {
            #[inline]
            fn sub_assign(&mut self, other: Self) {
                *self = self.minus(other);
            }
        }

        impl Mul<i32> for $number {
            type Output = Self;

            #[inline]
            fn mul(self, constant: i32) -> Self {
                self.times(Self::given(constant))
            }
        }

        impl Neg for $number {
            type Output = Self;

            #[inline]
            fn neg(self) -> Self {
                Self::given(0).minus(self)
            }
        }

        impl Shr<u32> for $number {
            type Output = Self;

            #[inline]
            fn shr(self, bits: u32) -> Self {
                self.shifted(bits)
            }
        }
    };
}

/// A number and no more.
#[derive(Clone, Copy, Debug, PartialEq, Eq)]
pub struct Plain(pub i32);

impl Plain {
    #[inline]
    fn plus(self, other: Self) -> Self {
        Plain(self.0.wrapping_add(other.0))
    }

    #[inline]
    fn minus(self, other: Self) -> Self {
        Plain(self.0.wrapping_sub(other.0))
    }

    #[inline]
    fn times(self, other: Self) -> Self {
        Plain(self.0.wrapping_mul(other.0))
    }

    #[inline]
    fn shifted(self, bits: u32) -> Self {
        Plain(self.0 >> bits)
    }
}

arithmetic!(Plain);

impl Number for Plain {
    fn given(number: i32) -> Self {
        Plain(number)
    }

    fn number(self) -> i32 {
        self.0
    }

    fn wrapped(self) -> bool {
        false
    }
}

/// A number that tells whether a sum wrapped on the way to it (02, e).
#[derive(Clone, Copy, Debug, PartialEq, Eq)]
pub struct Telling {
    number: i32,
    wrapped: bool,
}

impl Telling {
    /// The exact result of two numbers, reduced.
    fn reduced(self, other: Self, exact: i64) -> Self {
        let number = exact as i32;
        let before = self.wrapped || other.wrapped;
        Telling { number, wrapped: before || i64::from(number) != exact }
    }

    fn plus(self, other: Self) -> Self {
        self.reduced(other, i64::from(self.number) + i64::from(other.number))
    }

    fn minus(self, other: Self) -> Self {
        self.reduced(other, i64::from(self.number) - i64::from(other.number))
    }

    fn times(self, other: Self) -> Self {
        self.reduced(other, i64::from(self.number) * i64::from(other.number))
    }

    /// A shift to the right leaves no range.
    fn shifted(self, bits: u32) -> Self {
        Telling { number: self.number >> bits, ..self }
    }
}

arithmetic!(Telling);

impl Number for Telling {
    fn given(number: i32) -> Self {
        Telling { number, wrapped: false }
    }

    fn number(self) -> i32 {
        self.number
    }

    fn wrapped(self) -> bool {
        self.wrapped
    }
}

/// What an operator makes of these numbers, and whether a sum wrapped in it.
pub fn told<const K: usize>(
    operator: impl Fn([Telling; K]) -> [Telling; K],
    numbers: [i32; K],
) -> ([i32; K], bool) {
    by(operator, numbers)
}

/// What an operator makes of these numbers.
pub fn plain<const K: usize>(
    operator: impl Fn([Plain; K]) -> [Plain; K],
    numbers: [i32; K],
) -> [i32; K] {
    by(operator, numbers).0
}

/// The same by any numbers. Copied in loops, since `map` of an array of 16 would take a third more time
/// with plain numbers, which are timed.
pub fn by<N: Number, const K: usize>(
    operator: impl Fn([N; K]) -> [N; K],
    numbers: [i32; K],
) -> ([i32; K], bool) {
    let mut given = [N::given(0); K];
    given.iter_mut().zip(numbers).for_each(|(place, number)| *place = N::given(number));
    let results = operator(given);
    let mut plain = numbers;
    plain.iter_mut().zip(results).for_each(|(place, result)| *place = result.number());
    (plain, results.iter().any(|result| result.wrapped()))
}
