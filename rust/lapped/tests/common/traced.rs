//! Numbers that write down which steps of the figures they pass, and which of these wrap.

use reference::number::Number;
use std::cell::RefCell;
use std::collections::BTreeSet;
use std::ops::{Add, AddAssign, Mul, Neg, Shr, Sub, SubAssign};
use std::panic::Location;

/// A step: its line and column in the reference's operators, and what it does. `a * 3` and `a * 3 + 4`
/// begin in the same column.
pub type Step = (u32, u32, &'static str);

/// The steps that were passed and, of these, the ones that wrapped and the first that did.
#[derive(Default)]
pub struct Trace {
    pub passed: BTreeSet<Step>,
    pub wrapped: BTreeSet<Step>,
    pub first: Option<Step>,
}

thread_local! {
    static TRACE: RefCell<Trace> = RefCell::default();
}

/// The trace of what is done.
pub fn trace(what: impl FnOnce()) -> Trace {
    TRACE.with(|trace| *trace.borrow_mut() = Trace::default());
    what();
    TRACE.with(|trace| std::mem::take(&mut *trace.borrow_mut()))
}

#[derive(Clone, Copy)]
pub struct Traced(i32);

impl Traced {
    #[track_caller]
    fn step(name: &'static str, exact: i64) -> Self {
        let place = Location::caller();
        let step = (place.line(), place.column(), name);
        TRACE.with(|trace| {
            let mut trace = trace.borrow_mut();
            trace.passed.insert(step);
            if i64::from(exact as i32) != exact {
                trace.wrapped.insert(step);
                trace.first.get_or_insert(step);
            }
        });
        Traced(exact as i32)
    }

    fn exact(self) -> i64 {
        self.0.into()
    }
}

impl Add for Traced {
    type Output = Self;

    #[track_caller]
    fn add(self, other: Self) -> Self {
        Traced::step("sum", self.exact() + other.exact())
    }
}

impl Add<i32> for Traced {
    type Output = Self;

    #[track_caller]
    fn add(self, constant: i32) -> Self {
        Traced::step("sum with a constant", self.exact() + i64::from(constant))
    }
}

impl AddAssign for Traced {
    #[track_caller]
    fn add_assign(&mut self, other: Self) {
        *self = Traced::step("sum of a line", self.exact() + other.exact());
    }
}

impl Sub for Traced {
    type Output = Self;

    #[track_caller]
    fn sub(self, other: Self) -> Self {
        Traced::step("difference", self.exact() - other.exact())
    }
}

impl SubAssign for Traced {
    #[track_caller]
    fn sub_assign(&mut self, other: Self) {
        *self = Traced::step("difference of a line", self.exact() - other.exact());
    }
}

impl Mul<i32> for Traced {
    type Output = Self;

    #[track_caller]
    fn mul(self, constant: i32) -> Self {
        Traced::step("multiple of 3", self.exact() * i64::from(constant))
    }
}

impl Neg for Traced {
    type Output = Self;

    #[track_caller]
    fn neg(self) -> Self {
        Traced::step("negation", -self.exact())
    }
}

/// What is shifted to the right stays in the range: no step that could wrap.
impl Shr<u32> for Traced {
    type Output = Self;

    fn shr(self, bits: u32) -> Self {
        Traced(self.0 >> bits)
    }
}

impl Number for Traced {
    fn given(number: i32) -> Self {
        Traced(number)
    }

    fn number(self) -> i32 {
        self.0
    }

    /// The trace has it.
    fn wrapped(self) -> bool {
        false
    }
}
