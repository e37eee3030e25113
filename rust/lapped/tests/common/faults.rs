//! Sets of faults: sound arguments of a call, broken so that checks of it fail alone and together.

use super::any;
use reference::random::Random;
use std::fmt::Debug;

/// The arguments broken, in every way that a test knows.
type Ways<A> = dyn Fn(&A, &mut Random) -> Vec<A>;

/// A check of a call with arguments of type `A`: its number, and how to make it fail while every check
/// before it still passes. A call may make several checks of one number, each about something else.
pub struct Check<A> {
    pub number: u32,
    broken: Box<Ways<A>>,
}

impl<A> Check<A> {
    pub fn new(number: u32, broken: impl Fn(&A, &mut Random) -> Vec<A> + 'static) -> Self {
        Check { number, broken: Box::new(broken) }
    }
}

/// Up to this many sets of faults are all tried.
const MOST_SETS: usize = 4096;

/// The sets of faults to try of so many checks, each as the places of its checks in their order: all of
/// them or, where these are too many, every fault alone, every two, and random sets in which each check
/// is the first to fail as often as another.
pub fn sets_of_faults(checks: usize, random: &mut Random) -> Vec<Vec<usize>> {
    let every = 1..1usize << checks;
    let sets: Vec<usize> = if every.len() < MOST_SETS {
        every.collect()
    } else {
        let pairs = (0..checks).flat_map(|i| (i..checks).map(move |j| 1 << i | 1 << j));
        let some = (0..MOST_SETS).map(|_| {
            let first = random.below(checks);
            1 << first | random.below(1 << checks) >> first << first
        });
        pairs.chain(some).collect()
    };
    let places = |set: usize| (0..checks).filter(|i| set >> i & 1 == 1).collect();
    sets.into_iter().map(places).collect()
}

/// Broken arguments, the number of the first check that fails, and both in words.
pub struct Refused<A> {
    pub arguments: A,
    pub number: u32,
    pub what: String,
}

/// Sound arguments broken by sets of faults, four times each: a fault alone in every way, several
/// together in random ones. The faults are put in from the last check to the first, so that no other
/// can take away the one that is answered.
pub fn try_sets_of_faults<A: Clone + Debug>(
    checks: &[Check<A>],
    sound: impl Fn(&mut Random) -> A,
    random: &mut Random,
    mut try_case: impl FnMut(Refused<A>, &mut Random),
) {
    for set in sets_of_faults(checks.len(), random) {
        let numbers: Vec<u32> = set.iter().map(|&place| checks[place].number).collect();
        for _ in 0..4 {
            let mut broken = vec![sound(random)];
            for &place in set.iter().rev() {
                let arguments = any(random, &broken);
                broken = (checks[place].broken)(&arguments, random);
            }
            if set.len() > 1 {
                broken = vec![any(random, &broken)];
            }
            for arguments in broken {
                let what = format!("faults {numbers:?} in {arguments:?}");
                try_case(Refused { arguments, number: numbers[0], what }, random);
            }
        }
    }
}
