//! The sets of faults that the other tests try: that they tell every order of the checks from another.

mod common;
use common::faults::{sets_of_faults, try_sets_of_faults, Check};
use reference::random::Random;
use std::collections::HashSet;

/// The numbers of a call that checks three sets of planes, and more than all sets of faults could try.
const NUMBERS: [u32; 17] = [1, 2, 3, 4, 5, 6, 1, 2, 3, 4, 5, 6, 18, 2, 4, 5, 6];

/// Arguments of which only is known which checks fail.
type Faulty = [bool; NUMBERS.len()];

fn checks() -> Vec<Check<Faulty>> {
    let check = |place: usize| {
        Check::new(NUMBERS[place], move |faulty: &Faulty, _| {
            let mut faulty = *faulty;
            faulty[place] = true;
            vec![faulty]
        })
    };
    (0..NUMBERS.len()).map(check).collect()
}

/// How often a call that makes its checks in this order answers another number than is expected.
fn wrong_answers(order: &[usize]) -> usize {
    let mut wrong = 0;
    let sound = |_: &mut Random| [false; NUMBERS.len()];
    try_sets_of_faults(&checks(), sound, &mut Random::new(1), |case, _| {
        let first = order.iter().find(|&&place| case.arguments[place]);
        wrong += usize::from(first.map(|&place| NUMBERS[place]) != Some(case.number));
    });
    wrong
}

#[test]
fn every_other_order_is_told() {
    let order: Vec<usize> = (0..NUMBERS.len()).collect();
    assert_eq!(wrong_answers(&order), 0);
    for i in 0..order.len() {
        for j in i + 1..order.len() {
            let mut exchanged = order.clone();
            exchanged.swap(i, j);
            assert!(wrong_answers(&exchanged) > 0, "{i} and {j} exchanged");
        }
        let mut left_out = order.clone();
        left_out.remove(i);
        assert!(wrong_answers(&left_out) > 0, "{i} left out");
    }
}

/// Of few checks every set is tried once; of many every fault alone, every two, and others.
#[test]
fn sets_of_few_and_of_many_checks() {
    for checks in 1..=11 {
        let sets = sets_of_faults(checks, &mut Random::new(2));
        let different: HashSet<Vec<usize>> = sets.iter().cloned().collect();
        assert_eq!((sets.len(), different.len()), ((1 << checks) - 1, (1 << checks) - 1));
    }
    let sets: HashSet<Vec<usize>> = sets_of_faults(17, &mut Random::new(3)).into_iter().collect();
    for i in 0..17 {
        assert!(sets.contains(&vec![i]), "{i} alone");
        assert!((i + 1..17).all(|j| sets.contains(&vec![i, j])), "{i} and another");
        let larger = sets.iter().filter(|set| set[0] == i && set.len() > 2).count();
        assert!(larger > 0 || i > 14, "{i} first of three or more");
    }
}
