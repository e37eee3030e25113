//! The forward direction against the inverse, operator by operator and over whole pictures.

use reference::number::{told, Telling};
use reference::operators::{forward as f, inverse as i};
use reference::random::{Random, Values};
use reference::{forward, inverse, Size};

fn array<const N: usize>(random: &mut Random, values: Values) -> [i32; N] {
    std::array::from_fn(|_| random.number(values))
}

/// A sum wraps on the way back if and only if one wraps on the way there.
fn undo_each_other<const K: usize>(
    there: fn([Telling; K]) -> [Telling; K],
    back: fn([Telling; K]) -> [Telling; K],
) {
    let mut random = Random::new(1);
    for values in Values::ALL {
        for _ in 0..2000 {
            let numbers = array(&mut random, values);
            for (one, other) in [(there, back), (back, there)] {
                let (results, wrapped) = told(one, numbers);
                assert_eq!(told(other, results), (numbers, wrapped));
            }
        }
    }
}

#[test]
fn every_operator_and_its_undoing() {
    undo_each_other(|v| i::hadamard(v, 0), |v| f::hadamard(v, 0));
    undo_each_other(|v| i::hadamard(v, 1), |v| f::hadamard(v, 1));
    undo_each_other(i::odd, f::odd);
    undo_each_other(i::odd_odd, f::odd_odd);
    undo_each_other(i::rotation, f::rotation);
    undo_each_other(i::scale, f::scale);
    undo_each_other(i::post_hadamard, f::post_hadamard);
    undo_each_other(i::post_odd_odd, f::post_odd_odd);
    undo_each_other(i::overlap_four, f::overlap_four);
    undo_each_other(i::core, f::core);
    undo_each_other(i::overlap_square, f::overlap_square);
}

#[test]
fn whole_pictures_both_ways() {
    let mut random = Random::new(2);
    for (width, height) in [(1, 1), (1, 2), (2, 1), (3, 2), (1, 5), (5, 1)] {
        let size = Size::new(width, height);
        let n = size.macroblocks() as usize;
        for mode in 0..=2 {
            for values in Values::ALL {
                let [dc, low, high, samples] =
                    [n, 15 * n, 240 * n, 256 * n].map(|count| random.numbers(count, values));
                let mut inner = vec![0; 256 * n];
                let (mut dc_back, mut low_back, mut high_back) =
                    (vec![0; n], vec![0; 15 * n], vec![0; 240 * n]);

                let there = inverse(mode, size, &dc, &low, &high, &mut inner);
                let back = forward(mode, size, &inner, &mut dc_back, &mut low_back, &mut high_back);
                assert_eq!((&dc_back, &low_back, &high_back), (&dc, &low, &high));
                assert_eq!(back, there);

                let there =
                    forward(mode, size, &samples, &mut dc_back, &mut low_back, &mut high_back);
                let back = inverse(mode, size, &dc_back, &low_back, &high_back, &mut inner);
                assert_eq!(inner, samples);
                assert_eq!(back, there);
            }
        }
    }
}
