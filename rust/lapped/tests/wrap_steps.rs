//! The steps of every operator, one by one: pairs of pictures a step apart of which one wraps, and
//! pictures in which one step wraps alone, found by search in the reference. The library tells them.

mod common;
use common::traced::{trace, Step, Trace, Traced};
use common::*;
use lapped::Size;
use reference::level::Grid;
use reference::number::{by, Number, Plain};
use reference::operators::{forward, inverse, FORWARD_REORDER};
use reference::picture::{forward_by, inverse_by, Scratch};
use reference::random::{Random, Values};
use std::collections::{BTreeMap, BTreeSet};

#[derive(Clone, Copy, Debug, PartialEq, Eq)]
enum Way {
    Inverse,
    Forward,
}

#[derive(Clone, Copy, Debug, PartialEq, Eq)]
enum Level {
    One,
    Two,
}

#[derive(Clone, Copy, Debug, PartialEq, Eq)]
enum Operator {
    Core,
    Square,
    Four,
}

/// A figure's operator on few numbers.
#[derive(Clone, Copy, Debug)]
enum Figure {
    Hadamard(i32),
    Odd,
    OddOdd,
    Rotation,
    Scale,
    PostHadamard,
    PostOddOdd,
    OverlapFour,
}

impl Figure {
    /// Passes the numbers at these places through it.
    fn pass<N: Number>(self, way: Way, numbers: &mut [i32], places: &[usize]) {
        match (way, self) {
            (Way::Inverse, Figure::Hadamard(r)) => {
                at::<N, 4>(numbers, places, |v| inverse::hadamard(v, r));
            }
            (Way::Inverse, Figure::Odd) => at::<N, 4>(numbers, places, inverse::odd),
            (Way::Inverse, Figure::OddOdd) => at::<N, 4>(numbers, places, inverse::odd_odd),
            (Way::Inverse, Figure::Rotation) => at::<N, 2>(numbers, places, inverse::rotation),
            (Way::Inverse, Figure::Scale) => at::<N, 2>(numbers, places, inverse::scale),
            (Way::Inverse, Figure::PostHadamard) => {
                at::<N, 4>(numbers, places, inverse::post_hadamard);
            }
            (Way::Inverse, Figure::PostOddOdd) => {
                at::<N, 4>(numbers, places, inverse::post_odd_odd);
            }
            (Way::Inverse, Figure::OverlapFour) => {
                at::<N, 4>(numbers, places, inverse::overlap_four);
            }
            (Way::Forward, Figure::Hadamard(r)) => {
                at::<N, 4>(numbers, places, |v| forward::hadamard(v, r));
            }
            (Way::Forward, Figure::Odd) => at::<N, 4>(numbers, places, forward::odd),
            (Way::Forward, Figure::OddOdd) => at::<N, 4>(numbers, places, forward::odd_odd),
            (Way::Forward, Figure::Rotation) => at::<N, 2>(numbers, places, forward::rotation),
            (Way::Forward, Figure::Scale) => at::<N, 2>(numbers, places, forward::scale),
            (Way::Forward, Figure::PostHadamard) => {
                at::<N, 4>(numbers, places, forward::post_hadamard);
            }
            (Way::Forward, Figure::PostOddOdd) => {
                at::<N, 4>(numbers, places, forward::post_odd_odd);
            }
            (Way::Forward, Figure::OverlapFour) => {
                at::<N, 4>(numbers, places, forward::overlap_four);
            }
        }
    }
}

/// Replaces the numbers at these places by what an operator makes of them.
fn at<N: Number, const K: usize>(
    numbers: &mut [i32],
    places: &[usize],
    operator: impl Fn([N; K]) -> [N; K],
) {
    let places: [usize; K] = places.try_into().unwrap();
    let (results, _) = by(operator, places.map(|place| numbers[place]));
    for (place, result) in places.into_iter().zip(results) {
        numbers[place] = result;
    }
}

/// A figure and the places where it runs.
type Use = (Figure, &'static [usize]);

/// The parts of Figures 4.8, 4.14 and 4.13, each of which touches a number once.
const CORE: &[&[Use]] = &[
    &[
        (Figure::Hadamard(1), &[0, 1, 4, 5]),
        (Figure::Odd, &[2, 3, 6, 7]),
        (Figure::Odd, &[8, 12, 9, 13]),
        (Figure::OddOdd, &[10, 11, 14, 15]),
    ],
    HADAMARDS,
];
const SQUARE: &[&[Use]] = &[
    HADAMARDS,
    &[
        (Figure::Rotation, &[13, 12]),
        (Figure::Rotation, &[9, 8]),
        (Figure::Rotation, &[7, 3]),
        (Figure::Rotation, &[6, 2]),
        (Figure::PostOddOdd, &[10, 11, 14, 15]),
    ],
    &[
        (Figure::Scale, &[0, 15]),
        (Figure::Scale, &[1, 14]),
        (Figure::Scale, &[4, 11]),
        (Figure::Scale, &[5, 10]),
    ],
    &[
        (Figure::PostHadamard, &[0, 3, 12, 15]),
        (Figure::PostHadamard, &[1, 2, 13, 14]),
        (Figure::PostHadamard, &[4, 7, 8, 11]),
        (Figure::PostHadamard, &[5, 6, 9, 10]),
    ],
];
const HADAMARDS: &[Use] = &[
    (Figure::Hadamard(0), &[0, 3, 12, 15]),
    (Figure::Hadamard(0), &[1, 2, 13, 14]),
    (Figure::Hadamard(0), &[4, 7, 8, 11]),
    (Figure::Hadamard(0), &[5, 6, 9, 10]),
];
const FOUR: &[&[Use]] = &[&[(Figure::OverlapFour, &[0, 1, 2, 3])]];

/// An operator of a level.
#[derive(Clone, Copy, Debug)]
struct Stage {
    level: Level,
    operator: Operator,
}

impl Stage {
    /// The smallest picture that has the operator, in the first mode that runs it.
    fn mode_and_size(self) -> (u32, Size) {
        match (self.level, self.operator) {
            (_, Operator::Core) => (0, size(1, 1)),
            (Level::Two, _) => (1, size(1, 1)),
            (Level::One, Operator::Square) => (2, size(2, 2)),
            (Level::One, Operator::Four) => (2, size(2, 1)),
        }
    }

    fn parts(self) -> &'static [&'static [Use]] {
        match self.operator {
            Operator::Core => CORE,
            Operator::Square => SQUARE,
            Operator::Four => FOUR,
        }
    }

    /// How many numbers the operator takes.
    fn count(self) -> usize {
        match self.operator {
            Operator::Core | Operator::Square => 16,
            Operator::Four => 4,
        }
    }

    /// The figures and kinds of step that the operator has on this way.
    fn kinds(self, way: Way) -> BTreeSet<Kind> {
        let trace = trace(|| {
            for (figure, places) in self.parts().concat() {
                figure.pass::<Traced>(way, &mut [0; 16], places);
            }
        });
        trace.passed.into_iter().map(kind).collect()
    }
}

/// The name of an operator of the figures, and what a step of it does.
type Kind = (&'static str, &'static str);

fn kind((line, _, kind): Step) -> Kind {
    const SOURCE: &str = include_str!("../../reference/src/operators.rs");
    let before = SOURCE.lines().take(line as usize);
    let names = before.filter_map(|line| line.trim().strip_prefix("pub fn ")?.split('<').next());
    (names.last().expect("a step stands in an operator"), kind)
}

/// Kinds of step that never wrap first beside numbers on which nothing wraps, or so rarely that it is not
/// asked for: where a number is also tripled, the multiple wraps at a third of the range, before a sum
/// or a negation of it does. Outside the core transform r is 0, and adding it changes nothing.
fn is_hidden(operator: Operator, (figure, step): Kind) -> bool {
    match (operator, figure) {
        (Operator::Core, "odd") | (Operator::Four, _) | (_, "post_odd_odd" | "scale") => {
            !step.starts_with("multiple")
        }
        (Operator::Core, "odd_odd") => step == "negation",
        (Operator::Square, "hadamard") => step.starts_with("sum"),
        (Operator::Square, "post_hadamard") => step == "sum of a line",
        _ => false,
    }
}

/// Numbers on their way through an operator: some steps are behind them, others lie ahead.
#[derive(Clone, Debug)]
struct Candidate {
    stage: Stage,
    numbers: Vec<i32>,
    /// How many parts of the operator are behind them.
    parts: usize,
    /// The place of the number to be moved.
    place: usize,
}

impl Candidate {
    /// A few large numbers, at random.
    fn random(stage: Stage, random: &mut Random) -> Self {
        let (count, parts) = (stage.count(), stage.parts().len());
        let mut numbers = vec![0; count];
        for _ in 0..random.below(5) {
            numbers[random.below(count)] = random.number(Values::Wild) >> random.below(4);
        }
        Candidate { stage, numbers, parts: random.below(parts + 1), place: random.below(count) }
    }

    fn with(&self, number: i32) -> Self {
        let mut moved = self.clone();
        moved.numbers[self.place] = number;
        moved
    }

    /// What the operator was given: the parts behind the numbers undone.
    fn given(&self) -> Vec<i32> {
        let mut numbers = self.numbers.clone();
        for part in self.stage.parts()[..self.parts].iter().rev() {
            for (figure, places) in part.iter() {
                figure.pass::<Plain>(Way::Forward, &mut numbers, places);
            }
        }
        if self.stage.operator == Operator::Core {
            let mut coefficients = [0; 16];
            for (number, place) in numbers.into_iter().zip(FORWARD_REORDER) {
                coefficients[place] = number;
            }
            return coefficients.to_vec();
        }
        numbers
    }

    /// The grid of the level with what is given to the operator, where it runs first.
    fn cells(&self, given: &[i32]) -> Vec<i32> {
        let (_, size) = self.stage.mode_and_size();
        let blocks = if self.stage.level == Level::One { 4 } else { 16 };
        let (width, height) = (blocks * size.width() as usize, blocks * size.height() as usize);
        let mut cells = vec![0; width * height];
        for (k, &number) in given.iter().enumerate() {
            let (row, column) = match self.stage.operator {
                Operator::Core => (k / 4, k % 4),
                Operator::Square => (2 + k / 4, 2 + k % 4),
                Operator::Four => (0, 2 + k),
            };
            cells[row * width + column] = number;
        }
        cells
    }

    /// The planes whose inverse gives the operator these numbers.
    fn planes(&self) -> [Vec<i32>; 3] {
        let (_, size) = self.stage.mode_and_size();
        let n = size.macroblocks();
        let mut planes = [vec![0; n], vec![0; 15 * n], vec![0; 240 * n]];
        let [dc, low, high] = &mut planes;
        let given = self.given();
        let mut view = match (self.stage.level, self.stage.operator) {
            (Level::One, Operator::Core) => {
                dc[0] = given[0];
                low.copy_from_slice(&given[1..]);
                return planes;
            }
            (Level::Two, Operator::Core) => {
                high[..15].copy_from_slice(&given[1..]);
                let mut view = vec![0; 16];
                view[0] = given[0];
                view
            }
            (Level::One, _) => self.cells(&given),
            (Level::Two, _) => {
                reference::forward(0, reference_size(size), &self.cells(&given), dc, low, high)
                    .unwrap();
                return planes;
            }
        };
        let width = size.width() as usize;
        Grid::new(size.view_across(), size.view_down(), &mut view).forward::<Plain>(
            false,
            |i, j, coefficients| {
                let macroblock = i * width + j;
                dc[macroblock] = coefficients[0];
                low[15 * macroblock..][..15].copy_from_slice(&coefficients[1..]);
            },
        );
        planes
    }

    /// Whether a sum wraps, by the reference.
    fn wraps(&self) -> bool {
        let (mode, size) = self.stage.mode_and_size();
        let [dc, low, high] = self.planes();
        let mut samples = vec![0; size.samples()];
        reference::inverse(mode, reference_size(size), &dc, &low, &high, &mut samples).unwrap()
    }

    /// What happens in the picture on either way, there and back.
    fn traces(&self) -> [Trace; 2] {
        let (mode, size) = self.stage.mode_and_size();
        let (plain, [mut dc, mut low, mut high]) = (reference_size(size), self.planes());
        let (mut samples, mut scratch) = (vec![0; size.samples()], Scratch::new(plain));
        let there = trace(|| {
            let view = &mut scratch.quarter;
            inverse_by::<Traced>(mode, plain, &dc, &low, &high, &mut samples, view);
        });
        let back = trace(|| {
            let (dc, low, high) = (&mut dc, &mut low, &mut high);
            forward_by::<Traced>(mode, plain, &samples, dc, low, high, &mut scratch);
        });
        [there, back]
    }

    /// Two neighbours on the way of one number from 0 to an end of the range: nothing wraps on the
    /// first, and a sum wraps on the second.
    fn boundary(&self) -> Option<[Self; 2]> {
        if self.with(0).wraps() {
            return None;
        }
        let far = [i32::MAX, i32::MIN].into_iter().find(|&far| self.with(far).wraps())?;
        let (mut calm, mut wild) = (0, i64::from(far));
        while (calm - wild).abs() > 1 {
            let middle = (calm + wild) / 2;
            match self.with(middle as i32).wraps() {
                true => wild = middle,
                false => calm = middle,
            }
        }
        Some([calm, wild].map(|number| self.with(number as i32)))
    }

    fn assert_told(&self, expected: bool) {
        let (mode, size) = self.stage.mode_and_size();
        assert_told_of_planes(mode, size, &self.planes(), expected, &format!("{self:?}"));
    }
}

/// Asks the library about 300 pairs, and more until every kind of step was the first to wrap.
fn assert_tells_the_steps(stage: Stage, seed: u64) {
    let mut random = Random::new(seed);
    let mut missing = [Way::Inverse, Way::Forward].map(|way| stage.kinds(way));
    for kinds in &mut missing {
        kinds.retain(|kind| !is_hidden(stage.operator, *kind));
    }
    let candidates = (0..20_000).map(|_| Candidate::random(stage, &mut random));
    for (count, [calm, wild]) in candidates.filter_map(|numbers| numbers.boundary()).enumerate() {
        if count >= 300 && missing.iter().all(|kinds| kinds.is_empty()) {
            return;
        }
        calm.assert_told(false);
        wild.assert_told(true);
        for (kinds, trace) in missing.iter_mut().zip(wild.traces()) {
            kinds.remove(&kind(trace.first.expect("a step that wraps")));
        }
    }
    panic!("{stage:?}: never first, on the way there and on the way back, are {missing:?}");
}

/// What is found where the numbers of one figure are large and all others are zero.
#[derive(Default)]
struct Alone {
    /// How often a step wrapped alone in its figure.
    in_figure: BTreeMap<Step, usize>,
    /// How often it then wrapped alone in the whole picture, of which the library was asked.
    in_picture: BTreeMap<Step, usize>,
}

impl Alone {
    fn look(&mut self, way: Way, candidate: &Candidate, (figure, places): Use) {
        let mut numbers = candidate.numbers.clone();
        let local = trace(|| figure.pass::<Traced>(way, &mut numbers, places)).wrapped;
        let step = match local.iter().next() {
            Some(&step) if local.len() == 1 => step,
            _ => return,
        };
        *self.in_figure.entry(step).or_default() += 1;
        let asked = self.in_picture.entry(step).or_default();
        if *asked < 5 && candidate.traces()[way as usize].wrapped == local {
            candidate.assert_told(true);
            *asked += 1;
        }
    }

    /// The steps that wrap alone in their figure often enough, and never did in a picture. In the filter
    /// of squares most numbers are tripled later on, so that few steps but multiples of 3 wrap alone.
    fn missing(self, operator: Operator) -> Vec<(Step, Kind)> {
        let Alone { in_figure, in_picture } = self;
        let often = in_figure.into_iter().filter(|(_, count)| *count >= 20).map(|(step, _)| step);
        let missing = often.filter(|step| in_picture[step] == 0).map(|step| (step, kind(step)));
        let hidden = ["hadamard", "post_hadamard", "post_odd_odd"];
        missing
            .filter(|(_, (figure, _))| operator != Operator::Square || !hidden.contains(figure))
            .collect()
    }
}

/// Asks the library about pictures in which one step wraps and no other.
fn assert_tells_steps_that_wrap_alone(stage: Stage, seed: u64) {
    let mut random = Random::new(seed);
    for way in [Way::Inverse, Way::Forward] {
        let mut alone = Alone::default();
        for (index, part) in stage.parts().iter().enumerate() {
            // The figure is what comes next: on the way back, what lies behind.
            let parts = index + way as usize;
            for &(figure, places) in part.iter() {
                for _ in 0..5000 {
                    let mut numbers = vec![0; stage.count()];
                    for &place in places {
                        numbers[place] = random.number(Values::Wild) >> random.below(4);
                    }
                    let candidate = Candidate { stage, numbers, parts, place: 0 };
                    alone.look(way, &candidate, (figure, places));
                }
            }
        }
        let missing = alone.missing(stage.operator);
        assert!(missing.is_empty(), "{stage:?}, {way:?}: never alone are {missing:?}");
    }
}

fn assert_tells(operator: Operator, seed: u64) {
    for level in [Level::One, Level::Two] {
        let stage = Stage { level, operator };
        assert_tells_the_steps(stage, seed);
        assert_tells_steps_that_wrap_alone(stage, seed);
    }
}

#[test]
fn core_transform() {
    assert_tells(Operator::Core, 101);
}

#[test]
fn square_filter() {
    assert_tells(Operator::Square, 102);
}

#[test]
fn four_filter() {
    assert_tells(Operator::Four, 103);
}
