//! Times of three sides in interleaved rounds, and what is printed of them. All times are in microseconds.
use std::{hint::black_box, time::Instant};

/// The sides' order in each round. In six rounds each side is first, second and third twice, and comes right after each
/// of the others equally often.
const ORDERS: [[usize; 3]; 6] = [[0, 1, 2], [1, 2, 0], [2, 0, 1], [2, 1, 0], [1, 0, 2], [0, 2, 1]];

/// What the work gives is freed after the clock is read.
pub fn timed<T>(work: impl FnOnce() -> T) -> f64 {
    let start = Instant::now();
    let _given = black_box(work());
    start.elapsed().as_nanos() as f64 / 1000.0
}

/// The time of work on a copy that the caller has just made; the copy is freed after the clock is read.
pub fn timed_on<C, T>(mut copy: C, work: impl FnOnce(&mut C) -> T) -> f64 {
    timed(|| work(black_box(&mut copy)))
}

/// What every time includes: the clock, read twice with nothing between.
pub fn clock() -> f64 {
    let times: Vec<f64> = (0..10_001).map(|_| timed(|| ())).collect();
    median(&times)
}

/// The times of the three sides in each round.
pub struct Times(Vec<[f64; 3]>);

pub fn rounds(count: usize, mut sides: [&mut dyn FnMut() -> f64; 3]) -> Times {
    let round = |number: usize| {
        let mut times = [0.0; 3];
        for side in ORDERS[number % ORDERS.len()] {
            times[side] = sides[side]();
        }
        times
    };
    Times((0..count).map(round).collect())
}

impl Times {
    pub fn medians(&self) -> [f64; 3] {
        [0, 1, 2].map(|side| median(&self.0.iter().map(|round| round[side]).collect::<Vec<f64>>()))
    }

    /// The median of the rounds' ratios of one side to another, and their quartiles.
    pub fn ratio(&self, side: usize, other: usize) -> String {
        let ratios: Vec<f64> = self.0.iter().map(|round| round[side] / round[other]).collect();
        let [low, middle, high] = [1, 2, 3].map(|quarters| short(quarter(&ratios, quarters)));
        format!("{middle} ({low} to {high})")
    }
}

/// The value below which so many quarters of the values lie.
fn quarter(values: &[f64], quarters: usize) -> f64 {
    let mut values = values.to_vec();
    values.sort_by(f64::total_cmp);
    values[(values.len() - 1) * quarters / 4]
}

pub fn median(values: &[f64]) -> f64 {
    quarter(values, 2)
}

/// Two or three digits of a number.
pub fn short(value: f64) -> String {
    let digits = match value.abs() {
        size if size < 0.1 => 3,
        size if size < 10.0 => 2,
        size if size < 100.0 => 1,
        _ => 0,
    };
    format!("{value:.digits$}")
}
