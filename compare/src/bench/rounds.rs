//! Two pieces of work timed in turn, so that the machine's noise falls on both.

use std::time::Instant;

use crate::side::Side;

/// The same calls, whoever answers them.
pub trait Work {
    /// How many calls one go makes.
    fn calls(&self) -> usize;
    fn go<S: Side>(&mut self, side: &S);
}

pub struct Figures {
    /// Left over right: the median of the rounds, and the quartiles.
    pub ratio: f64,
    pub low: f64,
    pub high: f64,
    /// Median nanoseconds of one go.
    pub left: f64,
    pub right: f64,
}

/// Times one go of each in every round. Who goes first alternates, because the second one finds
/// the caches as the first one left them.
pub fn beside<T>(
    state: &mut T,
    rounds: usize,
    left: impl Fn(&mut T),
    right: impl Fn(&mut T),
) -> Figures {
    for _ in 0..rounds.div_ceil(20) {
        left(state);
        right(state);
    }
    let mut times = Vec::with_capacity(rounds);
    for round in 0..rounds {
        times.push(if round % 2 == 0 {
            let first = nanoseconds(state, &left);
            (first, nanoseconds(state, &right))
        } else {
            let first = nanoseconds(state, &right);
            (nanoseconds(state, &left), first)
        });
    }
    figures(&times)
}

fn nanoseconds<T>(state: &mut T, work: impl Fn(&mut T)) -> f64 {
    let begun = Instant::now();
    work(state);
    begun.elapsed().as_nanos() as f64
}

pub fn figures(times: &[(f64, f64)]) -> Figures {
    let ratios: Vec<f64> = times.iter().map(|(left, right)| left / right).collect();
    let [low, ratio, high] = quartiles(ratios);
    let [_, left, _] = quartiles(times.iter().map(|times| times.0).collect());
    let [_, right, _] = quartiles(times.iter().map(|times| times.1).collect());
    Figures { ratio, low, high, left, right }
}

fn quartiles(mut values: Vec<f64>) -> [f64; 3] {
    values.sort_by(f64::total_cmp);
    [1, 2, 3].map(|quarter| values[(values.len() - 1) * quarter / 4])
}
