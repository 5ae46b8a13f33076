//! How long a call takes.
use std::time::{Duration, Instant};

// short and many: on a busy machine some of them are then left alone
const ROUND: Duration = Duration::from_millis(2);
const ROUNDS: usize = 25;

/// So many calls take about one round.
fn calls_in_a_round(call: &dyn Fn() -> bool) -> u32 {
    let (start, mut calls) = (Instant::now(), 0);
    while start.elapsed() < ROUND {
        std::hint::black_box(call());
        calls += 1;
    }
    calls
}

fn round(call: &dyn Fn() -> bool, calls: u32) -> f64 {
    let start = Instant::now();
    for _ in 0..calls {
        std::hint::black_box(call());
    }
    start.elapsed().as_nanos() as f64 / calls as f64
}

/// Nanoseconds for each of the calls: the best of several rounds, in which they take turns, so that a slow moment of the machine
/// does not fall on one of them alone.
pub fn in_turn(calls: &[&dyn Fn() -> bool]) -> Vec<f64> {
    let in_a_round: Vec<u32> = calls.iter().map(|call| calls_in_a_round(call)).collect();
    let mut best = vec![f64::MAX; calls.len()];
    for _ in 0..ROUNDS {
        for (k, call) in calls.iter().enumerate() {
            best[k] = best[k].min(round(call, in_a_round[k]));
        }
    }
    best
}
