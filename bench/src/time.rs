//! How calls are timed.

use std::time::{Duration, Instant};

/// What a call gives, and its time in milliseconds, from as many calls as fit into a third of a second.
pub fn time<T>(mut call: impl FnMut() -> T) -> (T, f64) {
    let start = Instant::now();
    let (mut result, mut calls) = (call(), 1);
    while start.elapsed() < Duration::from_millis(300) {
        result = std::hint::black_box(call());
        calls += 1;
    }
    (result, start.elapsed().as_secs_f64() * 1e3 / f64::from(calls))
}
