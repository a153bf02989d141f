//! Timing of several ways to do one thing, in turn.
//!
//! Of all its rounds each way's fastest counts: another program on the machine can slow a round down,
//! and nothing can make one faster.

use std::hint::black_box;
use std::time::Instant;

pub const ROUNDS: usize = 4_000;
const ROUND_NANOSECONDS: f64 = 40_000.0;

/// A way to do it; what it gives back keeps the compiler from leaving it out.
pub type Way<'w> = &'w mut dyn FnMut() -> usize;

/// Nanoseconds for one of so many times, one after another.
fn time(way: Way, times: usize) -> f64 {
    let start = Instant::now();
    for _ in 0..times {
        black_box(way());
    }
    start.elapsed().as_nanos() as f64 / times as f64
}

/// The fastest round of each way.
#[allow(dead_code, reason = "a benchmark of many parts has rounds of its own")]
pub fn fastest<const N: usize>(ways: [Way; N]) -> [f64; N] {
    fastest_of(ROUNDS, ways)
}

/// The same of so many rounds. The way that begins changes from round to round.
pub fn fastest_of<const N: usize>(rounds: usize, mut ways: [Way; N]) -> [f64; N] {
    let mut times = [1; N];
    for (way, times) in ways.iter_mut().zip(&mut times) {
        time(&mut **way, 3);
        *times = (ROUND_NANOSECONDS / time(&mut **way, 3)).clamp(1.0, 1e6) as usize;
    }
    let mut least = [f64::INFINITY; N];
    for round in 0..rounds {
        for turn in 0..N {
            let way = (round + turn) % N;
            least[way] = least[way].min(time(&mut *ways[way], times[way]));
        }
    }
    least
}

/// Nanoseconds: a fraction where they are few.
#[allow(dead_code, reason = "not every benchmark has few and many")]
pub fn shown(nanoseconds: f64) -> String {
    match nanoseconds {
        0.0..100.0 => format!("{nanoseconds:.1}"),
        _ => format!("{nanoseconds:.0}"),
    }
}

/// Says which of the wanted ratios are missed; whether none is.
pub fn none_missed(wanted: usize, missed: &[String]) -> bool {
    for line in missed {
        println!("{line}");
    }
    println!(
        "{} of {wanted} wanted ratios are met",
        wanted - missed.len()
    );
    missed.is_empty()
}
