//! Taking times, and what is told of many.

use std::hint::black_box;
use std::time::{Duration, Instant};

/// The time of one call.
fn once<T>(call: &mut impl FnMut() -> T) -> Duration {
    let start = Instant::now();
    black_box(call());
    start.elapsed()
}

/// The times of several calls of the same, after one that is not counted.
pub fn several<T>(count: usize, mut call: impl FnMut() -> T) -> Times {
    black_box(call());
    Times::of((0..count).map(|_| once(&mut call)).collect())
}

/// Times in rising order; at least one.
#[derive(Debug, Clone)]
pub struct Times {
    sorted: Vec<Duration>,
}

impl Times {
    /// The times of some calls.
    pub fn of(mut times: Vec<Duration>) -> Times {
        times.sort();
        Times { sorted: times }
    }

    /// The time that so many of a hundred calls do not exceed.
    fn percentile(&self, part: usize) -> Duration {
        let last = self.sorted.len().saturating_sub(1);
        self.sorted
            .get(last * part / 100)
            .copied()
            .unwrap_or_default()
    }

    /// The middle time.
    pub fn median(&self) -> Duration {
        self.percentile(50)
    }

    /// The time that nine calls of ten do not exceed.
    pub fn ninetieth(&self) -> Duration {
        self.percentile(90)
    }

    /// The longest time.
    pub fn largest(&self) -> Duration {
        self.percentile(100)
    }

    /// All of them together.
    pub fn total(&self) -> Duration {
        self.sorted.iter().sum()
    }
}

/// Prints what the columns of rows of many times are.
pub fn columns() {
    println!();
    println!(
        "{:<20}{:>10}{:>10}{:>10}{:>12}",
        "", "median", "90 %", "largest", "all"
    );
}

/// Prints a row of many times.
pub fn row(name: &str, times: &Times) {
    println!(
        "{name:<20}{:>10}{:>10}{:>10}{:>12}",
        micros(times.median()),
        micros(times.ninetieth()),
        micros(times.largest()),
        micros(times.total())
    );
}

/// A time in microseconds, to one place.
pub fn micros(time: Duration) -> String {
    format!("{:.1}", time.as_secs_f64() * 1e6)
}
