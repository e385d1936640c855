//! Times of two sides that are run in turn.

use std::time::{Duration, Instant};

/// How long each job is measured, and the fewest rounds.
const SPENT: Duration = Duration::from_millis(1500);
const FEWEST: usize = 20;

/// The least time of a call on each side, in microseconds.
pub struct Times {
    other: f64,
    proved: f64,
}

impl Times {
    /// Runs `other` and `proved` in turn, round after round. Each answers the microseconds of a call in its round.
    pub fn least(mut other: impl FnMut() -> f64, mut proved: impl FnMut() -> f64) -> Times {
        let mut times = Times {
            other: f64::MAX,
            proved: f64::MAX,
        };
        let start = Instant::now();
        let mut rounds = 0;
        while rounds < FEWEST || start.elapsed() < SPENT {
            times.other = times.other.min(other());
            times.proved = times.proved.min(proved());
            rounds += 1;
        }
        times
    }

    pub fn print_head(other: &str) {
        println!(
            "{:<56} {:>10} {:>10} {:>7}",
            "microseconds a call", other, "proved", "ratio"
        );
    }

    pub fn print(&self, name: &str) {
        println!(
            "{:<56} {:>10.2} {:>10.2} {:>7.2}",
            name,
            self.other,
            self.proved,
            self.other / self.proved
        );
    }
}

/// The microseconds of one of the `calls` calls that `work` makes.
pub fn time(calls: usize, work: impl FnOnce()) -> f64 {
    let start = Instant::now();
    work();
    start.elapsed().as_secs_f64() * 1e6 / calls as f64
}
