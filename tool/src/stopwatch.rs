//! How long the parts of a command took.

use std::fmt;
use std::time::{Duration, Instant};

/// Times the parts of a command, one after another.
pub struct Stopwatch {
    since: Instant,
    laps: Vec<(&'static str, Duration)>,
}

impl Stopwatch {
    pub fn started() -> Self {
        Stopwatch { since: Instant::now(), laps: Vec::new() }
    }

    /// The part that ends here, by its name.
    pub fn lap(&mut self, name: &'static str) {
        let now = Instant::now();
        self.laps.push((name, now - self.since));
        self.since = now;
    }
}

impl fmt::Display for Stopwatch {
    fn fmt(&self, f: &mut fmt::Formatter) -> fmt::Result {
        for (name, time) in &self.laps {
            write!(f, "{name} {:.3} s, ", time.as_secs_f64())?;
        }
        let all: Duration = self.laps.iter().map(|(_, time)| time).sum();
        write!(f, "together {:.3} s", all.as_secs_f64())
    }
}
