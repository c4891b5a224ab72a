//! Holds times of many runs, and what they were measured on.

use std::fs;
use std::time::Duration;

/// The processor's, where the system tells it.
pub fn model_name() -> Option<String> {
    let told = fs::read_to_string("/proc/cpuinfo").ok()?;
    let line = told.lines().find(|line| line.starts_with("model name"))?;
    let (_, name) = line.split_once(':')?;
    Some(name.trim().to_owned())
}

/// In microseconds.
pub struct Times {
    pub median: f64,
    pub minimum: f64,
}

impl Times {
    pub fn of(mut times: Vec<Duration>) -> Self {
        times.sort_unstable();
        let microseconds = |i: usize| times[i].as_nanos() as f64 / 1_000.0;
        Times {
            median: microseconds(times.len() / 2),
            minimum: microseconds(0),
        }
    }
}
