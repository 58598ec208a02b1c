//! Medians of alternating runs, so that both sides see the same machine.

use std::fmt;
use std::time::{Duration, Instant};

/// What a row of the table is called, and how it is measured.
pub type Measurement = (&'static str, fn() -> Times);

pub struct Times {
    first: Duration,
    second: Duration,
}

/// Runs both sides in turn, `runs` times each, and keeps the medians.
pub fn compare(runs: usize, mut first: impl FnMut(), mut second: impl FnMut()) -> Times {
    let (mut a, mut b) = (Vec::new(), Vec::new());
    for _ in 0..runs {
        a.push(time(&mut first));
        b.push(time(&mut second));
    }
    Times {
        first: median(a),
        second: median(b),
    }
}

fn time(run: &mut impl FnMut()) -> Duration {
    let start = Instant::now();
    run();
    start.elapsed()
}

fn median(mut times: Vec<Duration>) -> Duration {
    times.sort_unstable();
    times[times.len() / 2]
}

impl fmt::Display for Times {
    fn fmt(&self, f: &mut fmt::Formatter) -> fmt::Result {
        let ms = |t: Duration| t.as_secs_f64() * 1e3;
        let (first, second) = (ms(self.first), ms(self.second));
        write!(f, "{first:.3} ms | {second:.3} ms | {:.2}", first / second)
    }
}
