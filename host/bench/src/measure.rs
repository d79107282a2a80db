//! How long a repeated call takes.

use crate::subject::Subject;
use nt2_tests::arguments::Arguments;
use nt2_tests::implementation::Implementation;
use std::hint::black_box;
use std::time::{Duration, Instant};

/// How often a call is timed, and for how long.
#[derive(Clone, Copy)]
pub struct Effort {
    pub rounds: usize,
    pub round: Duration,
}

impl Effort {
    /// What `--rounds` and `--microseconds` say, or these numbers.
    pub fn given(arguments: &Arguments, rounds: usize, microseconds: u64) -> Result<Self, String> {
        Ok(Effort {
            rounds: arguments.number("rounds", rounds)?,
            round: Duration::from_micros(arguments.number("microseconds", microseconds)?),
        })
    }
}

pub fn fastest(times: &[f64]) -> f64 {
    times.iter().copied().fold(f64::INFINITY, f64::min)
}

/// Nanoseconds of one iteration.
pub fn time(iterations: usize, work: impl FnOnce(usize)) -> f64 {
    let start = Instant::now();
    work(iterations);
    start.elapsed().as_nanos() as f64 / iterations as f64
}

/// So many iterations that a round takes its time.
pub fn calibrate<I: Implementation>(subject: &mut Subject, call: usize, effort: Effort) -> usize {
    let mut iterations = 1;
    loop {
        let start = Instant::now();
        subject.repeat::<I>(call, iterations);
        let elapsed = start.elapsed();
        if elapsed > effort.round / 4 {
            let scale = effort.round.as_secs_f64() / elapsed.as_secs_f64();
            return ((iterations as f64 * scale) as usize).max(1);
        }
        iterations *= 2;
    }
}

/// Bytes that are copied to some others. The compiler cannot see what either holds.
pub struct Copying {
    from: Vec<u8>,
    to: Vec<u8>,
}

impl Copying {
    pub fn new(bytes: &[u8]) -> Self {
        Copying { from: bytes.to_vec(), to: bytes.to_vec() }
    }

    pub fn repeat(&mut self, times: usize) {
        for _ in 0..times {
            black_box(&mut self.to[..]).copy_from_slice(black_box(&self.from));
        }
    }

    /// So many times that a round takes its time.
    pub fn calibrate(&mut self, effort: Effort) -> usize {
        let once = time(1000, |n| self.repeat(n)).max(0.1);
        (effort.round.as_nanos() as f64 / once) as usize + 1
    }
}
