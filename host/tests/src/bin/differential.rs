//! Compares the library with the reference on random calls.
//!
//! Arguments: `--seed N`, `--comparisons N`, `--seconds N`, `--threads N`. A failure names the seed
//! of its series; `--seed N --comparisons 1 --threads 1` repeats it.

use nt2_tests::arguments::Arguments;
use nt2_tests::differential::{Bounds, compare};
use nt2_tests::ending::status;
#[cfg(feature = "library")]
use nt2_tests::implementation::Library as Compared;
#[cfg(not(feature = "library"))]
use nt2_tests::implementation::Reference as Compared;
use nt2_tests::implementation::{Implementation, Reference};
use nt2_tests::random::clock_seed;
use std::process::ExitCode;
use std::thread;
use std::time::{Duration, Instant};

fn run() -> Result<(), String> {
    let arguments = Arguments::read(&["seed", "comparisons", "seconds", "threads"])?;
    let threads = thread::available_parallelism().map_or(1, |n| n.get());
    let bounds = Bounds {
        seed: arguments.number("seed", clock_seed())?,
        comparisons: arguments.number("comparisons", 2_000_000)?,
        time: Duration::from_secs(arguments.number("seconds", 110)?),
        threads: arguments.number("threads", threads)?,
    };
    println!("differential, {} and {}: seed {}", Reference::NAME, Compared::NAME, bounds.seed);
    let start = Instant::now();
    let report = compare::<Reference, Compared>(bounds)?;
    let seconds = start.elapsed().as_secs_f64();
    let rate = report.comparisons as f64 / seconds;
    report.lines().iter().for_each(|line| println!("{line}"));
    println!("  {} comparisons in {seconds:.1} s, {rate:.0} a second", report.comparisons);
    if report.comparisons < bounds.comparisons {
        return Err(format!("only {} comparisons in time", report.comparisons));
    }
    match report.missed() {
        missed if bounds.comparisons >= 1_000_000 && !missed.is_empty() => {
            Err(format!("answers not met: {}", missed.join(", ")))
        }
        _ => Ok(()),
    }
}

fn main() -> ExitCode {
    status("differential", run())
}
