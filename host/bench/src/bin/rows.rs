//! Nanoseconds of every call of the library alone, one line for each set of values, call and number
//! of entries: what `beside` reads.
//!
//! Arguments: `--rounds N` (the fastest counts), `--microseconds N` of one round.

#![forbid(unsafe_code)]

use bench::measure::{Effort, calibrate, fastest, time};
use bench::subject::{CALLS, Subject, VALUES, sizes};
use nt2_tests::arguments::Arguments;
use nt2_tests::ending::status;
use nt2_tests::implementation::Library;
use std::process::ExitCode;

fn measure(subject: &mut Subject, call: usize, effort: Effort) -> f64 {
    let iterations = calibrate::<Library>(subject, call, effort);
    let rounds = (0..effort.rounds)
        .map(|_| time(iterations, |n| subject.repeat::<Library>(call, n)))
        .collect::<Vec<f64>>();
    fastest(&rounds)
}

fn run() -> Result<(), String> {
    let arguments = Arguments::read(&["rounds", "microseconds"])?;
    let effort = Effort::given(&arguments, 8, 100)?;
    for (values, title) in VALUES.iter().enumerate() {
        let short = title.split(':').next().unwrap_or(title);
        for (call, name) in CALLS.iter().enumerate() {
            for &entries in sizes(call) {
                let nanoseconds = measure(&mut Subject::new(values, entries), call, effort);
                println!("{nanoseconds:.3}\t{short}, {name}, {entries}");
            }
        }
    }
    Ok(())
}

fn main() -> ExitCode {
    status("rows", run())
}
