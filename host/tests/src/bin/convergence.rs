//! Demand 3 on random runs and line records: server and copy of the library, and the library's server
//! with the reference's copy.
//!
//! Arguments: `--seed N`, `--runs N`, `--calls N` of each run, `--seconds N` for all of them.

use nt2_tests::arguments::Arguments;
use nt2_tests::convergence::{Compared, Run, replayed, run as random_run};
use nt2_tests::ending::status;
#[cfg(feature = "library")]
use nt2_tests::implementation::Library as Tested;
#[cfg(not(feature = "library"))]
use nt2_tests::implementation::Reference as Tested;
use nt2_tests::implementation::{Implementation, Reference};
use nt2_tests::random::{Random, clock_seed};
use std::process::ExitCode;
use std::time::{Duration, Instant};

/// So many runs have to meet what a run can meet.
const COVERING_RUNS: u64 = 10;
/// Line records beside each run.
const LINE_RECORDS: u64 = 20;

/// Line records from this seed on.
fn line_records(seed: u64, all: &mut Compared) -> Result<(), String> {
    for place in 0..LINE_RECORDS {
        let seed = seed.wrapping_mul(LINE_RECORDS).wrapping_add(place);
        let compared = if place.is_multiple_of(3) {
            replayed::<Tested, Reference>(seed)
        } else {
            replayed::<Tested, Tested>(seed)
        };
        all.add(&compared.map_err(|failure| format!("line record {place}: {failure}"))?);
    }
    Ok(())
}

fn run() -> Result<(), String> {
    let arguments = Arguments::read(&["seed", "runs", "calls", "seconds"])?;
    let seed = arguments.number("seed", clock_seed())?;
    let (runs, calls) = (arguments.number("runs", 60)?, arguments.number("calls", 0usize)?);
    let time = Duration::from_secs(arguments.number("seconds", 240)?);
    println!("convergence, {}: seed {seed}", Tested::NAME);
    let start = Instant::now();
    let (mut made, mut all, mut of_line_records) = (0u64, Run::default(), Compared::default());
    while made < runs && start.elapsed() < time {
        let run_seed = seed.wrapping_add(made);
        let calls = if calls > 0 { calls } else { 1000 + Random::new(run_seed).below(5000) };
        let run = if made.is_multiple_of(3) {
            random_run::<Tested, Reference>(run_seed, calls)
        } else {
            random_run::<Tested, Tested>(run_seed, calls)
        };
        let failed = |failure| format!("run of seed {run_seed}: {failure}");
        all.add(&run.map_err(failed)?);
        line_records(run_seed, &mut of_line_records).map_err(failed)?;
        made += 1;
    }
    let seconds = start.elapsed().as_secs_f64();
    println!("  {made} runs of {} calls, {} done, in {seconds:.1} s", all.calls, all.done);
    print(made, &all, &of_line_records);
    if made < runs {
        return Err(format!("only {made} of {runs} runs in time"));
    }
    if all.compared.clients == 0 {
        return Err("no clean client".into());
    }
    if runs >= COVERING_RUNS { covers(made, &all, &of_line_records) } else { Ok(()) }
}

fn print(made: u64, all: &Run, of_line_records: &Compared) {
    let Run { loads, entries_loaded, delivered, hellos_delivered, compared, .. } = all;
    println!("  {loads} of them from a load, {entries_loaded} entries loaded");
    println!("  {delivered} messages in deliveries, {hellos_delivered} of them accepted hellos");
    println!(
        "  {} clients' copies equal at the end: {} messages, {} entries",
        compared.clients, compared.messages, compared.entries
    );
    println!(
        "  {} line records, {} clients' copies equal: {} messages, {} entries",
        made * LINE_RECORDS,
        of_line_records.clients,
        of_line_records.messages,
        of_line_records.entries
    );
}

/// Whether so many runs met what a run can meet.
fn covers(made: u64, all: &Run, of_line_records: &Compared) -> Result<(), String> {
    Err(if all.loads == 0 || all.loads as u64 == made || all.entries_loaded == 0 {
        "no run from a fresh start, or none from a load"
    } else if all.hellos_delivered == 0 {
        "no accepted hello in a delivery"
    } else if of_line_records.clients == 0 {
        "no clean client of a line record"
    } else {
        return Ok(());
    }
    .into())
}

fn main() -> ExitCode {
    status("convergence", run())
}
