//! Runs the replay program on the line records of the acceptance cases, on directed, long and random
//! ones, and compares what it writes with the text of the reference's table.
//!
//! Arguments: `--program PROGRAM`, `--seed N`, `--records N` random ones. A failure names the seed of a
//! random record; `--seed N --records 1` repeats it.

use nt2_tests::acceptance::{folder, line_records};
use nt2_tests::arguments::Arguments;
use nt2_tests::ending::status;
use nt2_tests::generate::{Directed, Generator, Weights};
use nt2_tests::implementation::Reference;
use nt2_tests::program::{written, written_slowly};
use nt2_tests::random::clock_seed;
use nt2_tests::table_text::replay_text;
use std::process::ExitCode;
use std::time::{Duration, Instant};

/// The program takes no longer, not even for a line record of 5 MB.
const MOST_TIME: Duration = Duration::from_secs(5);
/// So many random records have to meet entries and refusals.
const COVERING_RECORDS: u64 = 100;
/// Of so many cases one is run once more, with an input that comes in slowly.
const CASES_FOR_A_SLOW_ONE: usize = 8;
/// Bytes of two texts that are shown before and behind the place where they differ.
const AROUND: usize = 32;

/// What was compared.
#[derive(Default)]
struct Compared {
    records: usize,
    entries: usize,
    refused: usize,
    longest: Duration,
}

impl Compared {
    /// Runs the program on a line record, and answers how many entries it printed.
    fn add(&mut self, program: &str, record: &[u8]) -> Result<usize, String> {
        let text = replay_text::<Reference>(record);
        let start = Instant::now();
        let shown = written(program, record)?;
        self.longest = self.longest.max(start.elapsed());
        same(&shown, &text)?;
        let (entries, refused) = counts(&text);
        self.records += 1;
        self.entries += entries;
        self.refused += refused;
        Ok(entries)
    }

    fn add_directed(&mut self, program: &str, directed: &Directed) -> Result<(), String> {
        let Directed { what, record, entries } = directed;
        let failed = |failure| format!("line record '{what}': {failure}");
        match self.add(program, record).map_err(failed)? {
            shown if shown == *entries => Ok(()),
            shown => Err(failed(format!("{shown} entries, not {entries}"))),
        }
    }

    fn print(&self, sort: &str) {
        let Compared { records, entries, refused, longest } = self;
        let time = longest.as_secs_f64();
        println!("  {records} {sort}: {entries} entries, {refused} refused, {time:.2} s at most");
    }
}

/// The entries and refusals of a text. Only the line of an entry begins with a digit.
fn counts(text: &[u8]) -> (usize, usize) {
    let lines = text.split_inclusive(|&byte| byte == b'\n');
    let (entries, others): (Vec<_>, Vec<_>) = lines.partition(|line| line[0].is_ascii_digit());
    (entries.len(), others.len())
}

/// Where two texts differ, what they have there is the failure.
fn same(shown: &[u8], expected: &[u8]) -> Result<(), String> {
    if shown == expected {
        return Ok(());
    }
    let place = shown.iter().zip(expected).take_while(|(left, right)| left == right).count();
    let line = 1 + shown[..place].iter().filter(|&&byte| byte == b'\n').count();
    let around = |text: &[u8]| {
        let end = text.len().min(place + AROUND);
        text[place.saturating_sub(AROUND)..end].escape_ascii().to_string()
    };
    Err(format!("line {line} has '{}', not '{}'", around(shown), around(expected)))
}

fn cases(program: &str) -> Result<(), String> {
    let mut compared = Compared::default();
    for (place, record) in line_records(&folder())?.iter().enumerate() {
        let failed = |failure| format!("case {place}: {failure}");
        compared.add(program, record).map_err(failed)?;
        if place.is_multiple_of(CASES_FOR_A_SLOW_ONE) {
            let shown = written_slowly(program, record)?;
            same(&shown, &replay_text::<Reference>(record)).map_err(failed)?;
        }
    }
    compared.print("cases");
    Ok(())
}

fn directed(program: &str, sort: &str, records: &[Directed]) -> Result<(), String> {
    let mut compared = Compared::default();
    records.iter().try_for_each(|directed| compared.add_directed(program, directed))?;
    compared.print(sort);
    if compared.longest > MOST_TIME {
        return Err(format!("{sort}: one took more than {MOST_TIME:?}"));
    }
    Ok(())
}

fn random(program: &str, seed: u64, records: u64) -> Result<(), String> {
    let mut compared = Compared::default();
    for seed in (0..records).map(|place| seed.wrapping_add(place)) {
        let record = Generator::new(seed, Weights::RUN).line_record();
        let failed = |failure| format!("line record of seed {seed}: {failure}");
        compared.add(program, &record).map_err(failed)?;
    }
    compared.print("random line records");
    if records >= COVERING_RECORDS && (compared.entries == 0 || compared.refused == 0) {
        return Err("no entry, or no refusal".into());
    }
    Ok(())
}

fn run() -> Result<(), String> {
    let arguments = Arguments::read(&["program", "seed", "records"])?;
    let program = arguments.text("program").ok_or("--program has to be given")?;
    let seed = arguments.number("seed", clock_seed())?;
    println!("replay program: seed {seed}");
    let mut generator = Generator::new(seed, Weights::RUN);
    cases(program)?;
    directed(program, "directed line records", &generator.directed_records())?;
    directed(program, "line records of 5 MB", &generator.long_records())?;
    random(program, seed, arguments.number("records", 600)?)
}

fn main() -> ExitCode {
    status("replay", run())
}
