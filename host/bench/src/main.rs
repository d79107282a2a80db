//! Nanoseconds of every call on tables of 1, 16 and 64 entries, library beside reference in one
//! run and on the same memory. A call that makes an entry makes the last of them.
//!
//! Arguments: `--rounds N` (the fastest counts), `--microseconds N` of one round.

#![forbid(unsafe_code)]

use bench::measure::{Copying, Effort, calibrate, fastest, time};
use bench::subject::{
    CALLS, DELIVER_UPDATES, RECEIVE_UPDATES, REPLAY_ENTRIES, REPLAY_UPDATES, SAVE,
    SAVE_WITHOUT_ROOM, SIZES, Subject, TYPICAL, VALUES, WORST_CASE, has_table, sizes,
};
use nt2_tests::arguments::Arguments;
use nt2_tests::ending::status;
use nt2_tests::implementation::{Library, Reference};
use std::process::ExitCode;

/// The goals: library by reference, 64 entries by 16, 64 updates as one delivery by single calls, and
/// saving, beyond judging the table, by copying the form's bytes.
const MOST_RATIO: f64 = 1.0;
const MOST_GROWTH: f64 = 4.0;
const MOST_DELIVERY: f64 = 0.25;
const MOST_SAVING: f64 = 3.0;

/// Nanoseconds of one call: library and reference.
#[derive(Clone, Copy, Default)]
struct Times {
    library: f64,
    reference: f64,
}

fn measure(subject: &mut Subject, call: usize, effort: Effort) -> Times {
    let library = calibrate::<Library>(subject, call, effort);
    let reference = calibrate::<Reference>(subject, call, effort);
    let (mut libraries, mut references) = (Vec::new(), Vec::new());
    for _ in 0..effort.rounds {
        libraries.push(time(library, |n| subject.repeat::<Library>(call, n)));
        references.push(time(reference, |n| subject.repeat::<Reference>(call, n)));
    }
    Times { library: fastest(&libraries), reference: fastest(&references) }
}

/// Nanoseconds of copying the hello's answer once.
fn measure_copying(bytes: &[u8], effort: Effort) -> f64 {
    let mut copying = Copying::new(bytes);
    let iterations = copying.calibrate(effort);
    let rounds = (0..effort.rounds).map(|_| time(iterations, |n| copying.repeat(n)));
    fastest(&rounds.collect::<Vec<f64>>())
}

fn ratio(times: Times) -> f64 {
    times.library / times.reference
}

/// Whether a ratio is beyond its goal, as it is printed.
fn is_beyond(ratio: f64, goal: f64) -> bool {
    (100.0 * ratio).round() > 100.0 * goal
}

fn verdict(ratio: f64, goal: f64) -> &'static str {
    if is_beyond(ratio, goal) { "missed" } else { "reached" }
}

/// What a row has beyond the goals.
fn misses(name: &str, all: &[Times], growth: f64) -> Vec<String> {
    let slower = all.iter().zip(SIZES).filter(|(times, _)| is_beyond(ratio(**times), MOST_RATIO));
    let mut said: Vec<String> =
        slower.map(|(times, entries)| format!("{name}, {entries}: {:.2}", ratio(*times))).collect();
    if is_beyond(growth, MOST_GROWTH) {
        said.push(format!("{name}, growth: {growth:.2}"));
    }
    said
}

/// A hello's answer beside copying its bytes.
struct Hello {
    values: usize,
    entries: usize,
    bytes: usize,
    times: Times,
    copied: f64,
}

/// Updates of 64 entries: as one delivery, and by single calls.
struct Delivery {
    values: usize,
    delivered: Times,
    single: Times,
}

impl Delivery {
    /// Library's delivery by its single calls.
    fn by_single_calls(&self) -> f64 {
        self.delivered.library / self.single.library
    }
}

/// Line records of 60 KB that make a table of 64 entries.
struct LineRecords {
    values: usize,
    updates: Times,
    entries: Times,
}

/// The library's saving beside judging the table alone and copying the form's bytes, in turn.
struct Saving {
    values: usize,
    entries: usize,
    bytes: usize,
    saved: f64,
    judged: f64,
    copied: f64,
}

impl Saving {
    fn measure(values: usize, entries: usize, effort: Effort) -> Self {
        let subject = &mut Subject::new(values, entries);
        let mut copying = Copying::new(subject.saved());
        let calls = [SAVE, SAVE_WITHOUT_ROOM].map(place_of);
        let iterations = calls.map(|call| calibrate::<Library>(subject, call, effort));
        let copies = copying.calibrate(effort);
        let [mut saved, mut judged, mut copied] = [const { Vec::new() }; 3];
        for _ in 0..effort.rounds {
            saved.push(time(iterations[0], |n| subject.repeat::<Library>(calls[0], n)));
            judged.push(time(iterations[1], |n| subject.repeat::<Library>(calls[1], n)));
            copied.push(time(copies, |n| copying.repeat(n)));
        }
        let [saved, judged, copied] = [saved, judged, copied].map(|times| fastest(&times));
        Saving { values, entries, bytes: subject.saved().len(), saved, judged, copied }
    }

    /// What is beyond judging the table, by copying.
    fn by_copying(&self) -> f64 {
        (self.saved - self.judged) / self.copied
    }
}

/// The place of a call among all.
fn place_of(name: &str) -> usize {
    CALLS.iter().position(|call| *call == name).expect("a row of its own")
}

/// What was measured beside the rows.
#[derive(Default)]
struct Measured {
    hellos: Vec<Hello>,
    deliveries: Vec<Delivery>,
    line_records: Vec<LineRecords>,
    savings: Vec<Saving>,
    beyond: Vec<String>,
}

impl Measured {
    /// Measures and prints a call's row, and answers its times.
    fn row(&mut self, values: usize, call: usize, effort: Effort) -> [Times; SIZES.len()] {
        let name = CALLS[call];
        let mut all = [Times::default(); SIZES.len()];
        print!("{name:<22}");
        for (times, &entries) in all.iter_mut().zip(sizes(call)) {
            let mut subject = Subject::new(values, entries);
            *times = measure(&mut subject, call, effort);
            print!(" {:>9.1} {:>9.1} {:>6.2}", times.library, times.reference, ratio(*times));
            if name == "receive hello" {
                let bytes = subject.hello_answer().len();
                let copied = measure_copying(subject.hello_answer(), effort);
                self.hellos.push(Hello { values, entries, bytes, times: *times, copied });
            }
        }
        let growth = (all[2].library / all[1].library, all[2].reference / all[1].reference);
        if has_table(call) {
            print!("  {:>6.2} ({:>6.2})", growth.0, growth.1);
        }
        println!();
        if values != WORST_CASE {
            let row = misses(name, &all, growth.0).into_iter();
            self.beyond.extend(row.map(|miss| format!("{}: {miss}", VALUES[values])));
        }
        all
    }

    /// Keeps what the rows of a set of values say of a delivery and of line records on the largest
    /// table.
    fn keep_largest(&mut self, values: usize, rows: &[[Times; SIZES.len()]]) {
        let largest = |name| rows[place_of(name)][SIZES.len() - 1];
        let (updates, entries) = (largest(REPLAY_UPDATES), largest(REPLAY_ENTRIES));
        self.line_records.push(LineRecords { values, updates, entries });
        let (delivered, single) = (largest(DELIVER_UPDATES), largest(RECEIVE_UPDATES));
        let delivery = Delivery { values, delivered, single };
        let by_single_calls = delivery.by_single_calls();
        if values == TYPICAL && is_beyond(by_single_calls, MOST_DELIVERY) {
            let miss = format!("{DELIVER_UPDATES} by single calls: {by_single_calls:.2}");
            self.beyond.push(format!("{}: {miss}", VALUES[values]));
        }
        self.deliveries.push(delivery);
    }

    /// Measures saving beside copying.
    fn save(&mut self, values: usize, effort: Effort) {
        for entries in SIZES {
            let saving = Saving::measure(values, entries, effort);
            let by_copying = saving.by_copying();
            if is_beyond(by_copying, MOST_SAVING) {
                let miss = format!("{SAVE}, {entries}, by copying: {by_copying:.2}");
                self.beyond.push(format!("{}: {miss}", VALUES[values]));
            }
            self.savings.push(saving);
        }
    }

    fn print_savings(&self) {
        println!(
            "\nsaving, judging the table alone, copying the form's bytes; saving less judging by copying\n"
        );
        println!(
            "{:<46} {:>7} {:>6} {:>10} {:>10} {:>9} {:>7}",
            "values", "entries", "bytes", "saving", "judging", "copying", "ratio"
        );
        for saving in &self.savings {
            let Saving { values, entries, bytes, saved, judged, copied } = saving;
            println!(
                "{:<46} {entries:>7} {bytes:>6} {saved:>10.1} {judged:>10.1} {copied:>9.1} {:>7.2}",
                VALUES[*values],
                saving.by_copying()
            );
        }
        println!("\ngoal of saving, beyond judging at most {MOST_SAVING:.2} of copying:");
        for of_values in self.savings.chunks(SIZES.len()) {
            let said = of_values.iter().map(|saving| verdict(saving.by_copying(), MOST_SAVING));
            let said: Vec<_> = said.collect();
            println!("  {}: {}", VALUES[of_values[0].values], said.join(", "));
        }
    }

    fn print_deliveries(&self) {
        println!(
            "\n64 updates of 64 entries: one delivery, single calls, the reference's delivery\n"
        );
        println!(
            "{:<46} {:>10} {:>10} {:>7} {:>10} {:>7}",
            "values", "delivery", "single", "ratio", "reference", "ratio"
        );
        for delivery in &self.deliveries {
            let Delivery { values, delivered, single } = delivery;
            println!(
                "{:<46} {:>10.1} {:>10.1} {:>7.2} {:>10.1} {:>7.2}",
                VALUES[*values],
                delivered.library,
                single.library,
                delivery.by_single_calls(),
                delivered.reference,
                ratio(*delivered)
            );
        }
        for typical in self.deliveries.iter().filter(|delivery| delivery.values == TYPICAL) {
            let by_single_calls = verdict(typical.by_single_calls(), MOST_DELIVERY);
            let by_reference = verdict(ratio(typical.delivered), MOST_RATIO);
            println!("\ngoals of a delivery, typical values:");
            println!("  at most {MOST_DELIVERY:.2} of single calls: {by_single_calls}");
            println!("  at most {MOST_RATIO:.2} of the reference's delivery: {by_reference}");
        }
    }

    fn print_line_records(&self) {
        println!("\nline records of 60 KB that make a table of 64 entries: updates, entries\n");
        println!(
            "{:<46} {:>10} {:>10} {:>7} {:>10} {:>10} {:>7}",
            "values", "updates", "reference", "ratio", "entries", "reference", "ratio"
        );
        for LineRecords { values, updates, entries } in &self.line_records {
            println!(
                "{:<46} {:>10.1} {:>10.1} {:>7.2} {:>10.1} {:>10.1} {:>7.2}",
                VALUES[*values],
                updates.library,
                updates.reference,
                ratio(*updates),
                entries.library,
                entries.reference,
                ratio(*entries)
            );
        }
        println!("\ngoals of a line record, at most {MOST_RATIO:.2} of the reference's run:");
        for LineRecords { values, updates, entries } in &self.line_records {
            let said = |times| verdict(ratio(times), MOST_RATIO);
            println!("  {}: {}, {}", VALUES[*values], said(*updates), said(*entries));
        }
    }

    fn print_hellos(&self) {
        println!("\nhello answer beside copying its bytes\n");
        println!(
            "{:<46} {:>7} {:>6} {:>10} {:>10} {:>9} {:>9}",
            "values", "entries", "bytes", "library", "reference", "copying", "lib/copy"
        );
        for Hello { values, entries, bytes, times: Times { library, reference }, copied } in
            &self.hellos
        {
            println!(
                "{:<46} {entries:>7} {bytes:>6} {library:>10.1} {reference:>10.1} {copied:>9.1} {:>9.2}",
                VALUES[*values],
                library / copied
            );
        }
    }
}

fn run() -> Result<(), String> {
    let arguments = Arguments::read(&["rounds", "microseconds"])?;
    let effort = Effort::given(&arguments, 25, 500)?;
    println!(
        "ns per call: library, reference, ratio; growth: 64 entries by 16, library (reference)"
    );
    let mut measured = Measured::default();
    for (values, title) in VALUES.iter().enumerate() {
        println!("\n{title}");
        if values == WORST_CASE {
            println!("the worst case for the test that names differ; not held to the goals");
        }
        println!(
            "\n{:<22} {:>26} {:>26} {:>26}  {:>15}",
            "call", "1 entry", "16 entries", "64 entries", "growth"
        );
        let rows = (0..CALLS.len()).map(|call| measured.row(values, call, effort));
        let rows: Vec<_> = rows.collect();
        measured.keep_largest(values, &rows);
        measured.save(values, effort);
    }
    measured.print_hellos();
    measured.print_deliveries();
    measured.print_line_records();
    measured.print_savings();
    let beyond = measured.beyond;
    println!(
        "\nbeyond the goals, {MOST_RATIO:.2}, {MOST_GROWTH:.2}, {MOST_DELIVERY:.2} and {MOST_SAVING:.2}: {}",
        beyond.len()
    );
    beyond.iter().for_each(|miss| println!("  {miss}"));
    Ok(())
}

fn main() -> ExitCode {
    status("bench", run())
}

#[cfg(test)]
mod tests {
    use super::*;

    #[test]
    fn ratios_are_judged_as_they_are_printed() {
        assert!(!is_beyond(1.0049, MOST_RATIO));
        assert!(is_beyond(1.0051, MOST_RATIO));
        assert!(!is_beyond(4.0049, MOST_GROWTH));
        assert!(is_beyond(4.0051, MOST_GROWTH));
        assert!(!is_beyond(f64::NAN, MOST_RATIO));
    }
}
