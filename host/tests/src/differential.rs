//! Two implementations side by side: the same calls on the same memory, every byte compared.

use crate::call::{CALLS, Call, Outcome};
use crate::delivery::{SORTS, SingleCalls};
use crate::generate::{Generator, MOST_ROOM, Weights};
use crate::implementation::Implementation;
use crate::line_record::{self, ByHand};
use crate::memory::{Guarded, Memory};
use crate::reason::{self, Asked, real_call_differs};
use crate::saved::{self, Loaded, check_loaded, check_saved};
use nt2_sys::headed;
use std::collections::BTreeSet;
use std::marker::PhantomData;
use std::ops::RangeInclusive;
use std::sync::atomic::{AtomicBool, AtomicU64, Ordering};
use std::thread;
use std::time::{Duration, Instant};

/// Calls of one series, which begins with a table of its own.
const STEPS: usize = 400;

/// The numbers that a call can answer with, and of those with a place the ones that it can have at 0
/// and above 0.
struct Answers {
    numbers: &'static [usize],
    at_0: &'static [usize],
    above_0: &'static [usize],
}

impl Answers {
    const fn without_place(numbers: &'static [usize]) -> Self {
        Answers { numbers, at_0: &[], above_0: &[] }
    }
}

/// By call, as in [`Call::NAMES`]. In a message or a saved table no place is 0, but that of a type given
/// for it and, in a reason, that of a kind not there. Of a name alone every place is 0, of a value alone
/// that of a text is not.
const ANSWERS: [Answers; CALLS] = [
    Answers::without_place(&[0, 14]),
    Answers::without_place(&[0, 2, 3, 14]),
    Answers::without_place(&[0, 2, 3, 14]),
    Answers {
        numbers: &[0, 1, 2, 3, 4, 5, 6, 7, 8, 9, 10, 11, 12, 14, 16],
        at_0: &[],
        above_0: &[7, 8, 9, 10],
    },
    Answers {
        numbers: &[0, 1, 2, 3, 4, 5, 6, 7, 8, 9, 10, 11, 12, 14],
        at_0: &[],
        above_0: &[7, 8, 9, 10],
    },
    Answers::without_place(&[0, 1, 4, 14]),
    Answers {
        numbers: &[0, 1, 2, 3, 4, 5, 6, 7, 8, 9, 10, 11, 14, 16],
        at_0: &[1],
        above_0: &[1, 5, 6, 7, 8, 9, 10],
    },
    Answers::without_place(&[0, 12, 14]),
    Answers { numbers: &[0, 1, 3, 4, 7, 8, 9, 10, 13, 14, 15], at_0: &[], above_0: &[7, 8, 9, 10] },
    Answers {
        numbers: &[0, 1, 7, 8, 9, 10, 11, 12, 13, 14],
        at_0: &[7, 8, 9, 10],
        above_0: &[8, 9, 10],
    },
    Answers { numbers: &[0, 1, 6, 8, 9, 10, 12, 14, 16], at_0: &[8, 10], above_0: &[8, 9, 10] },
    Answers::without_place(&[0, 6, 14]),
    Answers { numbers: &[0, 1, 4, 7, 8, 9, 10, 12], at_0: &[7, 8, 9, 10], above_0: &[8, 9, 10] },
    Answers { numbers: &[0, 1, 4, 7, 8, 9, 10], at_0: &[7], above_0: &[7, 8, 9, 10] },
    Answers::without_place(&[0, 14]),
    Answers {
        numbers: &[0, 1, 4, 5, 6, 7, 8, 9, 10, 11, 13, 14, 16],
        at_0: &[],
        above_0: &[7, 8, 9, 10],
    },
    Answers::without_place(&[0, 6, 14]),
    Answers::without_place(&[0, 12, 14]),
];

/// Comparisons by call and number, the places of faults that were met with each, and the deliveries,
/// line records, reasons and loads of each sort.
#[derive(Clone, Debug)]
pub struct Report {
    pub comparisons: u64,
    pub numbers: [[u64; 17]; CALLS],
    places: BTreeSet<(usize, usize, usize)>,
    deliveries: [(&'static str, u64); SORTS],
    line_records: [(&'static str, u64); line_record::SORTS.len()],
    reasons: [(&'static str, u64); reason::SORTS],
    loads: [(&'static str, u64); saved::SORTS],
}

impl Report {
    fn new() -> Self {
        Report {
            comparisons: 0,
            numbers: [[0; 17]; CALLS],
            places: BTreeSet::new(),
            deliveries: SingleCalls::default().sorts().map(|(sort, _)| (sort, 0)),
            line_records: line_record::SORTS.map(|sort| (sort, 0)),
            reasons: Asked::no_sorts(),
            loads: Loaded::no_sorts(),
        }
    }

    fn count(&mut self, call: &Call, outcome: Outcome) {
        let (call, number) = (call.index(), usize::from(outcome.number()));
        self.comparisons += 1;
        self.numbers[call][number] += 1;
        if outcome.is_placed() {
            self.places.insert((call, number, outcome.place()));
        }
    }

    fn count_delivery(&mut self, made: &SingleCalls<'_>) {
        count_sorts(&mut self.deliveries, &made.sorts());
    }

    fn count_line_record(&mut self, run: &ByHand) {
        count_sorts(&mut self.line_records, &run.sorts());
    }

    fn count_reason(&mut self, asked: &Asked<'_>) {
        count_sorts(&mut self.reasons, &asked.sorts());
    }

    fn count_load(&mut self, loaded: &Loaded<'_>) {
        count_sorts(&mut self.loads, &loaded.sorts());
    }

    fn add(&mut self, other: &Report) {
        self.comparisons += other.comparisons;
        self.places.extend(&other.places);
        add_sorts(&mut self.deliveries, &other.deliveries);
        add_sorts(&mut self.line_records, &other.line_records);
        add_sorts(&mut self.reasons, &other.reasons);
        add_sorts(&mut self.loads, &other.loads);
        for (row, others) in self.numbers.iter_mut().zip(&other.numbers) {
            row.iter_mut().zip(others).for_each(|(n, m)| *n += m);
        }
    }

    /// Answers that a call can give and that were not met: numbers, and places at 0 and above 0. Sorts
    /// of deliveries, line records, reasons and loads too.
    pub fn missed(&self) -> Vec<String> {
        let calls = Call::NAMES.iter().zip(&ANSWERS).enumerate();
        let answers = calls.flat_map(|(call, (name, answers))| {
            let missed = self.missed_by(call, answers).into_iter();
            missed.map(move |what| format!("{name} {what}"))
        });
        let deliveries = self.deliveries.iter().map(|sort| ("delivery", sort));
        let sorts = deliveries
            .chain(self.line_records.iter().map(|sort| ("line record", sort)))
            .chain(self.reasons.iter().map(|sort| ("reason", sort)))
            .chain(self.loads.iter().map(|sort| ("load", sort)));
        let sorts = sorts.filter(|(_, (_, count))| *count == 0);
        answers.chain(sorts.map(|(of, (sort, _))| format!("{of} {sort}"))).collect()
    }

    fn missed_by(&self, call: usize, answers: &Answers) -> Vec<String> {
        let not_met = |number: &&usize| self.numbers[call][**number] == 0;
        let not_at_0 = |number: &&usize| self.places(call, **number, 0..=0) == 0;
        let not_above_0 = |number: &&usize| self.places(call, **number, 1..=usize::MAX) == 0;
        let numbers = answers.numbers.iter().filter(not_met).map(|n| n.to_string());
        let at_0 = answers.at_0.iter().filter(not_at_0).map(|n| format!("{n} at 0"));
        let above_0 = answers.above_0.iter().filter(not_above_0).map(|n| format!("{n} above 0"));
        numbers.chain(at_0).chain(above_0).collect()
    }

    /// At how many places of a range a call answered with a number.
    fn places(&self, call: usize, number: usize, range: RangeInclusive<usize>) -> usize {
        let key = |place: &usize| (call, number, *place);
        self.places.range(key(range.start())..=key(range.end())).count()
    }

    /// A line for each call: how often it answered with which number, and at how many places. One each
    /// for the sorts of deliveries, of line records, of reasons and of loads.
    pub fn lines(&self) -> Vec<String> {
        let calls = Call::NAMES.iter().zip(&self.numbers).enumerate();
        let line = |name: &str, met: Vec<String>| format!("  {name:<12} {}", met.join(", "));
        let calls = calls.map(|(call, (name, counts))| {
            let met = counts.iter().enumerate().filter(|(_, count)| **count > 0);
            let met = met.map(|(n, count)| format!("{n}: {count}{}", self.at(call, n)));
            line(name, met.collect())
        });
        let sorts = |sorts: &[(&str, u64)]| {
            sorts.iter().map(|(sort, count)| format!("{sort}: {count}")).collect()
        };
        let sorts = [
            line("deliveries", sorts(&self.deliveries)),
            line("line records", sorts(&self.line_records)),
            line("reasons", sorts(&self.reasons)),
            line("loads", sorts(&self.loads)),
        ];
        calls.chain(sorts).collect()
    }

    /// At how many places a call answered with a number, in words.
    fn at(&self, call: usize, number: usize) -> String {
        match self.places(call, number, 0..=usize::MAX) {
            0 => String::new(),
            1 => " at 1 place".into(),
            count => format!(" at {count} places"),
        }
    }
}

/// Counts the sorts that were met.
fn count_sorts(counts: &mut [(&str, u64)], met: &[(&str, bool)]) {
    counts.iter_mut().zip(met).for_each(|((_, count), (_, met))| *count += u64::from(*met));
}

fn add_sorts(counts: &mut [(&str, u64)], others: &[(&str, u64)]) {
    counts.iter_mut().zip(others).for_each(|((_, count), (_, other))| *count += other);
}

struct Side {
    server: Memory,
    copy: Memory,
    out: Guarded<u8>,
}

impl Side {
    fn perform<I: Implementation>(&mut self, call: &Call, room: usize) -> Result<Outcome, String> {
        self.out.lend_only(room);
        call.perform::<I>(&mut self.server, &mut self.copy, &mut self.out)
    }
}

struct Series<L, R> {
    generator: Generator,
    /// The memory before a call.
    before: (Memory, Memory),
    left: Side,
    right: Side,
    /// The right implementation's single calls, beside its deliveries and reasons, and its loads of
    /// what it saved.
    single: Side,
    report: Report,
    implementations: PhantomData<(L, R)>,
}

impl<L: Implementation, R: Implementation> Series<L, R> {
    fn new(seed: u64) -> Self {
        let mut generator = Generator::new(seed, Weights::ALL);
        let memory = |generator: &mut Generator| {
            let any = generator.random.below(65);
            let near_full = 62 + generator.random.below(3);
            let few = 1 + generator.random.below(6);
            let entries =
                generator.random.pick(&[0, 0, few, few, few, 16, near_full, near_full, any]);
            generator.sound_memory(entries)
        };
        let server = memory(&mut generator);
        let copy =
            if generator.random.percent(40) { server.clone() } else { memory(&mut generator) };
        let out = Guarded::output(MOST_ROOM);
        let side = || Side { server: server.clone(), copy: copy.clone(), out: out.clone() };
        Series {
            left: side(),
            right: side(),
            single: side(),
            before: (server, copy),
            generator,
            report: Report::new(),
            implementations: PhantomData,
        }
    }

    fn run(mut self) -> Result<Report, String> {
        for step in 0..STEPS {
            let result = if self.generator.random.percent(4) {
                self.damaged_calls()
            } else {
                let (call, room) = self.generator.call(&self.before.0, &self.before.1);
                match call {
                    Call::Replay { .. } => self.replay(&call),
                    Call::Load { .. } => self.load(&call),
                    _ => self.compare(&call, room).map(|_| ()),
                }
            };
            result.map_err(|failure| format!("step {step}: {failure}"))?;
        }
        Ok(self.report)
    }

    /// Some calls on damaged memory, which is then made good.
    fn damaged_calls(&mut self) -> Result<(), String> {
        let sound = self.before.clone();
        self.generator.damage(&mut self.before.0);
        self.generator.damage(&mut self.before.1);
        self.set_both();
        for _ in 0..7 {
            let (call, room) = self.generator.call(&sound.0, &sound.1);
            self.compare(&call, room)?;
        }
        let fresh = if self.generator.random.percent(50) { Call::Fresh } else { Call::CopyFresh };
        self.compare(&fresh, 0)?;
        self.before = sound;
        self.set_both();
        Ok(())
    }

    /// A line record on memory that may be damaged. The table that it makes is not gone on with.
    fn replay(&mut self, call: &Call) -> Result<(), String> {
        let sound = self.before.clone();
        if self.generator.random.percent(50) {
            self.generator.damage(&mut self.before.0);
            self.set_both();
        }
        self.compare(call, 0)?;
        self.before = sound;
        self.set_both();
        Ok(())
    }

    /// A load with the connections closed, on memory that may be damaged. Every second table that is
    /// loaded is gone on with, beside the connections of before.
    fn load(&mut self, call: &Call) -> Result<(), String> {
        let sound = self.before.clone();
        self.generator.before_load(&mut self.before.0);
        self.set_both();
        let loaded = self.compare(call, 0)?.number() == 0;
        if loaded && self.generator.random.percent(50) {
            self.before.0.marks.copy_from(&sound.0.marks);
        } else {
            self.before = sound;
        }
        self.set_both();
        Ok(())
    }

    fn set_both(&mut self) {
        for side in [&mut self.left, &mut self.right] {
            side.server.copy_from(&self.before.0);
            side.copy.copy_from(&self.before.1);
        }
    }

    /// Makes a call on both sides and compares. A client's message is asked about first, and so is the
    /// first one of a delivery.
    fn compare(&mut self, call: &Call, room: usize) -> Result<Outcome, String> {
        if let Call::Receive { connection, message }
        | Call::Deliver { connection, input: message } = call
        {
            let why = Call::Why { connection: *connection, message: message.clone() };
            self.compare_one(&why, 0)?;
        }
        self.compare_one(call, room)
    }

    /// Makes a call on both sides and compares answer, output and memory. What the call only reads is
    /// in guarded memory too.
    fn compare_one(&mut self, call: &Call, room: usize) -> Result<Outcome, String> {
        let outcome = self.left.perform::<L>(call, room)?;
        let other = self.right.perform::<R>(call, room)?;
        self.check_answers(outcome, other)
            .and_then(|()| self.check_single_calls(call, outcome))
            .and_then(|()| self.check_by_hand(call, outcome))
            .and_then(|()| self.check_real_call(call, outcome))
            .and_then(|()| self.check_saved_form(call, outcome))
            .and_then(|()| self.check_load(call, outcome))
            .and_then(|()| self.check_memories(outcome))
            .map_err(|what| {
                let (left, right) = (L::NAME, R::NAME);
                let shown = format!("{left}: {outcome:?}\n  {right}: {other:?}");
                format!("{what}\n  {call:?}, output of {room}\n  {shown}")
            })?;
        let written = outcome.written();
        self.keep_sent(call, written);
        self.left.out.refill(written);
        self.right.out.refill(written);
        self.report.count(call, outcome);
        Ok(outcome)
    }

    fn check_answers(&self, outcome: Outcome, other: Outcome) -> Result<(), String> {
        let (out, written) = (&self.left.out, outcome.written());
        Err(if outcome != other {
            "the answers differ"
        } else if !outcome.keeps_form() {
            "an answer has another form"
        } else if *out != self.right.out {
            "the outputs differ"
        } else if written > out.lent().len() || !out.is_filled_but(written) {
            "the output's rest has changed"
        } else {
            return Ok(());
        }
        .into())
    }

    /// A delivery answers, writes and makes of the table what single calls do.
    fn check_single_calls(&mut self, call: &Call, outcome: Outcome) -> Result<(), String> {
        let (Call::Deliver { connection, input }, Outcome::Delivered(delivered)) = (call, outcome)
        else {
            return Ok(());
        };
        let Side { server, out, .. } = &mut self.single;
        server.copy_from(&self.before.0);
        out.lend_only(self.right.out.lent().len());
        let made = SingleCalls::make::<R>(server, *connection, &input.0, out.lent_mut());
        if made.delivered != delivered || *out != self.right.out || *server != self.right.server {
            return Err(format!("single calls differ: {:?}", made.delivered));
        }
        out.refill(delivered.written);
        self.report.count_delivery(&made);
        Ok(())
    }

    /// A line record answers and makes of the table what the same calls made by hand do.
    fn check_by_hand(&mut self, call: &Call, outcome: Outcome) -> Result<(), String> {
        let (Call::Replay { record }, Outcome::Replayed(replayed)) = (call, outcome) else {
            return Ok(());
        };
        let run = ByHand::run::<R>(self.before.0.clone(), &record.0);
        if run.replayed != replayed {
            return Err(format!("calls by hand differ: {:?}", run.replayed));
        }
        if let Some(difference) = run.memory.difference(&self.right.server) {
            return Err(format!("calls by hand differ: {difference}"));
        }
        self.report.count_line_record(&run);
        Ok(())
    }

    /// A reason has the number of the call that it is about, and the place with 7 to 10.
    fn check_real_call(&mut self, call: &Call, outcome: Outcome) -> Result<(), String> {
        let (Call::Why { connection, message }, Outcome::Reason(reason)) = (call, outcome) else {
            return Ok(());
        };
        let (before, server) = (&self.before.0, &mut self.single.server);
        let (connection, message) = (*connection, &message.0[..]);
        server.copy_from(before);
        if let Some(answer) = real_call_differs::<R>(server, connection, message, reason) {
            return Err(format!("the real call differs: {answer:?}"));
        }
        self.report.count_reason(&Asked { server: before, connection, message, reason });
        Ok(())
    }

    /// What is saved is the form of the table, and loaded into the other memory it gives the same one.
    fn check_saved_form(&mut self, call: &Call, outcome: Outcome) -> Result<(), String> {
        let (table, other) = match call {
            Call::Save => (&self.before.0, &self.before.1),
            Call::CopySave => (&self.before.1, &self.before.0),
            _ => return Ok(()),
        };
        if outcome.number() != 0 {
            return Ok(());
        }
        self.single.server.copy_from(other);
        let saved = &self.right.out.lent()[..outcome.written()];
        check_saved::<R>(table, saved, &mut self.single.server)
    }

    /// What is loaded is saved as the same bytes.
    fn check_load(&mut self, call: &Call, outcome: Outcome) -> Result<(), String> {
        let (Call::Load { saved }, Outcome::Answer(answer)) = (call, outcome) else {
            return Ok(());
        };
        if answer.number == 0 {
            check_loaded::<R>(&mut self.right.server, &saved.0)?;
        }
        self.report.count_load(&Loaded { before: &self.before.0, saved: &saved.0, answer });
        Ok(())
    }

    fn check_memories(&mut self, outcome: Outcome) -> Result<(), String> {
        let (left, right) = (&self.left, &self.right);
        check_memory(&left.server, &right.server, &mut self.before.0, outcome)?;
        check_memory(&left.copy, &right.copy, &mut self.before.1, outcome)
    }

    /// Keeps what was sent, for a copy to take.
    fn keep_sent(&mut self, call: &Call, written: usize) {
        let written = &self.left.out.lent()[..written];
        match call {
            Call::Deliver { .. } => {
                headed(written).for_each(|(_, bytes)| self.generator.keep_sent(bytes));
            }
            Call::Save | Call::CopySave => {}
            _ => self.generator.keep_sent(written),
        }
    }
}

/// Both memories are the same, and as before where the call was not done.
fn check_memory(
    left: &Memory,
    right: &Memory,
    before: &mut Memory,
    outcome: Outcome,
) -> Result<(), String> {
    if left != right {
        return Err(left.difference(right).unwrap_or("lengths".into()));
    }
    if outcome.may_change_memory() {
        before.copy_from(left);
    } else if left != before {
        return Err("memory changed by a call that was not done".into());
    }
    Ok(())
}

/// How much is compared.
#[derive(Clone, Copy, Debug)]
pub struct Bounds {
    /// The first series' seed; each next one's is one more.
    pub seed: u64,
    pub comparisons: u64,
    pub time: Duration,
    pub threads: usize,
}

/// Series until there are enough comparisons or the time is over.
pub fn compare<L: Implementation, R: Implementation>(bounds: Bounds) -> Result<Report, String> {
    let (next, made) = (AtomicU64::new(bounds.seed), AtomicU64::new(0));
    let (failed, start) = (AtomicBool::new(false), Instant::now());
    let work = || {
        let mut report = Report::new();
        while made.load(Ordering::Relaxed) < bounds.comparisons
            && start.elapsed() < bounds.time
            && !failed.load(Ordering::Relaxed)
        {
            let seed = next.fetch_add(1, Ordering::Relaxed);
            let series = Series::<L, R>::new(seed).run().map_err(|failure| {
                failed.store(true, Ordering::Relaxed);
                format!("seed {seed}, {failure}")
            })?;
            made.fetch_add(series.comparisons, Ordering::Relaxed);
            report.add(&series);
        }
        Ok(report)
    };
    thread::scope(|scope| {
        let workers: Vec<_> = (0..bounds.threads.max(1)).map(|_| scope.spawn(work)).collect();
        // All of them are joined: the scope panics where one that panicked is not.
        let joined = workers.into_iter().map(|worker| worker.join());
        let reports: Vec<Result<Report, String>> =
            joined.map(|report| report.unwrap_or(Err("a series panicked".into()))).collect();
        let mut total = Report::new();
        for report in reports {
            total.add(&report?);
        }
        Ok(total)
    })
}

#[cfg(test)]
mod tests {
    use super::*;
    use crate::call::Hex;
    use nt2_sys::Answer;

    fn met(report: &mut Report, number: u8, place: usize) {
        let call = Call::Write { id: 0, value: Hex(Vec::new()) };
        report.count(&call, Outcome::Answer(Answer { number, place, ..Answer::default() }));
    }

    #[test]
    fn places_are_missed() {
        let mut report = Report::new();
        [0, 1, 6, 12, 14, 16].iter().for_each(|&number| met(&mut report, number, 0));
        [(8, 0), (8, 3), (9, 2), (10, 0)].iter().for_each(|&(n, place)| met(&mut report, n, place));
        let missed = report.missed();
        let of_write: Vec<_> =
            missed.iter().filter(|missed| missed.starts_with("write ")).collect();
        assert_eq!(of_write, ["write 10 above 0"]);
        assert!(missed.contains(&"create 9 at 0".into()));
    }
}
