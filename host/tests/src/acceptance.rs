//! Runs the acceptance cases, format nt2-cases-1 (`cases/FORMAT.md`).

use crate::call::{Call, Hex, Outcome};
use crate::convergence::{Clients, any_memory};
use crate::implementation::Implementation;
use crate::json::Json;
use crate::line_record::ByHand;
use crate::memory::{Guarded, Memory};
use crate::random::Random;
use crate::reason::real_call_differs;
use crate::saved::{check_loaded, check_saved};
use nt2_sys::{
    Answer, CONNECTIONS, Copied, Delivered, ENTRIES, Fields, Head, LONGEST_HELLO_ANSWER, Reason,
    Replayed, TABLE_BYTES,
};
use std::fmt::Write;
use std::fs;
use std::path::{Path, PathBuf};

/// The files of cases, with the number of cases in each.
pub const FILES: [(&str, usize); 11] = [
    ("client.json", 2527),
    ("copy.json", 755),
    ("deliver.json", 111),
    ("listing.json", 63),
    ("local.json", 846),
    ("replay.json", 86),
    ("runs.json", 130),
    ("saved.json", 485),
    ("unsound.json", 1321),
    ("why.json", 282),
    ("writer.json", 1960),
];

/// Bytes that the listing program reads.
const LISTING_INPUT: usize = 4096;

type Checked<T = ()> = Result<T, String>;

/// The folder of the cases in this workspace.
pub fn folder() -> PathBuf {
    Path::new(env!("CARGO_MANIFEST_DIR")).join("../cases")
}

/// What came of a file: its cases, and a line for each that failed.
#[derive(Debug)]
pub struct FileRun {
    pub cases: usize,
    pub failures: Vec<String>,
}

/// What a file of cases holds.
fn read_file(folder: &Path, file: &str) -> Checked<Json> {
    let text = fs::read_to_string(folder.join(file)).map_err(|e| format!("{file}: {e}"))?;
    Json::parse(&text).map_err(|e| format!("{file}: {e}"))
}

/// Runs all cases of a file.
pub fn run_file<I: Implementation>(folder: &Path, file: &str) -> Checked<FileRun> {
    let json = read_file(folder, file)?;
    if member(&json, "format")?.text()? != "nt2-cases-1" {
        return Err(format!("{file}: another format"));
    }
    let memories = member(&json, "mems")?.list()?;
    let memories: Vec<Memory> = memories.iter().map(memory).collect::<Checked<_>>()?;
    let cases = member(&json, "cases")?.list()?;
    let failures = cases.iter().enumerate().filter_map(|(place, case)| {
        let failure = check::<I>(&memories, case).err()?;
        Some(format!("{file}, case {place}: {failure}"))
    });
    Ok(FileRun { cases: cases.len(), failures: failures.collect() })
}

fn member<'a>(json: &'a Json, key: &str) -> Checked<&'a Json> {
    json.get(key).ok_or_else(|| format!("{key:?} is missing"))
}

fn number<N: TryFrom<u64>>(json: &Json, key: &str) -> Checked<N> {
    member(json, key)?.number()
}

fn bytes(json: &Json, key: &str) -> Checked<Vec<u8>> {
    member(json, key)?.bytes()
}

fn hex(json: &Json, key: &str) -> Checked<Hex> {
    Ok(Hex(bytes(json, key)?))
}

/// The elements of a list that may be absent.
fn elements<'a>(json: &'a Json, key: &str) -> Checked<&'a [Json]> {
    json.get(key).map_or(Ok(&[]), Json::list)
}

/// Builds a memory: the seed's pattern, entries, heads and bytes in this order.
fn memory(json: &Json) -> Checked<Memory> {
    let (seed, count) = (number::<usize>(json, "s")?, number(json, "n")?);
    let head = |i: usize| Head {
        name_length: ((seed + i) % 256) as u16,
        value_length: ((3 * seed + i) % 512) as u16,
        type_code: ((5 * seed + i) % 256) as u16,
        number: ((7 * seed + 257 * i) % 65_536) as u16,
    };
    let heads: Vec<Head> = (0..number(json, "h")?).map(head).collect();
    let pattern: Vec<u8> =
        (0..number(json, "b")?).map(|j: usize| (seed + 31 * j + j / 256) as u8).collect();
    let marks = json.get("k").map_or(Ok(Vec::new()), Json::bytes)?;
    let mut memory = Memory::new(&heads, &pattern, count, &marks);
    for entry in elements(json, "e")? {
        let [i, name, type_code, number, value] = entry.list()? else {
            return Err("an entry has five fields".into());
        };
        let (name, value) = (name.bytes()?, value.bytes()?);
        memory.put_entry(i.number()?, &name, type_code.number()?, number.number()?, &value);
    }
    put_heads(&mut memory, elements(json, "hp")?)?;
    put_bytes(&mut memory, elements(json, "bp")?)?;
    Ok(memory)
}

fn put_heads(memory: &mut Memory, heads: &[Json]) -> Checked {
    for head in heads {
        let [i, name_length, value_length, type_code, number] = head.list()? else {
            return Err("a head has five fields".into());
        };
        memory.heads.lent_mut()[i.number::<usize>()?] = Head {
            name_length: name_length.number()?,
            value_length: value_length.number()?,
            type_code: type_code.number()?,
            number: number.number()?,
        };
    }
    Ok(())
}

fn put_bytes(memory: &mut Memory, runs: &[Json]) -> Checked {
    for run in runs {
        let [offset, bytes] = run.list()? else {
            return Err("a run of bytes has two fields".into());
        };
        memory.put_bytes(offset.number()?, &bytes.bytes()?);
    }
    Ok(())
}

/// The memory of a case, which calls on single messages lack.
fn case_memory(memories: &[Memory], case: &Json) -> Checked<Memory> {
    let Some(place) = case.get("m") else {
        return Ok(Memory::new(&[], &[], 0, &[]));
    };
    memories.get(place.number::<usize>()?).cloned().ok_or("no such memory".into())
}

/// The memory after a case.
fn changed(mut memory: Memory, case: &Json) -> Checked<Memory> {
    let Some(change) = case.get("d") else {
        return Ok(memory);
    };
    if let Some(count) = change.get("n") {
        memory.set_count(count.number()?);
    }
    if let Some(marks) = change.get("k") {
        memory.marks.lent_mut().copy_from_slice(&marks.bytes()?);
    }
    put_heads(&mut memory, elements(change, "h")?)?;
    put_bytes(&mut memory, elements(change, "b")?)?;
    Ok(memory)
}

fn check<I: Implementation>(memories: &[Memory], case: &Json) -> Checked {
    match member(case, "c")?.text()? {
        "listing" => check_listing::<I>(case),
        "run" => check_run::<I>(memories, case),
        name => check_call::<I>(memories, case, name),
    }
}

/// One call: its answer, all of its output and all of its memory.
fn check_call<I: Implementation>(memories: &[Memory], case: &Json, name: &str) -> Checked {
    let call = case_call(case, name)?;
    let before = case_memory(memories, case)?;
    let (mut server, mut copy) = (before.clone(), before.clone());
    let mut out = Guarded::output(case.get("o").map_or(Ok(0), Json::number)?);
    let outcome = call.perform::<I>(&mut server, &mut copy, &mut out)?;

    match outcome {
        Outcome::Delivered(delivered) => check_delivered(case, &call, delivered)?,
        Outcome::Replayed(replayed) => {
            check_replayed::<I>(case, &before, replayed)?;
        }
        Outcome::Reason(reason) => check_reason::<I>(case, &call, &before, reason)?,
        Outcome::Saved(answer) => {
            check_save::<I>(case, &before, answer, &out)?;
        }
        Outcome::Answer(answer) if matches!(call, Call::Load { .. }) => {
            check_load::<I>(case, &server, answer)?;
        }
        _ => check_outcome(case, &call, outcome)?,
    }
    check_output(case, outcome.written(), &out)?;
    let on_copy = matches!(call, Call::CopyFresh | Call::CopyReceive { .. });
    let (after, other) = if on_copy { (copy, server) } else { (server, copy) };
    if let Some(difference) = other.difference(&before) {
        return Err(format!("memory that was not lent: {difference}"));
    }
    match after.difference(&changed(before, case)?) {
        Some(difference) => Err(format!("memory: {difference}")),
        None => Ok(()),
    }
}

fn case_call(case: &Json, name: &str) -> Checked<Call> {
    Ok(match name {
        "fresh" => Call::Fresh,
        "copyfresh" => Call::CopyFresh,
        "open" => Call::Open { connection: number(case, "n")? },
        "leave" => Call::Leave { connection: number(case, "n")? },
        "msg" => Call::Receive { connection: number(case, "n")?, message: hex(case, "i")? },
        "deliver" => Call::Deliver { connection: number(case, "n")?, input: hex(case, "i")? },
        "replay" => Call::Replay { record: hex(case, "i")? },
        "why" => Call::Why { connection: number(case, "n")?, message: hex(case, "i")? },
        "save" => Call::Save,
        "load" => Call::Load { saved: hex(case, "i")? },
        "create" => Call::Create {
            name: hex(case, "name")?,
            type_code: number(case, "t")?,
            value: hex(case, "v")?,
        },
        "write" => Call::Write { id: number(case, "id")?, value: hex(case, "v")? },
        "read" => Call::Read { id: number(case, "id")? },
        "copy" => Call::CopyReceive { message: hex(case, "i")? },
        "writer" => Call::Encode {
            kind: number(case, "kind")?,
            revision: number(case, "rev")?,
            name: hex(case, "name")?,
            type_code: number(case, "t")?,
            id: number(case, "id")?,
            number: number(case, "num")?,
            value: hex(case, "v")?,
        },
        "reader" => Call::Decode { bytes: hex(case, "i")?, update_type: number(case, "t")? },
        _ => return Err(format!("call {name:?}")),
    })
}

/// An answer with a case's [number, taken, sent, recipients] and its place.
fn expected_answer(result: &[Json], place: usize) -> Checked<Answer> {
    let [number, taken, sent, recipients] = result else {
        return Err("an answer has four fields".into());
    };
    Ok(Answer {
        number: number.number()?,
        taken: taken.number()?,
        sent: sent.number()?,
        recipients: recipients.number()?,
        place,
    })
}

fn check_outcome(case: &Json, call: &Call, outcome: Outcome) -> Checked {
    let place = case.get("p").map_or(Ok(0), Json::number)?;
    let expected = expected_answer(member(case, "r")?.list()?, place)?;
    let (number, taken) = (expected.number, expected.taken);
    let as_expected = match (outcome, call) {
        (Outcome::Answer(answer), _) => answer == expected,
        (Outcome::Copied(copied), _) => {
            let revision = self::number(case, "rev")?;
            copied == Copied { number, revision, taken, place }
        }
        (Outcome::Scalar(_), _) => outcome == expected_scalar(case, number)?,
        (Outcome::Fields(fields), Call::Decode { bytes, .. }) => {
            (fields.number, fields.taken, fields.place) == (number, taken, place)
                && fields_match(case, fields, &bytes.0)?
        }
        _ => false,
    };
    if as_expected {
        Ok(())
    } else {
        Err(format!("{call:?} answers {outcome:?}, not {expected:?}"))
    }
}

/// A delivery with a case's [why it ended, number, messages, taken, written, place].
fn check_delivered(case: &Json, call: &Call, delivered: Delivered) -> Checked {
    let [why, number, messages, taken, written, place] = member(case, "x")?.list()? else {
        return Err("a delivery has six fields".into());
    };
    let ended = match why.text()? {
        "refused" => Delivered::REFUSED,
        "spent" => Delivered::SPENT,
        "64" => Delivered::MAX_REACHED,
        why => return Err(format!("a delivery ended by {why:?}")),
    };
    let expected = Delivered {
        number: number.number()?,
        ended,
        messages: messages.number()?,
        taken: taken.number()?,
        written: written.number()?,
        place: place.number()?,
    };
    if delivered == expected {
        Ok(())
    } else {
        Err(format!("{call:?} answers {delivered:?}, not {expected:?}"))
    }
}

/// A line record with a case's [number, records, calls], run at once and by hand.
fn check_replayed<I: Implementation>(case: &Json, before: &Memory, replayed: Replayed) -> Checked {
    let [number, records, calls] = member(case, "x")?.list()? else {
        return Err("a line record has three fields".into());
    };
    let expected = Replayed { number: number.number()?, records: records.number()? };
    let by_hand = ByHand::run::<I>(before.clone(), &bytes(case, "i")?);
    let (calls, made) = (calls.number::<usize>()?, by_hand.calls.len());
    if replayed != expected {
        return Err(format!("replay answers {replayed:?}, not {expected:?}"));
    }
    if by_hand.replayed != expected || made != calls {
        let answered = by_hand.replayed;
        return Err(format!("by hand {answered:?} with {made} calls, not {expected:?}, {calls}"));
    }
    match by_hand.memory.difference(&changed(before.clone(), case)?) {
        Some(difference) => Err(format!("memory, by hand: {difference}")),
        None => Ok(()),
    }
}

/// A reason with a case's name of it and what it tells, and the call that it is about.
fn check_reason<I: Implementation>(
    case: &Json,
    call: &Call,
    before: &Memory,
    reason: Reason,
) -> Checked {
    let expected = expected_reason(member(case, "x")?.list()?)?;
    if reason != expected {
        return Err(format!("{call:?} answers {reason:?}, not {expected:?}"));
    }
    let (connection, message) = (number(case, "n")?, bytes(case, "i")?);
    match real_call_differs::<I>(&mut before.clone(), connection, &message, reason) {
        Some(answer) => Err(format!("{call:?} answers {reason:?}, the call itself {answer:?}")),
        None => Ok(()),
    }
}

/// A save with a case's [number, taken, sent, recipients]. What was saved is loaded again, into memory
/// that holds something else.
fn check_save<I: Implementation>(
    case: &Json,
    before: &Memory,
    answer: Answer,
    out: &Guarded<u8>,
) -> Checked {
    let expected = expected_answer(member(case, "x")?.list()?, 0)?;
    if answer != expected {
        return Err(format!("save answers {answer:?}, not {expected:?}"));
    }
    if answer.number != 0 {
        return Ok(());
    }
    let mut other = any_memory(&mut Random::new(answer.sent as u64));
    check_saved::<I>(before, &out.lent()[..answer.sent], &mut other)
}

/// A load with a case's [number, taken, sent, recipients, place]. What was loaded is saved again.
fn check_load<I: Implementation>(case: &Json, after: &Memory, answer: Answer) -> Checked {
    let (place, result) = member(case, "x")?.list()?.split_last().ok_or("a load has a place")?;
    let expected = expected_answer(result, place.number()?)?;
    if answer != expected {
        return Err(format!("load answers {answer:?}, not {expected:?}"));
    }
    if answer.number != 0 {
        return Ok(());
    }
    check_loaded::<I>(&mut after.clone(), &bytes(case, "i")?)
}

fn expected_reason(told: &[Json]) -> Checked<Reason> {
    let (name, fields) = told.split_first().ok_or("a reason without a name")?;
    let mut expected = Reason::default();
    (expected.reason, expected.number) = match name.text()? {
        "refused" => (Reason::REFUSED, 0),
        "keep alive" => (Reason::KEEP_ALIVE, 16),
        "duplicate" => (Reason::NAME_HELD, 16),
        "equal" => (Reason::EQUAL, 16),
        "older" => (Reason::OLDER, 16),
        "undefined" => (Reason::UNDEFINED, 16),
        "applied" => (Reason::APPLIED, 0),
        "done" => (Reason::DONE, 0),
        name => return Err(format!("reason {name:?}")),
    };
    match (expected.reason, fields) {
        (Reason::REFUSED, [number, place]) => {
            (expected.number, expected.place) = (number.number()?, place.number()?);
        }
        (Reason::NAME_HELD, [id]) => expected.id = id.number()?,
        (Reason::OLDER | Reason::APPLIED, [distance]) => expected.distance = distance.number()?,
        (Reason::UNDEFINED, []) => expected.distance = 32_768,
        (Reason::KEEP_ALIVE | Reason::EQUAL | Reason::DONE, []) => {}
        _ => return Err(format!("reason {:?} with other fields", name.text()?)),
    }
    Ok(expected)
}

fn expected_scalar(case: &Json, number: u8) -> Checked<Outcome> {
    let mut scalar = nt2_sys::Scalar { number, ..nt2_sys::Scalar::default() };
    if let Some(found) = case.get("x") {
        let [kind, value] = found.list()? else {
            return Err("a scalar has two fields".into());
        };
        match kind.text()? {
            "bool" => scalar.flag = value.number::<u8>()? == 1,
            "double" => {
                let bytes: [u8; 8] = value.bytes()?.try_into().map_err(|_| "a Double's length")?;
                (scalar.found, scalar.value) = (1, f64::from_be_bytes(bytes));
            }
            _ => scalar.found = 2,
        }
    }
    Ok(Outcome::Scalar(scalar))
}

/// Whether all fields are those of the case; fields that its kind lacks are 0.
fn fields_match(case: &Json, fields: Fields, message: &[u8]) -> Checked<bool> {
    let Fields { number: answered, place, .. } = fields;
    let mut expected = Fields { number: answered, place, ..Fields::default() };
    let Some(found) = case.get("x") else {
        return Ok(fields == expected);
    };
    let optional = |key: &str| found.get(key).map_or(Ok(0), Json::number);
    expected.taken = fields.taken;
    expected.kind = number(found, "kind")?;
    expected.revision = optional("revision")?;
    expected.id = optional("id")?;
    expected.entry_number = optional("number")?;
    expected.type_code = found.get("type").map_or(Ok(0), Json::number)?;
    let name = found.get("name").map_or(Ok(Vec::new()), Json::bytes)?;
    let value = found.get("value").map_or(Ok(Vec::new()), Json::bytes)?;
    (expected.name_length, expected.value_length) = (name.len(), value.len());
    Ok(fields == expected
        && (found.get("name").is_none() || message[3..].starts_with(&name))
        && message[..fields.taken].ends_with(&value))
}

/// The bytes sent, and the rest of the output as it was lent.
fn check_output(case: &Json, sent: usize, out: &Guarded<u8>) -> Checked {
    if !out.is_filled_but(sent) {
        return Err("the output's rest has changed".into());
    }
    let bytes = &out.lent()[..sent];
    let same = match (case.get("w"), case.get("wf")) {
        (Some(expected), _) => bytes == expected.bytes()?,
        (None, Some(hash)) => fnv(bytes.iter().copied()) == hash.number()?,
        (None, None) => sent == 0,
    };
    if same { Ok(()) } else { Err(format!("output {:?}", Hex(bytes.to_vec()))) }
}

/// FNV-1a, 32 bits.
fn fnv(bytes: impl IntoIterator<Item = u8>) -> u32 {
    let step = |hash: u32, byte| (hash ^ u32::from(byte)).wrapping_mul(16_777_619);
    bytes.into_iter().fold(2_166_136_261, step)
}

/// FNV of a memory: count, marks, heads and bytes.
fn fnv_memory(memory: &Memory) -> u32 {
    let heads = memory.heads.lent().iter().flat_map(|head| {
        let [n, m] = head.name_length.to_be_bytes();
        let [v, w] = head.value_length.to_be_bytes();
        let [a, b] = head.number.to_be_bytes();
        [n, m, v, w, head.type_code as u8, a, b]
    });
    let count = memory.count.lent()[0].to_be_bytes();
    let marks = memory.marks.lent().iter().copied();
    fnv(count.into_iter().chain(marks).chain(heads).chain(memory.bytes.lent().iter().copied()))
}

/// The listing program's output for an input, by the calls of an implementation.
pub fn listing<I: Implementation>(input: &[u8]) -> String {
    let input = &input[..input.len().min(LISTING_INPUT)];
    let mut memory =
        Memory::new(&[Head::default(); ENTRIES], &[0; TABLE_BYTES], 0, &[0; CONNECTIONS]);
    let mut out = vec![0; LONGEST_HELLO_ANSWER];
    let (table, marks) = memory.lend();
    I::fresh(table, marks);
    let (table, marks) = memory.lend();
    I::open(table, marks, 0);
    let (mut offset, mut text) = (0, String::from("offset taken answer to sent\n"));
    while offset < input.len() {
        let (table, marks) = memory.lend();
        let a = I::receive(table, marks, 0, &input[offset..], &mut out);
        let _ = writeln!(text, "{offset} {} {} {:04x} {}", a.taken, a.number, a.recipients, a.sent);
        if a.taken == 0 {
            break;
        }
        offset += a.taken;
    }
    let _ = writeln!(text, "end {offset} entries {}", memory.count());
    text
}

/// The inputs of the listing program's cases, each with what it writes.
pub fn listing_cases(folder: &Path) -> Checked<Vec<(Vec<u8>, String)>> {
    let json = read_file(folder, "listing.json")?;
    let cases = member(&json, "cases")?.list()?.iter();
    cases.map(|case| Ok((bytes(case, "i")?, member(case, "text")?.text()?.to_string()))).collect()
}

/// The line records of the cases, whatever memory these are about.
pub fn line_records(folder: &Path) -> Checked<Vec<Vec<u8>>> {
    let json = read_file(folder, "replay.json")?;
    member(&json, "cases")?.list()?.iter().map(|case| bytes(case, "i")).collect()
}

fn check_listing<I: Implementation>(case: &Json) -> Checked {
    let text = listing::<I>(&bytes(case, "i")?);
    if text == member(case, "text")?.text()? { Ok(()) } else { Err(format!("listing {text:?}")) }
}

/// A run: each step's answer, output and memory, the memory at its end, the bytes addressed to
/// each reader, and each reader's copy.
fn check_run<I: Implementation>(memories: &[Memory], case: &Json) -> Checked {
    let before = case_memory(memories, case)?;
    let mut memory = before.clone();
    let mut clients = Clients::new();
    for (place, step) in member(case, "steps")?.list()?.iter().enumerate() {
        check_step::<I>(step.list()?, &mut memory, &mut clients)
            .map_err(|failure| format!("step {place}: {failure}"))?;
    }
    if let Some(difference) = memory.difference(&changed(before, case)?) {
        return Err(format!("memory: {difference}"));
    }
    let Json::Object(readers) = member(case, "readers")? else {
        return Err("readers are an object".into());
    };
    for connection in 0..CONNECTIONS {
        let reader = readers.iter().find(|(key, _)| *key == connection.to_string());
        match (clients.addressed(connection), reader) {
            (None, None) => {}
            (Some(bytes), Some((_, hash))) if fnv(bytes.iter().copied()) == hash.number()? => {}
            _ => return Err(format!("bytes addressed to {connection}")),
        }
    }
    clients.compare::<I>(&memory).map(|_| ())
}

fn check_step<I: Implementation>(
    step: &[Json],
    memory: &mut Memory,
    clients: &mut Clients,
) -> Checked {
    let (call, room, rest) = step_call(step)?;
    let before = memory.clone();
    let mut out = Guarded::output(room);
    let outcome = call.perform::<I>(memory, &mut before.clone(), &mut out)?;
    let [result, sent, hash @ ..] = rest else {
        return Err("a step has an answer and an output".into());
    };
    let Outcome::Answer(answer) = outcome else {
        return Err("a step's answer".into());
    };
    // A step has no place of its own to compare with.
    let expected = expected_answer(result.list()?, answer.place)?;
    if answer != expected {
        return Err(format!("{call:?} answers {answer:?}, not {expected:?}"));
    }
    if !outcome.keeps_place() {
        return Err(format!("{call:?} answers {answer:?}: a place with a number that has none"));
    }
    let bytes = &out.lent()[..answer.sent];
    let same_output = match sent {
        Json::Number(_) => fnv(bytes.iter().copied()) == sent.number()?,
        _ => bytes == sent.bytes()?,
    };
    if !same_output || !out.is_filled_but(answer.sent) {
        return Err(format!("output {:?}", Hex(bytes.to_vec())));
    }
    let same_memory = match hash {
        [hash] => fnv_memory(memory) == hash.number()?,
        _ => *memory == before,
    };
    if !same_memory {
        return Err("memory".into());
    }
    clients.follow(&call, answer, bytes);
    Ok(())
}

/// A step's call, the length of its output and the fields behind them.
fn step_call(step: &[Json]) -> Checked<(Call, usize, &[Json])> {
    let (name, rest) = step.split_first().ok_or("an empty step")?;
    Ok(match (name.text()?, rest) {
        ("fresh", rest) => (Call::Fresh, 0, rest),
        ("open", [c, rest @ ..]) => (Call::Open { connection: c.number()? }, 0, rest),
        ("leave", [c, rest @ ..]) => (Call::Leave { connection: c.number()? }, 0, rest),
        ("msg", [c, message, room, rest @ ..]) => {
            let (connection, message) = (c.number()?, Hex(message.bytes()?));
            (Call::Receive { connection, message }, room.number()?, rest)
        }
        ("create", [name, type_code, value, room, rest @ ..]) => {
            let (name, value) = (Hex(name.bytes()?), Hex(value.bytes()?));
            (Call::Create { name, type_code: type_code.number()?, value }, room.number()?, rest)
        }
        ("write", [id, value, room, rest @ ..]) => {
            let (id, value) = (id.number()?, Hex(value.bytes()?));
            (Call::Write { id, value }, room.number()?, rest)
        }
        (name, _) => return Err(format!("step {name:?}")),
    })
}
