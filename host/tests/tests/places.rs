//! Wrong places of faults. The differential test has to find each in every call that can have it, the
//! acceptance cases each in some calls. With no wrong place neither finds a difference. Those of reasons
//! are among the wrong reasons in `random`.

use nt2_sys::{
    Answer, Copied, Delivered, Fields, LentTable, Reason, Replayed, SAVED_ENTRY, SAVED_FIRST,
    Scalar,
};
use nt2_tests::acceptance::{FILES, folder, run_file};
use nt2_tests::differential::{Bounds, compare};
use nt2_tests::implementation::{Implementation, Reference};
use nt2_tests::saved::VALUE;
use std::time::Duration;

const BOUNDS: Bounds =
    Bounds { seed: 2013, comparisons: 100_000, time: Duration::from_secs(60), threads: 2 };

/// The reference, of which one call, or every call, answers a wrong place.
struct Misplaced<const CALL: usize, const WRONG: usize>;

const RECEIVE: usize = 0;
const CREATE: usize = 1;
const WRITE: usize = 2;
const ENCODE: usize = 3;
const DECODE: usize = 4;
const COPY_RECEIVE: usize = 5;
const DELIVER: usize = 6;
const LOAD: usize = 7;
const EVERY_CALL: usize = 8;

/// The calls as a failure shows them.
const SHOWN: [&str; 8] =
    ["Receive", "Create", "Write", "Encode", "Decode", "CopyReceive", "Deliver", "Load"];

const TEXT_AT_ITS_LENGTH: usize = 0;
const TEXT_AT_ITS_BAD_BYTE: usize = 1;
const TOO_LONG_BEHIND_THE_LENGTH: usize = 2;
const ELEMENT_AT_ITS_ARRAY: usize = 3;
const COUNTED_FROM_THE_VALUE: usize = 4;
const LAST_BYTE_LEFT: usize = 5;
const LAST_BAD_BOOLEAN: usize = 6;
const TYPE_AT_THE_START: usize = 7;
const GIVEN_TYPE_WITH_A_PLACE: usize = 8;
const MISSING_FIELD_WITH_A_PLACE: usize = 9;
const NONE: usize = 10;

/// The number and place of a fault, and where it was found: the bytes, and where their value starts.
struct Found<'a> {
    number: u8,
    place: usize,
    bytes: &'a [u8],
    value: usize,
}

impl<'a> Found<'a> {
    fn in_message(number: u8, place: usize, bytes: &'a [u8]) -> Self {
        let value = match bytes {
            [0x10, high, low, ..] => 8 + usize::from(u16::from_be_bytes([*high, *low])),
            _ => 5,
        };
        Found { number, place, bytes, value }
    }

    fn in_saved(number: u8, place: usize, bytes: &'a [u8]) -> Self {
        let entry = place.saturating_sub(SAVED_FIRST) / SAVED_ENTRY;
        let value = SAVED_FIRST + SAVED_ENTRY * entry + VALUE;
        Found { number, place, bytes, value }
    }

    /// No text starts at a lone value's first byte, but a name's does.
    fn in_lone(answer: Answer, name: &'a [u8], value: &'a [u8]) -> Self {
        let Answer { number, place, .. } = answer;
        let bytes = if (number, place) == (9, 0) { name } else { value };
        Found { number, place, bytes, value: 0 }
    }

    fn wrong_place(&self, wrong: usize) -> usize {
        let Found { number, place, bytes, value } = *self;
        match (wrong, number) {
            (TEXT_AT_ITS_LENGTH, 9) => place.saturating_sub(2),
            (TEXT_AT_ITS_BAD_BYTE, 9) => {
                let fault = str::from_utf8(&bytes[place..]).err();
                place + fault.map_or(0, |fault| fault.valid_up_to())
            }
            (TOO_LONG_BEHIND_THE_LENGTH, 10) => place + 2,
            (ELEMENT_AT_ITS_ARRAY, 8..=10) => place.min(value),
            (COUNTED_FROM_THE_VALUE, 8..=10) if place >= value => place - value,
            (LAST_BYTE_LEFT, 10) if place > 0 => bytes.len() - 1,
            (LAST_BAD_BOOLEAN, 8) => {
                bytes.iter().rposition(|&byte| byte > 1).unwrap_or(place).max(place)
            }
            (TYPE_AT_THE_START, 7) => 0,
            (GIVEN_TYPE_WITH_A_PLACE, 7) if place == 0 => 5,
            (MISSING_FIELD_WITH_A_PLACE, 1) => bytes.len(),
            _ => place,
        }
    }
}

impl<const CALL: usize, const WRONG: usize> Misplaced<CALL, WRONG> {
    fn place(call: usize, found: &Found<'_>) -> usize {
        if CALL == call || CALL == EVERY_CALL { found.wrong_place(WRONG) } else { found.place }
    }
}

impl<const CALL: usize, const WRONG: usize> Implementation for Misplaced<CALL, WRONG> {
    const NAME: &'static str = "misplaced";

    fn fresh(table: LentTable<'_>, marks: &mut [u8]) -> Answer {
        Reference::fresh(table, marks)
    }

    fn open(table: LentTable<'_>, marks: &mut [u8], connection: usize) -> Answer {
        Reference::open(table, marks, connection)
    }

    fn leave(table: LentTable<'_>, marks: &mut [u8], connection: usize) -> Answer {
        Reference::leave(table, marks, connection)
    }

    fn receive(
        table: LentTable<'_>,
        marks: &mut [u8],
        connection: usize,
        message: &[u8],
        out: &mut [u8],
    ) -> Answer {
        let answer = Reference::receive(table, marks, connection, message, out);
        let found = Found::in_message(answer.number, answer.place, message);
        Answer { place: Self::place(RECEIVE, &found), ..answer }
    }

    fn deliver(
        table: LentTable<'_>,
        marks: &mut [u8],
        connection: usize,
        input: &[u8],
        out: &mut [u8],
    ) -> Delivered {
        let delivered = Reference::deliver(table, marks, connection, input, out);
        let Delivered { number, place, taken, .. } = delivered;
        let found = Found::in_message(number, place, &input[taken..]);
        Delivered { place: Self::place(DELIVER, &found), ..delivered }
    }

    fn replay(table: LentTable<'_>, marks: &mut [u8], record: &[u8]) -> Replayed {
        Reference::replay(table, marks, record)
    }

    fn why(table: LentTable<'_>, marks: &mut [u8], connection: usize, message: &[u8]) -> Reason {
        Reference::why(table, marks, connection, message)
    }

    fn save(table: LentTable<'_>, out: &mut [u8]) -> Answer {
        Reference::save(table, out)
    }

    fn load(table: LentTable<'_>, marks: &mut [u8], saved: &[u8]) -> Answer {
        let answer = Reference::load(table, marks, saved);
        let found = Found::in_saved(answer.number, answer.place, saved);
        Answer { place: Self::place(LOAD, &found), ..answer }
    }

    fn create(
        table: LentTable<'_>,
        marks: &mut [u8],
        name: &[u8],
        type_code: u8,
        value: &[u8],
        out: &mut [u8],
    ) -> Answer {
        let answer = Reference::create(table, marks, name, type_code, value, out);
        Answer { place: Self::place(CREATE, &Found::in_lone(answer, name, value)), ..answer }
    }

    fn write(
        table: LentTable<'_>,
        marks: &mut [u8],
        id: u16,
        value: &[u8],
        out: &mut [u8],
    ) -> Answer {
        let answer = Reference::write(table, marks, id, value, out);
        Answer { place: Self::place(WRITE, &Found::in_lone(answer, &[], value)), ..answer }
    }

    fn read(table: LentTable<'_>, id: u16) -> Scalar {
        Reference::read(table, id)
    }

    fn encode(
        kind: u8,
        revision: u16,
        name: &[u8],
        type_code: u8,
        id: u16,
        entry_number: u16,
        value: &[u8],
        out: &mut [u8],
    ) -> Answer {
        let answer =
            Reference::encode(kind, revision, name, type_code, id, entry_number, value, out);
        Answer { place: Self::place(ENCODE, &Found::in_lone(answer, name, value)), ..answer }
    }

    fn decode(bytes: &[u8], update_type: u8) -> Fields {
        let fields = Reference::decode(bytes, update_type);
        let found = Found::in_message(fields.number, fields.place, bytes);
        Fields { place: Self::place(DECODE, &found), ..fields }
    }

    fn copy_fresh(table: LentTable<'_>) -> Answer {
        Reference::copy_fresh(table)
    }

    fn copy_receive(table: LentTable<'_>, message: &[u8]) -> Copied {
        let copied = Reference::copy_receive(table, message);
        let found = Found::in_message(copied.number, copied.place, message);
        Copied { place: Self::place(COPY_RECEIVE, &found), ..copied }
    }
}

/// The differential test finds it, in this call, or in the single calls beside a delivery or a reason.
fn found<const CALL: usize, const WRONG: usize>() {
    let failure = compare::<Reference, Misplaced<CALL, WRONG>>(BOUNDS).err().unwrap_or_default();
    let differs = failure.contains(&format!("the answers differ\n  {} ", SHOWN[CALL]))
        || CALL == RECEIVE && failure.contains("single calls differ")
        || CALL == RECEIVE && failure.contains("the real call differs");
    assert!(differs, "{}, wrong place {WRONG}: {failure}", SHOWN[CALL]);
}

fn found_in_every_call<const WRONG: usize>() {
    found_in_messages::<WRONG>();
    found_in_lone_values::<WRONG>();
    found::<LOAD, WRONG>();
}

fn found_in_messages<const WRONG: usize>() {
    found::<RECEIVE, WRONG>();
    found::<DELIVER, WRONG>();
    found::<DECODE, WRONG>();
    found::<COPY_RECEIVE, WRONG>();
}

fn found_in_lone_values<const WRONG: usize>() {
    found::<CREATE, WRONG>();
    found::<WRITE, WRONG>();
    found::<ENCODE, WRONG>();
}

#[test]
fn differential_test_finds_wrong_places() {
    found_in_every_call::<TEXT_AT_ITS_LENGTH>();
    found_in_every_call::<TEXT_AT_ITS_BAD_BYTE>();
    found_in_every_call::<TOO_LONG_BEHIND_THE_LENGTH>();
    found_in_every_call::<ELEMENT_AT_ITS_ARRAY>();
    found_in_messages::<COUNTED_FROM_THE_VALUE>();
    found::<LOAD, COUNTED_FROM_THE_VALUE>();
    found_in_lone_values::<LAST_BYTE_LEFT>();
    found::<LOAD, LAST_BYTE_LEFT>();
    found_in_every_call::<LAST_BAD_BOOLEAN>();
    found_in_messages::<TYPE_AT_THE_START>();
    found::<LOAD, TYPE_AT_THE_START>();
    found::<CREATE, GIVEN_TYPE_WITH_A_PLACE>();
    found::<ENCODE, GIVEN_TYPE_WITH_A_PLACE>();
    found::<DECODE, GIVEN_TYPE_WITH_A_PLACE>();
    found_in_every_call::<MISSING_FIELD_WITH_A_PLACE>();
}

#[test]
fn differential_test_finds_no_other_difference() {
    let report = compare::<Reference, Misplaced<EVERY_CALL, NONE>>(BOUNDS).unwrap();
    assert_eq!(report.missed(), [""; 0]);
}

/// Whether an acceptance case fails.
fn a_case_fails<const CALL: usize, const WRONG: usize>() -> bool {
    FILES.iter().any(|(file, _)| {
        let run = run_file::<Misplaced<CALL, WRONG>>(&folder(), file).unwrap();
        !run.failures.is_empty()
    })
}

fn cases_find<const CALL: usize, const WRONG: usize>() {
    assert!(a_case_fails::<CALL, WRONG>(), "{}, wrong place {WRONG}", SHOWN[CALL]);
}

fn cases_find_in_every_call<const WRONG: usize>() {
    cases_find_in_messages::<WRONG>();
    cases_find::<CREATE, WRONG>();
    cases_find::<WRITE, WRONG>();
    cases_find::<ENCODE, WRONG>();
}

fn cases_find_in_messages<const WRONG: usize>() {
    cases_find::<RECEIVE, WRONG>();
    cases_find::<DECODE, WRONG>();
    cases_find::<COPY_RECEIVE, WRONG>();
}

#[test]
fn acceptance_cases_find_wrong_places() {
    cases_find_in_messages::<TEXT_AT_ITS_LENGTH>();
    cases_find::<CREATE, TEXT_AT_ITS_LENGTH>();
    cases_find_in_messages::<TEXT_AT_ITS_BAD_BYTE>();
    cases_find::<CREATE, TEXT_AT_ITS_BAD_BYTE>();
    cases_find_in_every_call::<TOO_LONG_BEHIND_THE_LENGTH>();
    cases_find_in_every_call::<ELEMENT_AT_ITS_ARRAY>();
    cases_find_in_messages::<COUNTED_FROM_THE_VALUE>();
    cases_find::<CREATE, LAST_BYTE_LEFT>();
    cases_find::<WRITE, LAST_BYTE_LEFT>();
    cases_find::<ENCODE, LAST_BYTE_LEFT>();
    cases_find::<RECEIVE, LAST_BAD_BOOLEAN>();
    cases_find_in_messages::<TYPE_AT_THE_START>();
    cases_find::<CREATE, GIVEN_TYPE_WITH_A_PLACE>();
    cases_find::<ENCODE, GIVEN_TYPE_WITH_A_PLACE>();
    cases_find_in_every_call::<MISSING_FIELD_WITH_A_PLACE>();
    cases_find::<DELIVER, TEXT_AT_ITS_LENGTH>();
    cases_find::<DELIVER, TOO_LONG_BEHIND_THE_LENGTH>();
    cases_find::<DELIVER, ELEMENT_AT_ITS_ARRAY>();
    cases_find::<DELIVER, COUNTED_FROM_THE_VALUE>();
    cases_find::<DELIVER, LAST_BAD_BOOLEAN>();
}

#[test]
fn acceptance_cases_find_wrong_places_in_saved_tables() {
    cases_find::<LOAD, TEXT_AT_ITS_LENGTH>();
    cases_find::<LOAD, TEXT_AT_ITS_BAD_BYTE>();
    cases_find::<LOAD, TOO_LONG_BEHIND_THE_LENGTH>();
    cases_find::<LOAD, ELEMENT_AT_ITS_ARRAY>();
    cases_find::<LOAD, COUNTED_FROM_THE_VALUE>();
    cases_find::<LOAD, LAST_BYTE_LEFT>();
    cases_find::<LOAD, LAST_BAD_BOOLEAN>();
    cases_find::<LOAD, TYPE_AT_THE_START>();
    cases_find::<LOAD, MISSING_FIELD_WITH_A_PLACE>();
}

#[test]
fn acceptance_cases_find_no_other_difference() {
    assert!(!a_case_fails::<EVERY_CALL, NONE>());
}

/// The steps of a run tell no place, so only one with a number that has none is found.
#[test]
fn runs_find_a_place_with_a_number_that_has_none() {
    type Wrong = Misplaced<RECEIVE, MISSING_FIELD_WITH_A_PLACE>;
    let failures = run_file::<Wrong>(&folder(), "runs.json").unwrap().failures;
    assert!(!failures.is_empty());
    for failure in failures {
        assert!(failure.ends_with("a place with a number that has none"), "{failure}");
    }
}
