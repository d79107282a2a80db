//! Short differential and convergence tests with a fixed seed, and wrong implementations that
//! they have to find. The programs `differential` and `convergence` go further.

mod wrong_replay;
mod wrong_saved;
mod wrong_why;

use nt2_sys::{
    Answer, Copied, DELIVERY_MESSAGES, Delivered, Fields, LentTable, Reason, Replayed, Scalar,
};
use nt2_tests::acceptance::{folder, run_file};
use nt2_tests::convergence::{Run, replayed, run};
use nt2_tests::differential::{Bounds, compare};
#[cfg(feature = "library")]
use nt2_tests::implementation::Library as Tested;
#[cfg(not(feature = "library"))]
use nt2_tests::implementation::Reference as Tested;
use nt2_tests::implementation::{Implementation, Reference};
use std::sync::Mutex;
use std::time::Duration;
use wrong_replay::Fault;

const BOUNDS: Bounds =
    Bounds { seed: 2013, comparisons: 100_000, time: Duration::from_secs(60), threads: 2 };

#[test]
fn differential() {
    let report = compare::<Reference, Tested>(BOUNDS).unwrap();
    assert_eq!(report.missed(), [""; 0]);
}

#[test]
fn convergence() {
    let mut all = Run::default();
    for seed in 0..6 {
        let run = run::<Tested, Tested>(seed, 2000).unwrap();
        assert!(run.compared.clients > 0);
        all.add(&run);
    }
    assert!(all.loads == 3 && all.entries_loaded > 0);
}

#[test]
fn convergence_of_line_records() {
    let clients = (0..300).map(|seed| replayed::<Tested, Tested>(seed).unwrap().clients);
    assert!(clients.sum::<usize>() > 50);
}

/// The reference with one fault.
struct Faulty<const FAULT: usize>;

const EQUAL_VALUE_WRITTEN: usize = 0;
const UPDATE_TO_ITS_SENDER: usize = 1;
const OUTPUT_REST_CHANGED: usize = 2;
const BYTE_BEYOND_THE_VALUE: usize = 3;
const LAST_HEAD_NOT_JUDGED: usize = 4;
const MARK_BEYOND_CLOSED: usize = 5;
const WRITE_NOT_STORED: usize = 6;
const COPY_KEEPS_NUMBER: usize = 7;
const NO_INPUT_NOT_JUDGED: usize = 8;
const SIXTY_FOUR_BEFORE_SPENT: usize = 9;
const REFUSED_MESSAGE_COUNTED: usize = 10;
const PLACE_FROM_THE_INPUT: usize = 11;
const IGNORED_NEEDS_ROOM: usize = 12;
const RECIPIENT_LEFT_OUT: usize = 13;
const DELIVERY_UNDONE: usize = 14;
const LINE_RECORD: usize = 15;
const EQUAL_AS_NUMBERS: usize = 16;
const COUNT_NOT_COMPARED: usize = 17;
const FIRST_ELEMENT_COMPARED: usize = 18;
const WHY: usize = 19;
const SAVED: usize = 20;

/// The answer to a delivery with one fault.
fn faulty_delivery<const FAULT: usize>(input: &[u8], room: usize, answer: Delivered) -> Delivered {
    let Delivered { ended, messages, taken, place, .. } = answer;
    let refused = ended == Delivered::REFUSED;
    match FAULT {
        NO_INPUT_NOT_JUDGED if input.is_empty() => {
            Delivered { ended: Delivered::SPENT, ..Delivered::default() }
        }
        SIXTY_FOUR_BEFORE_SPENT if messages == DELIVERY_MESSAGES => {
            Delivered { ended: Delivered::MAX_REACHED, ..answer }
        }
        REFUSED_MESSAGE_COUNTED if refused => Delivered { messages: messages + 1, ..answer },
        PLACE_FROM_THE_INPUT if place > 0 => Delivered { place: place + taken, ..answer },
        IGNORED_NEEDS_ROOM if room == 0 && messages > 0 => {
            Delivered { number: 12, ..Delivered::default() }
        }
        _ => answer,
    }
}

/// The type and value of the entry with an ID, in memory of any contents.
fn stored(table: &LentTable<'_>, id: u16) -> Option<(u16, Vec<u8>)> {
    let head = table.heads.get(usize::from(id))?;
    let value = table.bytes.get(320 * usize::from(id) + 64..)?;
    Some((head.type_code, value.get(..usize::from(head.value_length))?.to_vec()))
}

/// Whether two values of a type are equal by a wrong rule.
fn wrongly_equal<const FAULT: usize>(type_code: u16, left: &[u8], right: &[u8]) -> bool {
    let numbers = |bytes: &[u8]| -> Vec<f64> {
        bytes.as_chunks().0.iter().map(|&double| f64::from_be_bytes(double)).collect()
    };
    match (FAULT, type_code) {
        (EQUAL_AS_NUMBERS, 0x01) => numbers(left) == numbers(right),
        (EQUAL_AS_NUMBERS, 0x11) => numbers(&left[1..]) == numbers(&right[1..]),
        (COUNT_NOT_COMPARED, 0x10..) => left[1..].iter().zip(&right[1..]).all(|(l, r)| l == r),
        (FIRST_ELEMENT_COMPARED, 0x11) => left.iter().take(1 + 8).eq(right.iter().take(1 + 8)),
        _ => left == right,
    }
}

impl<const FAULT: usize> Implementation for Faulty<FAULT> {
    const NAME: &'static str = "faulty";

    fn fresh(table: LentTable<'_>, marks: &mut [u8]) -> Answer {
        let answer = Reference::fresh(table, marks);
        if FAULT == MARK_BEYOND_CLOSED && answer.number == 0 {
            marks.fill(0);
        }
        answer
    }

    fn open(table: LentTable<'_>, marks: &mut [u8], connection: usize) -> Answer {
        if FAULT == LAST_HEAD_NOT_JUDGED && table.heads.len() >= 64 && *table.count == 64 {
            let mut count = 63;
            let LentTable { heads, bytes, .. } = table;
            return Reference::open(
                LentTable { heads, bytes, count: &mut count },
                marks,
                connection,
            );
        }
        Reference::open(table, marks, connection)
    }

    fn leave(table: LentTable<'_>, marks: &mut [u8], connection: usize) -> Answer {
        Reference::leave(table, marks, connection)
    }

    fn receive(
        table: LentTable<'_>,
        marks: &mut [u8],
        connection: usize,
        message: &[u8],
        out: &mut [u8],
    ) -> Answer {
        let mut answer = Reference::receive(table, marks, connection, message, out);
        if FAULT == UPDATE_TO_ITS_SENDER && answer.number == 0 && message[0] == 0x11 {
            answer.recipients |= 1 << connection;
        }
        if FAULT == OUTPUT_REST_CHANGED && answer.number == 12 && !out.is_empty() {
            out[0] = message[0];
        }
        answer
    }

    fn deliver(
        table: LentTable<'_>,
        marks: &mut [u8],
        connection: usize,
        input: &[u8],
        out: &mut [u8],
    ) -> Delivered {
        let LentTable { heads, bytes, count } = table;
        let before = (FAULT == DELIVERY_UNDONE).then(|| bytes.to_vec());
        let table = LentTable { heads, bytes, count };
        let delivered = Reference::deliver(table, marks, connection, input, out);
        if let Some(before) = before.filter(|_| delivered.ended == Delivered::REFUSED) {
            bytes.copy_from_slice(&before);
        }
        if FAULT == RECIPIENT_LEFT_OUT && delivered.written > 0 {
            out[1] &= out[1].wrapping_sub(1);
        }
        faulty_delivery::<FAULT>(input, out.len(), delivered)
    }

    fn replay(table: LentTable<'_>, marks: &mut [u8], record: &[u8]) -> Replayed {
        if FAULT == LINE_RECORD {
            let fault = *LINE_RECORD_FAULT.lock().unwrap();
            return wrong_replay::replay(fault, table, marks, record);
        }
        Reference::replay(table, marks, record)
    }

    fn why(table: LentTable<'_>, marks: &mut [u8], connection: usize, message: &[u8]) -> Reason {
        if FAULT == WHY {
            let fault = *WHY_FAULT.lock().unwrap();
            return wrong_why::why(fault, table, marks, connection, message);
        }
        Reference::why(table, marks, connection, message)
    }

    fn save(table: LentTable<'_>, out: &mut [u8]) -> Answer {
        if FAULT == SAVED {
            return wrong_saved::save(*SAVED_FAULT.lock().unwrap(), table, out);
        }
        Reference::save(table, out)
    }

    fn load(table: LentTable<'_>, marks: &mut [u8], saved: &[u8]) -> Answer {
        if FAULT == SAVED {
            return wrong_saved::load(*SAVED_FAULT.lock().unwrap(), table, marks, saved);
        }
        Reference::load(table, marks, saved)
    }

    fn create(
        table: LentTable<'_>,
        marks: &mut [u8],
        name: &[u8],
        type_code: u8,
        value: &[u8],
        out: &mut [u8],
    ) -> Answer {
        let LentTable { heads, bytes, count } = table;
        let answer = Reference::create(
            LentTable { heads, bytes, count },
            marks,
            name,
            type_code,
            value,
            out,
        );
        let end = 320 * usize::from(count.saturating_sub(1)) + 64 + value.len();
        if FAULT == BYTE_BEYOND_THE_VALUE && answer.number == 0 && end < bytes.len() {
            bytes[end] = 0;
        }
        answer
    }

    fn write(
        table: LentTable<'_>,
        marks: &mut [u8],
        id: u16,
        value: &[u8],
        out: &mut [u8],
    ) -> Answer {
        let held = stored(&table, id);
        let LentTable { heads, bytes, count } = table;
        let before = (FAULT == WRITE_NOT_STORED).then(|| bytes.to_vec());
        let mut answer = Reference::write(LentTable { heads, bytes, count }, marks, id, value, out);
        if let Some(before) = before {
            bytes.copy_from_slice(&before);
        }
        if FAULT == EQUAL_VALUE_WRITTEN && answer.number == 16 {
            answer.number = 0;
        }
        let wrong_rule =
            matches!(FAULT, EQUAL_AS_NUMBERS | COUNT_NOT_COMPARED | FIRST_ELEMENT_COMPARED);
        if wrong_rule && matches!(answer.number, 0 | 16) {
            let (type_code, held) = held.unwrap();
            let equal = wrongly_equal::<FAULT>(type_code, &held, value);
            answer.number = if equal { 16 } else { 0 };
        }
        answer
    }

    fn read(table: LentTable<'_>, id: u16) -> Scalar {
        Reference::read(table, id)
    }

    fn encode(
        kind: u8,
        revision: u16,
        name: &[u8],
        type_code: u8,
        id: u16,
        entry_number: u16,
        value: &[u8],
        out: &mut [u8],
    ) -> Answer {
        Reference::encode(kind, revision, name, type_code, id, entry_number, value, out)
    }

    fn decode(bytes: &[u8], update_type: u8) -> Fields {
        Reference::decode(bytes, update_type)
    }

    fn copy_fresh(table: LentTable<'_>) -> Answer {
        Reference::copy_fresh(table)
    }

    fn copy_receive(table: LentTable<'_>, message: &[u8]) -> Copied {
        let LentTable { heads, bytes, count } = table;
        let before: Vec<u16> = heads.iter().map(|head| head.number).collect();
        let copied = Reference::copy_receive(LentTable { heads, bytes, count }, message);
        if FAULT == COPY_KEEPS_NUMBER && copied.number == 0 && message[0] == 0x11 {
            heads.iter_mut().zip(before).for_each(|(head, number)| head.number = number);
        }
        copied
    }
}

fn found<const FAULT: usize>() {
    assert!(compare::<Reference, Faulty<FAULT>>(BOUNDS).is_err(), "fault {FAULT} was not found");
}

#[test]
fn faults_are_found() {
    found::<EQUAL_VALUE_WRITTEN>();
    found::<UPDATE_TO_ITS_SENDER>();
    found::<OUTPUT_REST_CHANGED>();
    found::<BYTE_BEYOND_THE_VALUE>();
    found::<LAST_HEAD_NOT_JUDGED>();
    found::<MARK_BEYOND_CLOSED>();
    found::<WRITE_NOT_STORED>();
    found::<COPY_KEEPS_NUMBER>();
    found::<NO_INPUT_NOT_JUDGED>();
    found::<SIXTY_FOUR_BEFORE_SPENT>();
    found::<REFUSED_MESSAGE_COUNTED>();
    found::<PLACE_FROM_THE_INPUT>();
    found::<IGNORED_NEEDS_ROOM>();
    found::<RECIPIENT_LEFT_OUT>();
    found::<DELIVERY_UNDONE>();
}

/// By the differential test, and by the acceptance cases.
fn found_in_writes<const FAULT: usize>() {
    found::<FAULT>();
    let cases = run_file::<Faulty<FAULT>>(&folder(), "local.json").unwrap();
    assert!(!cases.failures.is_empty(), "no case finds fault {FAULT}");
}

#[test]
fn wrong_rules_of_equal_values_are_found() {
    found_in_writes::<EQUAL_AS_NUMBERS>();
    found_in_writes::<COUNT_NOT_COMPARED>();
    found_in_writes::<FIRST_ELEMENT_COMPARED>();
}

/// The fault of the line records that `Faulty<LINE_RECORD>` runs.
static LINE_RECORD_FAULT: Mutex<Fault> = Mutex::new(Fault::Nothing);

/// By the differential test, and by the acceptance cases.
#[test]
fn faults_of_line_records_are_found() {
    let found = |fault| {
        *LINE_RECORD_FAULT.lock().unwrap() = fault;
        let cases = run_file::<Faulty<LINE_RECORD>>(&folder(), "replay.json").unwrap();
        let compared = compare::<Reference, Faulty<LINE_RECORD>>(BOUNDS);
        (compared.is_err(), !cases.failures.is_empty())
    };
    assert_eq!(found(Fault::Nothing), (false, false));
    for fault in Fault::ALL {
        let in_no_case =
            matches!(fault, Fault::CutRecordTaken | Fault::ClosedGathers | Fault::HeldOneTooFew);
        assert_eq!(found(fault), (true, !in_no_case), "{fault:?}");
    }
}

/// The fault of the reasons that `Faulty<WHY>` tells.
static WHY_FAULT: Mutex<wrong_why::Fault> = Mutex::new(wrong_why::Fault::Nothing);

/// By the differential test, and by the acceptance cases.
#[test]
fn faults_of_reasons_are_found() {
    use wrong_why::Fault;
    let found = |fault| {
        *WHY_FAULT.lock().unwrap() = fault;
        let cases = run_file::<Faulty<WHY>>(&folder(), "why.json").unwrap();
        let compared = compare::<Reference, Faulty<WHY>>(BOUNDS);
        (compared.is_err(), !cases.failures.is_empty())
    };
    assert_eq!(found(Fault::Nothing), (false, false));
    for fault in Fault::ALL {
        let in_no_case = matches!(
            fault,
            Fault::HelloWithLittleRoom
                | Fault::LastBadBoolean
                | Fault::MarksNotJudged
                | Fault::ClosedAfterTheKind
                | Fault::LengthAfterTheText
                | Fault::MissingBeforeABadBoolean
                | Fault::StringsJudgedAtTheCount
        );
        assert_eq!(found(fault), (true, !in_no_case), "{fault:?}");
    }
}

/// The fault with which `Faulty<SAVED>` saves or loads.
static SAVED_FAULT: Mutex<wrong_saved::Fault> = Mutex::new(wrong_saved::Fault::Nothing);

/// By the differential test, and by the acceptance cases.
#[test]
fn faults_of_saved_tables_are_found() {
    use wrong_saved::Fault;
    let found = |fault| {
        *SAVED_FAULT.lock().unwrap() = fault;
        let cases = run_file::<Faulty<SAVED>>(&folder(), "saved.json").unwrap();
        let compared = compare::<Reference, Faulty<SAVED>>(BOUNDS);
        (compared.is_err(), !cases.failures.is_empty())
    };
    assert_eq!(found(Fault::Nothing), (false, false));
    for &fault in Fault::ALL {
        assert_eq!(found(fault), (true, true), "{fault:?}");
    }
    // A run that begins with a load finds one too.
    *SAVED_FAULT.lock().unwrap() = Fault::LastNotStored;
    assert!(run::<Faulty<SAVED>, Reference>(3, 2000).is_err());
}

#[test]
fn tables_that_differ_are_found() {
    assert!((0..6).any(|seed| run::<Faulty<WRITE_NOT_STORED>, Reference>(seed, 2000).is_err()));
    assert!((0..6).any(|seed| run::<Reference, Faulty<COPY_KEEPS_NUMBER>>(seed, 2000).is_err()));
    assert!((0..6).any(|seed| run::<Faulty<RECIPIENT_LEFT_OUT>, Reference>(seed, 2000).is_err()));
}
