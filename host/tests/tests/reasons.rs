//! Why a message is done, ignored or refused, said by hand: one of each sort, cut at every length.

use nt2_sys::{CONNECTIONS, ENTRIES, Head, Reason, TABLE_BYTES};
use nt2_tests::call::{Call, Hex, Outcome};
use nt2_tests::implementation::{Implementation, Reference};
use nt2_tests::memory::{Guarded, Memory};
use nt2_tests::reason::{keeps_form, real_call_differs};

const GREETED: usize = 0;
const OPEN: usize = 1;
const CLOSED: usize = 2;

/// An entry of each type.
fn table() -> Memory {
    let marks: Vec<u8> = [2, 1].into_iter().chain([0; CONNECTIONS - 2]).collect();
    let mut memory = Memory::new(&[Head::default(); ENTRIES], &[0; TABLE_BYTES], 6, &marks);
    memory.put_entry(0, b"b", 0x00, 5, &[0]);
    memory.put_entry(1, b"d", 0x01, 65_535, &[0; 8]);
    memory.put_entry(2, b"s", 0x02, 1, b"\x00\x02hi");
    memory.put_entry(3, b"", 0x10, 0, &[2, 0, 1]);
    memory.put_entry(4, b"lots", 0x11, 32_768, &[1, 0, 0, 0, 0, 0, 0, 0, 0]);
    memory.put_entry(5, b"\xC3\xBC", 0x12, 32_767, b"\x02\x00\x01x\x00\x00");
    memory
}

/// A table with no room for another entry.
fn full_table() -> Memory {
    let mut memory = table();
    for i in 6..ENTRIES {
        memory.put_entry(i, format!("e{i}").as_bytes(), 0x00, 1, &[1]);
    }
    memory.set_count(ENTRIES as u16);
    memory
}

const KEEP_ALIVE: Reason = ignored(Reason::KEEP_ALIVE, 0);
const EQUAL: Reason = ignored(Reason::EQUAL, 0);
const UNDEFINED: Reason = ignored(Reason::UNDEFINED, 32_768);
const DONE: Reason = Reason { reason: Reason::DONE, number: 0, id: 0, distance: 0, place: 0 };

const fn ignored(reason: u8, distance: u16) -> Reason {
    Reason { reason, number: 16, id: 0, distance, place: 0 }
}

fn held(id: u16) -> Reason {
    Reason { id, ..ignored(Reason::NAME_HELD, 0) }
}

fn older(distance: u16) -> Reason {
    ignored(Reason::OLDER, distance)
}

fn applied(distance: u16) -> Reason {
    Reason { reason: Reason::APPLIED, distance, ..DONE }
}

fn refused(number: u8, place: usize) -> Reason {
    Reason { reason: Reason::REFUSED, number, place, ..DONE }
}

/// The reason, by an implementation that changes nothing and whose call has the number.
fn why<I: Implementation>(memory: &Memory, connection: usize, message: &[u8]) -> Reason {
    let (mut server, mut copy, mut out) = (memory.clone(), memory.clone(), Guarded::output(0));
    let call = Call::Why { connection, message: Hex(message.to_vec()) };
    let outcome = call.perform::<I>(&mut server, &mut copy, &mut out).unwrap();
    let Outcome::Reason(reason) = outcome else {
        panic!("{outcome:?}");
    };
    assert_eq!(server.difference(memory), None);
    assert!(keeps_form(reason), "{reason:?}");
    assert_eq!(real_call_differs::<I>(&mut server, connection, message, reason), None);
    reason
}

/// A message of which a field is not wholly there, by its length, from 0 on: the field's place. With all
/// lengths from then on, and with bytes behind it, the reason is the one given.
fn cut_on<I: Implementation>(
    memory: &Memory,
    connection: usize,
    message: &[u8],
    missing: &[usize],
    reason: Reason,
) {
    let message = [message, &[0x01, 0xFF, 0x7F]].concat();
    for length in 0..=message.len() {
        let expected = missing.get(length).map_or(reason, |&place| refused(1, place));
        let told = why::<I>(memory, connection, &message[..length]);
        assert_eq!(told, expected, "{:02x?}", &message[..length]);
    }
}

fn cut<I: Implementation>(connection: usize, message: &[u8], missing: &[usize], reason: Reason) {
    cut_on::<I>(&table(), connection, message, missing, reason);
}

fn without_fields<I: Implementation>() {
    cut::<I>(GREETED, b"\x00", &[0], KEEP_ALIVE);
    cut::<I>(OPEN, b"\x00", &[0], KEEP_ALIVE);
    cut::<I>(OPEN, b"\x01\x02\x00", &[0, 1, 1], DONE);
    cut::<I>(OPEN, b"\x01\x03\x00", &[0, 1, 1], DONE);
    for kind in [0x02, 0x03, 0x04, 0x0F, 0x12, 0xFF] {
        cut::<I>(GREETED, &[kind, 2, 0], &[0], refused(4, 0));
        cut::<I>(OPEN, &[kind, 2, 0], &[0], refused(4, 0));
    }
}

/// Behind name and type an ID of two bytes and a number of two, then the value.
fn assignments<I: Implementation>() {
    let cut = |message: &[u8], missing: &[usize], reason| {
        cut::<I>(GREETED, message, missing, reason);
    };
    let boolean = b"\x10\x00\x02ab\x00\xFF\xFF\x00\x00\x01";
    cut(boolean, &[0, 1, 1, 3, 3, 5, 6, 6, 8, 8, 10], DONE);
    let double = b"\x10\x00\x00\x01\xFF\xFF\x00\x00\x7F\xF8\x00\x00\x00\x00\x00\x01";
    cut(double, &[0, 1, 1, 3, 4, 4, 6, 6, 8, 8, 8, 8, 8, 8, 8, 8], held(3));
    let string = b"\x10\x00\x01a\x02\xFF\xFF\x12\x34\x00\x02\xC3\xBC";
    cut(string, &[0, 1, 1, 3, 4, 5, 5, 7, 7, 9, 9, 11, 11], DONE);
    let booleans = b"\x10\x00\x01a\x10\xFF\xFF\x00\x00\x03\x00\x01\x01";
    cut(booleans, &[0, 1, 1, 3, 4, 5, 5, 7, 7, 9, 10, 11, 12], DONE);
    let doubles = b"\x10\x00\x01a\x11\xFF\xFF\x00\x00\x02\xFF\xFF\xFF\xFF\xFF\xFF\xFF\xFF\
                    \x00\x00\x00\x00\x00\x00\x00\x00";
    let missing = [
        0, 1, 1, 3, 4, 5, 5, 7, 7, 9, 10, 10, 10, 10, 10, 10, 10, 10, 18, 18, 18, 18, 18, 18, 18,
        18,
    ];
    cut(doubles, &missing, DONE);
    let strings = b"\x10\x00\x01a\x12\xFF\xFF\x00\x00\x03\x00\x02xy\x00\x00\x00\x01z";
    cut(strings, &[0, 1, 1, 3, 4, 5, 5, 7, 7, 9, 10, 10, 12, 12, 14, 14, 16, 16, 18], DONE);
    let none = b"\x10\x00\x01a\x12\xFF\xFF\x00\x00\x00";
    cut(none, &[0, 1, 1, 3, 4, 5, 5, 7, 7, 9], DONE);
    let name_held = b"\x10\x00\x02\xC3\xBC\x00\xFF\xFF\x00\x00\x01";
    cut(name_held, &[0, 1, 1, 3, 3, 5, 6, 6, 8, 8, 10], held(5));
}

/// A field that fails is there wholly, and what is behind it is not looked at.
fn refused_assignments<I: Implementation>() {
    let cut = |message: &[u8], missing: &[usize], reason| {
        cut::<I>(GREETED, message, missing, reason);
    };
    cut(b"\x10\x00\x41aa", &[0, 1, 1], refused(10, 1));
    cut(b"\x10\x00\x02a\xFF\x77\x00\x00", &[0, 1, 1, 3, 3], refused(9, 3));
    cut(b"\x10\x00\x01a\x03\x00\x00", &[0, 1, 1, 3, 4], refused(7, 4));
    cut(b"\x10\x00\x01b\x00\xFF\xFE\x00\x00\x07", &[0, 1, 1, 3, 4, 5, 5], refused(5, 5));
    let to_the_value = [0, 1, 1, 3, 4, 5, 5, 7, 7];
    let cut_value = |type_code: u8, value: &[u8], missing: &[usize], reason| {
        let front = [0x10, 0, 1, b'b', type_code, 0xFF, 0xFF, 0, 0];
        cut(&[&front, value].concat(), &[&to_the_value, missing].concat(), reason);
    };
    cut_value(0x00, &[2], &[9], refused(8, 9));
    cut_value(0x02, b"\x00\xFFxyz", &[9, 9], refused(10, 9));
    cut_value(0x02, b"\x00\x03xy\xFF", &[9, 9, 11, 11, 11], refused(9, 11));
    cut_value(0x10, &[4, 0, 1, 2, 3], &[9, 10, 11, 12], refused(8, 12));
    cut_value(0x11, &[32, 0, 0], &[9], refused(10, 9));
    cut_value(0x12, b"\x02\x00\x01x\x01\x00", &[9, 10, 10, 12, 13, 13], refused(10, 13));
    cut_value(0x12, b"\x03\x00\x00\x00\x02x\xC3", &[9, 10, 10, 12, 12, 14, 14], refused(9, 14));
    // Of 200 empty texts the 128th is too long.
    let missing: Vec<usize> =
        [9].into_iter().chain((0..128).flat_map(|i| [10 + 2 * i; 2])).collect();
    cut_value(0x12, &[&[200][..], &[0; 400]].concat(), &missing, refused(10, 10 + 2 * 127));
}

/// Behind the ID its number of two bytes, then the value of the stored type.
fn updates<I: Implementation>() {
    let cut = |message: &[u8], missing: &[usize], reason| {
        cut::<I>(GREETED, message, missing, reason);
    };
    let boolean = |high, low| [0x11, 0, 0, high, low, 1];
    cut(&boolean(0, 6), &[0, 1, 1, 3, 3, 5], applied(1));
    cut(&boolean(0, 5), &[0, 1, 1, 3, 3, 5], EQUAL);
    cut(&boolean(0, 4), &[0, 1, 1, 3, 3, 5], older(1));
    cut(&boolean(0xFF, 0xFF), &[0, 1, 1, 3, 3, 5], older(6));
    cut(&boolean(0x80, 4), &[0, 1, 1, 3, 3, 5], applied(32_767));
    cut(&boolean(0x80, 5), &[0, 1, 1, 3, 3, 5], UNDEFINED);
    cut(&boolean(0x80, 6), &[0, 1, 1, 3, 3, 5], older(32_767));
    let double = b"\x11\x00\x01\x00\x00\x40\x09\x21\xFB\x54\x44\x2D\x18";
    cut(double, &[0, 1, 1, 3, 3, 5, 5, 5, 5, 5, 5, 5, 5], applied(1));
    let string = b"\x11\x00\x02\x00\x00\x00\x02hi";
    cut(string, &[0, 1, 1, 3, 3, 5, 5, 7, 7], older(1));
    let booleans = b"\x11\x00\x03\x80\x00\x02\x01\x00";
    cut(booleans, &[0, 1, 1, 3, 3, 5, 6, 7], UNDEFINED);
    let doubles = b"\x11\x00\x04\x00\x00\x01\x00\x00\x00\x00\x00\x00\x00\x00";
    cut(doubles, &[0, 1, 1, 3, 3, 5, 6, 6, 6, 6, 6, 6, 6, 6], UNDEFINED);
    let strings = b"\x11\x00\x05\xFF\xFE\x02\x00\x01x\x00\x01y";
    cut(strings, &[0, 1, 1, 3, 3, 5, 6, 6, 8, 9, 9, 11], applied(32_767));
    cut(b"\x11\x00\x06\x00\x02\x01", &[0, 1, 1], refused(6, 1));
    cut(b"\x11\xFF\xFF", &[0, 1, 1], refused(6, 1));
    // An older update's value is judged too.
    cut(b"\x11\x00\x00\x00\x04\x02", &[0, 1, 1, 3, 3, 5], refused(8, 5));
    cut(b"\x11\x00\x02\x00\x01\x01\x00", &[0, 1, 1, 3, 3, 5, 5], refused(10, 5));
    cut(b"\x11\x00\x02\x00\x01\x00\x01\x80", &[0, 1, 1, 3, 3, 5, 5, 7], refused(9, 7));
}

/// What is judged before the fields.
fn states<I: Implementation>() {
    let messages =
        [&b"\x00"[..], b"\x01\x02\x00", b"\x10\x00\x01a\x00\xFF\xFF\x00\x00\x01", b"\xFF"];
    for message in messages {
        cut::<I>(CLOSED, message, &[], refused(3, 0));
        for connection in [CONNECTIONS, CONNECTIONS + 1, usize::MAX] {
            cut::<I>(connection, message, &[], refused(2, 0));
        }
        for connection in [GREETED, OPEN, CLOSED, CONNECTIONS] {
            for unsound in unsound_tables() {
                cut_on::<I>(&unsound, connection, message, &[], refused(14, 0));
            }
        }
    }
    cut::<I>(GREETED, b"\x01\x02\x00", &[0], refused(3, 0));
    cut::<I>(OPEN, b"\x10\x00\x41", &[0], refused(3, 0));
    cut::<I>(OPEN, b"\x11\x00\x00\x00\x06\x01", &[0], refused(3, 0));
}

fn unsound_tables() -> [Memory; 5] {
    let [mut marks, mut name, mut value, mut heads, mut same] = [(); 5].map(|()| table());
    marks.marks.lent_mut()[CONNECTIONS - 1] = 3;
    name.put_bytes(0, &[0xFF]);
    value.put_bytes(64, &[2]);
    heads.heads.lend_only(ENTRIES - 1);
    same.put_bytes(320, b"b");
    [marks, name, value, heads, same]
}

/// What is judged behind the fields.
fn full_tables<I: Implementation>() {
    let full = full_table();
    let cut = |message: &[u8], missing: &[usize], reason| {
        cut_on::<I>(&full, GREETED, message, missing, reason);
    };
    let missing = [0, 1, 1, 3, 4, 5, 5, 7, 7, 9];
    cut(b"\x10\x00\x01a\x00\xFF\xFF\x00\x00\x01", &missing, refused(11, 0));
    cut(b"\x10\x00\x01b\x00\xFF\xFF\x00\x00\x01", &missing, held(0));
    cut(
        b"\x10\x00\x03e63\x00\xFF\xFF\x00\x00\x01",
        &[0, 1, 1, 3, 3, 3, 6, 7, 7, 9, 9, 11],
        held(63),
    );
    cut(b"\x10\x00\x01a\x00\xFF\xFF\x00\x00\x02", &missing, refused(8, 9));
    cut(b"\x11\x00\x3F\x00\x02\x00", &[0, 1, 1, 3, 3, 5], applied(1));
    cut_on::<I>(&full, OPEN, b"\x01\x02\x00", &[0, 1, 1], DONE);
}

fn all<I: Implementation>() {
    without_fields::<I>();
    assignments::<I>();
    refused_assignments::<I>();
    updates::<I>();
    states::<I>();
    full_tables::<I>();
}

#[test]
fn reference() {
    all::<Reference>();
}

#[cfg(feature = "library")]
#[test]
fn library() {
    all::<nt2_tests::implementation::Library>();
}
