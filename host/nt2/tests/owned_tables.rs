//! The build description's example and a copy, by the owned tables.

use nt2::{
    BadRecord, CONNECTIONS, Copied, CopyTable, DELIVERY_MESSAGES, Delivery, ENTRIES, Ended,
    HEADING, LONGEST_ASSIGNMENT, LONGEST_HELLO_ANSWER, LONGEST_SAVED, Message, PLANT, Place,
    RECORD_DATA, Reason, Received, Recipients, Refusal, Replay, SAVED_ENTRY, SAVED_FIRST, Scalar,
    ServerTable, State, Type, Written, decode, encode,
};

const STREAM: [u8; 26] = [
    0x01, 0x02, 0x00, 0x10, 0x00, 0x01, 0x61, 0x00, 0xFF, 0xFF, 0x00, 0x00, 0x01, 0x11, 0x00, 0x00,
    0x00, 0x02, 0x00, 0x11, 0x00, 0x00, 0x00, 0x02, 0x01, 0x00,
];

#[test]
fn listing_example() {
    let mut out = vec![0; LONGEST_HELLO_ANSWER];
    let mut table = opened();
    let (mut rest, mut lines) = (&STREAM[..], Vec::new());
    while !rest.is_empty() {
        let (taken, line) = match table.receive(0, rest, &mut out).unwrap() {
            Received::Done { taken, sent } => {
                (taken, (taken, 0, sent.recipients.0, sent.bytes.len()))
            }
            Received::Ignored { taken } => (taken, (taken, 16, 0, 0)),
        };
        lines.push(line);
        rest = &rest[taken..];
    }
    assert_eq!(lines, [(3, 0, 1, 1), (10, 0, 1, 10), (6, 0, 0, 6), (6, 16, 0, 0), (1, 16, 0, 0)]);
    assert_eq!((table.count(), table.state(0)), (1, Some(State::Greeted)));
}

/// A table with connection 0 open.
fn opened() -> ServerTable {
    let mut table = ServerTable::new();
    table.open(0).unwrap();
    table
}

/// What a delivery sends: recipients and bytes.
fn sent(delivery: Delivery<'_>) -> Vec<(u16, &[u8])> {
    delivery.sent().map(|sent| (sent.recipients.0, sent.bytes)).collect()
}

/// What the example's first three messages send.
const EXAMPLE_SENT: [(u16, &[u8]); 3] =
    [(1, b"\x03"), (1, b"\x10\0\x01a\0\0\0\0\x01\x01"), (0, b"\x11\0\0\0\x02\0")];

#[test]
fn listing_example_as_a_delivery() {
    let mut out = [0; HEADING + LONGEST_HELLO_ANSWER];
    let mut table = opened();
    let delivery = table.deliver(0, &STREAM, &mut out);
    assert_eq!((delivery.ended, delivery.messages, delivery.taken), (Ended::Spent, 5, 26));
    assert_eq!((sent(delivery), delivery.ignored()), (EXAMPLE_SENT.to_vec(), 2));
    assert_eq!((table.count(), table.state(0)), (1, Some(State::Greeted)));
}

#[test]
fn delivery_ends_at_a_refusal_and_what_came_before_stands() {
    let mut out = [0; HEADING + LONGEST_HELLO_ANSWER];
    let mut table = opened();
    let input = [&STREAM[..13], b"\x10\0\x02a\xFF", &STREAM[13..]].concat();
    let delivery = table.deliver(0, &input, &mut out);
    assert_eq!(delivery.ended, Ended::Refused(Refusal::Text(Place::Message(3))));
    assert_eq!((delivery.messages, delivery.taken), (2, 13));
    assert_eq!(sent(delivery), EXAMPLE_SENT[..2]);
    assert_eq!((table.count(), table.state(0)), (1, Some(State::Greeted)));
}

#[test]
fn delivery_goes_on_where_there_was_no_room() {
    // Room for the hello's answer and the new entry, and for all but a byte of the update.
    let mut out = [0; 3 * HEADING + 1 + 10 + 5];
    let mut table = opened();
    let delivery = table.deliver(0, &STREAM, &mut out);
    assert_eq!((delivery.ended, delivery.taken), (Ended::Refused(Refusal::Room), 13));
    assert_eq!(sent(delivery), EXAMPLE_SENT[..2]);
    let delivery = table.deliver(0, &STREAM[13..], &mut out);
    assert_eq!((delivery.ended, delivery.messages), (Ended::Spent, 3));
    assert_eq!(sent(delivery), EXAMPLE_SENT[2..]);
    // Those that are ignored need none.
    let delivery = table.deliver(0, &STREAM[19..], &mut []);
    assert_eq!((delivery.ended, delivery.messages), (Ended::Spent, 2));
}

#[test]
fn delivery_has_a_number_of_messages() {
    let keep_alives = [0; DELIVERY_MESSAGES + 1];
    let mut table = opened();
    for (length, ended) in [
        (0, Ended::Spent),
        (DELIVERY_MESSAGES, Ended::Spent),
        (DELIVERY_MESSAGES + 1, Ended::MaxReached),
    ] {
        let delivery = table.deliver(0, &keep_alives[..length], &mut []);
        let taken = length.min(DELIVERY_MESSAGES);
        assert_eq!((delivery.ended, delivery.messages, delivery.taken), (ended, taken, taken));
    }
}

#[test]
fn delivery_of_a_connection_that_is_closed() {
    let mut out = [0; 100];
    let mut table = opened();
    for input in [&[][..], &STREAM] {
        let closed = table.deliver(1, input, &mut out);
        assert_eq!((closed.ended, closed.messages), (Ended::Refused(Refusal::State), 0));
        let no_such = table.deliver(16, input, &mut out);
        assert_eq!(no_such.ended, Ended::Refused(Refusal::NoSuchConnection));
    }
    // A hello for another revision closes it.
    let other = table.deliver(0, &[0x01, 0x03, 0x00, 0x00], &mut out);
    assert_eq!((other.ended, other.taken), (Ended::Refused(Refusal::State), 3));
    assert_eq!(sent(other), [(1, &[0x02, 0x02, 0x00][..])]);
}

/// A table with connection 1 open and connection 3 greeted, whose entry 0 is the Boolean "tare" with
/// the number 5.
fn with_tare() -> ServerTable {
    let mut out = [0; LONGEST_HELLO_ANSWER];
    let mut table = ServerTable::new();
    table.create(b"tare", Type::Boolean, &[0], &mut out).unwrap();
    table.open(1).unwrap();
    table.open(3).unwrap();
    let messages = b"\x01\x02\0\x11\0\0\0\x05\x01";
    assert_eq!(table.deliver(3, messages, &mut [0; 100]).ended, Ended::Spent);
    table
}

fn assert_same(left: &ServerTable, right: &ServerTable) {
    assert_eq!(left.count(), right.count());
    (0..left.count() as u16).for_each(|id| assert_eq!(left.entry(id), right.entry(id)));
    (0..CONNECTIONS).for_each(|c| assert_eq!(left.state(c), right.state(c)));
}

/// The reason is this one, asking for it changes nothing, and the real call answers with its number.
fn assert_why(table: &ServerTable, connection: usize, message: &[u8], reason: Reason) {
    let mut received = table.clone();
    assert_eq!(table.why(connection, message), reason, "{message:02X?}");
    assert_same(table, &received);
    let number = match received.receive(connection, message, &mut [0; LONGEST_HELLO_ANSWER]) {
        Ok(Received::Done { .. }) => 0,
        Ok(Received::Ignored { .. }) => 16,
        Err(refusal) => refusal.number(),
    };
    assert_eq!(number, reason.number(), "{message:02X?}");
}

/// Messages of connection 3 that are taken, and why they are done or ignored.
const TAKEN: [(&[u8], Reason); 10] = [
    (b"\0", Reason::KeepAlive),
    (b"\x10\0\x04tare\x01\xFF\xFF\0\0\0\0\0\0\0\0\0\0", Reason::NameHeld { id: 0 }),
    (b"\x10\0\x05gross\0\xFF\xFF\0\0\0", Reason::Done),
    (b"\x11\0\0\0\x05\0", Reason::Equal),
    (b"\x11\0\0\0\x04\0", Reason::Older { by: 1 }),
    (b"\x11\0\0\x80\x06\0", Reason::Older { by: 32_767 }),
    (b"\x11\0\0\x80\x05\0", Reason::Undefined),
    (b"\x11\0\0\x80\x04\0", Reason::Applied { by: 32_767 }),
    // The value that is held; and what stands behind a message is not looked at.
    (b"\x11\0\0\0\x06\x01", Reason::Applied { by: 1 }),
    (b"\x11\0\0\0\x06\0\x04", Reason::Applied { by: 1 }),
];

#[test]
fn reasons_of_messages_that_are_taken() {
    let table = with_tare();
    for (message, reason) in TAKEN {
        assert_why(&table, 3, message, reason);
    }
    // Each revision's hello is done.
    assert_why(&table, 1, &[0x01, 0x02, 0x00], Reason::Done);
    assert_why(&table, 1, &[0x01, 0x03, 0x00], Reason::Done);
    assert_why(&table, 1, &[0x00], Reason::KeepAlive);
}

/// Messages that are refused, and where. Connection 0 is closed.
const REFUSED: [(usize, &[u8], Refusal, usize); 17] = [
    (16, b"\0", Refusal::NoSuchConnection, 0),
    (0, b"\0", Refusal::State, 0),
    (1, b"\x11", Refusal::State, 0),
    (3, b"\x01\x02\0", Refusal::State, 0),
    (3, b"\x02\x02\0", Refusal::Kind, 0),
    (3, b"", Refusal::Incomplete, 0),
    (1, b"\x01\x02", Refusal::Incomplete, 1),
    (3, b"\x10\0\x02a", Refusal::Incomplete, 3),
    (3, b"\x10\0\x02ab\0\xFF\xFF\0", Refusal::Incomplete, 8),
    (3, b"\x11\0\0\0\x06", Refusal::Incomplete, 5),
    (3, b"\x10\0\x02ab\x12\xFF\xFF\0\0\x02\0\x01c\0\x02d", Refusal::Incomplete, 16),
    (3, b"\x10\0\x02ab\0\0\0", Refusal::AssignmentId, 6),
    (3, b"\x11\0\x01", Refusal::UnknownId, 1),
    (3, b"\x10\0\x02ab\x03", Refusal::Type(Place::Message(5)), 5),
    (3, b"\x11\0\0\0\x06\x02", Refusal::Boolean(Place::Message(5)), 5),
    (3, b"\x10\0\x02a\xFF", Refusal::Text(Place::Message(3)), 3),
    (3, b"\x10\0\x41", Refusal::TooLong(Place::Message(1)), 1),
];

#[test]
fn reasons_of_messages_that_are_refused() {
    let table = with_tare();
    for (connection, message, refusal, place) in REFUSED {
        assert_why(&table, connection, message, Reason::Refused { refusal, place });
    }
}

#[test]
fn reasons_with_a_full_table() {
    let mut table = with_tare();
    let new = |entry: usize| {
        let name = format!("{entry:02}");
        [b"\x10\0\x02", name.as_bytes(), b"\0\xFF\xFF\0\0\x01"].concat()
    };
    for entry in 1..ENTRIES {
        assert_why(&table, 3, &new(entry), Reason::Done);
        table.receive(3, &new(entry), &mut [0; LONGEST_ASSIGNMENT]).unwrap();
    }
    let full = Reason::Refused { refusal: Refusal::Full, place: 0 };
    assert_why(&table, 3, &new(ENTRIES), full);
    assert_why(&table, 3, &new(63), Reason::NameHeld { id: 63 });
}

/// A table as it stood before messages that made an entry and changed a number, a value's length and a
/// connection's state: it has the reasons of then, before each of the messages.
#[test]
fn reasons_of_a_table_as_it_stood() {
    let mut out = [0; HEADING + LONGEST_HELLO_ANSWER];
    let mut table = with_tare();
    table.create(b"lots", Type::StringArray, b"\x01\0\x01a", &mut out).unwrap();
    let (mut copy, standing) = (table.clone(), table.standing());
    let messages = [
        (3, &b"\x11\0\x01\0\x02\0"[..]),
        (1, b"\x01\x02\0"),
        (1, b"\x11\0\0\0\x07\x01"),
        (1, b"\x10\0\x05gross\0\xFF\xFF\0\0\0"),
        (3, b"\x11\0\x01\0\x05\x02\0\x02bc\0\x01d"),
        (3, b"\x11\0\x02\x80\x01\x01"),
    ];
    for (connection, message) in messages {
        table.receive(connection, message, &mut out).unwrap();
    }
    let mut stood = table.back_to(&standing);
    assert_eq!((stood.count(), table.count()), (2, 3));
    for (connection, message) in messages {
        let asked =
            messages.map(|(_, asked)| asked).into_iter().chain(TAKEN.map(|(asked, _)| asked));
        for (asked, connection) in asked.flat_map(|asked| [0, 1, 3].map(|c| (asked, c))) {
            assert_eq!(stood.why(connection, asked), copy.why(connection, asked));
        }
        stood.receive(connection, message, &mut out).unwrap();
        copy.receive(connection, message, &mut out).unwrap();
    }
    assert_same(&stood, &table);
}

/// Bytes that came in from a connection, as records.
fn came_in(connection: usize, bytes: &[u8]) -> Vec<u8> {
    let record = |bytes: &[u8]| [&[63 + bytes.len() as u8, connection as u8], bytes].concat();
    bytes.chunks(RECORD_DATA).flat_map(record).collect()
}

fn opens(connection: usize) -> Vec<u8> {
    vec![1, connection as u8]
}

fn leaves(connection: usize) -> Vec<u8> {
    vec![2, connection as u8]
}

/// A line record that is run to its end.
fn done(records: usize) -> Replay {
    Replay { records, refused: None }
}

#[test]
fn line_record_of_the_listing_example() {
    let mut table = ServerTable::new();
    // All at once, and byte for byte.
    let replay = table.replay(&[opens(0), came_in(0, &STREAM)].concat());
    assert_eq!(replay, done(2));
    let entry = table.entry(0).map(|entry| (entry.name.to_vec(), entry.number));
    assert_eq!(entry, Some((b"a".to_vec(), 2)));
    assert_eq!((table.count(), table.state(0)), (1, Some(State::Greeted)));
    let bytes = STREAM.iter().flat_map(|&byte| came_in(0, &[byte])).collect();
    assert_eq!(table.replay(&[opens(0), bytes].concat()), done(1 + STREAM.len()));
    assert_eq!(entry, table.entry(0).map(|entry| (entry.name.to_vec(), entry.number)));
}

#[test]
fn line_record_starts_afresh() {
    let mut table = opened();
    table.create(b"n", Type::Boolean, &[1], &mut [0; 10]).unwrap();
    assert_eq!(table.replay(&[]), done(0));
    assert_eq!((table.count(), table.state(0)), (0, Some(State::Closed)));
}

#[test]
fn line_record_with_the_plants_own_code() {
    let mut table = ServerTable::new();
    let create = b"\x10\0\x04tare\0\xFF\xFF\0\0\x01";
    let write = b"\x11\0\0\x12\x34\0";
    let record = [
        came_in(PLANT, create),
        came_in(PLANT, write),
        // Equal, so ignored.
        came_in(PLANT, write),
        // The name is held, so what stands behind is dropped; and a hello is not for the plant.
        came_in(PLANT, &[&create[..], write].concat()),
        came_in(PLANT, &STREAM[..3]),
        // Refused, and no one's leaving.
        leaves(PLANT),
        came_in(PLANT, &[0x11, 0, 0, 0, 0, 1]),
    ];
    assert_eq!(table.replay(&record.concat()), done(7));
    assert_eq!(table.read(0), Ok(Scalar::Boolean(true)));
    assert_eq!((table.count(), table.entry(0).unwrap().number), (1, 3));
}

#[test]
fn line_record_with_messages_that_are_refused() {
    let mut table = ServerTable::new();
    let hello = &STREAM[..3];
    let record = [
        opens(3),
        came_in(3, hello),
        // A kind that there is not: the entry behind it is not made, and the connection leaves.
        came_in(3, &[&[0x07], &STREAM[3..13]].concat()),
        came_in(3, hello),
        opens(3),
        opens(3),
        // Half a hello is dropped when the connection leaves.
        came_in(3, &hello[..2]),
        leaves(3),
        leaves(3),
        opens(3),
        came_in(3, &[0x01, 0x03, 0x00, 0x00]),
        opens(4),
        came_in(4, hello),
        opens(CONNECTIONS),
    ];
    assert_eq!(table.replay(&record.concat()), done(14));
    let states = (0..CONNECTIONS).filter(|&c| table.state(c) != Some(State::Closed));
    assert_eq!((table.count(), states.collect::<Vec<_>>()), (0, vec![4]));
}

#[test]
fn line_record_with_bytes_that_are_dropped() {
    let mut table = ServerTable::new();
    let hello = &STREAM[..3];
    // What comes in while the connection is closed is not held.
    let record = [came_in(3, &hello[..2]), opens(3), came_in(3, &hello[2..])];
    assert_eq!(table.replay(&record.concat()), done(3));
    assert_eq!(table.state(3), Some(State::Open));
    // A record that is cut gives nothing, though a whole message is there.
    let cut = [opens(3), vec![63 + 4, 3], hello.to_vec()].concat();
    assert_eq!(table.replay(&cut), Replay { records: 1, refused: Some(BadRecord::Cut) });
    assert_eq!(table.state(3), Some(State::Open));
}

/// An assignment of a String Array that the first of two elements fills, and a byte more.
fn longest_incomplete() -> Vec<u8> {
    let name = [&[0x10, 0x00, 0x40][..], &[b'n'; 64]].concat();
    let fields = [0x12, 0xFF, 0xFF, 0x00, 0x00, 0x02, 0x00, 0xFD];
    [&name, &fields[..], &[b'v'; 253], &[0x00]].concat()
}

#[test]
fn line_record_with_the_longest_message_that_is_not_complete() {
    let mut table = ServerTable::new();
    let message = longest_incomplete();
    assert_eq!(message.len(), LONGEST_ASSIGNMENT + 1);
    let opens_and_says_hello = [opens(0), came_in(0, &STREAM[..3])].concat();
    for (bytes, state) in [(vec![], State::Greeted), (vec![0x00], State::Closed)] {
        // All other bytes come in between.
        let between = came_in(PLANT, &message);
        let record = [&opens_and_says_hello[..], &came_in(0, &message), &between];
        let record = [record.concat(), came_in(0, &bytes)].concat();
        assert_eq!(table.replay(&record).refused, None);
        assert_eq!((table.count(), table.state(0)), (0, Some(state)));
    }
}

#[test]
fn line_record_ends_at_a_refusal_and_what_came_before_stands() {
    let mut table = ServerTable::new();
    let good = [opens(5), came_in(5, &STREAM[..3])].concat();
    for (bad, refused) in [
        (&[0][..], BadRecord::Unknown),
        (&[63, 5], BadRecord::Unknown),
        (&[128, 5], BadRecord::Unknown),
        (&[64, 17], BadRecord::Unknown),
        (&[64], BadRecord::Cut),
        (&[64, 16], BadRecord::Cut),
        (&[65, 5, 0], BadRecord::Cut),
        (&[1], BadRecord::Cut),
    ] {
        let replay = table.replay(&[&good[..], bad].concat());
        assert_eq!(replay, Replay { records: 2, refused: Some(refused) }, "{bad:?}");
        assert_eq!(table.state(5), Some(State::Greeted));
    }
}

/// An entry's record in a saved table.
fn saved_entry(name: &[u8], value_type: Type, number: u16, value: &[u8]) -> Vec<u8> {
    let mut record = vec![0; SAVED_ENTRY];
    (record[0], record[1]) = (2, name.len() as u8);
    record[2..][..name.len()].copy_from_slice(name);
    record[66] = value_type.code();
    record[67..69].copy_from_slice(&number.to_be_bytes());
    record[69..71].copy_from_slice(&(value.len() as u16).to_be_bytes());
    record[71..][..value.len()].copy_from_slice(value);
    record
}

fn saved(entries: &[Vec<u8>]) -> Vec<u8> {
    [&[1, entries.len() as u8], &entries.concat()[..]].concat()
}

/// The saved form of a table with all types, and another number for the first entry.
fn all_types() -> Vec<u8> {
    saved(&[
        saved_entry(b"tare", Type::Boolean, 65_535, &[1]),
        saved_entry(b"", Type::Double, 1, &f64::NAN.to_be_bytes()),
        saved_entry(&[b'n'; 64], Type::String, 0x0102, &[&[0, 254][..], &[b'v'; 254]].concat()),
        saved_entry(b"\0", Type::BooleanArray, 0, &[&[255][..], &[1; 255]].concat()),
        saved_entry(b"tar", Type::DoubleArray, 1, &[0]),
        saved_entry("tar\u{e9}".as_bytes(), Type::StringArray, 1, b"\x02\0\0\0\x01a"),
    ])
}

#[test]
fn saved_and_loaded() {
    let mut out = [0; LONGEST_SAVED];
    let (form, mut table) = (all_types(), ServerTable::new());
    assert_eq!(form.len(), SAVED_FIRST + 6 * SAVED_ENTRY);
    table.load(&form).unwrap();
    assert_eq!(table.save(&mut out), Ok(&form[..]));
    let entry = table.entry(0).unwrap();
    assert_eq!((entry.name, entry.value_type), (&b"tare"[..], Type::Boolean));
    assert_eq!((entry.number, entry.value), (65_535, &[1][..]));
    assert_eq!((table.count(), table.entry(5).unwrap().name), (6, "tar\u{e9}".as_bytes()));
    // The next write goes on from the saved number.
    let Ok(Written::Done(sent)) = table.write(0, &[0], &mut out) else {
        panic!("another value");
    };
    assert_eq!(sent.bytes, [0x11, 0, 0, 0, 0, 0]);
}

#[test]
fn a_table_has_one_saved_form() {
    let mut out = [0xA5; LONGEST_SAVED];
    let mut table = ServerTable::new();
    // What an earlier table leaves in memory is not saved.
    table.load(&all_types()).unwrap();
    assert_eq!(table.load(&[1, 0]), Ok(()));
    assert_eq!(table.save(&mut out), Ok(&[1, 0][..]));
    table.create(b"t", Type::Boolean, &[0], &mut [0; 20]).unwrap();
    let form = saved(&[saved_entry(b"t", Type::Boolean, 1, &[0])]);
    assert_eq!(table.save(&mut out), Ok(&form[..]));
    assert!(out[form.len()..].iter().all(|&byte| byte == 0xA5));
    // It has to have room.
    assert_eq!(table.save(&mut out[..form.len()]), Ok(&form[..]));
    assert_eq!(table.save(&mut out[..form.len() - 1]), Err(Refusal::Room));
}

#[test]
fn a_copy_is_saved_as_the_table_is() {
    let mut out = [0; LONGEST_HELLO_ANSWER];
    let (mut table, mut copy) = (ServerTable::new(), CopyTable::new());
    table.load(&all_types()).unwrap();
    table.open(5).unwrap();
    let Ok(Received::Done { sent, .. }) = table.receive(5, &STREAM[..3], &mut out) else {
        panic!("an accepted hello");
    };
    copy.receive_all(sent.bytes).unwrap();
    assert_eq!(copy.save(&mut [0; LONGEST_SAVED]), Ok(&all_types()[..]));
    assert_eq!(copy.save(&mut []), Err(Refusal::Room));
}

#[test]
fn a_load_asks_that_connections_are_closed() {
    let mut table = with_tare();
    let before = table.clone();
    assert_eq!(table.load(&[]), Err(Refusal::State));
    assert_eq!(table.load(&all_types()), Err(Refusal::State));
    assert_same(&table, &before);
    table.leave(1).unwrap();
    table.leave(3).unwrap();
    table.load(&all_types()).unwrap();
    assert_eq!((table.count(), table.state(3)), (6, Some(State::Closed)));
}

/// Where the second of two saved entries starts, and which of its bytes, changed to what, is refused
/// and how. It is the String "b" with the value "cd".
const SECOND: usize = SAVED_FIRST + SAVED_ENTRY;
const REFUSED_SAVED: [(usize, u8, Refusal); 17] = [
    (0, 2, Refusal::Kind),
    (0, 3, Refusal::Kind),
    (1, 65, Refusal::TooLong(Place::Saved(1))),
    (1, 1, Refusal::TooLong(Place::Saved(SECOND))),
    (1, 3, Refusal::Incomplete),
    (SECOND, 1, Refusal::Kind),
    (SECOND + 1, 65, Refusal::TooLong(Place::Saved(SECOND + 1))),
    (SECOND + 1, 0, Refusal::Filling),
    (SECOND + 2, 0xFF, Refusal::Text(Place::Saved(SECOND + 2))),
    (SECOND + 2, b'a', Refusal::NameHeld),
    (SECOND + 65, 1, Refusal::Filling),
    (SECOND + 66, 3, Refusal::Type(Place::Saved(SECOND + 66))),
    (SECOND + 66, 0, Refusal::TooLong(Place::Saved(SECOND + 72))),
    (SECOND + 69, 2, Refusal::TooLong(Place::Saved(SECOND + 69))),
    (SECOND + 70, 3, Refusal::Incomplete),
    (SECOND + 74, 0x80, Refusal::Text(Place::Saved(SECOND + 73))),
    (SECOND + 326, 1, Refusal::Filling),
];

#[test]
fn saved_tables_that_are_refused() {
    let form = saved(&[
        saved_entry(b"a", Type::Boolean, 1, &[1]),
        saved_entry(b"b", Type::String, 1, b"\0\x02cd"),
    ]);
    let mut table = ServerTable::new();
    table.load(&all_types()).unwrap();
    let before = table.clone();
    for (byte, changed, refusal) in REFUSED_SAVED {
        let mut bad = form.clone();
        bad[byte] = changed;
        assert_eq!(table.load(&bad), Err(refusal), "{changed} at {byte}");
        assert_same(&table, &before);
    }
    (0..form.len()).for_each(|cut| assert_eq!(table.load(&form[..cut]), Err(Refusal::Incomplete)));
    let more = [&form[..], &[0]].concat();
    assert_eq!(table.load(&more), Err(Refusal::TooLong(Place::Saved(form.len()))));
    assert_same(&table, &before);
    assert_eq!(table.load(&form), Ok(()));
}

#[test]
fn a_full_table_is_saved_and_loaded() {
    let mut out = [0; LONGEST_SAVED];
    let entry = |id: usize| saved_entry(format!("{id:064}").as_bytes(), Type::Boolean, 1, &[0]);
    let mut entries: Vec<_> = (0..ENTRIES).map(entry).collect();
    let form = saved(&entries);
    let mut table = ServerTable::new();
    table.load(&form).unwrap();
    assert_eq!((form.len(), table.save(&mut out)), (LONGEST_SAVED, Ok(&form[..])));
    let full = table.create(b"", Type::Boolean, &[0], &mut out);
    assert_eq!(full, Err(Refusal::Full));
    entries.push(entry(ENTRIES));
    assert_eq!(table.load(&saved(&entries)), Err(Refusal::TooLong(Place::Saved(1))));
}

// Doubles for which equal numbers and equal bytes are not the same.
const ZERO: u64 = 0;
const MINUS_ZERO: u64 = 1 << 63;
const NAN: u64 = 0x7FF8_0000_0000_0000;
const OTHER_NAN: u64 = 0x7FF8_0000_0000_0001;

/// Writes over a Double alone and over the last of two in an array. A value that differs in a byte is
/// sent with the next number, and held as it was written; the same bytes again are ignored.
#[test]
fn values_are_equal_by_their_bytes() {
    let mut out = vec![0; LONGEST_HELLO_ANSWER];
    let array = |last: u64| [&[2][..], &ZERO.to_be_bytes(), &last.to_be_bytes()].concat();
    let mut table = ServerTable::new();
    table.create(b"tare", Type::Double, &ZERO.to_be_bytes(), &mut out).unwrap();
    table.create(b"tares", Type::DoubleArray, &array(ZERO), &mut out).unwrap();
    let written = [MINUS_ZERO, ZERO, NAN, OTHER_NAN, NAN, MINUS_ZERO];
    for (number, bits) in (2..).zip(written) {
        for (id, value) in [(0, bits.to_be_bytes().to_vec()), (1, array(bits))] {
            let update = [&[0x11, 0, id as u8, 0, number][..], &value].concat();
            let Written::Done(sent) = table.write(id, &value, &mut out).unwrap() else {
                panic!("{bits:016x} is held back as equal");
            };
            assert_eq!(sent.bytes, update);
            assert_eq!(table.write(id, &value, &mut out), Ok(Written::Ignored));
            let entry = table.entry(id).unwrap();
            assert_eq!((entry.number, entry.value), (number.into(), &value[..]));
        }
    }
}

#[test]
fn copy_follows_the_server() {
    let mut out = vec![0; LONGEST_HELLO_ANSWER];
    let (mut table, mut copy) = (ServerTable::new(), CopyTable::new());
    table.open(5).unwrap();
    let Received::Done { sent, .. } = table.receive(5, &[0x01, 0x02, 0x00], &mut out).unwrap()
    else {
        panic!("an accepted hello");
    };
    copy.receive_all(sent.bytes).unwrap();

    let parents = b"\x02\x00\x05lot/1\x00\x05lot/2";
    let sent = table.create(b"lot/3/parents", Type::StringArray, parents, &mut out).unwrap();
    assert_eq!(sent.recipients, Recipients(1 << 5));
    copy.receive_all(sent.bytes).unwrap();
    let weight = 12.5f64.to_be_bytes();
    copy.receive_all(table.create(b"weight", Type::Double, &weight, &mut out).unwrap().bytes)
        .unwrap();
    let Written::Done(sent) = table.write(1, &13.0f64.to_be_bytes(), &mut out).unwrap() else {
        panic!("a new value");
    };
    copy.receive_all(sent.bytes).unwrap();

    assert_eq!(table.write(1, &13.0f64.to_be_bytes(), &mut out), Ok(Written::Ignored));
    assert_eq!((copy.count(), table.count()), (2, 2));
    for id in 0..2 {
        assert_eq!(copy.entry(id), table.entry(id));
    }
    assert_eq!(copy.read(0), Ok(Scalar::Neither));
    assert_eq!((copy.read(1), table.read(1)), (Ok(Scalar::Double(13.0)), Ok(Scalar::Double(13.0))));
    assert_eq!(
        copy.receive(&[0x02, 0x02, 0x00]),
        Ok(Copied::Unsupported { taken: 3, revision: 512 })
    );
}

#[test]
fn copy_says_what_it_took() {
    let mut copy = CopyTable::new();
    let assignments = b"\x10\x00\x01a\x00\x00\x00\x00\x01\x00\x10\x00\x01b\x00\x00\x01\x00\x01\x00";
    assert_eq!(copy.receive(assignments), Ok(Copied::Stored { taken: 10, id: 0 }));
    assert_eq!(copy.receive(&assignments[10..]), Ok(Copied::Stored { taken: 10, id: 1 }));
    assert_eq!(copy.receive(&[0x03, 0x00]), Ok(Copied::HelloComplete { taken: 1 }));
    assert_eq!(copy.receive(&[0x00]), Ok(Copied::Ignored { taken: 1 }));
    let update = [0x11, 0x00, 0x00, 0x00, 0x02, 0x01];
    assert_eq!(copy.receive(&update), Ok(Copied::Stored { taken: 6, id: 0 }));
    assert_eq!(copy.receive(&update[..5]), Err(Refusal::Incomplete));
    let held: Vec<_> = copy.entries().map(|(id, entry)| (id, entry.name, entry.number)).collect();
    assert_eq!(held, [(0, &b"a"[..], 2), (1, &b"b"[..], 1)]);
    assert_eq!((copy.find(b"b"), copy.find(b"c")), (Some(1), None));
}

#[test]
fn copy_takes_all_messages() {
    let mut copy = CopyTable::new();
    let messages = b"\x10\x00\x01a\x00\x00\x00\x00\x01\x00\x00\x10\x00\x01b\x00\x00\x01\x00\x01\x00\x11\x00\x01\x00\x02\x01";
    let mut rest = &messages[..];
    let mut taken = Vec::new();
    while !rest.is_empty() {
        let copied = copy.receive(rest).expect("a whole message");
        rest = &rest[copied.taken()..];
        taken.push(copied);
    }
    let update = Copied::Stored { taken: 6, id: 1 };
    assert_eq!((taken.len(), taken[1], taken[3]), (4, Copied::Ignored { taken: 1 }, update));
    let unsupported = Copied::Unsupported { taken: 3, revision: 0x0300 };
    assert_eq!(copy.receive(&[0x02, 0x03, 0x00]), Ok(unsupported));
    copy.fresh();
    assert_eq!(copy.count(), 0);
    assert_eq!(copy.receive_all(messages), Ok(()));
    assert_eq!(copy.entry(1).map(|entry| entry.number), Some(2));
}

#[test]
fn refusals_by_name() {
    let mut out = [0; 400];
    let (mut table, mut copy) = (ServerTable::new(), CopyTable::new());
    assert_eq!(table.open(16), Err(Refusal::NoSuchConnection));
    assert_eq!(table.leave(3), Err(Refusal::State));
    assert_eq!(table.receive(3, &[], &mut out), Err(Refusal::State));
    assert_eq!(table.read(0), Err(Refusal::UnknownId));
    assert_eq!(table.create(b"", Type::Boolean, &[1], &mut []), Err(Refusal::Room));
    table.create(b"", Type::Boolean, &[1], &mut out).unwrap();
    assert_eq!(table.create(b"", Type::Boolean, &[1], &mut out), Err(Refusal::NameHeld));
    assert_eq!(table.read(0), Ok(Scalar::Boolean(true)));
    assert_eq!(copy.receive(&[0x01, 0x02, 0x00]), Err(Refusal::Kind));
    assert_eq!(copy.receive(&[0x11, 0x00, 0x00]), Err(Refusal::UnknownId));
    table.fresh();
    assert_eq!(table.count(), 0);
}

/// A name, type and value that create and the message writer refuse, and how.
const REFUSED_ENTRIES: [(&[u8], Type, &[u8], Refusal); 8] = [
    (&[b'n'; 65], Type::Boolean, &[2], Refusal::TooLong(Place::Name(0))),
    (&[b'n', 0xC0], Type::Boolean, &[2], Refusal::Text(Place::Name(0))),
    (b"n", Type::Boolean, &[2], Refusal::Boolean(Place::Value(0))),
    (b"n", Type::Boolean, &[1, 0, 0], Refusal::TooLong(Place::Value(1))),
    (b"n", Type::String, b"\x00\x02a\xFF", Refusal::Text(Place::Value(2))),
    (b"n", Type::String, &[0, 255], Refusal::TooLong(Place::Value(0))),
    (b"n", Type::DoubleArray, &[32], Refusal::TooLong(Place::Value(0))),
    (b"n", Type::StringArray, b"\x02\x00\x01a\x01\x00", Refusal::TooLong(Place::Value(4))),
];

#[test]
fn places_in_names_and_values() {
    let mut out = [0; 400];
    let mut table = ServerTable::new();
    for (name, value_type, value, refusal) in REFUSED_ENTRIES {
        assert_eq!(table.create(name, value_type, value, &mut out), Err(refusal));
        let message = Message::Assignment { name, value_type, id: 0, number: 0, value };
        assert_eq!(encode(&message, &mut out), Err(refusal));
    }
    let update = |value| Message::Update { value_type: Type::Boolean, id: 0, number: 0, value };
    let bytes_left = Refusal::TooLong(Place::Value(1));
    assert_eq!(encode(&update(&[1, 1]), &mut out), Err(bytes_left));
    table.create(b"n", Type::Boolean, &[1], &mut out).unwrap();
    assert_eq!(table.write(0, &[1, 1], &mut out), Err(bytes_left));
    assert_eq!(table.write(0, &[2, 1], &mut out), Err(Refusal::Boolean(Place::Value(0))));
}

/// Messages that are refused, a Boolean with the ID 0 being held, and how.
const REFUSED_MESSAGES: [(&[u8], Refusal); 5] = [
    (b"\x10\x00\x41", Refusal::TooLong(Place::Message(1))),
    (b"\x10\x00\x02a\xFF", Refusal::Text(Place::Message(3))),
    (b"\x10\x00\x02ab\x03", Refusal::Type(Place::Message(5))),
    (b"\x11\x00\x00\x00\x02\x02", Refusal::Boolean(Place::Message(5))),
    (b"\x11\x00\x00\x00\x02", Refusal::Incomplete),
];

#[test]
fn places_in_messages() {
    let mut out = [0; 400];
    let (mut table, mut copy) = (ServerTable::new(), CopyTable::new());
    copy.receive_all(table.create(b"n", Type::Boolean, &[1], &mut out).unwrap().bytes).unwrap();
    table.open(3).unwrap();
    table.receive(3, &[0x01, 0x02, 0x00], &mut out).unwrap();
    for (message, refusal) in REFUSED_MESSAGES {
        assert_eq!(table.receive(3, message, &mut out), Err(refusal));
        assert_eq!(copy.receive(message), Err(refusal));
        assert_eq!(decode(message, Type::Boolean), Err(refusal));
    }
}

#[test]
fn messages_there_and_back() {
    let (mut out, value_type) = ([0xA5; 400], Type::String);
    let value = b"\x00\x03abc";
    for message in [
        Message::KeepAlive,
        Message::Hello { revision: 0x0200 },
        Message::Unsupported { revision: 0x0300 },
        Message::HelloComplete,
        Message::Assignment { name: b"lot/7", value_type, id: 9, number: 65535, value },
        Message::Update { value_type, id: 9, number: 0, value },
    ] {
        let length = encode(&message, &mut out).unwrap();
        assert_eq!(decode(&out, value_type), Ok((message, length)));
        assert_eq!(encode(&message, &mut out[..length - 1]), Err(Refusal::Room));
        assert_eq!(decode(&out[..length - 1], value_type), Err(Refusal::Incomplete));
    }
}
