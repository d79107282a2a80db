//! The server, from the other end of its streams.

use crate::support::{HELLO, TIMEOUT, TestClient, TestServer, assert_same, bytes_of, new_entry};
use nt2::{
    CONNECTIONS, Copied, DELIVERY_MESSAGES, ENTRIES, LONGEST_UPDATE, Message, NAME_ROOM, Type,
    VALUE_ROOM,
};
use nt2_programs::server::{MOST_LINGERING, MOST_NOTICES, MOST_WAITING, Settings};
use std::net::SocketAddr;
use std::ops::Range;
use std::sync::mpsc::channel;
use std::thread;
use std::time::{Duration, Instant};

const KEEP_ALIVE: u8 = 0x00;
const UNKNOWN_KIND: u8 = 0x04;
const PARENTS: &[u8] = b"\x02\x00\x05lot/1\x00\x05lot/2";

fn boolean_update(id: u16, number: u16, value: &[u8]) -> Message<'_> {
    Message::Update { value_type: Type::Boolean, id, number, value }
}

/// Updates with these numbers, as bytes.
fn boolean_updates(id: u16, numbers: Range<u16>) -> Vec<u8> {
    numbers.flat_map(|number| bytes_of(&boolean_update(id, number, &[1]))).collect()
}

/// A String of the largest size.
fn largest_value() -> Vec<u8> {
    let mut value = vec![b'x'; VALUE_ROOM];
    value[..2].copy_from_slice(&(VALUE_ROOM as u16 - 2).to_be_bytes());
    value
}

#[test]
fn clients_share_one_table() {
    let server = TestServer::start();
    let (mut first, mut second) = (server.greeted(), server.greeted());
    let tare = first.create("tare", Type::Boolean, &[0]);
    second.expect(tare, 1);
    let parents = second.create("lot/3/parents", Type::StringArray, PARENTS);
    first.expect(parents, 1);
    // An update goes to the others, so the sender's next message is its own assignment.
    second.send(&boolean_update(tare, 2, &[1]));
    let weight = second.create("weight", Type::Double, &12.5f64.to_be_bytes());
    first.expect(tare, 2);
    first.expect(weight, 1);
    assert_eq!(second.copy.entry(tare).unwrap().number, 1);
    // One with the number that is held is ignored, and so is an assignment of a held name.
    second.send(&boolean_update(tare, 2, &[0]));
    second.send(&new_entry("weight", Type::Boolean, &[1]));
    second.send(&boolean_update(tare, 3, &[0]));
    first.expect(tare, 3);
    let late = server.greeted();
    assert_eq!((late.copy.count(), late.copy.entry(parents).unwrap().value), (3, PARENTS));
    assert_same(&first.copy, &late.copy);
}

/// A client that creates entries, writes each several times and says at last that it is done.
fn write_entries(address: SocketAddr, writer: usize) {
    let mut client = TestClient::connect(address);
    client.greet();
    for entry in 0..8 {
        let id = client.create(&format!("{writer}/{entry}"), Type::Boolean, &[0]);
        for number in 2..12 {
            client.send(&boolean_update(id, number, &[(number % 2) as u8]));
        }
    }
    client.create(&format!("{writer}/done"), Type::StringArray, PARENTS);
}

#[test]
fn readers_and_late_joiners_hold_the_same() {
    let server = TestServer::start();
    let (mut early, address) = (server.greeted(), server.address());
    let writers: Vec<_> =
        (0..4).map(|writer| thread::spawn(move || write_entries(address, writer))).collect();
    let mut joined_between = server.greeted();
    for writer in 0..4 {
        early.find(&format!("{writer}/done"));
        joined_between.find(&format!("{writer}/done"));
    }
    let late = server.greeted();
    assert_eq!(late.copy.count(), 36);
    assert_same(&early.copy, &late.copy);
    assert_same(&joined_between.copy, &late.copy);
    writers.into_iter().for_each(|writer| writer.join().unwrap());
}

#[test]
fn messages_in_pieces_and_together() {
    let server = TestServer::start();
    let mut client = server.connected(0);
    let mut stream = bytes_of(&HELLO);
    stream.extend(bytes_of(&Message::KeepAlive));
    stream.extend(bytes_of(&new_entry("a", Type::StringArray, PARENTS)));
    stream.iter().for_each(|byte| client.send_bytes(&[*byte]));
    assert!(matches!(client.next(), Copied::HelloComplete { .. }));
    client.expect(0, 1);
    let mut together = bytes_of(&new_entry("b", Type::Boolean, &[0]));
    together.extend(bytes_of(&boolean_update(1, 2, &[1])));
    together.extend(bytes_of(&new_entry("c", Type::Boolean, &[1])));
    client.send_bytes(&together);
    client.expect(1, 1);
    client.expect(2, 1);
    assert_eq!(server.greeted().copy.entry(1).unwrap().number, 2);
}

#[test]
fn more_messages_together_than_a_delivery_takes() {
    let server = TestServer::start();
    let (mut sender, mut reader) = (server.greeted(), server.greeted());
    let id = sender.create("tare", Type::Boolean, &[0]);
    reader.expect(id, 1);
    let end = 2 + 2 * DELIVERY_MESSAGES as u16 + 10;
    // The last one is cut.
    let updates = boolean_updates(id, 2..end);
    let (most, cut) = updates.split_at(updates.len() - 2);
    sender.send_bytes(most);
    (2..end - 1).for_each(|number| reader.expect(id, number));
    sender.send_bytes(&[cut, &bytes_of(&new_entry("gross", Type::Boolean, &[1]))].concat());
    reader.expect(id, end - 1);
    reader.expect(id + 1, 1);
    sender.expect(id + 1, 1);
}

#[test]
fn messages_before_a_refused_one_stand() {
    let server = TestServer::start();
    let (mut sender, mut reader) = (server.connected(0), server.connected(1));
    sender.greet();
    reader.greet();
    let id = sender.create("tare", Type::Boolean, &[0]);
    reader.expect(id, 1);
    let end = 2 + DELIVERY_MESSAGES as u16 + 10;
    let mut stream = boolean_updates(id, 2..end);
    stream.extend(bytes_of(&new_entry("gross", Type::Boolean, &[1])));
    stream.extend(b"\x11\x00\x00\xFF\x00\x02");
    stream.extend(boolean_updates(id, end..end + 10));
    sender.send_bytes(&stream);
    (2..end).for_each(|number| reader.expect(id, number));
    reader.expect(id + 1, 1);
    sender.expect(id + 1, 1);
    sender.expect_end();
    let refused =
        "connection 0: refused with 8, Boolean byte is not 0 or 1, at byte 5 of the message";
    assert_eq!(server.next_notice(), refused);
    assert_eq!(server.next_notice(), "connection 0: left, a message was refused");
    assert_eq!(server.greeted().copy.entry(id).unwrap().number, end - 1);
}

#[test]
fn messages_behind_the_longest_hello_answer() {
    let server = TestServer::start();
    let (mut writer, value) = (server.greeted(), largest_value());
    for entry in 0..ENTRIES {
        writer.create(&format!("{entry:0NAME_ROOM$}"), Type::String, &value);
    }
    let update =
        |id| bytes_of(&Message::Update { value_type: Type::String, id, number: 2, value: &value });
    let mut client = server.connected(1);
    client.send_bytes(&[bytes_of(&HELLO), update(5), update(6)].concat());
    while !matches!(client.next(), Copied::HelloComplete { .. }) {}
    assert_same(&client.copy, &writer.copy);
    writer.expect(5, 2);
    writer.expect(6, 2);
}

#[test]
fn damaged_message_closes_its_sender_only() {
    let server = TestServer::start();
    let (mut other, mut sender) = (server.connected(0), server.connected(1));
    other.greet();
    sender.greet();
    // What stands before the damaged message is taken, what stands behind it is dropped.
    let mut stream = bytes_of(&new_entry("before", Type::Boolean, &[1]));
    stream.extend(b"\x10\x00\x02\xC0\x80\x00\xFF\xFF\x00\x00\x01");
    stream.extend(bytes_of(&new_entry("behind", Type::Boolean, &[1])));
    sender.send_bytes(&stream);
    sender.expect(0, 1);
    sender.expect_end();
    let refused = "connection 1: refused with 9, text is not UTF-8, at byte 3 of the message";
    assert_eq!(server.next_notice(), refused);
    assert_eq!(server.next_notice(), "connection 1: left, a message was refused");
    other.expect(0, 1);
    assert_eq!(other.create("after", Type::Boolean, &[1]), 1);
    server.connected(1).greet();
}

#[test]
fn notice_says_where_the_fault_is() {
    let server = TestServer::start();
    let mut other = server.connected(0);
    other.greet();
    other.create("tare", Type::Boolean, &[0]);
    for (message, refused) in [
        (&b"\x10\x00\x02ab\x03"[..], "7, type is unknown, at byte 5 of the message"),
        (b"\x11\0\0\0\x02\x05", "8, Boolean byte is not 0 or 1, at byte 5 of the message"),
        (
            b"\x10\0\x01a\x12\xFF\xFF\0\0\x02\0\x01b\0\x02c\xFF",
            "9, text is not UTF-8, at byte 15 of the message",
        ),
        (b"\x10\x00\x41", "10, name or value is too long, at byte 1 of the message"),
        (&[UNKNOWN_KIND], "4, kind is unknown, or not for this end, at byte 0 of the message"),
        (
            b"\x10\x00\x02ab\x00\x00\x07",
            "5, assignment ID is not the one allowed, at byte 6 of the message",
        ),
        (b"\x11\x00\x01", "6, ID is not in the table, at byte 1 of the message"),
        // Behind a message that is taken the place counts from its own message too.
        (
            b"\x00\x11\0\0\0\x02\x01\x11\x00\x01",
            "6, ID is not in the table, at byte 1 of the message",
        ),
        // The connection's state has no place.
        (b"\x01\x02\x00", "3, connection state does not allow this"),
    ] {
        let mut client = server.connected(1);
        client.greet();
        client.send_bytes(message);
        assert_eq!(server.next_notice(), format!("connection 1: refused with {refused}"));
        assert_eq!(server.next_notice(), "connection 1: left, a message was refused");
    }
}

#[test]
fn full_table_has_no_place() {
    let server = TestServer::start();
    let mut client = server.connected(0);
    client.greet();
    for entry in 0..ENTRIES {
        client.create(&entry.to_string(), Type::Boolean, &[1]);
    }
    // A name that is held is ignored even so.
    client.send(&new_entry("63", Type::Double, &[0; 8]));
    client.send(&new_entry("64", Type::Boolean, &[1]));
    let ignored = r#"connection 0: assignment of "63" ignored: entry 63 has this name"#;
    assert_eq!(server.next_notice(), ignored);
    assert_eq!(server.next_notice(), "connection 0: refused with 11, table is full");
}

#[test]
fn notice_says_why_a_message_is_ignored() {
    let server = TestServer::start();
    let mut client = server.connected(0);
    client.greet();
    let parents = client.create("lot/7/parents", Type::StringArray, PARENTS);
    let tare = client.create("say \"tare\"\n", Type::Boolean, &[0]);
    client.send(&boolean_update(tare, 5, &[1]));
    let old =
        Message::Update { value_type: Type::StringArray, id: parents, number: 0, value: PARENTS };
    let held = new_entry("lot/7/parents", Type::Boolean, &[1]);
    let update_of_tare = r#"update of "say \"tare\"\n""#;
    for (message, ignored, why) in [
        (held, r#"assignment of "lot/7/parents""#, "entry 0 has this name"),
        (old, r#"update of "lot/7/parents""#, "number 0 is older than 1 by 1"),
        (boolean_update(tare, 5, &[0]), update_of_tare, "number 5 is the one that is stored"),
        (boolean_update(tare, 4, &[0]), update_of_tare, "number 4 is older than 5 by 1"),
        (
            boolean_update(tare, 32_774, &[0]),
            update_of_tare,
            "number 32774 is older than 5 by 32767",
        ),
        (
            boolean_update(tare, 32_773, &[0]),
            update_of_tare,
            "number 32773 and the stored 5 are 32,768 apart, so neither is greater",
        ),
    ] {
        client.send(&message);
        assert_eq!(server.next_notice(), format!("connection 0: {ignored} ignored: {why}"));
    }
    assert_eq!(server.greeted().copy.entry(tare).unwrap().number, 5);
}

#[test]
fn notice_of_an_ignored_message_is_that_of_its_moment() {
    let server = TestServer::start();
    let mut client = server.connected(0);
    client.greet();
    let id = client.create("tare", Type::Boolean, &[0]);
    // Behind each update one with the number before, which is ignored, and at last a fault.
    let end = 2 + 2 * DELIVERY_MESSAGES as u16;
    let update_and_older =
        |number| [boolean_updates(id, number..number + 1), boolean_updates(id, number - 1..number)];
    let mut stream: Vec<u8> = (2..end).flat_map(update_and_older).flatten().collect();
    stream.push(UNKNOWN_KIND);
    client.send_bytes(&stream);
    for stored in 2..end {
        let why = format!("number {} is older than {stored} by 1", stored - 1);
        let ignored = format!("connection 0: update of \"tare\" ignored: {why}");
        assert_eq!(server.next_notice(), ignored);
    }
    server.expect("connection 0: refused with 4");
    assert_eq!(server.greeted().copy.entry(id).unwrap().number, end - 1);
}

#[test]
fn keep_alive_is_not_spoken_of() {
    let server = TestServer::start();
    let mut client = server.connected(0);
    client.send_bytes(&[KEEP_ALIVE]);
    client.greet();
    let id = client.create("tare", Type::Boolean, &[0]);
    client.send_bytes(&[KEEP_ALIVE; 3 * DELIVERY_MESSAGES]);
    client.send_bytes(&[&[KEEP_ALIVE; 2][..], &boolean_updates(id, 1..3), &[KEEP_ALIVE]].concat());
    let ignored = r#"connection 0: update of "tare" ignored: number 1 is the one that is stored"#;
    assert_eq!(server.next_notice(), ignored);
    client.finish();
    assert_eq!(server.next_notice(), "connection 0: left, end of the stream");
}

#[test]
fn hello_for_another_revision_is_answered_and_closed() {
    let server = TestServer::start();
    // What stands behind it is dropped, whatever it is.
    for behind in [bytes_of(&HELLO), vec![UNKNOWN_KIND], vec![0x11, 0x00], Vec::new()] {
        let mut client = server.connected(0);
        let hello = bytes_of(&Message::Hello { revision: 0x0300 });
        client.send_bytes(&[hello, behind].concat());
        assert_eq!(client.bytes(3), [0x02, 0x02, 0x00]);
        client.expect_end();
        assert_eq!(server.next_notice(), "connection 0: left, hello for another revision");
    }
    server.connected(0).greet();
}

#[test]
fn end_of_a_stream_leaves() {
    let server = TestServer::start();
    let (mut stays, mut leaves) = (server.connected(0), server.connected(1));
    stays.greet();
    leaves.greet();
    // All that was sent before the end is taken, but for the message that is cut.
    leaves.send(&new_entry("last", Type::Boolean, &[1]));
    leaves.send_bytes(&[0x11, 0x00]);
    leaves.finish();
    leaves.expect(0, 1);
    leaves.expect_end();
    assert_eq!(server.next_notice(), "connection 1: left, end of the stream");
    stays.expect(0, 1);
}

#[test]
fn seventeenth_connection_is_closed() {
    let server = TestServer::start();
    let mut clients: Vec<_> = (0..CONNECTIONS).map(|number| server.connected(number)).collect();
    let mut one_more = TestClient::connect(server.address());
    one_more.expect_end();
    assert!(server.next_notice().contains("closed, all 16 connections are open"));
    assert_eq!(server.run(&["list"]).unwrap_err().status(), 1);
    drop(clients.remove(9));
    drop(clients.remove(4));
    server.expect("left, end of the stream");
    server.expect("left, end of the stream");
    server.connected(4).greet();
    clients.iter_mut().for_each(TestClient::greet);
}

#[test]
fn silent_client_does_not_delay_others() {
    let server = TestServer::start();
    let (_says_nothing, mut stops_halfway) = (server.connected(0), server.connected(1));
    stops_halfway.greet();
    let message = bytes_of(&new_entry("lot/3/parents", Type::StringArray, PARENTS));
    let (half, rest) = message.split_at(message.len() / 2);
    stops_halfway.send_bytes(half);
    let mut client = server.greeted();
    assert_eq!(client.create("tare", Type::Boolean, &[1]), 0);
    stops_halfway.expect(0, 1);
    stops_halfway.send_bytes(rest);
    stops_halfway.expect(1, 1);
    client.expect(1, 1);
}

#[test]
fn idle_connection_is_closed() {
    let idle_limit = Duration::from_secs(1);
    let settings = Settings { idle_limit, ..Settings::default() };
    let server = TestServer::start_with(settings, || {});
    let (mut without_hello, mut greeted) = (server.connected(0), server.connected(1));
    let mut sends_keep_alive = server.connected(2);
    greeted.greet();
    let (start, mut closed) = (Instant::now(), 0);
    while closed < 2 {
        assert!(start.elapsed() < TIMEOUT, "an idle connection is not closed");
        sends_keep_alive.send_bytes(&[KEEP_ALIVE]);
        let text = "left, nothing has arrived for too long";
        closed += usize::from(server.says_within(idle_limit / 10, text));
    }
    without_hello.expect_end();
    greeted.expect_end();
    sends_keep_alive.greet();
    let _numbers_are_free = (server.connected(0), server.connected(1));
}

#[test]
fn client_that_sends_without_pause_does_not_delay_others() {
    let server = TestServer::start();
    let (mut busy, mut client) = (server.greeted(), server.greeted());
    busy.send_bytes(&[KEEP_ALIVE; 262_144]);
    client.create("tare", Type::Boolean, &[1]);
    busy.expect(0, 1);
}

/// Updates of a String, sent together.
const ROUND: u16 = 100;
/// Far more than any buffer between server and client holds.
const MOST_ROUNDS: usize = 4000;

#[test]
fn client_that_does_not_read_is_dropped() {
    let server = TestServer::start();
    let mut does_not_read = server.connected(0);
    does_not_read.greet();
    let (mut writer, mut reader) = (server.greeted(), server.greeted());
    let value = largest_value();
    let id = writer.create("weight", Type::String, &value);
    reader.expect(id, 1);
    let (mut number, mut rounds) = (1u16, 0);
    while !server.has_said("connection 0: left, the client does not read") {
        assert!(rounds < MOST_ROUNDS);
        let first = number.wrapping_add(1);
        number = number.wrapping_add(ROUND);
        let numbers = (0..ROUND).map(|step| first.wrapping_add(step));
        let update = |number| {
            bytes_of(&Message::Update { value_type: Type::String, id, number, value: &value })
        };
        writer.send_bytes(&numbers.clone().flat_map(update).collect::<Vec<u8>>());
        numbers.for_each(|number| reader.expect(id, number));
        rounds += 1;
    }
    assert!(rounds * usize::from(ROUND) * LONGEST_UPDATE > MOST_WAITING);
    assert_same(&server.greeted().copy, &reader.copy);
}

/// How many notices come until one says how many were dropped, and how many that were.
fn taken_and_dropped(server: &TestServer) -> (usize, usize) {
    let mut taken = 0;
    loop {
        let notice = server.next_notice();
        match notice.strip_prefix("notices dropped: ") {
            Some(count) => return (taken, count.parse().unwrap()),
            None => taken += 1,
        }
    }
}

#[test]
fn notices_that_are_not_taken_stop_no_call() {
    // No notice is taken before the sender is dropped.
    let (not_taking, blocked) = channel::<()>();
    let server = TestServer::start_with(Settings::default(), move || {
        assert!(blocked.recv().is_err());
    });
    for _ in 0..MOST_NOTICES {
        let mut client = server.greeted();
        client.finish();
        client.expect_end();
    }
    let mut last = server.greeted();
    assert_eq!(last.create("tare", Type::Boolean, &[1]), 0);
    drop(not_taking);
    let (taken, dropped) = taken_and_dropped(&server);
    // Each client was opened, and all but the last one have left.
    assert_eq!(taken + dropped, 2 * MOST_NOTICES + 1);
    server.connected(1);
}

/// Messages that are ignored, in one delivery.
const IGNORED: usize = 10;

#[test]
fn notices_of_ignored_messages_are_dropped_and_counted() {
    let (not_taking, blocked) = channel::<()>();
    let server = TestServer::start_with(Settings::default(), move || {
        assert!(blocked.recv().is_err());
    });
    let (mut writer, mut reader) = (server.greeted(), server.greeted());
    let id = writer.create("tare", Type::Boolean, &[0]);
    reader.expect(id, 1);
    let deliveries = 2 * MOST_NOTICES;
    let ignored = boolean_updates(id, 1..2).repeat(IGNORED);
    for number in (2..).take(deliveries) {
        let applied = boolean_updates(id, number..number + 1);
        writer.send_bytes(&[&[KEEP_ALIVE], &ignored[..], &applied].concat());
        reader.expect(id, number);
    }
    // What a delivery has for the clients is sent before its notices wait. With this one sent, those of
    // all before it do.
    writer.create("last", Type::Boolean, &[0]);
    drop(not_taking);
    let (taken, dropped) = taken_and_dropped(&server);
    // Two of them say that the clients were opened.
    assert_eq!(taken + dropped, 2 + deliveries * IGNORED);
}

#[test]
fn closed_connections_that_linger_are_bounded() {
    // Without the bound none of them would end in the test's time.
    let settings = Settings { linger: 10 * TIMEOUT, ..Settings::default() };
    let server = TestServer::start_with(settings, || {});
    let closed_by_server = || {
        let mut client = server.connected(0);
        client.send_bytes(&[UNKNOWN_KIND]);
        client.expect_end();
        client
    };
    let mut clients: Vec<_> = (0..=MOST_LINGERING).map(|_| closed_by_server()).collect();
    clients[0].send_until_closed();
    clients[1..].iter_mut().for_each(|client| client.send_bytes(&[KEEP_ALIVE]));
    clients.push(closed_by_server());
    clients[1].send_until_closed();
    clients[2..].iter_mut().for_each(|client| client.send_bytes(&[KEEP_ALIVE]));
    server.connected(0).greet();
}

#[test]
fn stop_ends_all_streams() {
    let server = TestServer::start();
    let (mut greeted, mut open) = (server.greeted(), server.connected(1));
    server.stop();
    greeted.expect_end();
    open.expect_end();
}
