//! The client program's commands, with the server and with ends that answer wrongly.

use crate::program::{ServerProgram, program, server_program};
use crate::support::{
    ANY_PORT, HELLO, TIMEOUT, TestClient, TestServer, bytes_of, one_connection, run_at,
};
use nt2::{ENTRIES, Message, Place, Refusal, Type};
use nt2_programs::command;
use nt2_programs::failure::Failure;
use std::io::{self, Write};
use std::net::TcpListener;
use std::sync::mpsc::{Receiver, Sender, channel};
use std::thread;

#[test]
fn all_types_are_listed() {
    let server = TestServer::start();
    assert_eq!(server.run(&["list"]).unwrap(), "id name type number value\nend 1 entries 0\n");
    for (words, line) in [
        (&["create", "tare", "boolean", "false"][..], "0 \"tare\" boolean 1 false\n"),
        (&["create", "weight", "double", "-12.5"], "1 \"weight\" double 1 -12.5\n"),
        (&["create", "", "string", "two words"], "2 \"\" string 1 \"two words\"\n"),
        (&["create", "a\nb", "booleans", "true", "false"], "3 \"a\\nb\" booleans 1 true false\n"),
        (&["create", "scale", "doubles", "1e9", "NaN"], "4 \"scale\" doubles 1 1000000000.0 NaN\n"),
        (&["create", "lot/3/parents", "strings"], "5 \"lot/3/parents\" strings 1\n"),
        (&["write", "weight", "13"], "1 \"weight\" double 2 13.0\n"),
        (
            &["write", "lot/3/parents", "lot/1", "lot/2"],
            "5 \"lot/3/parents\" strings 2 \"lot/1\" \"lot/2\"\n",
        ),
        (&["write", "lot/3/parents", "lot/1"], "5 \"lot/3/parents\" strings 3 \"lot/1\"\n"),
    ] {
        assert_eq!(server.run(words).unwrap(), line);
    }
    let listed = "id name type number value\n0 \"tare\" boolean 1 false\n\
                  1 \"weight\" double 2 13.0\n2 \"\" string 1 \"two words\"\n\
                  3 \"a\\nb\" booleans 1 true false\n4 \"scale\" doubles 1 1000000000.0 NaN\n\
                  5 \"lot/3/parents\" strings 3 \"lot/1\"\nend 128 entries 6\n";
    assert_eq!(server.run(&["list"]).unwrap(), listed);
}

#[test]
fn refusals_change_nothing() {
    let server = TestServer::start();
    server.run(&["create", "tare", "boolean", "false"]).unwrap();
    let before = server.run(&["list"]).unwrap();
    let refused = |words: &[&str]| server.run(words).unwrap_err();
    let again = refused(&["create", "tare", "boolean", "false"]);
    assert!(matches!(again, Failure::Refused(Refusal::NameHeld)));
    assert_eq!(again.to_string(), "refused with 13, name is already there");
    let (name, value) = ("n".repeat(65), "v".repeat(255));
    for (words, place) in [
        (&["create", &name, "boolean", "true"][..], Place::Name(0)),
        (&["create", "s", "string", &value], Place::Value(0)),
        (&["create", "s", "strings", "lot/1", &value], Place::Value(8)),
    ] {
        let failure = refused(words);
        assert!(matches!(failure, Failure::Refused(Refusal::TooLong(at)) if at == place));
        assert_eq!(failure.status(), 1);
    }
    assert!(matches!(refused(&["write", "weight", "1"]), Failure::NoEntry(_)));
    for words in [
        &["write", "tare", "1"][..],
        &["write", "tare"],
        &["write", "tare", "true", "true"],
        &["create", "tare"],
        &["create", "weight", "float", "1"],
        &["list", "all"],
        &["--server"],
        &[],
    ] {
        assert_eq!(refused(words).status(), 2);
    }
    assert_eq!(server.run(&["list"]).unwrap(), before);
}

#[test]
fn full_table_takes_no_more() {
    let server = TestServer::start();
    let mut client = server.greeted();
    for place in 0..ENTRIES {
        client.create(&place.to_string(), Type::Boolean, &[0]);
    }
    let refused = server.run(&["create", "one more", "boolean", "true"]).unwrap_err();
    assert!(matches!(refused, Failure::Refused(Refusal::Full)));
    assert!(server.run(&["list"]).unwrap().ends_with("entries 64\n"));
}

/// An output that hands over each line.
struct Lines {
    line: Vec<u8>,
    lines: Sender<String>,
}

impl Write for Lines {
    fn write(&mut self, bytes: &[u8]) -> io::Result<usize> {
        for &byte in bytes {
            if byte == b'\n' {
                let line = String::from_utf8(std::mem::take(&mut self.line)).unwrap();
                self.lines.send(line).unwrap();
            } else {
                self.line.push(byte);
            }
        }
        Ok(bytes.len())
    }

    fn flush(&mut self) -> io::Result<()> {
        Ok(())
    }
}

fn expect_line(lines: &Receiver<String>, line: &str) {
    assert_eq!(lines.recv_timeout(TIMEOUT).unwrap(), line);
}

#[test]
fn watch_prints_what_arrives() {
    let server = TestServer::start();
    server.run(&["create", "tare", "boolean", "false"]).unwrap();
    let ((lines, printed), address) = (channel(), server.address().to_string());
    let watching = thread::spawn(move || {
        command::run(&["--server", &address, "watch"], &mut Lines { line: Vec::new(), lines })
    });
    expect_line(&printed, "id name type number value");
    expect_line(&printed, "0 \"tare\" boolean 1 false");
    expect_line(&printed, "end 14 entries 1");
    server.run(&["create", "weight", "double", "12.5"]).unwrap();
    expect_line(&printed, "1 \"weight\" double 1 12.5");
    server.run(&["write", "tare", "true"]).unwrap();
    expect_line(&printed, "0 \"tare\" boolean 2 true");
    server.stop();
    watching.join().unwrap().unwrap();
    assert!(printed.recv().is_err());
}

/// What a client's command comes to where the server's end sends these bytes and closes.
fn answered_with(bytes: &[u8], words: &[&str]) -> Result<String, Failure> {
    let bytes = bytes.to_vec();
    let (address, server) = one_connection(move |mut end: TestClient| {
        assert_eq!(end.bytes(3), bytes_of(&HELLO));
        end.send_bytes(&bytes);
        end.finish();
        end.discard();
    });
    let done = run_at(address, words);
    server.join().unwrap();
    done
}

/// Entry 0, "a", a Boolean with number 65535.
const ASSIGNMENT: &[u8] = b"\x10\x00\x01a\x00\x00\x00\xFF\xFF\x00\x03";

#[test]
fn streams_that_end_early() {
    let ended = |bytes: &[u8], words: &[&str]| {
        assert!(matches!(answered_with(bytes, words), Err(Failure::EndedEarly)));
    };
    ended(b"", &["list"]);
    ended(&ASSIGNMENT[..9], &["list"]);
    ended(&ASSIGNMENT[..10], &["list"]);
    ended(b"\x03", &["create", "a", "boolean", "true"]);
    ended(b"\x03\x10\x00", &["watch"]);
    ended(b"\x03\x10\x00\x01b\x00\x00\x00\x00\x01\x00", &["create", "a", "boolean", "true"]);
    assert!(answered_with(b"\x03", &["watch"]).is_ok());
}

#[test]
fn wrong_messages_of_a_server() {
    let failure = |bytes: &[u8]| answered_with(bytes, &["list"]).unwrap_err().to_string();
    assert_eq!(failure(b"\x02\x03\x00"), "the server speaks revision 0x0300 only");
    assert_eq!(
        failure(b"\x10\x00\x01a\x00\x00\x01\x00\x01\x00\x03"),
        "the server's message is refused with 5, assignment ID is not the one allowed"
    );
}

#[test]
fn place_of_a_fault_in_a_servers_message() {
    let refused = |bytes: &[u8], words: &str| {
        // The message stands behind another one, and its place counts from its own start.
        let failure = answered_with(&[&ASSIGNMENT[..10], bytes].concat(), &["list"]).unwrap_err();
        let message = format!("the server's message is refused with {words} of the message");
        assert_eq!(failure.to_string(), message);
    };
    refused(b"\x10\x00\x01b\x13", "7, type is unknown, at byte 4");
    refused(b"\x11\x00\x00\x00\x00\xFF", "8, Boolean byte is not 0 or 1, at byte 5");
    refused(b"\x10\x00\x02b\xFF\x00\x00\x01", "9, text is not UTF-8, at byte 3");
    refused(b"\x10\x00\x41", "10, name or value is too long, at byte 1");
}

#[test]
fn another_client_was_first() {
    // The name came from another one with another value.
    let assigned = b"\x03\x10\x00\x01a\x00\x00\x00\x00\x01\x00";
    let created = answered_with(assigned, &["create", "a", "boolean", "true"]);
    assert!(matches!(created, Err(Failure::Refused(Refusal::NameHeld))));
}

/// Entries 0 and 1, "a" and "b", Booleans with number 1, and hello complete.
const TWO_ENTRIES: &[u8] =
    b"\x10\x00\x01a\x00\x00\x00\x00\x01\x00\x10\x00\x01b\x00\x00\x01\x00\x01\x00\x03";

/// What writing entry 0 comes to where these updates arrive before the stream ends.
fn written_beside(updates: &[[u8; 6]]) -> Result<String, Failure> {
    answered_with(&[TWO_ENTRIES, updates.as_flattened()].concat(), &["write", "a", "true"])
}

#[test]
fn another_update_leaves_a_write_unknown() {
    // One with the number that ours has was first. One that is further ahead was first, and ours
    // ignored, or it came after ours.
    for number in [2, 3, 7] {
        let failure = written_beside(&[[0x11, 0, 0, 0, number, 1]]).unwrap_err();
        assert!(matches!(failure, Failure::OtherUpdate(other) if other == number.into()));
        assert_eq!(failure.status(), 1);
    }
    let failure = written_beside(&[[0x11, 0, 0, 0, 5, 0], [0x11, 0, 0, 0, 6, 1]]).unwrap_err();
    let said = "another update, number 5, came first or after; \
                whether this one was applied is not known";
    assert_eq!(failure.to_string(), said);
    // An update of another entry does not matter.
    assert_eq!(written_beside(&[[0x11, 0, 1, 0, 2, 1]]).unwrap(), "0 \"a\" boolean 2 true\n");
}

#[test]
fn number_after_the_last_is_0() {
    let (address, server) = one_connection(|mut end: TestClient| {
        end.bytes(3);
        end.send_bytes(ASSIGNMENT);
        end.bytes(6)
    });
    assert_eq!(run_at(address, &["write", "a", "true"]).unwrap(), "0 \"a\" boolean 0 true\n");
    let update = Message::Update { value_type: Type::Boolean, id: 0, number: 0, value: &[1] };
    assert_eq!(server.join().unwrap(), bytes_of(&update));
}

#[test]
fn idle_client_sends_keep_alive() {
    let (address, server) = one_connection(|mut end: TestClient| {
        end.bytes(3);
        end.send_bytes(&[0x03]);
        end.bytes(1)
    });
    run_at(address, &["watch"]).unwrap();
    assert_eq!(server.join().unwrap(), bytes_of(&Message::KeepAlive));
}

/// An address of the loopback at which nothing listens; its port is never given by the system.
const UNUSED_ADDRESS: &str = "127.0.0.1:1";

/// The exit status of the client program, and what it prints.
fn client_program(arguments: &[&str]) -> (Option<i32>, String, String) {
    let output = program(env!("CARGO_BIN_EXE_nt2-client"), arguments).output().unwrap();
    let text = |bytes| String::from_utf8(bytes).unwrap();
    (output.status.code(), text(output.stdout), text(output.stderr))
}

#[test]
fn programs_as_they_are_called() {
    let server = ServerProgram::start(&[]);
    let address = &server.address().to_string();

    let (status, printed, _) =
        client_program(&["--server", address, "create", "tare", "boolean", "true"]);
    assert_eq!((status, printed.as_str()), (Some(0), "0 \"tare\" boolean 1 true\n"));
    assert!(server.next_line().starts_with("connection 0: opened by 127.0.0.1:"));
    assert!(server.next_line().starts_with("connection 0: left, "));

    let (status, printed, fault) = client_program(&["--server", address, "write", "weight", "1"]);
    assert_eq!((status, printed.as_str()), (Some(1), ""));
    assert_eq!(fault, "nt2-client: no entry is named \"weight\"\n");
    let name = "n".repeat(65);
    let (status, printed, fault) =
        client_program(&["--server", address, "create", &name, "boolean", "true"]);
    assert_eq!((status, printed.as_str()), (Some(1), ""));
    assert_eq!(fault, "nt2-client: refused with 10, name is too long, at byte 0 of the name\n");
    let (status, printed, fault) = client_program(&["--server", address, "remove", "tare"]);
    assert_eq!((status, printed.as_str()), (Some(2), ""));
    assert!(fault.starts_with("nt2-client: usage: "));
}

#[test]
fn server_program_that_cannot_listen() {
    let taken = TcpListener::bind(ANY_PORT).unwrap();
    let address = taken.local_addr().unwrap().to_string();
    let status = |arguments: &[&str]| server_program(arguments).0;
    assert_eq!(status(&[&address]), Some(1));
    assert_eq!(status(&[&address, "more"]), Some(2));
    assert_eq!(status(&["--help"]), Some(2));
    assert_eq!(status(&["--table"]), Some(2));
    assert_eq!(status(&[&address, "--table", "file"]), Some(2));
}

#[test]
fn client_program_without_a_server() {
    let (status, printed, fault) = client_program(&["--server", UNUSED_ADDRESS, "list"]);
    assert_eq!((status, printed.as_str()), (Some(1), ""));
    assert!(fault.starts_with("nt2-client: connection: "));
}
