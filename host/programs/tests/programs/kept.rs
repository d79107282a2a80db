//! The server program with a file in which it keeps its table, and its end by a signal.

use crate::load::Load;
use crate::program::{DiskWatch, ServerProgram, TestFolder, server_program, wait_until};
use crate::support::{ANY_PORT, new_entry, run_at};
use nt2::{ENTRIES, Entry, LONGEST_SAVED, Message, SAVED_ENTRY, ServerTable, Type};
use std::fs::{self, File};
use std::io::Read;
use std::os::unix::fs::{MetadataExt, PermissionsExt, symlink};
use std::thread;
use std::time::{Duration, Instant};

/// A change is in the file so long after it at the latest, if the disk does not stop meanwhile.
const SAVED_WITHIN: Duration = Duration::from_secs(1);
/// The end waits so long for clients that do not read or do not close their stream.
const LINGER: Duration = Duration::from_secs(2);

/// The saved form of a table.
fn saved(table: &ServerTable) -> Vec<u8> {
    let mut out = vec![0; LONGEST_SAVED];
    let length = table.save(&mut out).unwrap().len();
    out.truncate(length);
    out
}

/// The table of a file.
pub fn loaded(path: &str) -> ServerTable {
    let mut table = ServerTable::new();
    table.load(&fs::read(path).unwrap()).unwrap();
    table
}

/// All entries, in the order of their IDs.
pub fn entries_of(table: &ServerTable) -> Vec<Entry<'_>> {
    (0..table.count()).map(|id| table.entry(id as u16).unwrap()).collect()
}

/// A table with these entries.
fn table_of(entries: &[(&str, Type, &[u8])]) -> ServerTable {
    let (mut table, mut out) = (ServerTable::new(), [0; 328]);
    for (name, value_type, value) in entries {
        table.create(name.as_bytes(), *value_type, value, &mut out).unwrap();
    }
    table
}

/// The Boolean "tare" and the Strings "lot/1", "lot/2" as "parents".
fn small_table() -> ServerTable {
    table_of(&[
        ("tare", Type::Boolean, &[1]),
        ("parents", Type::StringArray, b"\x02\x00\x05lot/1\x00\x05lot/2"),
    ])
}

/// An update of a Boolean.
fn boolean_update(id: u16, number: u16, value: &[u8]) -> Message<'_> {
    Message::Update { value_type: Type::Boolean, id, number, value }
}

fn start_with(path: &str) -> ServerProgram {
    ServerProgram::start(&["--table", path])
}

/// Ends a server by a signal, and expects that all is saved.
fn end_by(server: ServerProgram, signal: &str) -> Vec<String> {
    server.signal(signal);
    let (status, said) = server.ended();
    assert_eq!(status, Some(0), "{said:?}");
    said
}

#[test]
fn missing_file_is_a_fresh_start() {
    let folder = TestFolder::new("missing_file_is_a_fresh_start");
    let path = folder.path("table");
    let server = start_with(&path);
    assert_eq!(server.next_line(), format!("{path}: no such file, the table is empty"));
    assert_eq!(server.greeted().copy.count(), 0);
    // It is made, so that what hinders it is known before the first change.
    wait_until(|| fs::read(&path).ok().filter(|saved| saved == b"\x01\x00"));
    fs::remove_file(&path).unwrap();
    end_by(server, "TERM");
    assert_eq!(fs::read(&path).unwrap(), b"\x01\x00");
    assert_eq!(folder.names(), ["table", "table.lock"]);
}

#[test]
fn entries_are_there_after_a_start() {
    let folder = TestFolder::new("entries_are_there_after_a_start");
    let path = folder.path("table");
    let mut table = table_of(&[
        ("tare", Type::Boolean, &[1]),
        ("weight", Type::Double, &12.5f64.to_be_bytes()),
        ("", Type::String, b"\x00\x03a\nb"),
        ("flags", Type::BooleanArray, &[2, 0, 1]),
        ("none", Type::DoubleArray, &[0]),
        ("parents", Type::StringArray, b"\x02\x00\x05lot/1\x00\x00"),
    ]);
    table.write(1, &13f64.to_be_bytes(), &mut [0; 20]).unwrap();
    fs::write(&path, saved(&table)).unwrap();
    let server = start_with(&path);
    assert_eq!(server.next_line(), format!("{path}: table loaded, entries 6"));
    let listed = "id name type number value\n0 \"tare\" boolean 1 true\n1 \"weight\" double 2 13.0\n\
                  2 \"\" string 1 \"a\\nb\"\n3 \"flags\" booleans 1 false true\n\
                  4 \"none\" doubles 1\n5 \"parents\" strings 1 \"lot/1\" \"\"\nend 103 entries 6\n";
    let run = |words: &[&str]| run_at(server.address(), words).unwrap();
    assert_eq!(run(&["list"]), listed);
    // Numbers and IDs go on where they were.
    assert_eq!(run(&["write", "weight", "14"]), "1 \"weight\" double 3 14.0\n");
    assert_eq!(run(&["create", "gross", "boolean", "true"]), "6 \"gross\" boolean 1 true\n");
    end_by(server, "TERM");
    let (server, kept) = (start_with(&path), loaded(&path));
    let copy = server.greeted().copy;
    assert_eq!(copy.entries().map(|(_, entry)| entry).collect::<Vec<_>>(), entries_of(&kept));
    assert_eq!((kept.count(), kept.entry(1).unwrap().number), (7, 3));
}

#[test]
fn full_table_is_kept() {
    let folder = TestFolder::new("full_table_is_kept");
    let path = folder.path("table");
    let server = start_with(&path);
    let (mut client, value) = (server.greeted(), [&[0, 254][..], &[b'v'; 254]].concat());
    for entry in 0..ENTRIES {
        client.create(&format!("{entry:064}"), Type::String, &value);
    }
    end_by(server, "TERM");
    assert_eq!(fs::read(&path).unwrap().len(), LONGEST_SAVED);
    let again = start_with(&path).greeted().copy;
    assert_eq!(again.entries().collect::<Vec<_>>(), client.copy.entries().collect::<Vec<_>>());
}

/// The small table's saved form with other bytes at a place.
fn with_bytes(place: usize, bytes: &[u8]) -> Vec<u8> {
    let mut saved = saved(&small_table());
    saved[place..place + bytes.len()].copy_from_slice(bytes);
    saved
}

/// The program does not start with this file, says this of it, and leaves it as it is.
fn expect_refused(folder: &TestFolder, contents: &[u8], refused: &str) {
    let path = folder.path("table");
    fs::write(&path, contents).unwrap();
    let before = fs::metadata(&path).unwrap();
    let (status, printed, said) = server_program(&["--table", &path, ANY_PORT]);
    assert_eq!(said, format!("nt2-server: {path}: refused with {refused}\n"));
    assert_eq!((status, printed.as_str()), (Some(1), ""));
    let after = fs::metadata(&path).unwrap();
    assert_eq!(fs::read(&path).unwrap(), contents);
    assert_eq!(
        (after.ino(), after.modified().unwrap()),
        (before.ino(), before.modified().unwrap())
    );
    assert_eq!(folder.names(), ["table", "table.lock"]);
}

#[test]
fn damaged_file_is_said_and_left_as_it_is() {
    let folder = TestFolder::new("damaged_file_is_said_and_left_as_it_is");
    let whole = saved(&small_table());
    let second = 2 + SAVED_ENTRY;
    let refused = |contents: &[u8], refused: &str| expect_refused(&folder, contents, refused);
    let with_place = |contents: &[u8], words: &str, place: usize| {
        refused(contents, &format!("{words}, at byte {place} of the saved table"));
    };
    let (cut, kind) = (
        "1, message, value or saved table is not complete",
        "4, kind is unknown, or not for this end",
    );
    let too_long = "10, count or length is too great, or bytes are left";
    let (text, boolean) = ("9, text is not UTF-8", "8, Boolean byte is not 0 or 1");
    for length in [0, 1, 2, second - 1, second, whole.len() - 1] {
        refused(&whole[..length], cut);
    }
    refused(&with_bytes(0, &[0]), kind);
    refused(&with_bytes(0, &[3]), kind);
    refused(&with_bytes(second, &[1]), kind);
    with_place(&with_bytes(1, &[65]), too_long, 1);
    with_place(&with_bytes(second + 1, &[65]), too_long, second + 1);
    with_place(&with_bytes(4, b"t\xFF"), text, 4);
    refused(&with_bytes(2 + 65, &[1]), "15, filling is not zero");
    with_place(&with_bytes(68, &[0x13]), "7, type is unknown", 68);
    with_place(&with_bytes(71, &[1, 1]), too_long, 71);
    with_place(&with_bytes(73, &[2]), boolean, 73);
    with_place(&with_bytes(72, &[2]), too_long, 74);
    refused(&with_bytes(second - 1, &[1]), "15, filling is not zero");
    // The second text of the second entry.
    with_place(&with_bytes(second + 71 + 10, b"\xC0\x80"), text, second + 71 + 10);
    let mut same_name = whole.clone();
    same_name.copy_within(3..68, second + 1);
    refused(&same_name, "13, name is already there");
    with_place(&[&whole[..], &[0]].concat(), too_long, whole.len());
    with_place(&[whole.clone(), vec![0; 1 << 20]].concat(), too_long, whole.len());
    with_place(&[&[1, 0][..], &[0; LONGEST_SAVED]].concat(), too_long, 2);
}

#[test]
fn files_that_cannot_be_used() {
    let folder = TestFolder::new("files_that_cannot_be_used");
    let refused = |path: &str, said: &str| {
        let ended = server_program(&["--table", path, ANY_PORT]);
        assert_eq!(ended, (Some(1), String::new(), format!("nt2-server: {said}\n")));
    };
    let (path, inside) = (folder.path(""), folder.path("no_folder/table"));
    refused(&path, &format!("{path}: not a file"));
    refused("/dev/null", "/dev/null: not a file");
    refused(&inside, &format!("{inside}.lock: No such file or directory (os error 2)"));
    assert_eq!(folder.names(), [""; 0]);
    // Two servers with one file would each replace what the other one has saved.
    let path = folder.path("table");
    let server = start_with(&path);
    refused(&path, &format!("{path}: another server keeps its table there"));
    end_by(server, "TERM");
    end_by(start_with(&path), "TERM");
}

/// Waits until a file has a table for which something holds, and answers how long that took.
fn time_until(path: &str, holds: impl Fn(&ServerTable) -> bool) -> Duration {
    let start = Instant::now();
    wait_until(|| fs::exists(path).unwrap().then(|| loaded(path)).filter(|table| holds(table)));
    start.elapsed()
}

#[test]
fn changes_are_saved_within_a_second() {
    let folder = TestFolder::new("changes_are_saved_within_a_second");
    let (path, disk) = (folder.path("table"), DiskWatch::start(&folder));
    let server = start_with(&path);
    let (mut writer, mut reader) = (server.greeted(), server.greeted());
    let id = writer.create("tare", Type::Boolean, &[0]);
    let mut times = vec![time_until(&path, |table| table.count() == 1)];
    reader.expect(id, 1);
    for number in 2..5 {
        writer.send(&boolean_update(id, number, &[1]));
        reader.expect(id, number);
        times.push(time_until(&path, |table| table.entry(id).unwrap().number == number));
    }
    // A number that comes back, in one delivery.
    let updates = [20_000, 40_000, 60_000, 4].map(|number| boolean_update(id, number, &[0]));
    writer.send_all(&updates);
    times.push(time_until(&path, |table| table.entry(id).unwrap().value == [0]));
    assert_eq!(loaded(&path).entry(id).unwrap().number, 4);
    let longest = disk.longest();
    assert!(times.iter().all(|&time| time <= SAVED_WITHIN + longest), "{times:?}, {longest:?}");
}

#[test]
fn file_is_replaced_and_not_written_over() {
    let folder = TestFolder::new("file_is_replaced_and_not_written_over");
    let (path, before) = (folder.path("table"), saved(&small_table()));
    fs::write(&path, &before).unwrap();
    let server = start_with(&path);
    let mut opened_before = File::open(&path).unwrap();
    server.greeted().create("gross", Type::Boolean, &[1]);
    time_until(&path, |table| table.count() == 3);
    let mut bytes = Vec::new();
    opened_before.read_to_end(&mut bytes).unwrap();
    assert_eq!(bytes, before);
}

#[test]
fn nothing_is_written_while_nothing_changes() {
    let folder = TestFolder::new("nothing_is_written_while_nothing_changes");
    let path = folder.path("table");
    fs::write(&path, saved(&small_table())).unwrap();
    let state = || {
        let found = fs::metadata(&path).unwrap();
        (found.ino(), found.modified().unwrap())
    };
    let (before, server) = (state(), start_with(&path));
    let mut client = server.greeted();
    // Keep alive, an assignment and updates that are ignored, and one that is refused.
    let held = new_entry("tare", Type::Double, &[0; 8]);
    let (equal, older) = (boolean_update(0, 1, &[0]), boolean_update(0, 0, &[0]));
    client.send_all(&[Message::KeepAlive, held, equal, older]);
    server.expect("update of \"tare\" ignored: number 0 is older than 1 by 1");
    client.send_bytes(b"\x11\x00\x00\x00\x02\x07");
    server.expect("left, a message was refused");
    drop(server.greeted());
    thread::sleep(SAVED_WITHIN + SAVED_WITHIN / 5);
    assert_eq!(state(), before);
    end_by(server, "TERM");
    assert_eq!(state(), before);
}

#[test]
fn changes_of_a_quarter_second_are_saved_together() {
    let folder = TestFolder::new("changes_of_a_quarter_second_are_saved_together");
    let path = folder.path("table");
    let server = start_with(&path);
    let mut client = server.greeted();
    let id = client.create("tare", Type::Boolean, &[0]);
    let (start, mut number, mut files) = (Instant::now(), 1, Vec::new());
    while start.elapsed() < Duration::from_secs(3) {
        number += 1;
        client.send(&boolean_update(id, number, &[1]));
        thread::sleep(Duration::from_millis(1));
        files.extend(fs::metadata(&path).map(|found| (found.ino(), found.mtime_nsec())));
    }
    files.dedup();
    // Twelve, and those at the start and the end of the time; fewer where the disk is slow.
    assert!((3..=14).contains(&files.len()), "{}", files.len());
}

#[test]
fn what_a_killed_server_left_is_replaced() {
    let folder = TestFolder::new("what_a_killed_server_left_is_replaced");
    let path = folder.path("table");
    fs::write(&path, saved(&small_table())).unwrap();
    let new = folder.path("table.new");
    fs::write(&new, vec![0xFF; 3 * LONGEST_SAVED]).unwrap();
    fs::set_permissions(&new, fs::Permissions::from_mode(0o400)).unwrap();
    let server = start_with(&path);
    server.greeted().create("gross", Type::Boolean, &[1]);
    time_until(&path, |table| table.count() == 3);
    assert_eq!(folder.names(), ["table", "table.lock"]);
    end_by(server, "TERM");
    assert_eq!(fs::read(&path).unwrap().len(), 2 + 3 * SAVED_ENTRY);
}

#[test]
fn permissions_and_links_stay() {
    let folder = TestFolder::new("permissions_and_links_stay");
    let (path, link) = (folder.path("table"), folder.path("link"));
    fs::write(&path, saved(&small_table())).unwrap();
    fs::set_permissions(&path, fs::Permissions::from_mode(0o600)).unwrap();
    symlink(&path, &link).unwrap();
    let server = start_with(&link);
    server.greeted().create("gross", Type::Boolean, &[1]);
    end_by(server, "TERM");
    assert_eq!(loaded(&path).count(), 3);
    assert_eq!(fs::metadata(&path).unwrap().permissions().mode() & 0o777, 0o600);
    assert!(fs::symlink_metadata(&link).unwrap().is_symlink());
    assert_eq!(folder.names(), ["link", "table", "table.lock"]);
}

#[test]
fn failed_save_is_said_and_tried_again() {
    let folder = TestFolder::new("failed_save_is_said_and_tried_again");
    let (inside, away) = (folder.path("inside"), folder.path("away"));
    fs::create_dir(&inside).unwrap();
    let path = folder.path("inside/table");
    fs::write(&path, saved(&small_table())).unwrap();
    let server = start_with(&path);
    let not_saved = format!("{path}: the table is not saved: No such file or directory");
    fs::rename(&inside, &away).unwrap();
    let mut client = server.greeted();
    client.create("gross", Type::Boolean, &[1]);
    server.expect(&not_saved);
    // It goes on to serve, and says it again at most every other second.
    let (start, gross) = (Instant::now(), server.greeted().copy.find(b"gross"));
    assert_eq!(gross, Some(2));
    server.expect(&not_saved);
    assert!(start.elapsed() > Duration::from_secs(1));
    fs::rename(&away, &inside).unwrap();
    server.expect(&format!("{path}: the table is saved again"));
    assert_eq!(loaded(&path).count(), 3);
    // At the end it is a failure, and the file stays as it was saved last.
    client.create("net", Type::Boolean, &[1]);
    fs::rename(&inside, &away).unwrap();
    server.signal("TERM");
    let (status, said) = server.ended();
    assert_eq!(status, Some(1));
    assert!(said.last().unwrap().starts_with(&format!("nt2-server: {not_saved}")), "{said:?}");
    assert_eq!(loaded(&folder.path("away/table")).count(), 3);
}

#[test]
fn signals_end_with_all_saved_and_sent() {
    let folder = TestFolder::new("signals_end_with_all_saved_and_sent");
    for signal in ["TERM", "INT"] {
        let path = folder.path(signal);
        let server = start_with(&path);
        let load = Load::start(server.address());
        thread::sleep(Duration::from_millis(700));
        let start = Instant::now();
        let said = end_by(server, signal);
        // All clients close their streams, and none has to be waited for longer.
        assert!(start.elapsed() < LINGER, "{:?}", start.elapsed());
        assert!(said.iter().any(|line| line == "connection 0: left, the server stops"));
        let (reading, kept) = (load.ended(), loaded(&path));
        assert!(reading.is_whole);
        let read: Vec<_> = reading.copy.entries().map(|(_, entry)| entry).collect();
        assert_eq!(read, entries_of(&kept));
        assert!(kept.count() > 0);
    }
    assert_eq!(folder.names(), ["INT", "INT.lock", "TERM", "TERM.lock"]);
}

#[test]
fn last_change_is_saved_at_the_end() {
    let folder = TestFolder::new("last_change_is_saved_at_the_end");
    let path = folder.path("table");
    let server = start_with(&path);
    let (mut writer, mut reader) = (server.greeted(), server.greeted());
    let id = writer.create("tare", Type::Boolean, &[0]);
    writer.send(&boolean_update(id, 2, &[1]));
    reader.expect(id, 1);
    reader.expect(id, 2);
    drop((writer, reader));
    let start = Instant::now();
    end_by(server, "TERM");
    // No delay of changes, and no client that has to be waited for.
    assert!(start.elapsed() < Duration::from_millis(450), "{:?}", start.elapsed());
    assert_eq!(loaded(&path).entry(id).unwrap().number, 2);
}

#[test]
fn server_without_a_file_sends_all_too() {
    for signal in ["TERM", "INT"] {
        let server = ServerProgram::start(&[]);
        let load = Load::start(server.address());
        thread::sleep(Duration::from_millis(200));
        end_by(server, signal);
        let reading = load.ended();
        assert!(reading.is_whole && reading.copy.count() > 0);
    }
}

/// Updates of a String of the largest size: less than what may wait for a client.
const UNREAD: u16 = 1000;

#[test]
fn end_waits_for_clients_that_read_and_for_no_others() {
    let folder = TestFolder::new("end_waits_for_clients_that_read_and_for_no_others");
    let path = folder.path("table");
    let server = start_with(&path);
    let (mut writer, _does_not_read) = (server.greeted(), server.greeted());
    let mut reads_late = server.greeted();
    let value = [&[0, 254][..], &[b'v'; 254]].concat();
    let id = writer.create("weight", Type::String, &value);
    for number in 2..=UNREAD {
        writer.send(&Message::Update { value_type: Type::String, id, number, value: &value });
    }
    writer.create("last", Type::Boolean, &[1]);
    let start = Instant::now();
    server.signal("INT");
    // It still sends. If the server did not read that, the stream would be reset, and what is not
    // read yet be lost.
    while start.elapsed() < Duration::from_millis(500) {
        reads_late.send(&Message::KeepAlive);
        thread::sleep(Duration::from_millis(1));
    }
    reads_late.take_rest();
    let (status, said) = server.ended();
    assert_eq!(status, Some(0), "{said:?}");
    assert!(start.elapsed() < 2 * LINGER, "{:?}", start.elapsed());
    let kept = loaded(&path);
    assert_eq!((kept.count(), kept.entry(id).unwrap().number), (2, UNREAD));
    let read: Vec<_> = reads_late.copy.entries().map(|(_, entry)| entry).collect();
    assert_eq!(read, entries_of(&kept));
}

#[test]
fn second_signal_ends_at_once() {
    let folder = TestFolder::new("second_signal_ends_at_once");
    let path = folder.path("table");
    let server = start_with(&path);
    let mut does_not_close = server.greeted();
    does_not_close.create("tare", Type::Boolean, &[1]);
    let start = Instant::now();
    server.signal("TERM");
    // The table is saved before clients are waited for.
    time_until(&path, |table| table.count() == 1);
    server.signal("INT");
    assert_eq!(server.ended().0, Some(1));
    assert!(start.elapsed() < LINGER, "{:?}", start.elapsed());
}
