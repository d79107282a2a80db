//! A table with messages for it, on which each call can be repeated.

use crate::record::LineRecord;
use nt2_sys::{
    Answer, CONNECTIONS, Copied, DELIVERY_MESSAGES, Delivered, ENTRIES, ENTRY_ROOM, HEADING, Head,
    LONGEST_HELLO_ANSWER, LentTable, NAME_ROOM, Reason, TABLE_BYTES,
};
use nt2_tests::implementation::Implementation;
use nt2_tests::saved::{form, record};
use std::hint::black_box;

pub const VALUES: [&str; 4] = [
    "small: short names, Booleans",
    "typical: lot/NAME/parents, four lots",
    "largest: names of 64 bytes, values of 256",
    "shared: names with one fingerprint, Booleans",
];
/// The place of the values that are the worst case for the library's test that names differ.
pub const WORST_CASE: usize = 3;
/// The place of the values that the goal of a delivery is about.
pub const TYPICAL: usize = 1;

/// As many updates as a delivery takes: in one delivery, and by single calls.
pub const DELIVER_UPDATES: &str = "deliver 64 updates";
pub const RECEIVE_UPDATES: &str = "receive 64 updates";

/// Line records of 60 KB: clients' updates, and clients that come, make entries and go.
pub const REPLAY_UPDATES: &str = "replay 60 KB, updates";
pub const REPLAY_ENTRIES: &str = "replay 60 KB, entries";

/// Saving, and judging the table alone: there is one byte too few for the form.
pub const SAVE: &str = "save";
pub const SAVE_WITHOUT_ROOM: &str = "save without room";

/// The calls; those from `TABLE_CALLS` on have no table.
pub const CALLS: [&str; 32] = [
    "fresh",
    "open",
    "leave",
    "receive hello",
    "receive keep alive",
    "receive new entry",
    "receive held entry",
    "receive new update",
    "receive old update",
    DELIVER_UPDATES,
    RECEIVE_UPDATES,
    REPLAY_UPDATES,
    REPLAY_ENTRIES,
    "why new update",
    "why old update",
    "why held entry",
    "why cut entry",
    SAVE,
    SAVE_WITHOUT_ROOM,
    "load",
    "create",
    "write",
    "write equal",
    "read",
    "copy fresh",
    "copy keep alive",
    "copy assignment",
    "copy update",
    "encode assignment",
    "encode update",
    "decode assignment",
    "decode update",
];
const TABLE_CALLS: usize = 28;

/// How many entries the tables have.
pub const SIZES: [usize; 3] = [1, 16, 64];

pub fn has_table(call: usize) -> bool {
    call < TABLE_CALLS
}

/// The sizes on which a call is timed: the first alone, where it has no table.
pub fn sizes(call: usize) -> &'static [usize] {
    if has_table(call) { &SIZES } else { &SIZES[..1] }
}

/// The number that every entry has at first.
pub const FIRST_NUMBER: u16 = 1;

/// The connection that calls; all others are greeted.
const SENDER: usize = 3;

pub struct Subject {
    heads: Vec<Head>,
    bytes: Vec<u8>,
    count: u16,
    marks: [u8; CONNECTIONS],
    out: Vec<u8>,
    type_code: u8,
    /// Name of the last entry.
    name: Vec<u8>,
    /// Two values that differ, and which of them the last entry holds.
    values: [Vec<u8>; 2],
    version: usize,
    assignment: Vec<u8>,
    copied_assignment: Vec<u8>,
    update: Vec<u8>,
    /// Updates of all entries in turn, each applied where the numbers are the first ones.
    updates: Vec<u8>,
    /// Line records that make a table of as many entries: of updates, and of entries.
    line_records: [LineRecord; 2],
    /// The table's saved form.
    saved: Vec<u8>,
    hello_sent: usize,
}

fn prefixed(text: &[u8]) -> Vec<u8> {
    [&(text.len() as u16).to_be_bytes(), text].concat()
}

/// One of 64 names with the same fingerprint in the library. Of the places 0 to 3, and of 4 to 7, the
/// first two weights differ as the last two do (crates/soundness/specs/Fingerprint.antt), so that the
/// steps cancel out.
fn shared_name(i: usize) -> Vec<u8> {
    let four = |step: usize| {
        let (low, high) = (b'm' - step as u8, b'm' + step as u8);
        [low, high, high, low]
    };
    [four(i / 8), four(i % 8)].concat()
}

/// Name and value of an entry, the value in two versions.
pub fn entry(values: usize, i: usize, version: usize) -> (Vec<u8>, u8, Vec<u8>) {
    match values {
        0 => (format!("e{i:02}").into_bytes(), 0x00, vec![version as u8]),
        1 => {
            let lot = |n: usize| prefixed(format!("2026-{:04}", 100 * i + n).as_bytes());
            let lots: Vec<u8> = (version..version + 4).flat_map(lot).collect();
            (format!("lot/2026-{i:04}/parents").into_bytes(), 0x12, [&[4][..], &lots].concat())
        }
        WORST_CASE => (shared_name(i), 0x00, vec![version as u8]),
        _ => {
            let name = format!("{:n<width$}{i:02}", "plant", width = NAME_ROOM - 2);
            (name.into_bytes(), 0x02, prefixed(&vec![b'v' + version as u8; 254]))
        }
    }
}

pub fn assignment(name: &[u8], type_code: u8, id: u16, value: &[u8]) -> Vec<u8> {
    let fields = [&[type_code][..], &id.to_be_bytes(), &[0, 1], value].concat();
    [&[0x10][..], &prefixed(name), &fields].concat()
}

pub fn update(id: u16, number: u16, value: &[u8]) -> Vec<u8> {
    [&[0x11][..], &id.to_be_bytes(), &number.to_be_bytes(), value].concat()
}

/// Updates as `Subject` has them.
fn updates(values: usize, entries: usize) -> Vec<u8> {
    let update = |place: usize| {
        let (i, number) = (place % entries, FIRST_NUMBER + 1 + (place / entries) as u16);
        update(i as u16, number, &entry(values, i, 1).2)
    };
    (0..DELIVERY_MESSAGES).flat_map(update).collect()
}

/// The saved form of a table with so many entries.
fn saved(values: usize, entries: usize) -> Vec<u8> {
    let record = |i: usize| {
        let (name, type_code, value) = entry(values, i, 0);
        record(&name, type_code, FIRST_NUMBER, &value)
    };
    form(&(0..entries).map(record).collect::<Vec<_>>())
}

/// Heads and bytes of a table with so many entries.
fn filled(values: usize, entries: usize) -> (Vec<Head>, Vec<u8>) {
    let (mut heads, mut bytes) = (vec![Head::default(); ENTRIES], vec![0; TABLE_BYTES]);
    for (i, head) in heads.iter_mut().enumerate().take(entries) {
        let (name, type_code, value) = entry(values, i, 0);
        *head = Head {
            name_length: name.len() as u16,
            value_length: value.len() as u16,
            type_code: u16::from(type_code),
            number: FIRST_NUMBER,
        };
        bytes[ENTRY_ROOM * i..][..name.len()].copy_from_slice(&name);
        bytes[ENTRY_ROOM * i + NAME_ROOM..][..value.len()].copy_from_slice(&value);
    }
    (heads, bytes)
}

impl Subject {
    pub fn new(values: usize, entries: usize) -> Self {
        let (heads, bytes) = filled(values, entries);
        let last = entries - 1;
        let (name, type_code, value) = entry(values, last, 0);
        let (_, _, other) = entry(values, last, 1);
        let id = last as u16;
        let mut marks = [2; CONNECTIONS];
        marks[SENDER] = 1;
        let hello_sent = heads[..entries]
            .iter()
            .map(|head| 8 + usize::from(head.name_length) + usize::from(head.value_length))
            .sum::<usize>()
            + 1;
        Subject {
            heads,
            bytes,
            count: entries as u16,
            marks,
            out: vec![0; LONGEST_HELLO_ANSWER],
            type_code,
            assignment: assignment(&name, type_code, 0xFFFF, &value),
            copied_assignment: assignment(&name, type_code, id, &value),
            update: update(id, FIRST_NUMBER, &value),
            updates: updates(values, entries),
            line_records: [
                LineRecord::updates(values, entries),
                LineRecord::entries(values, entries),
            ],
            saved: saved(values, entries),
            name,
            values: [value, other],
            version: 0,
            hello_sent,
        }
    }

    /// The bytes of the answer to a hello, once one was made.
    pub fn hello_answer(&self) -> &[u8] {
        &self.out[..self.hello_sent]
    }

    /// The bytes of the saved form.
    pub fn saved(&self) -> &[u8] {
        &self.saved
    }

    fn table(&mut self) -> LentTable<'_> {
        LentTable { heads: &mut self.heads, bytes: &mut self.bytes, count: &mut self.count }
    }

    fn receive<I: Implementation>(&mut self, message: &[u8]) -> Answer {
        let Subject { heads, bytes, count, marks, out, .. } = self;
        let table = LentTable { heads, bytes, count };
        black_box(I::receive(table, marks, black_box(SENDER), black_box(message), out))
    }

    fn deliver<I: Implementation>(&mut self, input: &[u8]) -> Delivered {
        let Subject { heads, bytes, count, marks, out, .. } = self;
        let table = LentTable { heads, bytes, count };
        black_box(I::deliver(table, marks, black_box(SENDER), black_box(input), out))
    }

    fn copy_receive<I: Implementation>(&mut self, message: &[u8]) -> Copied {
        black_box(I::copy_receive(self.table(), black_box(message)))
    }

    fn write<I: Implementation>(&mut self, id: u16, value: &[u8]) -> Answer {
        let Subject { heads, bytes, count, marks, out, .. } = self;
        let table = LentTable { heads, bytes, count };
        black_box(I::write(table, marks, black_box(id), black_box(value), out))
    }

    /// Repeats a call, with what it changes set back by a store or two.
    pub fn repeat<I: Implementation>(&mut self, call: usize, times: usize) {
        let (count, id) = (self.count, self.count - 1);
        let last = usize::from(id);
        match CALLS[call] {
            "fresh" => {
                for _ in 0..times {
                    let Subject { heads, bytes, count, marks, .. } = self;
                    let answer = I::fresh(LentTable { heads, bytes, count }, marks);
                    assert_eq!(black_box(answer).number, 0);
                }
                self.count = count;
                self.marks = [2; CONNECTIONS];
                self.marks[SENDER] = 1;
            }
            "open" | "leave" => self.open_or_leave::<I>(CALLS[call] == "open", times),
            "receive hello" => {
                for _ in 0..times {
                    self.marks[SENDER] = 1;
                    let answer = self.receive::<I>(&[0x01, 0x02, 0x00]);
                    assert_eq!((answer.number, answer.sent), (0, self.hello_sent));
                }
                self.marks[SENDER] = 1;
            }
            "receive keep alive" => {
                for _ in 0..times {
                    assert_eq!(self.receive::<I>(&[0x00]).number, 16);
                }
            }
            "receive new entry" | "receive held entry" => {
                let held = CALLS[call] == "receive held entry";
                let message = self.assignment.clone();
                self.marks[SENDER] = 2;
                for _ in 0..times {
                    self.count = count - u16::from(!held);
                    let number = self.receive::<I>(&message).number;
                    assert_eq!(number, if held { 16 } else { 0 });
                }
                self.marks[SENDER] = 1;
            }
            "receive new update" | "receive old update" => {
                let old = u16::from(CALLS[call] == "receive old update");
                let mut message = self.update.clone();
                self.marks[SENDER] = 2;
                for _ in 0..times {
                    let number = self.heads[last].number.wrapping_add(1 - old);
                    message[3..5].copy_from_slice(&number.to_be_bytes());
                    assert_eq!(self.receive::<I>(&message).number, if old == 1 { 16 } else { 0 });
                }
                self.marks[SENDER] = 1;
            }
            DELIVER_UPDATES | RECEIVE_UPDATES => {
                self.take_updates::<I>(CALLS[call] == DELIVER_UPDATES, times);
            }
            REPLAY_UPDATES | REPLAY_ENTRIES => {
                self.replay::<I>(usize::from(CALLS[call] == REPLAY_ENTRIES), times);
            }
            "why new update" | "why old update" => {
                let new = CALLS[call] == "why new update";
                let step = if new { 1 } else { u16::MAX };
                let number = self.heads[last].number.wrapping_add(step);
                let message = update(id, number, &self.values[0]);
                let reason = if new { Reason::APPLIED } else { Reason::OLDER };
                self.why::<I>(&message, reason, times);
            }
            "why held entry" | "why cut entry" => {
                let cut = usize::from(CALLS[call] == "why cut entry");
                let message = self.assignment[..self.assignment.len() - cut].to_vec();
                let reason = if cut == 1 { Reason::REFUSED } else { Reason::NAME_HELD };
                self.why::<I>(&message, reason, times);
            }
            SAVE | SAVE_WITHOUT_ROOM => self.save::<I>(CALLS[call] == SAVE, times),
            "load" => self.load::<I>(times),
            "create" => {
                let (name, value) = (self.name.clone(), self.values[0].clone());
                for _ in 0..times {
                    self.count = count - 1;
                    let Subject { heads, bytes, count, marks, out, type_code, .. } = self;
                    let table = LentTable { heads, bytes, count };
                    let (name, value) = (black_box(&name[..]), black_box(&value[..]));
                    let answer = black_box(I::create(table, marks, name, *type_code, value, out));
                    assert_eq!(answer.number, 0);
                }
            }
            "write" => {
                let values = self.values.clone();
                for _ in 0..times {
                    self.version ^= 1;
                    assert_eq!(self.write::<I>(id, &values[self.version]).number, 0);
                }
            }
            "write equal" => {
                let value = self.values[self.version].clone();
                for _ in 0..times {
                    assert_eq!(self.write::<I>(id, &value).number, 16);
                }
            }
            "read" => {
                for _ in 0..times {
                    assert_eq!(black_box(I::read(self.table(), black_box(id))).number, 0);
                }
            }
            "copy fresh" => {
                for _ in 0..times {
                    assert_eq!(black_box(I::copy_fresh(self.table())).number, 0);
                }
                self.count = count;
            }
            "copy keep alive" => {
                for _ in 0..times {
                    assert_eq!(self.copy_receive::<I>(&[0x00]).number, 16);
                }
            }
            "copy assignment" => {
                let message = self.copied_assignment.clone();
                for _ in 0..times {
                    self.count = count - 1;
                    assert_eq!(self.copy_receive::<I>(&message).number, 0);
                }
            }
            "copy update" => {
                let message = self.update.clone();
                for _ in 0..times {
                    assert_eq!(self.copy_receive::<I>(&message).number, 0);
                }
            }
            "encode assignment" | "encode update" => {
                let kind = if CALLS[call] == "encode update" { 0x11 } else { 0x10 };
                for _ in 0..times {
                    let Subject { name, values, out, type_code, .. } = self;
                    let (name, value) = (black_box(&name[..]), black_box(&values[0][..]));
                    let answer = black_box(I::encode(
                        black_box(kind),
                        0,
                        name,
                        *type_code,
                        1,
                        1,
                        value,
                        out,
                    ));
                    assert_eq!(answer.number, 0);
                }
            }
            _ => {
                let update = CALLS[call] == "decode update";
                let message = if update { &self.update } else { &self.assignment };
                for _ in 0..times {
                    let fields = black_box(I::decode(black_box(message), self.type_code));
                    assert_eq!(fields.number, 0);
                }
            }
        }
    }

    /// Takes all updates, each of which is applied: as one delivery, or by single calls.
    fn take_updates<I: Implementation>(&mut self, delivered: bool, times: usize) {
        let updates = self.updates.clone();
        self.marks[SENDER] = 2;
        for _ in 0..times {
            let held = &mut self.heads[..usize::from(self.count)];
            held.iter_mut().for_each(|head| head.number = FIRST_NUMBER);
            if delivered {
                let delivered = self.deliver::<I>(&updates);
                let written = updates.len() + DELIVERY_MESSAGES * HEADING;
                assert_eq!((delivered.number, delivered.written), (0, written));
            } else {
                let mut taken = 0;
                while taken < updates.len() {
                    let answer = self.receive::<I>(&updates[taken..]);
                    assert_eq!(answer.number, 0);
                    taken += answer.taken;
                }
            }
        }
        self.marks[SENDER] = 1;
    }

    /// Runs one of the line records. Values and numbers are then those that it leaves.
    fn replay<I: Implementation>(&mut self, which: usize, times: usize) {
        let entries = self.count;
        for _ in 0..times {
            let Subject { heads, bytes, count, marks, line_records, .. } = self;
            let LineRecord { bytes: record, records } = &line_records[which];
            let table = LentTable { heads, bytes, count };
            let replayed = black_box(I::replay(table, marks, black_box(record)));
            assert_eq!((replayed.number, replayed.records), (0, *records));
        }
        assert_eq!(self.count, entries);
        self.marks = [2; CONNECTIONS];
        self.marks[SENDER] = 1;
    }

    /// Asks about a message, which changes nothing.
    fn why<I: Implementation>(&mut self, message: &[u8], reason: u8, times: usize) {
        self.marks[SENDER] = 2;
        for _ in 0..times {
            let Subject { heads, bytes, count, marks, .. } = self;
            let table = LentTable { heads, bytes, count };
            let told = black_box(I::why(table, marks, black_box(SENDER), black_box(message)));
            assert_eq!(told.reason, reason);
        }
        self.marks[SENDER] = 1;
    }

    /// Saves, with just enough room or with one byte less.
    fn save<I: Implementation>(&mut self, with_room: bool, times: usize) {
        let size = self.saved.len();
        let (room, expected) = if with_room { (size, (0, size)) } else { (size - 1, (12, 0)) };
        for _ in 0..times {
            let Subject { heads, bytes, count, out, .. } = self;
            let table = LentTable { heads, bytes, count };
            let answer = black_box(I::save(table, black_box(&mut out[..room])));
            assert_eq!((answer.number, answer.sent), expected);
        }
    }

    /// Loads the table over itself.
    fn load<I: Implementation>(&mut self, times: usize) {
        self.marks = [0; CONNECTIONS];
        for _ in 0..times {
            let Subject { heads, bytes, count, marks, saved, .. } = self;
            let table = LentTable { heads, bytes, count };
            let answer = black_box(I::load(table, marks, black_box(saved)));
            assert_eq!((answer.number, answer.taken), (0, saved.len()));
        }
        self.marks = [2; CONNECTIONS];
        self.marks[SENDER] = 1;
    }

    fn open_or_leave<I: Implementation>(&mut self, open: bool, times: usize) {
        for _ in 0..times {
            self.marks[SENDER] = u8::from(!open);
            let Subject { heads, bytes, count, marks, .. } = self;
            let table = LentTable { heads, bytes, count };
            let connection = black_box(SENDER);
            let answer = if open {
                I::open(table, marks, connection)
            } else {
                I::leave(table, marks, connection)
            };
            assert_eq!(black_box(answer).number, 0);
        }
        self.marks[SENDER] = 1;
    }
}

#[cfg(test)]
mod tests {
    use super::*;
    use nt2_tests::fingerprint::fingerprint;

    #[test]
    fn shared_names_have_one_fingerprint() {
        let names: Vec<_> = (0..ENTRIES).map(shared_name).collect();
        assert!(names.is_sorted_by(|left, right| left > right), "all differ");
        assert!(names.iter().all(|name| fingerprint(name) == fingerprint(&names[0])));
    }
}
