//! A line record beside the same calls made by hand.

use crate::call::{Call, Hex};
use crate::implementation::Implementation;
use crate::memory::Memory;
use nt2_sys::{
    Answer, CONNECTIONS, ENTRIES, LONGEST_ASSIGNMENT, LONGEST_HELLO_ANSWER, LentTable, PLANT,
    Replayed,
};
use std::collections::BTreeSet;
use std::mem;

/// Where bytes can come in: the connections, and the plant's own code.
pub const SOURCES: usize = PLANT + 1;

/// Kinds of records.
pub const OPENS: u8 = 1;
pub const LEAVES: u8 = 2;
/// The kind of a record with so many bytes, 1 to 64, is this and their number.
pub const CAME_IN: u8 = 63;

/// Bytes of the longest message that is not complete: an assignment of a String Array whose first
/// element fills it, and one byte more.
pub const LONGEST_INCOMPLETE: usize = LONGEST_ASSIGNMENT + 1;

/// What a line record and its run can be like.
pub const SORTS: [&str; 52] = [
    "without records",
    "to its end",
    "bytes held at the end",
    "memory too small",
    "memory unsound",
    "unknown kind",
    "unknown kind before an opening",
    "connection above 16",
    "connection above 16, cut",
    "cut behind the kind",
    "cut behind the connection",
    "cut in the bytes",
    "opens",
    "opens an open one",
    "opens an open one that holds bytes",
    "opens above 15",
    "leaves",
    "leaves a closed one",
    "leaves above 15",
    "leaves with bytes held",
    "bytes for a closed connection",
    "several messages at once",
    "message in two records",
    "message in many records",
    "others between",
    "longest message held",
    "another revision",
    "bytes behind another revision",
    "more behind refused",
    "plant: more behind refused",
    "client 0",
    "client 1",
    "client 3",
    "client 4",
    "client 5",
    "client 6",
    "client 7",
    "client 8",
    "client 9",
    "client 10",
    "client 11",
    "client 16",
    "plant 0",
    "plant 1",
    "plant 4 at the kind",
    "plant 4 at the ID",
    "plant 6",
    "plant 7 to 10",
    "plant 11",
    "plant 13",
    "plant 16",
    "table full",
];

/// A call that was made by hand, its answer and what it sent.
#[derive(Clone, Debug)]
pub struct Made {
    pub call: Call,
    pub answer: Answer,
    pub sent: Vec<u8>,
}

/// The bytes that are held for a connection, the records that they came in by, and whether bytes of
/// another connection came between these.
#[derive(Clone, Debug, Default)]
struct Held {
    bytes: Vec<u8>,
    records: usize,
    others_between: bool,
}

/// A line record that is run by hand.
pub struct ByHand {
    pub memory: Memory,
    pub replayed: Replayed,
    /// The calls behind the fresh start.
    pub calls: Vec<Made>,
    held: [Held; SOURCES],
    out: Vec<u8>,
    met: BTreeSet<&'static str>,
}

impl ByHand {
    /// Makes a fresh start and runs all records.
    pub fn run<I: Implementation>(memory: Memory, record: &[u8]) -> Self {
        let mut run = ByHand::start::<I>(memory);
        let mut rest = record;
        while run.replayed.number == 0 && !rest.is_empty() {
            match run.advance::<I>(rest) {
                Ok(size) => rest = &rest[size..],
                Err(number) => run.replayed.number = number,
            }
        }
        run.meet_end(record);
        run
    }

    /// Makes the fresh start.
    pub fn start<I: Implementation>(mut memory: Memory) -> Self {
        let (table, marks) = memory.lend();
        let unsound = I::open(table, marks, CONNECTIONS).number == 14;
        let mut run = ByHand::on(memory);
        let (table, marks) = run.memory.lend();
        run.replayed.number = I::fresh(table, marks).number;
        run.meet_if("memory too small", run.replayed.number == 14);
        run.meet_if("memory unsound", run.replayed.number == 0 && unsound);
        run
    }

    /// A memory without bytes held.
    fn on(memory: Memory) -> Self {
        ByHand {
            memory,
            replayed: Replayed::default(),
            calls: Vec::new(),
            held: Default::default(),
            out: vec![0; LONGEST_HELLO_ANSWER],
            met: BTreeSet::new(),
        }
    }

    /// Whether bytes are held for a connection.
    pub fn holds(&self, connection: usize) -> bool {
        !self.held[connection].bytes.is_empty()
    }

    /// Each sort, and whether this is one.
    pub fn sorts(&self) -> [(&'static str, bool); SORTS.len()] {
        SORTS.map(|sort| (sort, self.met.contains(sort)))
    }

    fn meet(&mut self, sort: &'static str) {
        assert!(SORTS.contains(&sort), "{sort}");
        self.met.insert(sort);
    }

    fn meet_if(&mut self, sort: &'static str, met: bool) {
        if met {
            self.meet(sort);
        }
    }

    fn meet_end(&mut self, record: &[u8]) {
        let done = self.replayed.number == 0;
        self.meet_if("without records", done && record.is_empty());
        self.meet_if("to its end", done && !record.is_empty());
        let held = (0..SOURCES).any(|connection| self.holds(connection));
        self.meet_if("bytes held at the end", done && held);
    }

    /// Makes a call on the memory and an output, and keeps it.
    fn make(
        &mut self,
        call: Call,
        make: impl FnOnce(LentTable<'_>, &mut [u8], &mut [u8]) -> Answer,
    ) -> Answer {
        let (table, marks) = self.memory.lend();
        let answer = make(table, marks, &mut self.out);
        self.calls.push(Made { call, answer, sent: self.out[..answer.sent].to_vec() });
        answer
    }

    /// Runs the first record and answers its size, or the number with which it is refused.
    pub fn advance<I: Implementation>(&mut self, record: &[u8]) -> Result<usize, u8> {
        let (size, bytes) = match *record {
            [OPENS, ref behind @ ..] | [LEAVES, ref behind @ ..] => (2, behind),
            [kind @ 64..=127, ref behind @ ..] => (usize::from(kind - CAME_IN) + 2, behind),
            _ => {
                self.meet("unknown kind");
                let opens = matches!(record, [_, OPENS, 0..=15, ..]);
                self.meet_if("unknown kind before an opening", opens);
                return Err(4);
            }
        };
        let Some((&connection, bytes)) = bytes.split_first() else {
            self.meet("cut behind the kind");
            return Err(1);
        };
        let connection = usize::from(connection);
        if size > 2 && connection > PLANT {
            self.meet("connection above 16");
            self.meet_if("connection above 16, cut", record.len() < size);
            return Err(4);
        }
        let Some(bytes) = bytes.get(..size - 2) else {
            let none = bytes.is_empty();
            self.meet(if none { "cut behind the connection" } else { "cut in the bytes" });
            return Err(1);
        };
        match record[0] {
            OPENS => self.opens::<I>(connection),
            LEAVES => self.leaves::<I>(connection),
            _ => self.came_in::<I>(connection, bytes),
        }
        self.replayed.records += 1;
        Ok(size)
    }

    fn opens<I: Implementation>(&mut self, connection: usize) {
        let call = Call::Open { connection };
        let number = self.make(call, |table, marks, _| I::open(table, marks, connection)).number;
        self.meet_if("opens", number == 0);
        self.meet_if("opens an open one", number == 3);
        self.meet_if("opens an open one that holds bytes", number == 3 && self.holds(connection));
        self.meet_if("opens above 15", number == 2);
    }

    fn leaves<I: Implementation>(&mut self, connection: usize) {
        let number = self.leave::<I>(connection);
        self.meet_if("leaves", number == 0);
        self.meet_if("leaves a closed one", number == 3);
        self.meet_if("leaves above 15", number == 2);
        if number == 0 {
            self.meet_if("leaves with bytes held", self.holds(connection));
            self.held[connection] = Held::default();
        }
    }

    fn leave<I: Implementation>(&mut self, connection: usize) -> u8 {
        let call = Call::Leave { connection };
        self.make(call, |table, marks, _| I::leave(table, marks, connection)).number
    }

    fn is_closed(&self, connection: usize) -> bool {
        connection != PLANT && self.memory.marks.lent()[connection] == 0
    }

    /// Gathers the bytes, and takes all messages that are whole.
    fn came_in<I: Implementation>(&mut self, connection: usize, bytes: &[u8]) {
        if self.is_closed(connection) {
            self.meet("bytes for a closed connection");
            return;
        }
        let mut held = mem::take(&mut self.held[connection]);
        for other in self.held.iter_mut().filter(|other| !other.bytes.is_empty()) {
            other.others_between = true;
        }
        held.bytes.extend_from_slice(bytes);
        held.records += 1;
        let taken = self.take_all::<I>(connection, &held);
        if taken > 0 {
            held.bytes.drain(..taken);
            (held.records, held.others_between) = (1, false);
        }
        if held.bytes.is_empty() {
            held = Held::default();
        }
        self.meet_if("longest message held", held.bytes.len() == LONGEST_INCOMPLETE);
        self.held[connection] = held;
    }

    /// How many of the bytes are taken or dropped.
    fn take_all<I: Implementation>(&mut self, connection: usize, held: &Held) -> usize {
        let (mut at, mut messages, all) = (0, 0, held.bytes.len());
        while at < all {
            let rest = &held.bytes[at..];
            let (number, taken) = self.take::<I>(connection, rest);
            self.meet_message::<I>(connection, rest, number);
            match number {
                0 | 16 => {
                    assert!((1..=rest.len()).contains(&taken), "a message of {taken} bytes");
                    (at, messages) = (at + taken, messages + 1);
                }
                1 => break,
                _ => {
                    if connection != PLANT {
                        self.leave::<I>(connection);
                    }
                    return all;
                }
            }
            if messages == 1 {
                self.meet_gathered(held);
            }
            if self.is_closed(connection) {
                self.meet("another revision");
                self.meet_if("bytes behind another revision", at < all);
                return all;
            }
        }
        self.meet_if("several messages at once", messages > 1);
        at
    }

    /// A message that was taken, for which bytes were held.
    fn meet_gathered(&mut self, held: &Held) {
        self.meet_if("message in two records", held.records == 2);
        self.meet_if("message in many records", held.records > 4);
        self.meet_if("others between", held.records > 1 && held.others_between);
    }

    fn meet_message<I: Implementation>(&mut self, connection: usize, bytes: &[u8], number: u8) {
        let by_plant = connection == PLANT;
        self.meet(if by_plant { plant_sort(number, bytes[0]) } else { client_sort(number) });
        self.meet_if("table full", number == 0 && self.memory.count() == ENTRIES);
        let refused = !matches!(number, 0 | 1 | 16);
        if refused && (1..bytes.len()).any(|at| is_assignment::<I>(&bytes[at..])) {
            self.meet(if by_plant { "plant: more behind refused" } else { "more behind refused" });
        }
    }

    /// The number that a message of a connection would be answered with.
    pub fn number<I: Implementation>(&self, connection: usize, message: &[u8]) -> u8 {
        ByHand::on(self.memory.clone()).take::<I>(connection, message).0
    }

    /// Takes the first message of some bytes; its number, and its length where it is taken.
    fn take<I: Implementation>(&mut self, connection: usize, bytes: &[u8]) -> (u8, usize) {
        match bytes {
            _ if connection != PLANT => {
                let call = Call::Receive { connection, message: Hex(bytes.to_vec()) };
                let answer = self.make(call, |table, marks, out| {
                    I::receive(table, marks, connection, bytes, out)
                });
                (answer.number, answer.taken)
            }
            [] => (1, 0),
            [0x10, ..] => self.plant_creates::<I>(bytes),
            [0x11, ..] => self.plant_writes::<I>(bytes),
            _ => (4, 0),
        }
    }

    fn plant_creates<I: Implementation>(&mut self, bytes: &[u8]) -> (u8, usize) {
        if has_other_id::<I>(bytes) {
            return (4, 0);
        }
        let fields = I::decode(bytes, 0);
        if fields.number != 0 {
            return (fields.number, 0);
        }
        let (taken, type_code) = (fields.taken, fields.type_code);
        let name = &bytes[3..3 + fields.name_length];
        let value = &bytes[taken - fields.value_length..taken];
        let call = Call::Create { name: Hex(name.to_vec()), type_code, value: Hex(value.to_vec()) };
        let answer = self
            .make(call, |table, marks, out| I::create(table, marks, name, type_code, value, out));
        (answer.number, taken)
    }

    fn plant_writes<I: Implementation>(&mut self, bytes: &[u8]) -> (u8, usize) {
        let [_, high, low, ..] = *bytes else {
            return (1, 0);
        };
        let id = u16::from_be_bytes([high, low]);
        if usize::from(id) >= self.memory.count() {
            return (6, 0);
        }
        let fields = I::decode(bytes, self.memory.heads.lent()[usize::from(id)].type_code as u8);
        if fields.number != 0 {
            return (fields.number, 0);
        }
        let value = &bytes[5..fields.taken];
        let call = Call::Write { id, value: Hex(value.to_vec()) };
        let answer = self.make(call, |table, marks, out| I::write(table, marks, id, value, out));
        (answer.number, fields.taken)
    }
}

/// A client's message that is answered with a number.
fn client_sort(number: u8) -> &'static str {
    match number {
        0 => "client 0",
        1 => "client 1",
        3 => "client 3",
        4 => "client 4",
        5 => "client 5",
        6 => "client 6",
        7 => "client 7",
        8 => "client 8",
        9 => "client 9",
        10 => "client 10",
        11 => "client 11",
        16 => "client 16",
        _ => panic!("a client's message is answered with {number}"),
    }
}

/// A message of the plant's own code that is answered with a number.
fn plant_sort(number: u8, kind: u8) -> &'static str {
    match number {
        0 => "plant 0",
        1 => "plant 1",
        4 if kind == 0x10 => "plant 4 at the ID",
        4 => "plant 4 at the kind",
        6 => "plant 6",
        7..=10 => "plant 7 to 10",
        11 => "plant 11",
        13 => "plant 13",
        16 => "plant 16",
        _ => panic!("a message of the plant is answered with {number}"),
    }
}

/// Whether an assignment has an ID other than 0xFFFF, behind a name and a type that are good.
fn has_other_id<I: Implementation>(bytes: &[u8]) -> bool {
    let [_, high, low, ..] = *bytes else {
        return false;
    };
    let id = 4 + usize::from(u16::from_be_bytes([high, low]));
    let up_to_the_number = bytes.get(..id + 2);
    up_to_the_number.is_some_and(|m| m[id..] != [0xFF; 2] && I::decode(m, 0).number == 1)
}

/// Whether a whole assignment stands first, with the ID of a new entry.
fn is_assignment<I: Implementation>(bytes: &[u8]) -> bool {
    bytes[0] == 0x10 && {
        let fields = I::decode(bytes, 0);
        fields.number == 0 && fields.id == 0xFFFF
    }
}
