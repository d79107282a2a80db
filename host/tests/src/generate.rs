//! Random calls that fit the state of a table, and damaged ones.

mod record;
mod saved;
mod shown;

pub use shown::Directed;

use crate::call::{CALLS, Call, Hex};
use crate::implementation::{Implementation, Reference};
use crate::memory::Memory;
use crate::random::Random;
use nt2_sys::{
    CONNECTIONS, DELIVERY_MESSAGES, ENTRIES, HEADING, Head, LONGEST_HELLO_ANSWER, NAME_ROOM,
    TABLE_BYTES, VALUE_ROOM,
};

/// Bytes of the longest output: a hello's longest answer has room, and more behind it.
pub const MOST_ROOM: usize = LONGEST_HELLO_ANSWER + 4000;

const TYPES: [u8; 6] = [0x00, 0x01, 0x02, 0x10, 0x11, 0x12];
const UNKNOWN_TYPES: [u8; 7] = [0x03, 0x04, 0x0F, 0x13, 0x20, 0x80, 0xFF];

const DOUBLES: [u64; 11] = [
    0x0000_0000_0000_0000,
    0x8000_0000_0000_0000,
    0x3FF0_0000_0000_0000,
    0xBFF0_0000_0000_0000,
    0x0000_0000_0000_0001,
    0x7FF0_0000_0000_0000,
    0xFFF0_0000_0000_0000,
    0x7FF8_0000_0000_0000,
    0xFFF8_0000_0000_0001,
    0x7FF0_0000_0000_0001,
    0x7FEF_FFFF_FFFF_FFFF,
];

/// Code points at the edges of UTF-8's rows.
const EDGES: [char; 12] = [
    '\0',
    '\u{7F}',
    '\u{80}',
    '\u{7FF}',
    '\u{800}',
    '\u{FFF}',
    '\u{1000}',
    '\u{D7FF}',
    '\u{E000}',
    '\u{FFFF}',
    '\u{10000}',
    '\u{10FFFF}',
];

/// Bytes that are no UTF-8.
const NO_TEXT: [&[u8]; 20] = [
    &[0x80],
    &[0xBF],
    &[0xC0, 0x80],
    &[0xC1, 0xBF],
    &[0xC2],
    &[0xC2, 0x7F],
    &[0xC2, 0xC0],
    &[0xE0, 0x9F, 0xBF],
    &[0xE1, 0x80],
    &[0xED, 0xA0, 0x80],
    &[0xED, 0xBF, 0xBF],
    &[0xEF, 0xBF, 0xC0],
    &[0xF0, 0x8F, 0xBF, 0xBF],
    &[0xF0, 0x90, 0x80],
    &[0xF4, 0x90, 0x80, 0x80],
    &[0xF4, 0x8F, 0xBF],
    &[0xF4, 0x8F, 0xC0, 0xBF],
    &[0xF5, 0x80, 0x80, 0x80],
    &[0xFE],
    &[0xFF],
];

/// How often each call is made, in the order of `Call::NAMES`.
#[derive(Clone, Copy, Debug)]
pub struct Weights(pub [usize; CALLS]);

impl Weights {
    /// All calls, for the differential test.
    pub const ALL: Weights =
        Weights([2, 50, 20, 390, 40, 20, 60, 30, 90, 80, 120, 30, 60, 80, 2, 110, 16, 10]);
    /// The calls of a run in demand 3, which begins with the only fresh start.
    pub const RUN: Weights =
        Weights([0, 20, 2, 500, 60, 0, 0, 5, 0, 40, 350, 28, 0, 0, 0, 0, 0, 0]);
}

pub struct Generator {
    pub random: Random,
    weights: Weights,
    /// Connections that send no update with a new number.
    readers: [bool; CONNECTIONS],
    /// Bytes of the last call that sent some.
    last_sent: Vec<u8>,
}

impl Generator {
    pub fn new(seed: u64, weights: Weights) -> Self {
        let readers = [false; CONNECTIONS];
        Generator { random: Random::new(seed), weights, readers, last_sent: Vec::new() }
    }

    /// Makes most connections readers.
    pub fn choose_readers(&mut self) {
        let writers = 1 + self.random.below(5);
        self.readers = [true; CONNECTIONS];
        for _ in 0..writers {
            let connection = self.random.below(CONNECTIONS);
            self.readers[connection] = false;
        }
    }

    /// Keeps the bytes sent, for a copy to take.
    pub fn keep_sent(&mut self, sent: &[u8]) {
        if !sent.is_empty() {
            self.last_sent.clear();
            self.last_sent.extend_from_slice(sent);
        }
    }

    /// A sound memory with so many entries, and some memory beyond the table.
    pub fn sound_memory(&mut self, entries: usize) -> Memory {
        let random = &mut self.random;
        let beyond = if random.percent(50) { 0 } else { 1 + random.below(8) };
        let head = |random: &mut Random| Head {
            name_length: random.u16(),
            value_length: random.u16(),
            type_code: random.u16(),
            number: random.u16(),
        };
        let heads: Vec<Head> = (0..ENTRIES + 8).map(|_| head(random)).collect();
        let bytes = random.bytes(TABLE_BYTES + 200);
        let greeted = 20 + random.below(70);
        let mark =
            |random: &mut Random| if random.percent(greeted) { 2 } else { random.below(3) as u8 };
        let marks: Vec<u8> =
            (0..CONNECTIONS).map(|_| mark(random)).chain([3, 77, 200, 255]).collect();
        let mut memory = Memory::new(&heads, &bytes, entries as u16, &marks);
        let largest = self.random.percent(25);
        for i in 0..entries {
            let (name, type_code, value) = loop {
                let entry = if largest { self.largest_entry() } else { self.entry() };
                if (0..i).all(|j| memory.name(j) != entry.0) {
                    break entry;
                }
            };
            memory.put_entry(i, &name, u16::from(type_code), self.sequence_number(), &value);
        }
        memory.heads.lend_only(ENTRIES + beyond);
        memory.bytes.lend_only(TABLE_BYTES + 25 * beyond);
        memory.marks.lend_only(CONNECTIONS + beyond / 2);
        memory
    }

    /// Name, type and value of an entry.
    fn entry(&mut self) -> (Vec<u8>, u8, Vec<u8>) {
        let (name, type_code) = (self.name(), self.random.pick(&TYPES));
        (name, type_code, self.value(type_code))
    }

    fn largest_entry(&mut self) -> (Vec<u8>, u8, Vec<u8>) {
        (self.text(NAME_ROOM), 0x02, prefixed(&self.text(VALUE_ROOM - 2)))
    }

    /// A call for the state of a server's table and a copy, both sound, and its output's length.
    pub fn call(&mut self, server: &Memory, copy: &Memory) -> (Call, usize) {
        let weights = self.weights.0;
        match self.random.weighted(&weights) {
            0 => (Call::Fresh, 0),
            1 => (Call::Open { connection: self.closed_connection(server) }, 0),
            2 => (Call::Leave { connection: self.any_connection() }, 0),
            3 => self.receive(server),
            4 => self.deliver(server),
            5 => self.replay(),
            6 => (self.why(server), 0),
            7 => self.save(Call::Save, server),
            8 => (self.load(server, copy), 0),
            9 => self.create(server),
            10 => self.write(server),
            11 => (Call::Read { id: self.id(server) }, 0),
            12 => self.encode(server),
            13 => self.decode(server),
            14 => (Call::CopyFresh, 0),
            15 => (Call::CopyReceive { message: Hex(self.server_message(copy)) }, 0),
            16 => (Call::CopyRead { id: self.id(copy) }, 0),
            _ => self.save(Call::CopySave, copy),
        }
    }

    fn receive(&mut self, server: &Memory) -> (Call, usize) {
        let connection = self.sender(server);
        let message = self.client_message(server, connection);
        let greeted = server.marks.lent().get(connection) == Some(&2);
        let exact = if message.first() == Some(&0x01) && !greeted {
            hello_answer_length(server)
        } else {
            message.len()
        };
        let message = self.damaged(message);
        let room = self.room(exact);
        (Call::Receive { connection, message: Hex(message) }, room)
    }

    /// Asks about a client's message; every second one is cut.
    fn why(&mut self, server: &Memory) -> Call {
        let connection = self.sender(server);
        let mut message = self.client_message(server, connection);
        if self.random.percent(50) {
            let end = self.random.below(message.len() + 1);
            message.truncate(end);
        }
        Call::Why { connection, message: Hex(self.damaged(message)) }
    }

    /// Messages for the state in which those before them leave the table, mostly good ones.
    fn deliver(&mut self, server: &Memory) -> (Call, usize) {
        let connection = self.sender(server);
        let (mut messages, bad) = (self.delivery_messages(), self.random.pick(&[0, 0, 3, 30]));
        let (mut state, mut out) = (server.clone(), [0; LONGEST_HELLO_ANSWER]);
        // The bytes written after each message that is done.
        let (mut input, mut written) = (Vec::new(), vec![0]);
        for _ in 0..2 * messages {
            let message = self.client_message(&state, connection);
            let (table, marks) = state.lend();
            let answer = Reference::receive(table, marks, connection, &message, &mut out);
            if answer.number == 0 {
                written.push(written[written.len() - 1] + HEADING + answer.sent);
            }
            if answer.taken > 0 {
                input.extend(&message[..answer.taken]);
            } else if self.random.percent(bad) {
                input.extend(message);
            } else {
                continue;
            }
            messages -= 1;
            if messages == 0 {
                break;
            }
        }
        let input = Hex(self.damaged(input));
        (Call::Deliver { connection, input }, self.delivery_room(&written))
    }

    fn delivery_messages(&mut self) -> usize {
        match self.random.weighted(&[5, 50, 25, 8, 12]) {
            0 => 0,
            1 => 1 + self.random.below(6),
            2 => self.random.below(DELIVERY_MESSAGES),
            3 => DELIVERY_MESSAGES,
            _ => DELIVERY_MESSAGES + self.random.below(24),
        }
    }

    /// An output's length beside what is written after some message, or after all.
    fn delivery_room(&mut self, written: &[usize]) -> usize {
        let (all, some) = (written[written.len() - 1], self.random.pick(written));
        match self.random.weighted(&[45, 15, 25, 10, 5]) {
            0 => MOST_ROOM,
            1 => all,
            2 => some + self.random.below(HEADING + 2),
            3 => some.saturating_sub(1 + self.random.below(HEADING + 2)),
            _ => self.random.below(all + 1),
        }
        .min(MOST_ROOM)
    }

    /// A connection for a client's messages, mostly one that is not closed.
    fn sender(&mut self, server: &Memory) -> usize {
        let mut connection = self.any_connection();
        for _ in 0..3 {
            let closed = server.marks.lent().get(connection) == Some(&0);
            if closed || self.is_reader(connection) && self.random.percent(50) {
                connection = self.any_connection();
            }
        }
        connection
    }

    fn is_reader(&self, connection: usize) -> bool {
        self.readers.get(connection) == Some(&true)
    }

    fn client_message(&mut self, server: &Memory, connection: usize) -> Vec<u8> {
        let greeted = server.marks.lent().get(connection) == Some(&2);
        let reader = self.is_reader(connection);
        let weights = match (greeted, reader) {
            (true, false) => [3, 1, 4, 32, 52, 3, 4, 1],
            (true, true) => [3, 1, 20, 50, 14, 4, 7, 1],
            (false, _) => [60, 8, 8, 5, 5, 4, 8, 2],
        };
        match self.random.weighted(&weights) {
            0 => vec![0x01, 0x02, 0x00],
            1 => {
                let [high, low] = self.revision().to_be_bytes();
                vec![0x01, high, low]
            }
            2 => vec![0x00],
            3 => {
                let id = if self.random.percent(94) { 0xFFFF } else { self.id(server) };
                self.assignment(server, id, 45)
            }
            4 => self.update(server, reader),
            5 => self.random.pick(&[&[0x02, 0x02, 0x00][..], &[0x03], &[0x02]]).to_vec(),
            6 => self.junk(),
            _ => Vec::new(),
        }
    }

    /// A message for a copy: one that was sent, or one that fits the copy's state.
    fn server_message(&mut self, copy: &Memory) -> Vec<u8> {
        let message = match self.random.weighted(&[25, 30, 33, 3, 3, 2, 3, 1]) {
            0 => self.last_sent.clone(),
            1 => {
                let count = copy.count() as u16;
                let id = if self.random.percent(92) { count } else { self.id(copy) };
                self.assignment(copy, id, 15)
            }
            2 => self.update(copy, false),
            3 => vec![self.random.pick(&[0x00, 0x03])],
            4 => {
                let [high, low] = self.revision().to_be_bytes();
                vec![0x02, high, low]
            }
            5 => vec![0x01, 0x02, 0x00],
            6 => self.junk(),
            _ => Vec::new(),
        };
        self.damaged(message)
    }

    fn assignment(&mut self, table: &Memory, id: u16, held: usize) -> Vec<u8> {
        let (name, type_code) = (self.table_name(table, held), self.type_code());
        let (number, value) = (self.sequence_number(), self.value_or_fault(type_code));
        assignment(&name, type_code, id, number, &value)
    }

    fn update(&mut self, table: &Memory, reader: bool) -> Vec<u8> {
        let id = self.id(table);
        let (stored, type_code) = match table.heads.lent().get(usize::from(id)) {
            Some(head) if usize::from(id) < table.count() => (head.number, head.type_code as u8),
            _ => (self.random.u16(), self.type_code()),
        };
        let distance = match self.random.weighted(&[45, 8, 8, 8, 8, 8, 15]) {
            _ if reader => self.random.pick(&[0, 32_768, 32_769, 65_535]),
            0 => 1,
            1 => 0,
            2 => self.random.pick(&[2, 32_766]),
            3 => 32_767,
            4 => 32_768,
            5 => self.random.pick(&[32_769, 65_535]),
            _ => self.random.u16(),
        };
        let type_code = if self.random.percent(95) { type_code } else { self.type_code() };
        let value = self.value_or_fault(type_code);
        update(id, stored.wrapping_add(distance), &value)
    }

    fn create(&mut self, server: &Memory) -> (Call, usize) {
        let (name, type_code) = (self.table_name(server, 15), self.type_code());
        let value = self.value_or_fault(type_code);
        let value = self.lone(value);
        let room = self.room(8 + name.len() + value.len());
        (Call::Create { name: Hex(name), type_code, value: Hex(value) }, room)
    }

    fn write(&mut self, server: &Memory) -> (Call, usize) {
        let id = self.id(server);
        let i = usize::from(id);
        let value = if i >= server.count() {
            let type_code = self.type_code();
            self.value_or_fault(type_code)
        } else if self.random.percent(25) {
            self.nearly(server.heads.lent()[i].type_code as u8, server.value(i).to_vec())
        } else {
            self.value_or_fault(server.heads.lent()[i].type_code as u8)
        };
        let value = self.lone(value);
        let room = self.room(5 + value.len());
        (Call::Write { id, value: Hex(value) }, room)
    }

    /// A stored value as it is, or with a Double of it changed, gone or repeated.
    fn nearly(&mut self, type_code: u8, mut value: Vec<u8>) -> Vec<u8> {
        if type_code == 0x11 && self.random.percent(15) {
            return self.one_less_or_more(value);
        }
        let doubles = match type_code {
            0x01 => &mut value[..],
            0x11 => &mut value[1..],
            _ => return self.nearly_the_bytes(value),
        };
        if !doubles.is_empty() && self.random.percent(60) {
            let at = 8 * self.random.below(doubles.len() / 8);
            match self.random.below(3) {
                0 => doubles[at] ^= 0x80,
                1 => doubles[at + 7] ^= 1,
                _ => doubles[at..at + 8].copy_from_slice(&self.random.pick(&DOUBLES).to_be_bytes()),
            }
        }
        value
    }

    /// An array of Doubles without its last one, or with that one twice.
    fn one_less_or_more(&mut self, mut value: Vec<u8>) -> Vec<u8> {
        let last = value.split_off(value.len().saturating_sub(8).max(1));
        if last.is_empty() {
            return value;
        }
        if self.random.percent(50) {
            value[0] -= 1;
        } else {
            value[0] += 1;
            value.extend(last.repeat(2));
        }
        value
    }

    /// The same bytes, or with one changed behind a count or prefix.
    fn nearly_the_bytes(&mut self, mut value: Vec<u8>) -> Vec<u8> {
        if value.len() > 3 && self.random.percent(60) {
            let at = 3 + self.random.below(value.len() - 3);
            value[at] ^= 1;
        }
        value
    }

    fn encode(&mut self, table: &Memory) -> (Call, usize) {
        let kind = match self.random.weighted(&[40, 30, 20, 10]) {
            0 => 0x10,
            1 => 0x11,
            2 => self.random.pick(&[0x00, 0x01, 0x02, 0x03]),
            _ => self.random.byte(),
        };
        let (name, type_code) = (self.table_name(table, 50), self.type_code());
        let value = self.value_or_fault(type_code);
        let value = self.lone(value);
        let exact = match kind {
            0x10 => 8 + name.len() + value.len(),
            0x11 => 5 + value.len(),
            0x01 | 0x02 => 3,
            _ => 1,
        };
        let (revision, id, number) = (self.revision(), self.id(table), self.sequence_number());
        let (name, value, room) = (Hex(name), Hex(value), self.room(exact));
        (Call::Encode { kind, revision, name, type_code, id, number, value }, room)
    }

    fn decode(&mut self, table: &Memory) -> (Call, usize) {
        let update_type = self.type_code();
        let bytes = match self.random.weighted(&[40, 40, 12, 8]) {
            0 => {
                let id = self.id(table);
                self.assignment(table, id, 50)
            }
            1 => {
                let (id, number) = (self.id(table), self.sequence_number());
                let value = self.value_or_fault(update_type);
                update(id, number, &value)
            }
            2 => {
                let [high, low] = self.revision().to_be_bytes();
                vec![self.random.pick(&[0x00, 0x01, 0x02, 0x03]), high, low]
            }
            _ => self.junk(),
        };
        (Call::Decode { bytes: Hex(self.damaged(bytes)), update_type }, 0)
    }

    fn any_connection(&mut self) -> usize {
        if self.random.percent(97) {
            return self.random.below(CONNECTIONS);
        }
        self.random.pick(&[
            16,
            17,
            18,
            31,
            32,
            255,
            256,
            65_536,
            1 << 32,
            usize::MAX - 15,
            usize::MAX,
        ])
    }

    /// A connection that is closed, where one is soon found.
    fn closed_connection(&mut self, server: &Memory) -> usize {
        let mut connection = self.any_connection();
        for _ in 0..3 {
            if matches!(server.marks.lent().get(connection), Some(1 | 2)) {
                connection = self.any_connection();
            }
        }
        connection
    }

    /// An ID that is mostly held.
    fn id(&mut self, table: &Memory) -> u16 {
        let count = table.count();
        if count > 0 && self.random.percent(92) {
            return self.random.below(count) as u16;
        }
        let other = self.random.u16();
        self.random.pick(&[
            count as u16,
            count as u16 + 1,
            63,
            64,
            65,
            255,
            256,
            0xFFFE,
            0xFFFF,
            other,
        ])
    }

    fn revision(&mut self) -> u16 {
        let other = self.random.u16();
        self.random.pick(&[0x0200, 0x0200, 0x0201, 0x0300, 0x0002, 0x0100, 0x0000, 0xFFFF, other])
    }

    fn sequence_number(&mut self) -> u16 {
        let other = self.random.u16();
        self.random.pick(&[0, 1, 2, 32_767, 32_768, 32_769, 65_534, 65_535, other, other])
    }

    fn type_code(&mut self) -> u8 {
        if self.random.percent(96) {
            self.random.pick(&TYPES)
        } else {
            self.random.pick(&UNKNOWN_TYPES)
        }
    }

    /// An output's length beside the one that is just enough.
    fn room(&mut self, exact: usize) -> usize {
        match self.random.weighted(&[46, 18, 6, 4, 16, 5, 5]) {
            0 => exact.max(400),
            1 => exact,
            2 => exact.saturating_sub(1),
            3 => self.random.below(exact + 1),
            4 => LONGEST_HELLO_ANSWER,
            5 => exact + 1,
            _ => self.random.below(MOST_ROOM),
        }
        .min(MOST_ROOM)
    }

    /// Text of so many bytes.
    fn text(&mut self, length: usize) -> Vec<u8> {
        let ascii = self.random.percent(50);
        let mut text = Vec::with_capacity(length);
        while text.len() < length {
            let room = length - text.len();
            let c = match self.random.below(4) {
                _ if ascii || room == 1 => (b'a' + self.random.below(26) as u8) as char,
                0 => self.random.pick(&EDGES),
                1 => self.random.pick(&['a', '/', '\u{FC}', '\u{20AC}', '\u{1F600}', '\0']),
                _ => char::from_u32(self.random.below(0x11_0000) as u32).unwrap_or('?'),
            };
            if c.len_utf8() <= room {
                text.extend_from_slice(c.encode_utf8(&mut [0; 4]).as_bytes());
            }
        }
        text
    }

    /// Bytes of so many, at least one, that are no text.
    fn no_text(&mut self, length: usize) -> Vec<u8> {
        let mut text = self.text(length);
        let fault = self.random.pick(&NO_TEXT);
        let fault = &fault[..fault.len().min(length)];
        let at = match self.random.below(3) {
            0 => 0,
            1 => length - fault.len(),
            _ => self.random.below(length - fault.len() + 1),
        };
        text[at..at + fault.len()].copy_from_slice(fault);
        text
    }

    /// A name that obeys the build description.
    fn name(&mut self) -> Vec<u8> {
        let length = match self.random.weighted(&[30, 5, 30, 10, 10, 15, 10]) {
            0 => {
                let lot = self.random.below(1000);
                return format!("lot/{lot}/parents").into_bytes();
            }
            6 => {
                let around = self.random.pick(&BALANCED_AROUND);
                return balanced_name(around, self.random.below(BALANCED_NAMES) as u8);
            }
            1 => 0,
            2 => 1 + self.random.below(3),
            3 => NAME_ROOM,
            4 => NAME_ROOM - 1,
            _ => self.random.below(NAME_ROOM + 1),
        };
        self.text(length)
    }

    /// A name, held in the table in so many of 100 cases. Few of the others are faults.
    fn table_name(&mut self, table: &Memory, held: usize) -> Vec<u8> {
        if table.count() > 0 && self.random.percent(held) {
            let mut name = table.name(self.random.below(table.count())).to_vec();
            match self.random.below(12) {
                0 if name.len() < NAME_ROOM => name.push(b'x'),
                1 => {
                    name.pop();
                }
                2 if !name.is_empty() => *name.last_mut().expect("a byte") ^= 1,
                3 if !name.is_empty() => name[0] ^= 1,
                4 if !name.is_empty() => {
                    let at = self.random.below(name.len());
                    name[at] ^= 1;
                }
                _ => {}
            }
            return name;
        }
        match self.random.below(40) {
            0 => self.text(NAME_ROOM + 1),
            1 => {
                let length = 1 + self.random.below(NAME_ROOM);
                self.no_text(length)
            }
            2 => {
                let length = NAME_ROOM + 1 + self.random.below(300);
                self.text(length)
            }
            _ => self.name(),
        }
    }

    /// An encoded value that obeys the build description; for an unknown type some bytes.
    fn value(&mut self, type_code: u8) -> Vec<u8> {
        match type_code {
            0x00 => vec![self.random.below(2) as u8],
            0x01 => self.double().to_vec(),
            0x02 => {
                let length = match self.random.below(5) {
                    0 => VALUE_ROOM - 2,
                    1 => VALUE_ROOM - 3,
                    2 => self.random.below(VALUE_ROOM - 1),
                    _ => self.random.below(12),
                };
                let text = self.text(length);
                prefixed(&text)
            }
            0x10 => {
                let count = match self.random.below(4) {
                    0 => 255,
                    1 => self.random.below(256),
                    _ => self.random.below(6),
                };
                let flags = (0..count).map(|_| self.random.below(2) as u8);
                [count as u8].into_iter().chain(flags).collect()
            }
            0x11 => {
                let count = match self.random.below(4) {
                    0 => 31,
                    1 => self.random.below(32),
                    _ => self.random.below(5),
                };
                let mut value = vec![count as u8];
                (0..count).for_each(|_| value.extend(self.double()));
                value
            }
            0x12 => self.string_array(),
            _ => {
                let length = self.random.below(12);
                self.random.bytes(length)
            }
        }
    }

    fn double(&mut self) -> [u8; 8] {
        if self.random.percent(70) {
            self.random.pick(&DOUBLES).to_be_bytes()
        } else {
            self.random.number().to_be_bytes()
        }
    }

    fn string_array(&mut self) -> Vec<u8> {
        let mut value = vec![0];
        let mut put = |text: &[u8]| {
            value[0] += 1;
            value.extend(prefixed(text));
            value.len()
        };
        match self.random.weighted(&[50, 10, 10, 30]) {
            0 => {
                for _ in 0..self.random.below(5) {
                    let length = self.random.below(10);
                    put(&self.text(length));
                }
            }
            1 => {
                let count = if self.random.percent(50) { 127 } else { self.random.below(128) };
                for _ in 0..count {
                    put(&[]);
                }
            }
            2 => {
                put(&self.text(VALUE_ROOM - 3));
            }
            _ => {
                let (mut size, full) = (1, self.random.percent(70));
                while size + 2 <= VALUE_ROOM {
                    let room = VALUE_ROOM - size - 2;
                    let length =
                        if full && room < 40 { room } else { self.random.below(60).min(room) };
                    size = put(&self.text(length));
                }
            }
        }
        value
    }

    fn value_or_fault(&mut self, type_code: u8) -> Vec<u8> {
        if self.random.percent(92) { self.value(type_code) } else { self.fault(type_code) }
    }

    /// A value for a call that is lent it alone: as it is, mutated, or with bytes left behind it.
    fn lone(&mut self, mut value: Vec<u8>) -> Vec<u8> {
        match self.random.weighted(&[89, 8, 3]) {
            0 => value,
            1 => self.mutated(value),
            _ => {
                let length = 1 + self.random.below(20);
                value.extend(self.random.bytes(length));
                value
            }
        }
    }

    /// An encoded value with a fault of its type, some with more behind the first one.
    fn fault(&mut self, type_code: u8) -> Vec<u8> {
        let mut value = self.value(type_code);
        match type_code {
            0x00 => value[0] = self.random.pick(&[2, 3, 0x80, 0xFF]),
            0x02 if self.random.percent(50) => {
                let length = 1 + self.random.below(VALUE_ROOM - 2);
                value = prefixed(&self.no_text(length));
            }
            0x02 => {
                let length = self.random.pick(&[255, 256, 257, 300, 1000]);
                value = prefixed(&self.text(length));
                let cut = self.random.below(value.len() + 1);
                value.truncate(cut.max(2));
            }
            0x10 if value.len() > 1 => {
                for _ in 0..self.random.pick(&[1, 1, 3]) {
                    let at = 1 + self.random.below(value.len() - 1);
                    value[at] = self.random.pick(&[2, 0x80, 0xFF]);
                }
            }
            0x11 => {
                let count = self.random.pick(&[32, 33, 64, 128, 255]);
                value = vec![count];
                let length = self.random.below(8 * usize::from(count) + 1);
                value.extend(self.random.bytes(length));
            }
            0x12 => self.string_array_fault(&mut value),
            _ => value = self.mutated(value),
        }
        value
    }

    /// One element more than there is room for, or one that is no text, behind good ones.
    fn string_array_fault(&mut self, value: &mut Vec<u8>) {
        let element = if self.random.percent(50) {
            let length = (VALUE_ROOM - 1).saturating_sub(value.len()) + self.random.below(3);
            self.text(length)
        } else {
            let length = 1 + self.random.below(8);
            self.no_text(length)
        };
        value[0] = value[0].saturating_add(1 + self.random.below(3) as u8);
        value.extend(prefixed(&element));
        if self.random.percent(60) {
            value.extend(prefixed(self.random.pick(&[b"x", b"x", b"\xFF"])));
        }
    }

    fn junk(&mut self) -> Vec<u8> {
        let length = match self.random.below(4) {
            0 => 1,
            1 => self.random.below(2000),
            _ => self.random.below(40),
        };
        let mut bytes = self.random.bytes(length);
        if let Some(kind) = bytes.first_mut()
            && self.random.percent(50)
        {
            *kind = self.random.pick(&[0x00, 0x01, 0x02, 0x03, 0x10, 0x11, 0x04, 0x12, 0xFF]);
        }
        bytes
    }

    /// A message as it is, with bytes behind it, or mutated.
    fn damaged(&mut self, mut message: Vec<u8>) -> Vec<u8> {
        match self.random.weighted(&[68, 15, 17]) {
            0 => message,
            1 => {
                message.extend(self.junk());
                message
            }
            _ => self.mutated(message),
        }
    }

    fn mutated(&mut self, mut bytes: Vec<u8>) -> Vec<u8> {
        for _ in 0..self.random.pick(&[1, 1, 1, 2, 4]) {
            let at = self.random.below(bytes.len() + 1);
            let byte = self.random.byte();
            let byte = self.random.pick(&[0, 1, 2, 0x40, 0x41, 0x7F, 0x80, 0xC0, 0xFE, 0xFF, byte]);
            match self.random.below(6) {
                0 | 1 => bytes.truncate(at),
                2 => bytes.insert(at, byte),
                3 if at < bytes.len() => {
                    bytes.remove(at);
                }
                4 if at < bytes.len() => bytes[at] = byte,
                5 if at < bytes.len() => bytes[at] ^= 1 << self.random.below(8),
                _ => bytes.push(byte),
            }
        }
        bytes
    }

    /// Damages a sound memory, or changes it where that does no harm.
    pub fn damage(&mut self, memory: &mut Memory) {
        let count = memory.count();
        match self.random.weighted(&[25, 25, 15, 10, 10, 15]) {
            0 if count > 0 => self.damage_head(memory, count),
            1 if count > 0 => self.damage_bytes(memory, count),
            2 if count > 1 => self.repeat_name(memory, count),
            3 => {
                let other = self.random.below(65) as u16;
                memory.set_count(
                    self.random.pick(&[65, 66, 72, 128, 255, 256, 65_535, other, other]),
                );
            }
            4 if !memory.marks.lent().is_empty() => {
                let at = self.random.below(memory.marks.lent().len());
                memory.marks.lent_mut()[at] = self.random.pick(&[3, 4, 16, 128, 255]);
            }
            _ => self.shorten(memory),
        }
    }

    /// An entry to damage, often the first or the last one.
    fn damaged_entry(&mut self, count: usize) -> usize {
        match self.random.below(5) {
            0 => 0,
            1 | 2 => count - 1,
            _ => self.random.below(count),
        }
    }

    fn damage_head(&mut self, memory: &mut Memory, count: usize) {
        let i = self.damaged_entry(count);
        let other = self.random.u16();
        let head = &mut memory.heads.lent_mut()[i];
        match self.random.below(4) {
            0 => {
                let near = head.name_length ^ 1;
                head.name_length = self.random.pick(&[65, 64, 0, near, 255, 256, 65_535, other]);
            }
            1 => {
                let near = head.value_length ^ 1;
                head.value_length = self.random.pick(&[257, 256, 0, near, 320, 65_535, other]);
            }
            2 => {
                let wide = head.type_code | 0x0100;
                head.type_code = self
                    .random
                    .pick(&[0, 1, 2, 3, 0x0F, 0x10, 0x11, 0x12, 0x13, 0xFF, wide, other]);
            }
            _ => head.number = other,
        }
    }

    fn damage_bytes(&mut self, memory: &mut Memory, count: usize) {
        let i = self.damaged_entry(count);
        let head = memory.heads.lent()[i];
        let (start, length) = if self.random.percent(50) {
            (320 * i, usize::from(head.name_length))
        } else {
            (320 * i + NAME_ROOM, usize::from(head.value_length))
        };
        let at = (start + self.random.below(length + 1)).min(TABLE_BYTES - 1);
        let byte = self.random.byte();
        let byte = self.random.pick(&[0, 1, 2, 0x7F, 0x80, 0xC0, 0xED, 0xF4, 0xFF, byte]);
        memory.bytes.lent_mut()[at] = byte;
    }

    /// One entry's name, or most of it, as another one's too.
    fn repeat_name(&mut self, memory: &mut Memory, count: usize) {
        let (from, to) = (self.damaged_entry(count), self.damaged_entry(count));
        let mut name = memory.name(from).to_vec();
        if self.random.percent(30) {
            name.pop();
        }
        memory.heads.lent_mut()[to].name_length = name.len() as u16;
        memory.put_bytes(320 * to, &name);
    }

    /// Lends fewer or more heads, bytes or marks.
    fn shorten(&mut self, memory: &mut Memory) {
        match self.random.below(3) {
            0 => {
                let any = self.random.below(ENTRIES + 9);
                memory.heads.lend_only(self.random.pick(&[
                    0,
                    1,
                    ENTRIES - 1,
                    ENTRIES,
                    ENTRIES + 8,
                    any,
                ]));
            }
            1 => {
                let any = self.random.below(TABLE_BYTES + 200);
                let lengths = [0, 319, TABLE_BYTES - 1, TABLE_BYTES, TABLE_BYTES + 200, any];
                memory.bytes.lend_only(self.random.pick(&lengths));
            }
            _ => {
                let any = self.random.below(CONNECTIONS + 5);
                let lengths = [0, CONNECTIONS - 1, CONNECTIONS, CONNECTIONS + 4, any];
                memory.marks.lend_only(self.random.pick(&lengths));
            }
        }
    }
}

/// Names with one fingerprint.
const BALANCED_NAMES: usize = 12;
/// Bytes before and behind the four of a balanced name that differ.
const BALANCED_AROUND: [(usize, usize); 4] = [(4, 8), (0, 0), (39, 21), (60, 0)];

/// A name to which the library gives the same fingerprint as to the others with so many bytes around
/// its four: the weights of the first two of their places differ as those of the last two do
/// (crates/soundness/specs/Fingerprint.antt), so that the steps cancel out.
fn balanced_name((before, after): (usize, usize), step: u8) -> Vec<u8> {
    let (low, high) = (b'm' - step, b'm' + step);
    [&[b'b'].repeat(before)[..], &[low, high, high, low], &[b'a'].repeat(after)].concat()
}

/// A text behind its length.
fn prefixed(text: &[u8]) -> Vec<u8> {
    [&(text.len() as u16).to_be_bytes(), text].concat()
}

fn assignment(name: &[u8], type_code: u8, id: u16, number: u16, value: &[u8]) -> Vec<u8> {
    let fields = [&[type_code][..], &id.to_be_bytes(), &number.to_be_bytes(), value].concat();
    [&[0x10][..], &prefixed(name), &fields].concat()
}

fn update(id: u16, number: u16, value: &[u8]) -> Vec<u8> {
    [&[0x11][..], &id.to_be_bytes(), &number.to_be_bytes(), value].concat()
}

/// Bytes of the answer to a hello.
fn hello_answer_length(server: &Memory) -> usize {
    let heads = &server.heads.lent()[..server.count()];
    let lengths =
        heads.iter().map(|h| 8 + usize::from(h.name_length) + usize::from(h.value_length));
    lengths.sum::<usize>() + 1
}

#[cfg(test)]
mod tests {
    use super::*;
    use crate::fingerprint::fingerprint;

    #[test]
    fn balanced_names_have_one_fingerprint() {
        for around in BALANCED_AROUND {
            let steps = 0..BALANCED_NAMES as u8;
            let names: Vec<_> = steps.map(|step| balanced_name(around, step)).collect();
            assert!(names.is_sorted_by(|left, right| left > right), "all differ");
            assert!(names.iter().all(|name| fingerprint(name) == fingerprint(&names[0])));
        }
    }
}
