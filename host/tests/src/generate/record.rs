//! Random line records.

use super::{Generator, UNKNOWN_TYPES, assignment, prefixed, update};
use crate::call::{Call, Hex};
use crate::implementation::Reference;
use crate::line_record::{ByHand, CAME_IN, LEAVES, OPENS, SOURCES};
use crate::memory::Memory;
use nt2_sys::{CONNECTIONS, ENTRIES, Head, NAME_ROOM, PLANT, RECORD_DATA, TABLE_BYTES, VALUE_ROOM};

/// A line record so far, the run of it, and for each connection the bytes that are still to come in.
struct Recorder {
    record: Vec<u8>,
    run: ByHand,
    to_come: [Vec<u8>; SOURCES],
}

impl Recorder {
    fn new() -> Self {
        let heads = [Head::default(); ENTRIES];
        let memory = Memory::new(&heads, &[0; TABLE_BYTES], 0, &[0; CONNECTIONS]);
        let run = ByHand::start::<Reference>(memory);
        Recorder { record: Vec::new(), run, to_come: Default::default() }
    }

    /// Writes a record and runs it.
    fn put(&mut self, record: &[u8]) {
        self.run.advance::<Reference>(record).expect("a good record");
        self.record.extend_from_slice(record);
    }

    /// Writes a record with the first bytes that are to come in from a connection.
    fn come_in(&mut self, connection: usize, length: usize) {
        let rest = self.to_come[connection].split_off(length);
        let bytes = std::mem::replace(&mut self.to_come[connection], rest);
        self.put(&[&[CAME_IN + length as u8, connection as u8], &bytes[..]].concat());
    }

    fn all_come_in(&mut self, connection: usize) {
        while !self.to_come[connection].is_empty() {
            self.come_in(connection, self.to_come[connection].len().min(RECORD_DATA));
        }
    }

    fn mark(&self, connection: usize) -> u8 {
        self.run.memory.marks.lent()[connection]
    }

    fn is_closed(&self, connection: usize) -> bool {
        connection != PLANT && self.mark(connection) == 0
    }

    /// The connections that hold bytes.
    fn holding(&self) -> Vec<usize> {
        (0..CONNECTIONS).filter(|&connection| self.run.holds(connection)).collect()
    }
}

impl Generator {
    pub(super) fn replay(&mut self) -> (Call, usize) {
        (Call::Replay { record: Hex(self.line_record()) }, 0)
    }

    /// A line record of which most messages are good where they stand.
    pub fn line_record(&mut self) -> Vec<u8> {
        let mut recorder = Recorder::new();
        let bad = self.random.pick(&[0, 0, 3, 30]);
        if self.random.percent(15) {
            self.record_entries(&mut recorder);
        }
        for _ in 0..self.record_steps() {
            match self.random.weighted(&[18, 5, 77]) {
                0 => self.record_opening(&mut recorder),
                1 => self.record_leaving(&mut recorder),
                _ => self.record_messages(&mut recorder, bad),
            }
        }
        let mut record = recorder.record;
        self.end_record(&mut record);
        record
    }

    fn record_steps(&mut self) -> usize {
        match self.random.weighted(&[4, 60, 33, 3]) {
            0 => 0,
            1 => 1 + self.random.below(12),
            2 => self.random.below(40),
            _ => self.random.below(200),
        }
    }

    /// Entries that nearly fill the table, or fill it.
    fn record_entries(&mut self, recorder: &mut Recorder) {
        for _ in 0..self.random.pick(&[60, 62, 63, 64, 64]) {
            let (name, type_code, value) = self.entry();
            let held = |i| recorder.run.memory.name(i) == name;
            if !(0..recorder.run.memory.count()).any(held) {
                recorder.to_come[PLANT] = assignment(&name, type_code, 0xFFFF, 0, &value);
                recorder.all_come_in(PLANT);
            }
        }
    }

    /// The connection byte of an opening or leaving, mostly the one that is given.
    fn connection_byte(&mut self, connection: usize) -> u8 {
        match self.random.weighted(&[90, 6, 4]) {
            0 => connection as u8,
            1 => self.random.below(CONNECTIONS) as u8,
            _ => self.random.pick(&[16, 17, 31, 64, 127, 128, 255]),
        }
    }

    /// An opening, mostly of a closed connection, and mostly with a hello behind it.
    fn record_opening(&mut self, recorder: &mut Recorder) {
        let holding = recorder.holding();
        let connection = if !holding.is_empty() && self.random.percent(10) {
            self.random.pick(&holding)
        } else {
            self.closed_connection(&recorder.run.memory) % CONNECTIONS
        };
        recorder.put(&[OPENS, self.connection_byte(connection)]);
        if recorder.mark(connection) == 1 && self.random.percent(80) {
            recorder.to_come[connection] = vec![0x01, 0x02, 0x00];
            self.some_come_in(recorder, connection);
        }
    }

    fn record_leaving(&mut self, recorder: &mut Recorder) {
        let holding = recorder.holding();
        let connection = if !holding.is_empty() && self.random.percent(40) {
            self.random.pick(&holding)
        } else {
            self.random.below(CONNECTIONS)
        };
        recorder.put(&[LEAVES, self.connection_byte(connection)]);
        if recorder.is_closed(connection) && self.random.percent(80) {
            recorder.to_come[connection].clear();
        }
    }

    /// Messages of one connection, all of which come in at once, or some of their bytes.
    fn record_messages(&mut self, recorder: &mut Recorder, bad: usize) {
        let connection = self.source(recorder);
        let greeted = connection == PLANT || recorder.mark(connection) == 2;
        if greeted && self.random.percent(3) {
            recorder.all_come_in(connection);
            recorder.to_come[connection] = self.longest_incomplete();
            recorder.all_come_in(connection);
            return;
        }
        for _ in 0..self.random.pick(&[1, 1, 1, 2, 5]) {
            let message = self.recorded_message(recorder, connection, bad);
            recorder.to_come[connection].extend(message);
        }
        self.some_come_in(recorder, connection);
        if recorder.is_closed(connection) && self.random.percent(80) {
            recorder.to_come[connection].clear();
        }
    }

    /// The plant's own code, or a connection that is mostly not closed.
    fn source(&mut self, recorder: &Recorder) -> usize {
        let open: Vec<_> = (0..CONNECTIONS).filter(|&c| !recorder.is_closed(c)).collect();
        match self.random.weighted(&[25, 4, 71]) {
            1 => self.random.below(CONNECTIONS),
            2 if !open.is_empty() => self.random.pick(&open),
            _ => PLANT,
        }
    }

    /// All bytes that are to come in from a connection, or some of them.
    fn some_come_in(&mut self, recorder: &mut Recorder, connection: usize) {
        let length = recorder.to_come[connection].len();
        if self.random.percent(60) || length == 0 {
            recorder.all_come_in(connection);
        } else {
            recorder.come_in(connection, 1 + self.random.below(length.min(RECORD_DATA)));
        }
    }

    /// A message of a connection, in so many of 100 cases whatever it is, else one that is not refused
    /// where that is soon found.
    fn recorded_message(&mut self, recorder: &Recorder, connection: usize, bad: usize) -> Vec<u8> {
        let state = &recorder.run.memory;
        let mut message = Vec::new();
        for _ in 0..4 {
            message = if connection == PLANT {
                self.plant_message(state)
            } else {
                self.client_message(state, connection)
            };
            if self.random.percent(bad) {
                return self.bad_message(state, message);
            }
            if matches!(recorder.run.number::<Reference>(connection, &message), 0 | 1 | 16) {
                break;
            }
        }
        message
    }

    /// A message as it is, mutated, or an assignment with another ID or type.
    fn bad_message(&mut self, state: &Memory, message: Vec<u8>) -> Vec<u8> {
        match self.random.weighted(&[50, 30, 10, 10]) {
            0 => message,
            1 => self.mutated(message),
            2 => {
                let id = self.id(state);
                self.assignment(state, id, 15)
            }
            _ => assignment(&self.name(), self.random.pick(&UNKNOWN_TYPES), 0xFFFF, 0, &[0]),
        }
    }

    /// A message of the plant's own code.
    fn plant_message(&mut self, state: &Memory) -> Vec<u8> {
        match self.random.weighted(&[42, 20, 20, 6, 8, 4]) {
            0 => self.assignment(state, 0xFFFF, 15),
            1 => self.update(state, false),
            2 if state.count() > 0 => {
                let i = self.random.below(state.count());
                let type_code = state.heads.lent()[i].type_code as u8;
                let value = self.nearly(type_code, state.value(i).to_vec());
                update(i as u16, self.sequence_number(), &value)
            }
            3 => {
                let id = self.id(state);
                self.assignment(state, id, 15)
            }
            4 => self.random.pick(&[&[0x00][..], &[0x01, 0x02, 0x00], &[0x03], &[0x44]]).to_vec(),
            _ => self.junk(),
        }
    }

    /// The longest message that is not complete. No byte behind it makes it good.
    fn longest_incomplete(&mut self) -> Vec<u8> {
        let first = prefixed(&self.text(VALUE_ROOM - 3));
        let (count, next) = (self.random.pick(&[2, 3, 255]), self.random.pick(&[0, 1, 0xFF]));
        let value = [&[count], &first[..], &[next]].concat();
        assignment(&self.text(NAME_ROOM), 0x12, 0xFFFF, self.sequence_number(), &value)
    }

    /// The record as it is, cut, or with a record that is refused behind it, and others behind that.
    fn end_record(&mut self, record: &mut Vec<u8>) {
        let length = 1 + self.random.below(RECORD_DATA);
        let (kind, connection) = (CAME_IN + length as u8, self.random.below(SOURCES) as u8);
        let cut = self.random.below(length);
        match self.random.weighted(&[60, 6, 4, 5, 5, 10, 10]) {
            0 => return,
            1 => return record.truncate(self.random.below(record.len() + 1)),
            2 => return record.push(self.random.pick(&[OPENS, LEAVES, kind])),
            3 => return record.extend([kind, connection]),
            4 => {
                record.extend([kind, connection]);
                return record.extend(self.random.bytes(cut));
            }
            5 => record.push(self.random.pick(&[0, 3, 16, 17, 32, 62, 63, 128, 129, 192, 255])),
            _ => {
                record.extend([kind, self.random.pick(&[17, 18, 32, 128, 255])]);
                let length = self.random.pick(&[length, cut]);
                record.extend(self.random.bytes(length));
            }
        }
        if self.random.percent(60) {
            let behind = if self.random.percent(50) { OPENS } else { kind };
            record.extend([behind, connection]);
        }
    }
}
