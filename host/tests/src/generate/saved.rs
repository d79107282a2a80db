//! Random saved tables, good ones and damaged ones.

use super::Generator;
use crate::call::{Call, Hex};
use crate::memory::Memory;
use crate::saved::{
    COUNT_KIND, ENTRY_KIND, NAME, NAME_LENGTH, NUMBER, Record, TYPE, VALUE, VALUE_LENGTH, put_name,
    put_value, record, records_of,
};
use nt2_sys::{CONNECTIONS, ENTRIES, NAME_ROOM, SAVED_ENTRY, SAVED_FIRST, VALUE_ROOM};

/// A saved table by its records, and bytes behind the last one.
struct Form {
    first: [u8; SAVED_FIRST],
    records: Vec<Record>,
    behind: Vec<u8>,
    /// The record that was damaged last.
    damaged: usize,
}

impl Form {
    fn new(records: Vec<Record>) -> Self {
        let first = [COUNT_KIND, records.len() as u8];
        Form { first, records, behind: Vec::new(), damaged: 0 }
    }

    fn bytes(&self) -> Vec<u8> {
        [&self.first, self.records.as_flattened(), &self.behind].concat()
    }
}

impl Generator {
    /// Saves, with an output beside the one that is just enough.
    pub(super) fn save(&mut self, call: Call, table: &Memory) -> (Call, usize) {
        (call, self.room(SAVED_FIRST + SAVED_ENTRY * table.count()))
    }

    pub(super) fn load(&mut self, server: &Memory, copy: &Memory) -> Call {
        let mut form = Form::new(self.records(server, copy));
        for _ in 0..self.random.pick(&[0, 0, 0, 1, 1, 1, 1, 1, 2, 2, 4]) {
            self.damage_form(&mut form);
        }
        let mut saved = form.bytes();
        match self.random.weighted(&[69, 18, 3, 5, 5]) {
            0 => {}
            1 => saved.truncate(self.end_in_a_field(&form)),
            2 => saved.truncate(self.random.below(SAVED_FIRST + 1)),
            3 => saved.truncate(self.random.below(saved.len() + 1)),
            _ if saved.is_empty() => {}
            _ => {
                let at = self.random.below(saved.len());
                saved[at] ^= 1 << self.random.below(8);
            }
        }
        Call::Load { saved: Hex(saved) }
    }

    /// Closes the connections, or all but some; anything may stand in entries that are not used.
    pub fn before_load(&mut self, memory: &mut Memory) {
        let marks = memory.marks.lent_mut();
        let marks = &mut marks[..CONNECTIONS];
        marks.fill(0);
        if self.random.percent(8) {
            let any = self.random.below(CONNECTIONS);
            marks[self.random.pick(&[0, CONNECTIONS - 1, any])] = self.random.pick(&[1, 2]);
        }
        if self.random.percent(15) {
            memory.set_count(self.random.below(memory.count() + 1) as u16);
        }
        if self.random.percent(12) {
            self.damage(memory);
        }
    }

    /// The entries of a table: of one that there is, of two of them mixed, or new ones.
    fn records(&mut self, server: &Memory, copy: &Memory) -> Vec<Record> {
        let few = self.random.below(6);
        let many = ENTRIES - self.random.below(3);
        let any = self.random.below(ENTRIES + 1);
        match self.random.weighted(&[15, 8, 12, 45, 15, 5]) {
            0 => records_of(server),
            1 => records_of(copy),
            2 => self.mixed(&records_of(server), &records_of(copy)),
            3 => self.new_records(few),
            4 => self.new_records(many),
            _ => self.new_records(any),
        }
    }

    /// Each place has the record of one table or the other, as long as there is one.
    fn mixed(&mut self, left: &[Record], right: &[Record]) -> Vec<Record> {
        let pick = |i: usize| match (left.get(i), right.get(i)) {
            (Some(left), Some(_)) if self.random.percent(50) => left,
            (left, right) => right.or(left).expect("one of them"),
        };
        (0..left.len().max(right.len())).map(pick).copied().collect()
    }

    fn new_records(&mut self, count: usize) -> Vec<Record> {
        let largest = self.random.percent(15);
        let mut names = Vec::new();
        let mut new = |_| loop {
            let (name, type_code, value) =
                if largest { self.largest_entry() } else { self.entry() };
            if !names.contains(&name) {
                let record = record(&name, type_code, self.sequence_number(), &value);
                names.push(name);
                return record;
            }
        };
        (0..count).map(&mut new).collect()
    }

    /// A byte of some record, often of the one that was damaged: at the edge of a field, or any.
    fn end_in_a_field(&mut self, form: &Form) -> usize {
        let i = match form.records.len() {
            0 => 0,
            _ if self.random.percent(50) => form.damaged,
            records => self.damaged_entry(records),
        };
        let edges = [0, NAME_LENGTH, NAME, TYPE, NUMBER, VALUE_LENGTH, VALUE, SAVED_ENTRY];
        let near = self.random.below(5);
        let edge = self.random.pick(&edges) + self.random.pick(&[0, 0, 1, near]);
        let inside = self.random.below(SAVED_ENTRY);
        let end = if self.random.percent(65) { edge } else { inside };
        (SAVED_FIRST + SAVED_ENTRY * i + end).saturating_sub(self.random.below(2))
    }

    fn damage_form(&mut self, form: &mut Form) {
        match self.random.weighted(&[5, 5, 10, 8, 72]) {
            0 => form.first[0] = self.random.pick(&[0, 2, 3, 3, 64, 255]),
            1 => {
                let count = form.first[1];
                let near = [count.wrapping_sub(1), count.wrapping_add(1)];
                form.first[1] = self.random.pick(&[near[0], near[1], 0, 63, 64, 65, 66, 128, 255]);
            }
            2 => self.put_behind(form),
            3 if form.records.len() > 1 => self.move_record(form),
            _ if form.records.is_empty() => {}
            _ => {
                form.damaged = self.damaged_entry(form.records.len());
                self.damage_record(form, form.damaged);
            }
        }
    }

    /// Some bytes behind the last record, or a record too many.
    fn put_behind(&mut self, form: &mut Form) {
        let length = self.random.pick(&[1, 1, 2, 327, 400]);
        form.behind = match self.random.below(3) {
            0 => vec![0; length],
            1 => self.random.bytes(length),
            _ => self.new_records(1).concat(),
        };
    }

    /// Two records exchanged, or one that stands a second time, in another's place or behind all.
    fn move_record(&mut self, form: &mut Form) {
        let count = form.records.len();
        let (from, to) = (self.damaged_entry(count), self.random.below(count));
        match self.random.below(3) {
            0 => form.records.swap(from, to),
            1 => form.records[to] = form.records[from],
            _ => {
                form.records.push(form.records[from]);
                form.first[1] = form.first[1].saturating_add(1);
            }
        }
    }

    fn damage_record(&mut self, form: &mut Form, i: usize) {
        let name_length = usize::from(form.records[i][NAME_LENGTH]).min(NAME_ROOM);
        let value_length = self.value_length(&form.records[i]);
        match self.random.weighted(&[6, 12, 8, 12, 8, 12, 12, 12, 14, 4, 2]) {
            0 => form.records[i][0] = self.random.pick(&[0, 1, 3, 0x10, 255]),
            1 => self.damage_name_length(&mut form.records[i]),
            2 => {
                let length = 1 + self.random.below(NAME_ROOM);
                let name = self.no_text(length);
                put_name(&mut form.records[i], &name);
                if self.random.percent(40) {
                    self.touch_filling(&mut form.records[i][NAME + length..TYPE]);
                }
            }
            3 => self.touch_filling(&mut form.records[i][NAME + name_length..TYPE]),
            4 => form.records[i][TYPE] = self.type_code_or_unknown(),
            5 => self.damage_value_length(&mut form.records[i]),
            6 => self.damage_value(&mut form.records[i]),
            7 => self.touch_filling(&mut form.records[i][VALUE + value_length..]),
            8 => self.repeat_saved_name(form, i),
            9 => {
                let at = self.random.below(SAVED_ENTRY);
                form.records[i][at] ^= 1 << self.random.below(8);
            }
            _ => self.cut_bad_value(form, i),
        }
    }

    /// Ends the form in record i, behind a bad Boolean of an array.
    fn cut_bad_value(&mut self, form: &mut Form, i: usize) {
        let count = 2 + self.random.below(254);
        let bad = 1 + self.random.below(count - 1);
        let mut value = vec![0; 1 + count];
        (value[0], value[bad]) = (count as u8, self.random.pick(&[2, 0xFF]));
        let mut record = form.records[i];
        record[TYPE] = 0x10;
        put_value(&mut record, &value);
        let end = VALUE + bad + 1 + self.random.below(count - bad);
        form.records.truncate(i);
        form.behind = record[..end].to_vec();
    }

    fn type_code_or_unknown(&mut self) -> u8 {
        if self.random.percent(50) { self.type_code() } else { self.random.byte() }
    }

    fn value_length(&self, record: &Record) -> usize {
        let length = u16::from_be_bytes([record[VALUE_LENGTH], record[VALUE_LENGTH + 1]]);
        usize::from(length).min(VALUE_ROOM)
    }

    /// Makes a byte of the filling, if there is some, another one: the first, the last or any.
    fn touch_filling(&mut self, filling: &mut [u8]) {
        if !filling.is_empty() {
            let any = self.random.below(filling.len());
            let at = self.random.pick(&[0, filling.len() - 1, any]);
            filling[at] = self.random.pick(&[1, 2, 0x20, 0x80, 0xFF]);
        }
    }

    fn damage_name_length(&mut self, record: &mut Record) {
        let length = record[NAME_LENGTH];
        let (less, more) = (length.wrapping_sub(1), length.wrapping_add(1));
        record[NAME_LENGTH] = self.random.pick(&[less, more, more, 0, 63, 64, 65, 66, 128, 255]);
    }

    fn damage_value_length(&mut self, record: &mut Record) {
        let length = u16::from_be_bytes([record[VALUE_LENGTH], record[VALUE_LENGTH + 1]]);
        let (less, more) = (length.wrapping_sub(1), length.wrapping_add(1));
        let other = [less, more, length.swap_bytes(), 0, 1, 255, 256, 257, 258, 512, 65_535];
        let length = self.random.pick(&other);
        record[VALUE_LENGTH..VALUE].copy_from_slice(&length.to_be_bytes());
    }

    /// A value with a fault, or with bytes left behind what it holds, or cut; behind it the filling may
    /// be bad too.
    fn damage_value(&mut self, record: &mut Record) {
        let type_code = record[TYPE];
        let value =
            if self.random.percent(50) { self.fault(type_code) } else { self.value(type_code) };
        let mut value = self.lone(value);
        if self.random.percent(10) {
            value.resize(VALUE_ROOM, 0);
        }
        value.truncate(VALUE_ROOM);
        put_value(record, &value);
        if self.random.percent(25) {
            self.touch_filling(&mut record[VALUE + value.len()..]);
        }
    }

    /// Gives record i, or the one behind it, a name of those before it: the same, or one with the same
    /// bytes in its room. Another fault may stand in the record, or in the next one.
    fn repeat_saved_name(&mut self, form: &mut Form, i: usize) {
        let last = form.records.len() - 1;
        let to = (i + 1).min(last);
        let any = self.random.below(to.max(1));
        let from = self.random.pick(&[0, to.saturating_sub(1), any]);
        let mut name = form.records[from][NAME..TYPE].to_vec();
        name.truncate(usize::from(form.records[from][NAME_LENGTH]));
        match self.random.below(6) {
            0 if name.len() < NAME_ROOM => name.push(0),
            1 => {
                name.pop();
            }
            _ => {}
        }
        put_name(&mut form.records[to], &name);
        let value_length = self.value_length(&form.records[to]);
        match self.random.below(10) {
            0 => self.touch_filling(&mut form.records[to][NAME + name.len()..TYPE]),
            1 => self.touch_filling(&mut form.records[to][VALUE + value_length..]),
            2 => form.records[to][TYPE] = self.random.byte(),
            3 => form.behind = vec![0],
            4 | 5 if to < last => form.records[to + 1][0] ^= ENTRY_KIND,
            _ => {}
        }
    }
}
