//! Saved tables: their form, what holds of every one of them, and what a load can be like.

use crate::convergence::same_entries;
use crate::implementation::{Implementation, Reference};
use crate::memory::Memory;
use nt2_sys::{
    Answer, CONNECTIONS, ENTRIES, LONGEST_SAVED, NAME_ROOM, SAVED_ENTRY, SAVED_FIRST, TABLE_BYTES,
    VALUE_ROOM,
};
use std::ops::Range;

/// The kind of the first record, which has the count.
pub const COUNT_KIND: u8 = 1;
/// The kind of an entry's record.
pub const ENTRY_KIND: u8 = 2;

/// Where the fields of an entry's record start, behind its kind.
pub const NAME_LENGTH: usize = 1;
pub const NAME: usize = 2;
pub const TYPE: usize = NAME + NAME_ROOM;
pub const NUMBER: usize = TYPE + 1;
pub const VALUE_LENGTH: usize = NUMBER + 2;
pub const VALUE: usize = VALUE_LENGTH + 2;

/// An entry's record.
pub type Record = [u8; SAVED_ENTRY];

/// The record of an entry whose name and value have their room.
pub fn record(name: &[u8], type_code: u8, number: u16, value: &[u8]) -> Record {
    let mut record = [0; SAVED_ENTRY];
    (record[0], record[TYPE]) = (ENTRY_KIND, type_code);
    record[NUMBER..VALUE_LENGTH].copy_from_slice(&number.to_be_bytes());
    put_name(&mut record, name);
    put_value(&mut record, value);
    record
}

/// Puts another name into a record, and zeros behind it.
pub fn put_name(record: &mut Record, name: &[u8]) {
    record[NAME_LENGTH] = name.len() as u8;
    put_filled(&mut record[NAME..TYPE], name);
}

/// Puts another value into a record, and zeros behind it.
pub fn put_value(record: &mut Record, value: &[u8]) {
    record[VALUE_LENGTH..VALUE].copy_from_slice(&(value.len() as u16).to_be_bytes());
    put_filled(&mut record[VALUE..], value);
}

fn put_filled(room: &mut [u8], bytes: &[u8]) {
    room.fill(0);
    room[..bytes.len()].copy_from_slice(bytes);
}

/// The saved form of a table with these entries.
pub fn form(records: &[Record]) -> Vec<u8> {
    [&[COUNT_KIND, records.len() as u8], records.as_flattened()].concat()
}

/// The records of the entries of a sound table.
pub fn records_of(table: &Memory) -> Vec<Record> {
    let record_of = |i: usize| {
        let head = table.heads.lent()[i];
        record(table.name(i), head.type_code as u8, head.number, table.value(i))
    };
    (0..table.count()).map(record_of).collect()
}

/// Whether a save can answer so.
pub fn keeps_form(answer: Answer) -> bool {
    let Answer { number, sent, .. } = answer;
    let has_size = match number {
        0 => (SAVED_FIRST..=LONGEST_SAVED).step_by(SAVED_ENTRY).any(|size| size == sent),
        12 | 14 => sent == 0,
        _ => false,
    };
    has_size && answer == Answer { number, sent, ..Answer::default() }
}

/// What was saved of a table is its form. Loaded into other memory after a fresh start there, it gives
/// the same entries. Nothing is loaded where that memory is too small.
pub fn check_saved<I: Implementation>(
    table: &Memory,
    saved: &[u8],
    other: &mut Memory,
) -> Result<(), String> {
    if saved != form(&records_of(table)) {
        return Err("another form is saved".into());
    }
    let (lent, marks) = other.lend();
    if I::fresh(lent, marks).number != 0 {
        return Ok(());
    }
    let (lent, marks) = other.lend();
    let answer = I::load(lent, marks, saved);
    if answer != (Answer { taken: saved.len(), ..Answer::default() }) {
        return Err(format!("what was saved is loaded with {answer:?}"));
    }
    same_entries(table, other).map_err(|failure| format!("what was saved is loaded: {failure}"))
}

/// What was loaded is saved as the same bytes.
pub fn check_loaded<I: Implementation>(table: &mut Memory, loaded: &[u8]) -> Result<(), String> {
    let mut saved = vec![0xA5; loaded.len()];
    let answer = I::save(table.lend_table(), &mut saved);
    if answer.number != 0 || answer.sent != loaded.len() || saved != loaded {
        return Err(format!("what was loaded is saved with {answer:?}, or as other bytes"));
    }
    Ok(())
}

/// The fields of a saved table. With 10 there can be bytes behind the last one.
#[derive(Clone, Copy, Debug, PartialEq, Eq)]
pub enum Field {
    FirstKind,
    Count,
    Kind,
    NameLength,
    Name,
    NameFilling,
    Type,
    Number,
    ValueLength,
    Value,
    ValueFilling,
    Behind,
}

/// What a load can be like: so many sorts.
pub const SORTS: usize = 83;

/// A load: the memory before it, the bytes, and the answer.
#[derive(Clone, Copy, Debug)]
pub struct Loaded<'a> {
    pub before: &'a Memory,
    pub saved: &'a [u8],
    pub answer: Answer,
}

/// The bytes of a range, as far as they are there.
fn there(bytes: &[u8], range: Range<usize>) -> &[u8] {
    let end = range.end.min(bytes.len());
    bytes.get(range.start..end).unwrap_or(&[])
}

fn is_zero(bytes: &[u8]) -> bool {
    bytes.iter().all(|&byte| byte == 0)
}

impl<'a> Loaded<'a> {
    /// The sorts, none of them met.
    pub fn no_sorts() -> [(&'static str, u64); SORTS] {
        let before = &Memory::new(&[], &[], 0, &[]);
        let nothing = Loaded { before, saved: &[], answer: Answer::default() };
        nothing.sorts().map(|(sort, _)| (sort, 0))
    }

    fn count(&self) -> usize {
        self.saved.get(1).map_or(0, |&count| usize::from(count))
    }

    /// Record i, as far as it is there.
    fn record(&self, i: usize) -> &'a [u8] {
        let start = SAVED_FIRST + SAVED_ENTRY * i;
        there(self.saved, start..start + SAVED_ENTRY)
    }

    /// Length, name and filling of record i, of which the length is there.
    fn name(&self, i: usize) -> (usize, &'a [u8], &'a [u8]) {
        let record = self.record(i);
        let length = usize::from(record[NAME_LENGTH]);
        let end = (NAME + length).min(TYPE);
        (length, there(record, NAME..end), there(record, end..TYPE))
    }

    /// Length, value and filling of record i, of which the length is there.
    fn value(&self, i: usize) -> (usize, &'a [u8], &'a [u8]) {
        let record = self.record(i);
        let length = usize::from(u16::from_be_bytes([record[VALUE_LENGTH], record[VALUE - 1]]));
        let end = (VALUE + length).min(SAVED_ENTRY);
        (length, there(record, VALUE..end), there(record, end..SAVED_ENTRY))
    }

    /// Number and place with which the value of record i, as far as it is there, is judged by itself.
    fn judged_value(&self, i: usize) -> (u8, usize) {
        let (type_code, value) = (self.record(i)[TYPE], self.value(i).1);
        let answer = Reference::encode(0x11, 0, &[], type_code, 0, 0, value, &mut []);
        (answer.number, answer.place)
    }

    /// Whether an entry before i has its name.
    fn is_held(&self, i: usize) -> bool {
        let name = |i: usize| (self.name(i).0, self.name(i).1);
        self.record(i).len() >= TYPE && (0..i).any(|before| name(before) == name(i))
    }

    /// The field that is refused, and its record.
    fn refused(&self) -> (usize, Field) {
        let Answer { number, place, .. } = self.answer;
        let behind = place == SAVED_FIRST + SAVED_ENTRY * self.count();
        let from_first_record = place.checked_sub(SAVED_FIRST);
        match (number, from_first_record) {
            (1, _) => self.incomplete(),
            (4, _) => self.unknown_kind(),
            (10, Some(_)) if behind => (self.count(), Field::Behind),
            (7..=10, Some(at)) => (at / SAVED_ENTRY, field_at(at % SAVED_ENTRY)),
            (13, _) => ((0..self.count()).find(|&i| self.is_held(i)).unwrap_or(0), Field::Name),
            (15, _) => self.bad_filling(),
            _ => (0, Field::Count),
        }
    }

    /// The first field that is not wholly there, or a value before it that is not complete.
    fn incomplete(&self) -> (usize, Field) {
        match self.saved.len() {
            0 => return (0, Field::FirstKind),
            1 => return (0, Field::Count),
            _ => {}
        }
        for i in 0..self.count() {
            let there = self.record(i).len();
            let field = match there {
                0 => Field::Kind,
                NAME_LENGTH => Field::NameLength,
                _ if there < NAME + self.name(i).0 => Field::Name,
                _ if there < TYPE => Field::NameFilling,
                TYPE => Field::Type,
                _ if there < VALUE_LENGTH => Field::Number,
                _ if there < VALUE => Field::ValueLength,
                _ if there < VALUE + self.value(i).0 || self.judged_value(i).0 == 1 => Field::Value,
                _ if there < SAVED_ENTRY => Field::ValueFilling,
                _ => continue,
            };
            return (i, field);
        }
        (self.count(), Field::Behind)
    }

    fn unknown_kind(&self) -> (usize, Field) {
        if self.saved[0] != COUNT_KIND {
            return (0, Field::FirstKind);
        }
        let known = |i: usize| self.record(i).first() == Some(&ENTRY_KIND);
        ((0..self.count()).find(|&i| !known(i)).unwrap_or(0), Field::Kind)
    }

    fn bad_filling(&self) -> (usize, Field) {
        for i in 0..self.count() {
            if !is_zero(self.name(i).2) {
                return (i, Field::NameFilling);
            }
            if !is_zero(self.value(i).2) {
                return (i, Field::ValueFilling);
            }
        }
        (self.count(), Field::Behind)
    }

    /// What this can be like, and whether it is.
    pub fn sorts(&self) -> [(&'static str, bool); SORTS] {
        let sorts = [
            &self.sorts_of_memory()[..],
            &self.sorts_of_done(),
            &self.sorts_of_cuts(),
            &self.sorts_of_fields(),
            &self.sorts_of_values(),
            &self.sorts_of_two_faults(),
        ];
        sorts.concat().try_into().expect("so many sorts")
    }

    fn sorts_of_memory(&self) -> [(&'static str, bool); 14] {
        let (number, memory) = (self.answer.number, self.before);
        let (unsound, open) = (number == 14, number == 3);
        let marks = memory.marks.lent();
        let marks = marks.first_chunk::<CONNECTIONS>();
        let known = marks.is_some_and(|marks| marks.iter().all(|&mark| mark <= 2));
        let closed = marks.is_some_and(|marks| *marks == [0; CONNECTIONS]);
        let last = marks.is_some_and(|marks| marks[..CONNECTIONS - 1].iter().all(|&m| m == 0));
        let has = |mark| marks.is_some_and(|marks| marks.contains(&mark));
        let large =
            memory.heads.lent().len() >= ENTRIES && memory.bytes.lent().len() >= TABLE_BYTES;
        let bad_bytes = self.saved.first() != Some(&COUNT_KIND);
        [
            ("14, too small", unsound && !large && marks.is_some()),
            ("14, too few marks", unsound && large && marks.is_none()),
            ("14, a mark unknown", unsound && large && marks.is_some() && !known),
            ("14, table unsound", unsound && large && known),
            ("14, not closed", unsound && large && known && !closed),
            ("14, bad bytes", unsound && bad_bytes),
            ("3, open", open && !has(2)),
            ("3, greeted", open && !has(1)),
            ("3, the last one alone", open && last),
            ("3, the first one alone", open && marks.is_some_and(|m| is_zero(&m[1..]))),
            ("3, bad bytes", open && bad_bytes),
            ("3, no bytes", open && self.saved.is_empty()),
            ("marks beyond", number == 0 && memory.marks.lent().len() > CONNECTIONS),
            ("memory beyond", number == 0 && memory.heads.lent().len() > ENTRIES),
        ]
    }

    fn sorts_of_done(&self) -> [(&'static str, bool); 11] {
        let (done, count, held) = (self.answer.number == 0, self.count(), self.before.count());
        let entries = if done { 0..count } else { 0..0 };
        let any = |test: &dyn Fn(usize) -> bool| entries.clone().any(test);
        let types = [0x00, 0x01, 0x02, 0x10, 0x11, 0x12];
        let has_type = |&code: &u8| any(&|i| self.record(i)[TYPE] == code);
        let same_room =
            |i: usize, j: usize| self.record(i)[NAME..TYPE] == self.record(j)[NAME..TYPE];
        [
            ("no entries", done && count == 0),
            ("one entry", done && count == 1),
            ("64 entries", done && count == ENTRIES),
            ("over fewer entries", done && held < count),
            ("over more entries", done && count < held),
            ("all types", types.iter().all(has_type)),
            ("empty name", any(&|i| self.name(i).0 == 0)),
            ("longest name", any(&|i| self.name(i).0 == NAME_ROOM)),
            ("longest value", any(&|i| self.value(i).0 == VALUE_ROOM)),
            ("number of two bytes", any(&|i| !self.record(i)[NUMBER..VALUE_LENGTH].contains(&0))),
            ("names with the same room", any(&|i| (0..i).any(|j| same_room(i, j)))),
        ]
    }

    /// What is not wholly there, but for values.
    fn sorts_of_cuts(&self) -> [(&'static str, bool); 18] {
        let cut = self.answer.number == 1;
        let (i, field) = self.refused();
        let first = |missing| cut && field == missing && i == 0;
        let later = |missing| cut && field == missing && i > 0;
        [
            ("1 at the first kind", first(Field::FirstKind)),
            ("1 at the count", first(Field::Count)),
            ("1 at a kind", first(Field::Kind)),
            ("1 at a later kind", later(Field::Kind)),
            ("1 at a name's length", first(Field::NameLength)),
            ("1 at a later name's length", later(Field::NameLength)),
            ("1 at a name", first(Field::Name)),
            ("1 at a later name", later(Field::Name)),
            ("1 at a name's filling", first(Field::NameFilling)),
            ("1 at a later name's filling", later(Field::NameFilling)),
            ("1 at a type", first(Field::Type)),
            ("1 at a later type", later(Field::Type)),
            ("1 at a number", first(Field::Number)),
            ("1 at a later number", later(Field::Number)),
            ("1 at a value's length", first(Field::ValueLength)),
            ("1 at a later value's length", later(Field::ValueLength)),
            ("1 at a value's filling", first(Field::ValueFilling)),
            ("1 at a later value's filling", later(Field::ValueFilling)),
        ]
    }

    /// What is refused at a field of its own, but for values and fillings.
    fn sorts_of_fields(&self) -> [(&'static str, bool); 16] {
        let number = self.answer.number;
        let (i, field) = self.refused();
        let first = |refusal, refused| number == refusal && field == refused && i == 0;
        let later = |refusal, refused| number == refusal && field == refused && i > 0;
        [
            ("4 at the first kind", first(4, Field::FirstKind)),
            ("4 with the kind 3", first(4, Field::FirstKind) && self.saved[0] == 3),
            ("4 at a kind", first(4, Field::Kind)),
            ("4 at a later kind", later(4, Field::Kind)),
            ("7", first(7, Field::Type)),
            ("7 later", later(7, Field::Type)),
            ("9 in a name", first(9, Field::Name)),
            ("9 in a later name", later(9, Field::Name)),
            ("10 at the count", number == 10 && self.answer.place == 1),
            ("10 at a name's length", first(10, Field::NameLength)),
            ("10 at a later name's length", later(10, Field::NameLength)),
            ("10 at a value's length", first(10, Field::ValueLength)),
            ("10 at a later value's length", later(10, Field::ValueLength)),
            ("10 behind the last record", later(10, Field::Behind)),
            ("10 behind no entries", first(10, Field::Behind)),
            ("13 in a full table", later(13, Field::Name) && self.count() == ENTRIES),
        ]
    }

    /// What is refused in a value or filling.
    fn sorts_of_values(&self) -> [(&'static str, bool); 14] {
        let Answer { number, place, .. } = self.answer;
        let (i, field) = self.refused();
        let (in_value, later) = (field == Field::Value, i > 0);
        let whole = in_value && self.record(i).len() >= VALUE + self.value(i).0;
        let in_full = in_value && self.value(i).0 == VALUE_ROOM;
        let at_its_start = in_value && place == SAVED_FIRST + SAVED_ENTRY * i + VALUE;
        let filling = match field {
            Field::NameFilling => self.name(i).2,
            Field::ValueFilling => self.value(i).2,
            _ => &[],
        };
        let last_alone = filling.split_last().is_some_and(|(_, before)| is_zero(before));
        [
            ("1 at a value", number == 1 && in_value && !whole && !later),
            ("1 at a later value", number == 1 && in_value && !whole && later),
            ("1 in a value", number == 1 && whole),
            ("1 in a value without bytes", number == 1 && whole && self.value(i).0 == 0),
            ("8", number == 8 && !later),
            ("8 later", number == 8 && later),
            ("9 in a value", number == 9 && in_value),
            ("10 in a value, at its start", number == 10 && at_its_start),
            ("10 in a value, behind its start", number == 10 && in_value && !at_its_start),
            ("10 in the longest value", number == 10 && in_full),
            ("15 in a name's filling", number == 15 && field == Field::NameFilling),
            ("15 in a value's filling", number == 15 && field == Field::ValueFilling),
            ("15 later", number == 15 && later),
            ("15 in the last byte alone", number == 15 && last_alone),
        ]
    }

    /// What is refused where another fault stands behind it.
    fn sorts_of_two_faults(&self) -> [(&'static str, bool); 10] {
        let number = self.answer.number;
        let (i, field) = self.refused();
        let is = |refusal, refused| number == refusal && field == refused;
        let next = self.record(i + 1);
        let next_bad = next.first().is_some_and(|&kind| kind != ENTRY_KIND);
        let last = i + 1 == self.count();
        let behind = SAVED_FIRST + SAVED_ENTRY * self.count() < self.saved.len();
        let in_value = field == Field::Value && matches!(number, 1 | 8..=10);
        let part = number == 1
            && !is_zero(match field {
                Field::NameFilling => self.name(i).2,
                Field::ValueFilling => self.value(i).2,
                _ => &[],
            });
        [
            ("9, filling not zero", is(9, Field::Name) && !is_zero(self.name(i).2)),
            ("value's fault, filling not zero", in_value && !is_zero(self.value(i).2)),
            (
                "1 at a name that is no text",
                is(1, Field::Name) && str::from_utf8(self.name(i).1).is_err(),
            ),
            ("1 at a value that is bad", is(1, Field::Value) && self.judged_value(i).0 == 8),
            ("1 at filling that is not zero", part),
            ("15 in a name's filling, name held", is(15, Field::NameFilling) && self.is_held(i)),
            ("15 in a value's filling, name held", is(15, Field::ValueFilling) && self.is_held(i)),
            ("7, name held", is(7, Field::Type) && self.is_held(i)),
            ("13, next kind unknown", number == 13 && !last && next_bad),
            ("13 in the last record, bytes behind", number == 13 && last && behind),
        ]
    }
}

/// The field of an entry's record that has a byte.
fn field_at(byte: usize) -> Field {
    match byte {
        0 => Field::Kind,
        NAME_LENGTH => Field::NameLength,
        NAME..TYPE => Field::Name,
        TYPE => Field::Type,
        NUMBER..VALUE_LENGTH => Field::Number,
        VALUE_LENGTH..VALUE => Field::ValueLength,
        _ => Field::Value,
    }
}

#[cfg(test)]
mod tests {
    use super::*;

    #[test]
    fn answers_of_a_save() {
        let answer = |number, sent| Answer { number, sent, ..Answer::default() };
        let good = [answer(0, 2), answer(0, 329), answer(0, 20_930), answer(12, 0), answer(14, 0)];
        assert!(good.into_iter().all(keeps_form));
        let other = [
            answer(0, 0),
            answer(0, 328),
            answer(0, 20_930 + 327),
            answer(12, 2),
            answer(16, 0),
            Answer { taken: 2, ..answer(0, 2) },
            Answer { recipients: 1, ..answer(0, 2) },
            Answer { place: 1, ..answer(14, 0) },
        ];
        assert!(!other.into_iter().any(keeps_form));
    }

    fn refused(saved: &[u8], number: u8, place: usize) -> (usize, Field) {
        let before = &Memory::new(&[], &[], 0, &[]);
        let answer = Answer { number, place, ..Answer::default() };
        Loaded { before, saved, answer }.refused()
    }

    #[test]
    fn fields_that_are_refused() {
        let good = form(&[record(b"a", 0, 1, &[1]), record(b"b", 2, 1, b"\0\x02cd")]);
        for (length, refused_there) in [
            (0, (0, Field::FirstKind)),
            (1, (0, Field::Count)),
            (2, (0, Field::Kind)),
            (3, (0, Field::NameLength)),
            (4, (0, Field::Name)),
            (5, (0, Field::NameFilling)),
            (67, (0, Field::NameFilling)),
            (68, (0, Field::Type)),
            (69, (0, Field::Number)),
            (72, (0, Field::ValueLength)),
            (73, (0, Field::Value)),
            (74, (0, Field::ValueFilling)),
            (329, (1, Field::Kind)),
            (329 + 74, (1, Field::Value)),
            (655, (1, Field::ValueFilling)),
        ] {
            assert_eq!(refused(&good[..length], 1, 0), refused_there, "{length}");
        }
        let with = |at: usize, byte| {
            let mut saved = good.clone();
            saved[at] = byte;
            saved
        };
        assert_eq!(refused(&with(329, 3), 4, 0), (1, Field::Kind));
        assert_eq!(refused(&with(329 + 2, b'a'), 13, 0), (1, Field::Name));
        assert_eq!(refused(&with(329 + 65, 1), 15, 0), (1, Field::NameFilling));
        assert_eq!(refused(&with(655, 1), 15, 0), (1, Field::ValueFilling));
        assert_eq!(refused(&with(72, 0), 1, 0), (0, Field::Value));
        assert_eq!(refused(&with(1, 1), 10, 329), (1, Field::Behind));
        assert_eq!(refused(&with(1, 65), 10, 1), (0, Field::Count));
        assert_eq!(refused(&good, 9, 329 + 73), (1, Field::Value));
    }
}
