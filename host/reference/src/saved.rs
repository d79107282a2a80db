//! The table as it is saved, and as it is loaded again.

use crate::answer;
use crate::server::Server;
use crate::table::Table;
use crate::wire::{Assignment, Fault, Judged, Reader, Refusal, check_name, check_value};
use nt2_sys::{
    Answer, CONNECTIONS, ENTRIES, LentTable, NAME_ROOM, SAVED_ENTRY, SAVED_FIRST, VALUE_ROOM,
};

/// The kind of the first record, which has the count.
const COUNT: u8 = 1;
/// The kind of an entry's record.
const ENTRY: u8 = 2;

/// Where fields of an entry's record start.
const NAME: usize = 2;
const TYPE: usize = NAME + NAME_ROOM;
const VALUE: usize = TYPE + 5;

/// Writes the saved form of a table, which is not changed.
pub fn save(table: LentTable<'_>, out: &mut [u8]) -> Answer {
    answer(Table::sound(table).and_then(|table| {
        let size = SAVED_FIRST + SAVED_ENTRY * table.count();
        let out = out.get_mut(..size).ok_or(Refusal::Room)?;
        let (first, records) = out.split_at_mut(SAVED_FIRST);
        first.copy_from_slice(&[COUNT, table.count() as u8]);
        for (i, record) in records.chunks_exact_mut(SAVED_ENTRY).enumerate() {
            write_entry(&table.assignment(i), record);
        }
        Ok(Answer { sent: size, ..Answer::default() })
    }))
}

fn write_entry(entry: &Assignment<'_>, record: &mut [u8]) {
    let [name_length, value_length] =
        [entry.name, entry.value].map(|text| (text.len() as u16).to_be_bytes());
    let number = entry.number.to_be_bytes();
    record[..NAME].copy_from_slice(&[ENTRY, name_length[1]]);
    fill(&mut record[NAME..TYPE], entry.name);
    record[TYPE..VALUE].copy_from_slice(&[
        entry.type_code,
        number[0],
        number[1],
        value_length[0],
        value_length[1],
    ]);
    fill(&mut record[VALUE..], entry.value);
}

/// Some bytes, and zeros behind them.
fn fill(room: &mut [u8], bytes: &[u8]) {
    let (front, filling) = room.split_at_mut(bytes.len());
    front.copy_from_slice(bytes);
    filling.fill(0);
}

/// Loads a saved table. All of it is judged before the first entry is stored.
pub fn load(table: LentTable<'_>, marks: &mut [u8], saved: &[u8]) -> Answer {
    answer(Server::sound(table, marks).and_then(|mut server| {
        if !(0..CONNECTIONS).all(|connection| server.is_closed(connection)) {
            return Err(Refusal::State.into());
        }
        let entries = Entries::read(saved)?;
        server.table.clear();
        for entry in entries.as_slice() {
            server.table.append(entry.name, entry.type_code, entry.number, entry.value);
        }
        Ok(Answer { taken: saved.len(), ..Answer::default() })
    }))
}

/// What a record says of an entry.
#[derive(Clone, Copy, Default)]
struct Entry<'a> {
    name: &'a [u8],
    type_code: u8,
    number: u16,
    value: &'a [u8],
}

impl<'a> Entry<'a> {
    fn read(saved: &mut Reader<'a>) -> Judged<Self> {
        demand_kind(saved, ENTRY)?;
        let place = saved.at;
        let length = usize::from(saved.u8()?);
        demand_at_most(NAME_ROOM, length, place)?;
        let name = filled(saved, length, NAME_ROOM, check_name)?;
        let (type_code, kind) = saved.value_type()?;
        let number = saved.u16()?;
        let place = saved.at;
        let length = usize::from(saved.u16()?);
        demand_at_most(VALUE_ROOM, length, place)?;
        let value = filled(saved, length, VALUE_ROOM, |value| check_value(kind, value))?;
        Ok(Entry { name, type_code, number, value })
    }
}

fn demand_kind(saved: &mut Reader<'_>, kind: u8) -> Judged<()> {
    if saved.u8()? == kind { Ok(()) } else { Err(Refusal::Kind.into()) }
}

/// A count or length that stands at this place.
fn demand_at_most(most: usize, number: usize, place: usize) -> Judged<()> {
    if number > most { Err(Refusal::TooLong.at(place)) } else { Ok(()) }
}

/// A name or value of so many bytes, judged by itself, and the zeros that fill up its room.
fn filled<'a>(
    saved: &mut Reader<'a>,
    length: usize,
    room: usize,
    judge: impl FnOnce(&[u8]) -> Judged<()>,
) -> Judged<&'a [u8]> {
    let start = saved.at;
    let bytes = saved.take(length)?;
    judge(bytes).map_err(|fault| match fault.number {
        7..=10 => Fault { place: start + fault.place, ..fault },
        _ => fault,
    })?;
    let filling = saved.take(room - length)?;
    // Without an early end, so that many bytes are looked at in one step.
    if filling.iter().fold(0, |all, byte| all | byte) != 0 {
        return Err(Refusal::Filling.into());
    }
    Ok(bytes)
}

/// Twice as many as there are entries, so that some are free.
const SLOTS: usize = 2 * ENTRIES;

/// The entries of a saved table, which are found by a hash of their names.
struct Entries<'a> {
    entries: [Entry<'a>; ENTRIES],
    count: usize,
    /// Which entry stands in a slot, counted from 1; 0 where it is free.
    slots: [u8; SLOTS],
}

impl<'a> Entries<'a> {
    fn read(saved: &'a [u8]) -> Judged<Self> {
        let mut read =
            Entries { entries: [Entry::default(); ENTRIES], count: 0, slots: [0; SLOTS] };
        let mut reader = Reader::new(saved);
        demand_kind(&mut reader, COUNT)?;
        let place = reader.at;
        let count = usize::from(reader.u8()?);
        demand_at_most(ENTRIES, count, place)?;
        for _ in 0..count {
            read.add(Entry::read(&mut reader)?)?;
        }
        if reader.at < saved.len() {
            return Err(Refusal::TooLong.at(reader.at));
        }
        Ok(read)
    }

    fn as_slice(&self) -> &[Entry<'a>] {
        &self.entries[..self.count]
    }

    /// Adds an entry, unless one before it has its name.
    fn add(&mut self, entry: Entry<'a>) -> Judged<()> {
        let mut slot = hash(entry.name) % SLOTS;
        while let Some(before) = usize::from(self.slots[slot]).checked_sub(1) {
            if self.entries[before].name == entry.name {
                return Err(Refusal::NameHeld.into());
            }
            slot = (slot + 1) % SLOTS;
        }
        self.entries[self.count] = entry;
        self.count += 1;
        self.slots[slot] = self.count as u8;
        Ok(())
    }
}

/// A hash of a name, whose upper bits depend on all of its bytes.
fn hash(name: &[u8]) -> usize {
    let mix =
        |hash: u64, word: u64| (hash.rotate_left(5) ^ word).wrapping_mul(0x9E37_79B9_7F4A_7C15);
    let (words, rest) = name.as_chunks::<8>();
    let hash =
        words.iter().fold(name.len() as u64, |hash, &word| mix(hash, u64::from_le_bytes(word)));
    let last = rest.iter().fold(0, |word, &byte| word << 8 | u64::from(byte));
    (mix(hash, last) >> 32) as usize
}

#[cfg(test)]
mod tests {
    extern crate std;

    use super::*;
    use std::format;
    use std::vec::Vec;

    /// A saved table of Booleans with these names.
    fn saved(names: &[&[u8]]) -> Vec<u8> {
        let mut saved = [COUNT, names.len() as u8].to_vec();
        for name in names {
            let mut record = [0; SAVED_ENTRY];
            let entry = Assignment { name, type_code: 0, id: 0, number: 0x0102, value: &[1] };
            write_entry(&entry, &mut record);
            saved.extend(record);
        }
        saved
    }

    fn fault(saved: &[u8]) -> Option<Fault> {
        Entries::read(saved).err()
    }

    #[test]
    fn an_entry_has_its_places() {
        let saved = saved(&[b"ab"]);
        assert_eq!(saved[..6], [1, 1, 2, 2, b'a', b'b']);
        assert_eq!(saved[2 + 64..2 + 73], [0, 0, 0, 1, 2, 0, 1, 1, 0]);
        assert_eq!(saved.len(), SAVED_FIRST + SAVED_ENTRY);
        let entries = Entries::read(&saved).ok().unwrap();
        let [Entry { name, type_code, number, value }] = entries.as_slice() else {
            panic!("one entry");
        };
        assert_eq!((*name, *type_code, *number, *value), (&b"ab"[..], 0, 0x0102, &[1][..]));
    }

    /// Each name once, and each of them a second time behind all.
    #[test]
    fn names_that_are_equal() {
        let names: Vec<_> =
            (0..ENTRIES).map(|i| format!("{i:0length$}", length = 2 + i % 32 * 2)).collect();
        let names: Vec<_> = names.iter().map(|name| name.as_bytes()).collect();
        assert_eq!(fault(&saved(&names)), None);
        for name in &names[..ENTRIES - 1] {
            let twice = [&names[..ENTRIES - 1], &[name]].concat();
            assert_eq!(fault(&saved(&twice)), Some(Refusal::NameHeld.at(0)));
        }
    }

    #[test]
    fn places_are_counted_from_the_first_byte() {
        let second = SAVED_FIRST + SAVED_ENTRY;
        for (at, byte, fault_there) in [
            (1, 65, Refusal::TooLong.at(1)),
            (second, 1, Refusal::Kind.at(0)),
            (second + 1, 65, Refusal::TooLong.at(second + 1)),
            (second + 2, 0xFF, Refusal::Text.at(second + 2)),
            (second + 3, 1, Refusal::Filling.at(0)),
            (second + 66, 3, Refusal::Type.at(second + 66)),
            (second + 69, 2, Refusal::TooLong.at(second + 69)),
            (second + 70, 2, Refusal::TooLong.at(second + 72)),
            (second + 70, 0, Refusal::Incomplete.at(0)),
            (second + 71, 2, Refusal::Boolean.at(second + 71)),
            (second + 72, 1, Refusal::Filling.at(0)),
        ] {
            let mut saved = saved(&[b"a", b"b"]);
            saved[at] = byte;
            assert_eq!(fault(&saved), Some(fault_there), "{byte} at {at}");
        }
    }
}
