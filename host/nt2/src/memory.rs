//! The memory of one table.

use crate::answers::{Reason, Refusal, Scalar, is_done};
use crate::lent;
use crate::message::Type;
use nt2_sys::{ENTRIES, ENTRY_ROOM, Head, LentTable, NAME_ROOM, TABLE_BYTES};

#[derive(Clone)]
pub(crate) struct Memory {
    heads: Box<[Head]>,
    bytes: Box<[u8]>,
    count: u16,
}

/// The count of a table's entries, and their sequence numbers.
#[derive(Clone, Copy)]
pub(crate) struct Numbers {
    count: u16,
    of_entries: [u16; ENTRIES],
}

/// An entry of a table.
#[derive(Clone, Copy, Debug, PartialEq, Eq)]
pub struct Entry<'a> {
    pub name: &'a [u8],
    pub value_type: Type,
    pub number: u16,
    pub value: &'a [u8],
}

impl Memory {
    pub fn new() -> Self {
        Memory {
            heads: vec![Head::default(); ENTRIES].into(),
            bytes: vec![0; TABLE_BYTES].into(),
            count: 0,
        }
    }

    pub fn lend(&mut self) -> LentTable<'_> {
        LentTable { heads: &mut self.heads, bytes: &mut self.bytes, count: &mut self.count }
    }

    pub fn count(&self) -> usize {
        usize::from(self.count)
    }

    /// The ID that the next new entry has.
    pub fn next_id(&self) -> u16 {
        self.count
    }

    pub fn numbers(&self) -> Numbers {
        let mut numbers = Numbers { count: self.count, of_entries: [0; ENTRIES] };
        for (number, head) in numbers.of_entries.iter_mut().zip(&self.heads) {
            *number = head.number;
        }
        numbers
    }

    /// A copy that has these numbers.
    pub fn with_numbers(&self, numbers: &Numbers) -> Self {
        let mut memory = self.clone();
        memory.count = numbers.count;
        for (head, number) in memory.heads.iter_mut().zip(numbers.of_entries) {
            head.number = number;
        }
        memory
    }

    pub fn read(&self, id: u16) -> Result<Scalar, Refusal> {
        let scalar = lent::read(&self.heads, &self.bytes, &self.count, id);
        is_done(scalar.number, None)?;
        Ok(match scalar.found {
            0 => Scalar::Boolean(scalar.flag),
            1 => Scalar::Double(scalar.value),
            _ => Scalar::Neither,
        })
    }

    pub fn save<'o>(&self, out: &'o mut [u8]) -> Result<&'o [u8], Refusal> {
        let answer = lent::save(&self.heads, &self.bytes, &self.count, out);
        is_done(answer.number, None)?;
        Ok(&out[..answer.sent])
    }

    pub fn why(&self, marks: &[u8], connection: usize, message: &[u8]) -> Reason {
        let Memory { heads, bytes, count } = self;
        Reason::of(lent::why_by_reading(heads, bytes, count, marks, connection, message))
    }

    pub fn entry(&self, id: u16) -> Option<Entry<'_>> {
        let place = usize::from(id);
        let head = self.heads[..self.count()].get(place)?;
        let bytes = &self.bytes[ENTRY_ROOM * place..];
        Some(Entry {
            name: &bytes[..usize::from(head.name_length)],
            value_type: Type::of(u8::try_from(head.type_code).ok()?)?,
            number: head.number,
            value: &bytes[NAME_ROOM..][..usize::from(head.value_length)],
        })
    }
}
