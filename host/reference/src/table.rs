//! A lent table: 64 heads beside their bytes.

use crate::wire::{Assignment, Judged, Refusal, Type, check_name, check_value};
use nt2_sys::{ENTRIES, ENTRY_ROOM, Head, LentTable, NAME_ROOM, TABLE_BYTES, VALUE_ROOM};

pub struct Table<'a> {
    heads: &'a mut [Head; ENTRIES],
    bytes: &'a mut [u8; TABLE_BYTES],
    count: &'a mut u16,
}

impl<'a> Table<'a> {
    /// A table that is large enough, with any contents.
    pub fn large_enough(lent: LentTable<'a>) -> Judged<Self> {
        let heads = lent.heads.first_chunk_mut().ok_or(Refusal::Unsound)?;
        let bytes = lent.bytes.first_chunk_mut().ok_or(Refusal::Unsound)?;
        Ok(Table { heads, bytes, count: lent.count })
    }

    /// A sound table.
    pub fn sound(lent: LentTable<'a>) -> Judged<Self> {
        let table = Table::large_enough(lent)?;
        if table.count() > ENTRIES || !(0..table.count()).all(|i| table.is_sound_entry(i)) {
            return Err(Refusal::Unsound.into());
        }
        Ok(table)
    }

    /// Whether entry i obeys the build description and its name differs from those before it.
    fn is_sound_entry(&self, i: usize) -> bool {
        let head = &self.heads[i];
        if usize::from(head.name_length) > NAME_ROOM || usize::from(head.value_length) > VALUE_ROOM
        {
            return false;
        }
        let Some(kind) = Type::of(head.type_code) else {
            return false;
        };
        check_name(self.name(i)).is_ok()
            && check_value(kind, self.value(i)).is_ok()
            && self.find_below(i, self.name(i)).is_none()
    }

    pub fn count(&self) -> usize {
        usize::from(*self.count)
    }

    pub fn clear(&mut self) {
        *self.count = 0;
    }

    pub fn is_full(&self) -> bool {
        self.count() == ENTRIES
    }

    pub fn name(&self, i: usize) -> &[u8] {
        let start = ENTRY_ROOM * i;
        &self.bytes[start..start + usize::from(self.heads[i].name_length)]
    }

    pub fn value(&self, i: usize) -> &[u8] {
        let start = ENTRY_ROOM * i + NAME_ROOM;
        &self.bytes[start..start + usize::from(self.heads[i].value_length)]
    }

    pub fn number(&self, i: usize) -> u16 {
        self.heads[i].number
    }

    /// The type of an entry of a sound table.
    pub fn kind(&self, i: usize) -> Judged<Type> {
        Ok(Type::of(self.heads[i].type_code).ok_or(Refusal::Unsound)?)
    }

    /// The place of an ID.
    pub fn held(&self, id: u16) -> Judged<usize> {
        let i = usize::from(id);
        if i < self.count() { Ok(i) } else { Err(Refusal::UnknownId.into()) }
    }

    pub fn find(&self, name: &[u8]) -> Option<usize> {
        self.find_below(self.count(), name)
    }

    fn find_below(&self, end: usize, name: &[u8]) -> Option<usize> {
        (0..end).find(|&i| self.name(i) == name)
    }

    pub fn assignment(&self, i: usize) -> Assignment<'_> {
        Assignment {
            name: self.name(i),
            type_code: self.heads[i].type_code as u8,
            id: i as u16,
            number: self.number(i),
            value: self.value(i),
        }
    }

    /// Stores a new entry behind the last one. The table is not full.
    pub fn append(&mut self, name: &[u8], type_code: u8, number: u16, value: &[u8]) {
        let i = self.count();
        let start = ENTRY_ROOM * i;
        self.bytes[start..start + name.len()].copy_from_slice(name);
        self.heads[i].name_length = name.len() as u16;
        self.heads[i].type_code = u16::from(type_code);
        self.store(i, number, value);
        *self.count += 1;
    }

    /// Stores number and value of entry i.
    pub fn store(&mut self, i: usize, number: u16, value: &[u8]) {
        let start = ENTRY_ROOM * i + NAME_ROOM;
        self.bytes[start..start + value.len()].copy_from_slice(value);
        self.heads[i].value_length = value.len() as u16;
        self.heads[i].number = number;
    }
}
