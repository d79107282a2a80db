//! Memory lent to calls, with guards around each part.

use nt2_sys::{ENTRY_ROOM, Head, LentTable, NAME_ROOM};

/// What an output holds before a call.
pub const FILL: u8 = 0xA5;

const GUARD: usize = 64;

/// Cells of which the first `length` behind a guard are lent. The others guard them.
#[derive(Clone, Debug, PartialEq)]
pub struct Guarded<T> {
    cells: Vec<T>,
    length: usize,
}

impl<T: Copy + PartialEq> Guarded<T> {
    /// All of the cells are lent.
    pub fn new(lent: &[T], guard: T) -> Self {
        let mut cells = vec![guard; lent.len() + 2 * GUARD];
        cells[GUARD..GUARD + lent.len()].copy_from_slice(lent);
        Guarded { cells, length: lent.len() }
    }

    pub fn lent(&self) -> &[T] {
        &self.cells[GUARD..GUARD + self.length]
    }

    pub fn lent_mut(&mut self) -> &mut [T] {
        &mut self.cells[GUARD..GUARD + self.length]
    }

    /// Lends more or fewer cells, as far as there are some.
    pub fn lend_only(&mut self, length: usize) {
        assert!(length + 2 * GUARD <= self.cells.len());
        self.length = length;
    }

    /// Takes the contents of another one of the same size.
    pub fn copy_from(&mut self, other: &Guarded<T>) {
        self.cells.copy_from_slice(&other.cells);
        self.length = other.length;
    }

    /// All cells, the guards too.
    pub fn cells(&self) -> &[T] {
        &self.cells
    }
}

impl Guarded<u8> {
    /// An output that is filled, of which all is lent.
    pub fn output(length: usize) -> Self {
        Guarded { cells: vec![FILL; length + 2 * GUARD], length }
    }

    /// Whether all but the first `sent` bytes, the guards too, hold the fill.
    pub fn is_filled_but(&self, sent: usize) -> bool {
        static FILLED: [u8; 32_768] = [FILL; 32_768];
        let (front, rest) = (&self.cells[..GUARD], &self.cells[GUARD + sent..]);
        front == &FILLED[..GUARD] && rest == &FILLED[..rest.len()]
    }

    /// Fills the first bytes again.
    pub fn refill(&mut self, sent: usize) {
        self.cells[GUARD..GUARD + sent].fill(FILL);
    }
}

/// A table and its connection marks.
#[derive(Clone, Debug, PartialEq)]
pub struct Memory {
    pub heads: Guarded<Head>,
    pub bytes: Guarded<u8>,
    pub count: Guarded<u16>,
    pub marks: Guarded<u8>,
}

impl Memory {
    pub fn new(heads: &[Head], bytes: &[u8], count: u16, marks: &[u8]) -> Self {
        let guard = Head { name_length: 0xD1, value_length: 0xD2, type_code: 0xD3, number: 0xD4 };
        Memory {
            heads: Guarded::new(heads, guard),
            bytes: Guarded::new(bytes, 0xDB),
            count: Guarded::new(&[count], 0xDCDC),
            marks: Guarded::new(marks, 0xDD),
        }
    }

    pub fn lend(&mut self) -> (LentTable<'_>, &mut [u8]) {
        let heads = self.heads.lent_mut();
        let bytes = self.bytes.lent_mut();
        let count = &mut self.count.lent_mut()[0];
        (LentTable { heads, bytes, count }, self.marks.lent_mut())
    }

    pub fn lend_table(&mut self) -> LentTable<'_> {
        self.lend().0
    }

    pub fn copy_from(&mut self, other: &Memory) {
        self.heads.copy_from(&other.heads);
        self.bytes.copy_from(&other.bytes);
        self.count.copy_from(&other.count);
        self.marks.copy_from(&other.marks);
    }

    pub fn count(&self) -> usize {
        usize::from(self.count.lent()[0])
    }

    pub fn set_count(&mut self, count: u16) {
        self.count.lent_mut()[0] = count;
    }

    /// Name of entry i, as far as it is lent.
    pub fn name(&self, i: usize) -> &[u8] {
        let length = usize::from(self.heads.lent()[i].name_length);
        &self.bytes.lent()[ENTRY_ROOM * i..][..length]
    }

    /// Value of entry i, as far as it is lent.
    pub fn value(&self, i: usize) -> &[u8] {
        let length = usize::from(self.heads.lent()[i].value_length);
        &self.bytes.lent()[ENTRY_ROOM * i + NAME_ROOM..][..length]
    }

    /// Puts an entry into place i. Its name and value have their room.
    pub fn put_entry(&mut self, i: usize, name: &[u8], type_code: u16, number: u16, value: &[u8]) {
        let (name_length, value_length) = (name.len() as u16, value.len() as u16);
        self.heads.lent_mut()[i] = Head { name_length, value_length, type_code, number };
        self.put_bytes(ENTRY_ROOM * i, name);
        self.put_bytes(ENTRY_ROOM * i + NAME_ROOM, value);
    }

    pub fn put_bytes(&mut self, offset: usize, bytes: &[u8]) {
        self.bytes.lent_mut()[offset..offset + bytes.len()].copy_from_slice(bytes);
    }

    /// The first part in which two memories differ.
    pub fn difference(&self, other: &Memory) -> Option<String> {
        fn first<T: PartialEq + std::fmt::Debug>(
            part: &str,
            left: &[T],
            right: &[T],
        ) -> Option<String> {
            if left.len() != right.len() {
                return Some(format!("{part}: {} and {} cells", left.len(), right.len()));
            }
            let place = left.iter().zip(right).position(|(l, r)| l != r)?;
            let at = place as isize - GUARD as isize;
            Some(format!("{part}[{at}]: {:?} and {:?}", left[place], right[place]))
        }
        first("heads", self.heads.cells(), other.heads.cells())
            .or_else(|| first("bytes", self.bytes.cells(), other.bytes.cells()))
            .or_else(|| first("count", self.count.cells(), other.count.cells()))
            .or_else(|| first("marks", self.marks.cells(), other.marks.cells()))
    }
}
