//! Line records to run again.

use crate::subject::{FIRST_NUMBER, assignment, entry, update};
use nt2_sys::RECORD_DATA;

/// Bytes of a line record's messages and records, or a few more.
const LENGTH: usize = 60_000;
/// The clients that take turns, and the messages that one sends at once.
const CLIENTS: usize = 4;
const AT_ONCE: usize = 4;

#[derive(Default)]
pub struct LineRecord {
    pub bytes: Vec<u8>,
    pub records: usize,
}

impl LineRecord {
    /// All clients are greeted and make the entries. Behind that updates come in, all of which are
    /// applied.
    pub fn updates(values: usize, entries: usize) -> Self {
        let mut record = LineRecord::default();
        (0..CLIENTS).for_each(|client| record.greets(client));
        (0..entries).for_each(|i| record.came_in(i % CLIENTS, &new_entry(values, i)));
        let (before, mut made) = (record.bytes.len(), 0);
        while record.bytes.len() < before + LENGTH {
            let messages = (made..made + AT_ONCE).flat_map(|n| nth_update(values, entries, n));
            record.came_in(made / AT_ONCE % CLIENTS, &messages.collect::<Vec<u8>>());
            made += AT_ONCE;
        }
        record
    }

    /// Clients open, say hello, make entries and leave. An entry that was made before is ignored.
    pub fn entries(values: usize, entries: usize) -> Self {
        let (mut record, mut made) = (LineRecord::default(), 0);
        while record.bytes.len() < LENGTH {
            let client = made / AT_ONCE % CLIENTS;
            let messages = (made..made + AT_ONCE).flat_map(|n| new_entry(values, n % entries));
            record.greets(client);
            record.came_in(client, &messages.collect::<Vec<u8>>());
            record.put(&[2, client as u8]);
            made += AT_ONCE;
        }
        record
    }

    fn put(&mut self, record: &[u8]) {
        self.bytes.extend_from_slice(record);
        self.records += 1;
    }

    fn greets(&mut self, client: usize) {
        self.put(&[1, client as u8]);
        self.came_in(client, &[0x01, 0x02, 0x00]);
    }

    /// Bytes of a client, in pieces as long as a record can have.
    fn came_in(&mut self, client: usize, bytes: &[u8]) {
        for piece in bytes.chunks(RECORD_DATA) {
            self.put(&[&[63 + piece.len() as u8, client as u8], piece].concat());
        }
    }
}

fn new_entry(values: usize, i: usize) -> Vec<u8> {
    let (name, type_code, value) = entry(values, i, 0);
    assignment(&name, type_code, 0xFFFF, &value)
}

/// The nth update of entries in turn, each with the next number and the other value.
fn nth_update(values: usize, entries: usize, n: usize) -> Vec<u8> {
    let (i, time) = (n % entries, n / entries);
    let (_, _, value) = entry(values, i, (time + 1) % 2);
    update(i as u16, FIRST_NUMBER + 1 + time as u16, &value)
}
