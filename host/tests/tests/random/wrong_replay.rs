//! A line record that is run with one fault.

use nt2_sys::{
    Answer, CONNECTIONS, ENTRIES, Head, LONGEST_HELLO_ANSWER, LentTable, PLANT, Replayed,
    TABLE_BYTES,
};
use nt2_tests::implementation::{Implementation, Reference};
use nt2_tests::line_record::{CAME_IN, LEAVES, LONGEST_INCOMPLETE, OPENS, SOURCES};
use std::mem;

/// What is wrong.
#[derive(Clone, Copy, Debug, PartialEq, Eq)]
pub enum Fault {
    Nothing,
    NoRecordsNoFreshStart,
    UnsoundMemoryRefused,
    RefusedRecordCounted,
    RecordsUndone,
    UnknownKindPassedOver,
    OpeningAbove15Ends,
    CutBeforeTheConnection,
    CutRecordTaken,
    HeldAtTheEndRefused,
    LeavingKeepsBytes,
    OpeningDropsBytes,
    ClosedGathers,
    NothingGathered,
    OneMessageARecord,
    HeldOneTooFew,
    RefusedStays,
    RefusedDropsAByte,
    OtherRevisionGoesOn,
    PlantUsesNumbers,
    PlantHasAnyId,
    PlantNameHeldIgnored,
    PlantHelloIgnored,
}

impl Fault {
    pub const ALL: [Fault; 22] = [
        Fault::NoRecordsNoFreshStart,
        Fault::UnsoundMemoryRefused,
        Fault::RefusedRecordCounted,
        Fault::RecordsUndone,
        Fault::UnknownKindPassedOver,
        Fault::OpeningAbove15Ends,
        Fault::CutBeforeTheConnection,
        Fault::CutRecordTaken,
        Fault::HeldAtTheEndRefused,
        Fault::LeavingKeepsBytes,
        Fault::OpeningDropsBytes,
        Fault::ClosedGathers,
        Fault::NothingGathered,
        Fault::OneMessageARecord,
        Fault::HeldOneTooFew,
        Fault::RefusedStays,
        Fault::RefusedDropsAByte,
        Fault::OtherRevisionGoesOn,
        Fault::PlantUsesNumbers,
        Fault::PlantHasAnyId,
        Fault::PlantNameHeldIgnored,
        Fault::PlantHelloIgnored,
    ];
}

struct Run<'a> {
    fault: Fault,
    heads: &'a mut [Head],
    bytes: &'a mut [u8],
    count: &'a mut u16,
    marks: &'a mut [u8],
    held: [Vec<u8>; SOURCES],
    out: Vec<u8>,
}

pub fn replay(fault: Fault, table: LentTable<'_>, marks: &mut [u8], record: &[u8]) -> Replayed {
    let LentTable { heads, bytes, count } = table;
    let (held, out) = (Default::default(), vec![0; LONGEST_HELLO_ANSWER]);
    let mut run = Run { fault, heads, bytes, count, marks, held, out };
    let sound = run.call(|table, marks, _| Reference::open(table, marks, PLANT)).number != 14;
    if fault == Fault::UnsoundMemoryRefused && !sound {
        return Replayed { number: 14, records: 0 };
    }
    let large = run.heads.len() >= ENTRIES
        && run.bytes.len() >= TABLE_BYTES
        && run.marks.len() >= CONNECTIONS;
    if fault == Fault::NoRecordsNoFreshStart && record.is_empty() && large {
        return Replayed::default();
    }
    let before = (run.heads.to_vec(), run.bytes.to_vec(), *run.count, run.marks.to_vec());
    let replayed = run.records(record);
    if fault == Fault::RecordsUndone && replayed.number != 0 {
        run.heads.copy_from_slice(&before.0);
        run.bytes.copy_from_slice(&before.1);
        *run.count = before.2;
        run.marks.copy_from_slice(&before.3);
    }
    replayed
}

impl Run<'_> {
    fn call(&mut self, make: impl FnOnce(LentTable<'_>, &mut [u8], &mut [u8]) -> Answer) -> Answer {
        let (heads, bytes) = (&mut *self.heads, &mut *self.bytes);
        make(LentTable { heads, bytes, count: self.count }, self.marks, &mut self.out)
    }

    fn records(&mut self, mut rest: &[u8]) -> Replayed {
        let number = self.call(|table, marks, _| Reference::fresh(table, marks)).number;
        let mut replayed = Replayed { number, records: 0 };
        while replayed.number == 0 && !rest.is_empty() {
            match self.record(rest) {
                Ok(size) => {
                    rest = &rest[size..];
                    replayed.records += 1;
                }
                Err(number) => {
                    replayed.number = number;
                    replayed.records += usize::from(self.fault == Fault::RefusedRecordCounted);
                }
            }
        }
        let held = self.held.iter().any(|held| !held.is_empty());
        if self.fault == Fault::HeldAtTheEndRefused && replayed.number == 0 && held {
            replayed.number = 1;
        }
        replayed
    }

    fn record(&mut self, record: &[u8]) -> Result<usize, u8> {
        let kind = record[0];
        if !matches!(kind, OPENS | LEAVES | 64..=127) {
            return if self.fault == Fault::UnknownKindPassedOver { Ok(1) } else { Err(4) };
        }
        let connection = usize::from(*record.get(1).ok_or(1)?);
        let size = 2 + usize::from(kind.saturating_sub(CAME_IN));
        match kind {
            OPENS | LEAVES if self.fault == Fault::OpeningAbove15Ends && connection > 15 => {
                return Err(4);
            }
            OPENS => self.opens(connection),
            LEAVES => self.leaves(connection),
            _ => {
                let cut = record.len() < size;
                if connection > PLANT {
                    return Err(if self.fault == Fault::CutBeforeTheConnection && cut {
                        1
                    } else {
                        4
                    });
                }
                if !cut || self.fault == Fault::CutRecordTaken {
                    self.came_in(connection, &record[2..size.min(record.len())]);
                }
                if cut {
                    return Err(1);
                }
            }
        }
        Ok(size)
    }

    fn opens(&mut self, connection: usize) {
        self.call(|table, marks, _| Reference::open(table, marks, connection));
        if self.fault == Fault::OpeningDropsBytes && connection < PLANT {
            self.held[connection].clear();
        }
    }

    fn leaves(&mut self, connection: usize) {
        let number = self.leave(connection);
        if number == 0 && self.fault != Fault::LeavingKeepsBytes {
            self.held[connection].clear();
        }
    }

    fn leave(&mut self, connection: usize) -> u8 {
        self.call(|table, marks, _| Reference::leave(table, marks, connection)).number
    }

    fn is_closed(&self, connection: usize) -> bool {
        connection != PLANT && self.marks[connection] == 0
    }

    fn came_in(&mut self, connection: usize, bytes: &[u8]) {
        let mut held = mem::take(&mut self.held[connection]);
        if !self.is_closed(connection) {
            held.extend_from_slice(bytes);
            let taken = self.take_all(connection, &held);
            held.drain(..taken);
        } else if self.fault == Fault::ClosedGathers {
            held.extend_from_slice(bytes);
        }
        let too_long = self.fault == Fault::HeldOneTooFew && held.len() == LONGEST_INCOMPLETE;
        if too_long || self.fault == Fault::NothingGathered {
            held.clear();
        }
        self.held[connection] = held;
    }

    fn take_all(&mut self, connection: usize, held: &[u8]) -> usize {
        let mut at = 0;
        while at < held.len() {
            let (number, taken) = self.take(connection, &held[at..]);
            match number {
                0 | 16 => at += taken,
                1 => return at,
                _ if self.fault == Fault::RefusedDropsAByte => {
                    at += 1;
                    continue;
                }
                _ => {
                    if self.fault != Fault::RefusedStays {
                        self.leave(connection);
                    }
                    return held.len();
                }
            }
            if self.is_closed(connection) {
                return if self.fault == Fault::OtherRevisionGoesOn { at } else { held.len() };
            }
            if self.fault == Fault::OneMessageARecord {
                break;
            }
        }
        at
    }

    fn take(&mut self, connection: usize, bytes: &[u8]) -> (u8, usize) {
        match bytes[0] {
            _ if connection != PLANT => {
                let answer = self.call(|table, marks, out| {
                    Reference::receive(table, marks, connection, bytes, out)
                });
                (answer.number, answer.taken)
            }
            0x10 => self.plant_creates(bytes),
            0x11 => self.plant_writes(bytes),
            0x00 if self.fault == Fault::PlantHelloIgnored => (16, 1),
            0x01 if self.fault == Fault::PlantHelloIgnored && bytes.len() > 2 => (16, 3),
            _ => (4, 0),
        }
    }

    /// As a client's assignment, but that a name that is held is refused, and an ID.
    fn plant_creates(&mut self, bytes: &[u8]) -> (u8, usize) {
        let fields = Reference::decode(bytes, 0);
        let id = 4 + bytes.get(1..3).map_or(0, |l| usize::from(u16::from_be_bytes([l[0], l[1]])));
        let other_id = bytes.get(..id + 2).is_some_and(|up_to_the_number| {
            let good = Reference::decode(up_to_the_number, 0).number == 1;
            good && up_to_the_number[id..] != [0xFF; 2]
        });
        if other_id && self.fault != Fault::PlantHasAnyId {
            return (4, 0);
        }
        if fields.number != 0 {
            return (fields.number, 0);
        }
        let (name, taken) = (&bytes[3..3 + fields.name_length], fields.taken);
        let value = &bytes[taken - fields.value_length..taken];
        let answer = self.call(|table, marks, out| {
            Reference::create(table, marks, name, fields.type_code, value, out)
        });
        match answer.number {
            13 if self.fault == Fault::PlantNameHeldIgnored => (16, taken),
            number => (number, taken),
        }
    }

    fn plant_writes(&mut self, bytes: &[u8]) -> (u8, usize) {
        let [_, high, low, ..] = *bytes else {
            return (1, 0);
        };
        let id = u16::from_be_bytes([high, low]);
        if id >= *self.count {
            return (6, 0);
        }
        let head = self.heads[usize::from(id)];
        let fields = Reference::decode(bytes, head.type_code as u8);
        let older = !(1..=32_767).contains(&fields.entry_number.wrapping_sub(head.number));
        if fields.number != 0 {
            return (fields.number, 0);
        }
        if self.fault == Fault::PlantUsesNumbers && older {
            return (16, fields.taken);
        }
        let value = &bytes[5..fields.taken];
        let answer = self.call(|table, marks, out| Reference::write(table, marks, id, value, out));
        (answer.number, fields.taken)
    }
}
