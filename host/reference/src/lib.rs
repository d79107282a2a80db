//! The table server, its message writer and the client's copy in plain safe Rust.
//!
//! Written from the build description alone. It takes the same lent memory as libnt2.a, so that
//! every byte can be compared after every call.

#![no_std]
#![forbid(unsafe_code)]

extern crate alloc;

mod output;
mod replay;
mod saved;
mod server;
mod table;
mod why;
mod wire;

use nt2_sys::{Answer, Copied, Fields, LentTable, Scalar};
pub use replay::replay;
pub use saved::{load, save};
pub use server::{create, deliver, fresh, leave, open, receive, write};
use table::Table;
pub use why::why;
use wire::{
    ASSIGNMENT, Assignment, Fault, HELLO, HELLO_COMPLETE, Judged, KEEP_ALIVE, Reader, Refusal,
    Type, UNSUPPORTED, UPDATE, check_name, check_value, write_revision, write_update,
};

/// The number of a message that is taken and changes nothing.
const IGNORED: u8 = 16;

fn answer(judged: Judged<Answer>) -> Answer {
    judged.unwrap_or_else(|Fault { number, place }| Answer { number, place, ..Answer::default() })
}

/// Reads an entry by ID.
pub fn read(table: LentTable<'_>, id: u16) -> Scalar {
    scalar(table, id).unwrap_or_else(|Fault { number, .. }| Scalar { number, ..Scalar::default() })
}

fn scalar(table: LentTable<'_>, id: u16) -> Judged<Scalar> {
    let table = Table::sound(table)?;
    let i = table.held(id)?;
    let scalar = match (table.kind(i)?, table.value(i)) {
        (Type::Boolean, &[byte]) => Scalar { flag: byte == 1, ..Scalar::default() },
        (Type::Double, &[a, b, c, d, e, f, g, h]) => {
            let value = f64::from_be_bytes([a, b, c, d, e, f, g, h]);
            Scalar { found: 1, value, ..Scalar::default() }
        }
        _ => Scalar { found: 2, ..Scalar::default() },
    };
    Ok(scalar)
}

/// Writes a message from its fields. Those that the kind lacks are not looked at.
#[allow(clippy::too_many_arguments)]
pub fn encode(
    kind: u8,
    revision: u16,
    name: &[u8],
    type_code: u8,
    id: u16,
    entry_number: u16,
    value: &[u8],
    out: &mut [u8],
) -> Answer {
    let assignment = Assignment { name, type_code, id, number: entry_number, value };
    answer(encoded(kind, revision, &assignment, out))
}

fn encoded(kind: u8, revision: u16, fields: &Assignment<'_>, out: &mut [u8]) -> Judged<Answer> {
    let length = match kind {
        KEEP_ALIVE | HELLO_COMPLETE => 1,
        HELLO | UNSUPPORTED => 3,
        ASSIGNMENT => {
            check_name(fields.name)?;
            check_value(Type::given(fields.type_code)?, fields.value)?;
            fields.length()
        }
        UPDATE => {
            check_value(Type::given(fields.type_code)?, fields.value)?;
            5 + fields.value.len()
        }
        _ => return Err(Refusal::Kind.into()),
    };
    if out.len() < length {
        return Err(Refusal::Room.into());
    }
    let sent = match kind {
        HELLO | UNSUPPORTED => write_revision(kind, revision, out),
        ASSIGNMENT => fields.write(out),
        UPDATE => write_update(fields.id, fields.number, fields.value, out),
        _ => {
            out[0] = kind;
            1
        }
    };
    Ok(Answer { sent, ..Answer::default() })
}

/// Reads a message of any kind and ID. An update's type is given.
pub fn decode(bytes: &[u8], update_type: u8) -> Fields {
    decoded(bytes, update_type).unwrap_or_else(|Fault { number, place }| Fields {
        number,
        place,
        ..Fields::default()
    })
}

fn decoded(bytes: &[u8], update_type: u8) -> Judged<Fields> {
    let mut reader = Reader::new(bytes);
    let mut fields = Fields { kind: reader.u8()?, ..Fields::default() };
    match fields.kind {
        KEEP_ALIVE | HELLO_COMPLETE => {}
        HELLO | UNSUPPORTED => fields.revision = reader.u16()?,
        ASSIGNMENT => {
            fields.name_length = reader.name()?.len();
            let (type_code, kind) = reader.value_type()?;
            fields.type_code = type_code;
            fields.id = reader.u16()?;
            fields.entry_number = reader.u16()?;
            fields.value_length = reader.value(kind)?.len();
        }
        UPDATE => {
            fields.id = reader.u16()?;
            fields.entry_number = reader.u16()?;
            let kind = Type::given(update_type)?;
            fields.value_length = reader.value(kind)?.len();
        }
        _ => return Err(Refusal::Kind.into()),
    }
    fields.taken = reader.at;
    Ok(fields)
}

/// A copy's fresh start: its count is 0, other memory stays.
pub fn copy_fresh(table: LentTable<'_>) -> Answer {
    answer(Table::large_enough(table).map(|mut table| {
        table.clear();
        Answer::default()
    }))
}

/// The copy takes one message of a server.
pub fn copy_receive(table: LentTable<'_>, message: &[u8]) -> Copied {
    copied(table, message).unwrap_or_else(|Fault { number, place }| Copied {
        number,
        place,
        ..Copied::default()
    })
}

fn copied(table: LentTable<'_>, message: &[u8]) -> Judged<Copied> {
    let mut table = Table::sound(table)?;
    let mut reader = Reader::new(message);
    let mut copied = Copied::default();
    match reader.u8()? {
        KEEP_ALIVE | HELLO_COMPLETE => copied.number = IGNORED,
        UNSUPPORTED => {
            copied.revision = reader.u16()?;
            copied.number = IGNORED;
        }
        ASSIGNMENT => {
            let name = reader.name()?;
            let (type_code, kind) = reader.value_type()?;
            if usize::from(reader.u16()?) != table.count() {
                return Err(Refusal::AssignmentId.into());
            }
            let number = reader.u16()?;
            let value = reader.value(kind)?;
            if table.find(name).is_some() {
                return Err(Refusal::NameHeld.into());
            }
            if table.is_full() {
                return Err(Refusal::Full.into());
            }
            table.append(name, type_code, number, value);
        }
        UPDATE => {
            let i = table.held(reader.u16()?)?;
            let number = reader.u16()?;
            let value = reader.value(table.kind(i)?)?;
            table.store(i, number, value);
        }
        _ => return Err(Refusal::Kind.into()),
    }
    copied.taken = reader.at;
    Ok(copied)
}
