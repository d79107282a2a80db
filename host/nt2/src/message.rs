//! Single messages.

use crate::answers::{Place, Refusal, is_done};
use crate::lent;

/// A value's type.
#[derive(Clone, Copy, Debug, PartialEq, Eq, Hash)]
#[repr(u8)]
pub enum Type {
    Boolean = 0x00,
    Double = 0x01,
    String = 0x02,
    BooleanArray = 0x10,
    DoubleArray = 0x11,
    StringArray = 0x12,
}

impl Type {
    /// The type's number on the wire.
    pub fn code(self) -> u8 {
        self as u8
    }

    /// The type with this number.
    pub fn of(code: u8) -> Option<Type> {
        Some(match code {
            0x00 => Type::Boolean,
            0x01 => Type::Double,
            0x02 => Type::String,
            0x10 => Type::BooleanArray,
            0x11 => Type::DoubleArray,
            0x12 => Type::StringArray,
            _ => return None,
        })
    }
}

/// A message's fields.
#[derive(Clone, Copy, Debug, PartialEq, Eq)]
pub enum Message<'a> {
    KeepAlive,
    Hello {
        revision: u16,
    },
    Unsupported {
        revision: u16,
    },
    HelloComplete,
    Assignment {
        name: &'a [u8],
        value_type: Type,
        id: u16,
        number: u16,
        value: &'a [u8],
    },
    /// The type is not part of the message.
    Update {
        value_type: Type,
        id: u16,
        number: u16,
        value: &'a [u8],
    },
}

/// Writes a message at the start of the output and answers its length. A fault's place is one of the
/// name or of the value.
pub fn encode(message: &Message<'_>, out: &mut [u8]) -> Result<usize, Refusal> {
    let none: &[u8] = &[];
    let mut short = |kind, revision| (none, lent::encode(kind, revision, none, 0, 0, 0, none, out));
    let (name, answer) = match *message {
        Message::KeepAlive => short(0x00, 0),
        Message::Hello { revision } => short(0x01, revision),
        Message::Unsupported { revision } => short(0x02, revision),
        Message::HelloComplete => short(0x03, 0),
        Message::Assignment { name, value_type, id, number, value } => {
            (name, lent::encode(0x10, 0, name, value_type.code(), id, number, value, out))
        }
        Message::Update { value_type, id, number, value } => {
            (none, lent::encode(0x11, 0, none, value_type.code(), id, number, value, out))
        }
    };
    is_done(answer.number, Some(Place::in_name_or_value(name, answer)))?;
    Ok(answer.sent)
}

/// Reads the message at the start of the bytes, and answers its length too. An update's type is
/// given, since the message carries none.
pub fn decode(bytes: &[u8], update_type: Type) -> Result<(Message<'_>, usize), Refusal> {
    let fields = lent::decode(bytes, update_type.code());
    is_done(fields.number, Some(Place::Message(fields.place)))?;
    let (revision, id, number) = (fields.revision, fields.id, fields.entry_number);
    let value = &bytes[fields.taken - fields.value_length..fields.taken];
    let message = match fields.kind {
        0x00 => Message::KeepAlive,
        0x01 => Message::Hello { revision },
        0x02 => Message::Unsupported { revision },
        0x03 => Message::HelloComplete,
        0x10 => {
            let name = &bytes[3..3 + fields.name_length];
            let value_type = Type::of(fields.type_code).expect("a type of the build description");
            Message::Assignment { name, value_type, id, number, value }
        }
        _ => Message::Update { value_type: update_type, id, number, value },
    };
    Ok((message, fields.taken))
}
