//! Fields, values and messages as bytes.

use core::str;
use nt2_sys::{NAME_ROOM, VALUE_ROOM};

pub const KEEP_ALIVE: u8 = 0x00;
pub const HELLO: u8 = 0x01;
pub const UNSUPPORTED: u8 = 0x02;
pub const HELLO_COMPLETE: u8 = 0x03;
pub const ASSIGNMENT: u8 = 0x10;
pub const UPDATE: u8 = 0x11;

/// The revision that the server speaks.
pub const REVISION: u16 = 0x0200;
/// The ID in a client's assignment.
pub const NO_ID: u16 = 0xFFFF;

/// The numbers 1 to 15 of an answer.
#[derive(Clone, Copy, Debug, PartialEq, Eq)]
#[repr(u8)]
pub enum Refusal {
    Incomplete = 1,
    NoSuchConnection = 2,
    State = 3,
    Kind = 4,
    AssignmentId = 5,
    UnknownId = 6,
    Type = 7,
    Boolean = 8,
    Text = 9,
    TooLong = 10,
    Full = 11,
    Room = 12,
    NameHeld = 13,
    Unsound = 14,
    Filling = 15,
}

/// A refusal's number and place: with 7 to 10 that of the first byte of the field that failed.
#[derive(Clone, Copy, Debug, PartialEq, Eq)]
pub struct Fault {
    pub number: u8,
    pub place: usize,
}

impl Refusal {
    pub fn at(self, place: usize) -> Fault {
        Fault { number: self as u8, place }
    }
}

/// Other refusals have the place 0, and so has a type that is given as a number.
impl From<Refusal> for Fault {
    fn from(refusal: Refusal) -> Self {
        refusal.at(0)
    }
}

pub type Judged<T> = Result<T, Fault>;

#[derive(Clone, Copy, Debug, PartialEq, Eq)]
pub enum Type {
    Boolean,
    Double,
    String,
    BooleanArray,
    DoubleArray,
    StringArray,
}

impl Type {
    pub fn of(code: u16) -> Option<Type> {
        Some(match code {
            0x00 => Type::Boolean,
            0x01 => Type::Double,
            0x02 => Type::String,
            0x10 => Type::BooleanArray,
            0x11 => Type::DoubleArray,
            0x12 => Type::StringArray,
            _ => return None,
        })
    }

    /// A type given as a number, not as a byte of something lent.
    pub fn given(code: u8) -> Judged<Type> {
        Ok(Type::of(u16::from(code)).ok_or(Refusal::Type)?)
    }
}

/// A message with the place reached so far.
pub struct Reader<'a> {
    bytes: &'a [u8],
    pub at: usize,
}

impl<'a> Reader<'a> {
    pub fn new(bytes: &'a [u8]) -> Self {
        Reader { bytes, at: 0 }
    }

    /// The next field, if it is wholly there.
    pub fn take(&mut self, length: usize) -> Judged<&'a [u8]> {
        let field = self.bytes[self.at..].get(..length).ok_or(Refusal::Incomplete)?;
        self.at += length;
        Ok(field)
    }

    pub fn u8(&mut self) -> Judged<u8> {
        Ok(self.take(1)?[0])
    }

    pub fn u16(&mut self) -> Judged<u16> {
        let field = self.take(2)?;
        Ok(u16::from_be_bytes([field[0], field[1]]))
    }

    /// A type byte, and the type that it stands for.
    pub fn value_type(&mut self) -> Judged<(u8, Type)> {
        let place = self.at;
        let code = self.u8()?;
        let kind = Type::of(u16::from(code)).ok_or(Refusal::Type.at(place))?;
        Ok((code, kind))
    }

    /// A text behind its prefix, which with `used` bytes before it may reach up to `limit`.
    fn text(&mut self, used: usize, limit: usize) -> Judged<&'a [u8]> {
        let prefix = self.at;
        let length = usize::from(self.u16()?);
        if used + length > limit {
            return Err(Refusal::TooLong.at(prefix));
        }
        let start = self.at;
        let text = self.take(length)?;
        check_utf8(text, start)?;
        Ok(text)
    }

    pub fn name(&mut self) -> Judged<&'a [u8]> {
        self.text(0, NAME_ROOM)
    }

    /// The encoded value of a type.
    pub fn value(&mut self, kind: Type) -> Judged<&'a [u8]> {
        let start = self.at;
        match kind {
            Type::Boolean => self.booleans(1)?,
            Type::Double => {
                self.take(8)?;
            }
            Type::String => {
                self.text(2, VALUE_ROOM)?;
            }
            Type::BooleanArray => {
                let count = usize::from(self.u8()?);
                self.booleans(count)?;
            }
            Type::DoubleArray => {
                let count = usize::from(self.u8()?);
                if 1 + 8 * count > VALUE_ROOM {
                    return Err(Refusal::TooLong.at(start));
                }
                self.take(8 * count)?;
            }
            Type::StringArray => {
                for _ in 0..self.u8()? {
                    self.text(self.at - start + 2, VALUE_ROOM)?;
                }
            }
        }
        Ok(&self.bytes[start..self.at])
    }

    /// A bad Boolean byte that is there comes before one that is missing.
    fn booleans(&mut self, count: usize) -> Judged<()> {
        let rest = &self.bytes[self.at..];
        let there = &rest[..count.min(rest.len())];
        if let Some(bad) = there.iter().position(|&byte| byte > 1) {
            return Err(Refusal::Boolean.at(self.at + bad));
        }
        self.take(count)?;
        Ok(())
    }
}

/// A text that starts at this place.
fn check_utf8(text: &[u8], start: usize) -> Judged<()> {
    str::from_utf8(text).map(|_| ()).map_err(|_| Refusal::Text.at(start))
}

/// A name lent without its prefix.
pub fn check_name(name: &[u8]) -> Judged<()> {
    if name.len() > NAME_ROOM {
        return Err(Refusal::TooLong.at(0));
    }
    check_utf8(name, 0)
}

/// A value that has to fill its bytes.
pub fn check_value(kind: Type, bytes: &[u8]) -> Judged<()> {
    let mut reader = Reader::new(bytes);
    reader.value(kind)?;
    if reader.at < bytes.len() {
        return Err(Refusal::TooLong.at(reader.at));
    }
    Ok(())
}

/// An assignment's fields as they are written.
pub struct Assignment<'a> {
    pub name: &'a [u8],
    pub type_code: u8,
    pub id: u16,
    pub number: u16,
    pub value: &'a [u8],
}

impl Assignment<'_> {
    pub fn length(&self) -> usize {
        8 + self.name.len() + self.value.len()
    }

    /// Writes the message at the start of `out`, which has the room, and answers its length.
    pub fn write(&self, out: &mut [u8]) -> usize {
        let out = &mut out[..self.length()];
        let (front, rest) = out.split_at_mut(3);
        let (name, rest) = rest.split_at_mut(self.name.len());
        let (middle, value) = rest.split_at_mut(5);
        let length = (self.name.len() as u16).to_be_bytes();
        front.copy_from_slice(&[ASSIGNMENT, length[0], length[1]]);
        name.copy_from_slice(self.name);
        let (id, number) = (self.id.to_be_bytes(), self.number.to_be_bytes());
        middle.copy_from_slice(&[self.type_code, id[0], id[1], number[0], number[1]]);
        value.copy_from_slice(self.value);
        self.length()
    }
}

/// Writes an update at the start of `out`, which has the room, and answers its length.
pub fn write_update(id: u16, number: u16, value: &[u8], out: &mut [u8]) -> usize {
    let length = 5 + value.len();
    let (front, rest) = out[..length].split_at_mut(5);
    let (id, number) = (id.to_be_bytes(), number.to_be_bytes());
    front.copy_from_slice(&[UPDATE, id[0], id[1], number[0], number[1]]);
    rest.copy_from_slice(value);
    length
}

/// Writes a hello or an unsupported at the start of `out`, which has the room.
pub fn write_revision(kind: u8, revision: u16, out: &mut [u8]) -> usize {
    let revision = revision.to_be_bytes();
    out[..3].copy_from_slice(&[kind, revision[0], revision[1]]);
    3
}

/// Writes the heading of a delivery's message, which `out` has the room for and no more.
pub fn write_heading(recipients: u16, length: usize, out: &mut [u8]) {
    let (front, rest) = out.split_at_mut(2);
    front.copy_from_slice(&recipients.to_be_bytes());
    rest.copy_from_slice(&(length as u32).to_be_bytes());
}

#[cfg(test)]
mod tests {
    extern crate std;

    use super::*;
    use std::vec;
    use std::vec::Vec;

    fn string(length: u16) -> Vec<u8> {
        [&length.to_be_bytes()[..], &[b'x'; 300][..length.into()]].concat()
    }

    /// A count and so many zeros.
    fn array(count: u8, zeros: usize) -> Vec<u8> {
        [&[count][..], &[0; 600][..zeros]].concat()
    }

    #[test]
    fn both_sides_of_the_limits() {
        let cases = [
            (Type::String, string(254), Ok(())),
            (Type::String, string(255), Err(Refusal::TooLong.at(0))),
            (Type::BooleanArray, array(255, 255), Ok(())),
            (Type::DoubleArray, array(31, 248), Ok(())),
            (Type::DoubleArray, array(32, 256), Err(Refusal::TooLong.at(0))),
            (Type::StringArray, array(127, 254), Ok(())),
            (Type::StringArray, array(128, 256), Err(Refusal::TooLong.at(255))),
            (Type::StringArray, array(255, 0), Err(Refusal::Incomplete.at(0))),
            (Type::StringArray, [&[1][..], &string(253)].concat(), Ok(())),
            (Type::StringArray, [&[1][..], &string(254)].concat(), Err(Refusal::TooLong.at(1))),
            (Type::BooleanArray, vec![3, 0, 2], Err(Refusal::Boolean.at(2))),
            (Type::BooleanArray, vec![3, 0, 1], Err(Refusal::Incomplete.at(0))),
            (Type::Boolean, vec![2, 0], Err(Refusal::Boolean.at(0))),
            (Type::Boolean, vec![1, 0], Err(Refusal::TooLong.at(1))),
        ];
        for (kind, value, judged) in cases {
            assert_eq!(check_value(kind, &value), judged, "{kind:?} {value:?}");
        }
        assert_eq!(check_name(&[b'n'; 64]), Ok(()));
        assert_eq!(check_name(&[b'n'; 65]), Err(Refusal::TooLong.at(0)));
    }

    /// A text's fault is at its first byte, wherever the bad byte stands.
    #[test]
    fn texts_that_are_no_utf8() {
        let cases = [
            (Type::String, &b"\x00\x02a\xFF"[..], 2),
            (Type::StringArray, b"\x02\x00\x01a\x00\x03bc\xFF", 6),
            (Type::StringArray, b"\x02\x00\x02a\xFF\x00\x01b", 3),
        ];
        for (kind, value, place) in cases {
            assert_eq!(check_value(kind, value), Err(Refusal::Text.at(place)));
        }
    }

    /// A fault in a message is counted from its start.
    #[test]
    fn places_in_a_message() {
        let message = b"\x10\x00\x02ab\x03";
        let mut reader = Reader::new(message);
        assert_eq!(reader.u8(), Ok(ASSIGNMENT));
        assert_eq!(reader.name(), Ok(&b"ab"[..]));
        assert_eq!(reader.value_type(), Err(Refusal::Type.at(5)));
        for (message, fault) in [
            (&b"\x10\x00\x41"[..], Refusal::TooLong.at(1)),
            (b"\x10\x00\x02a\xC3", Refusal::Text.at(3)),
            (b"\x10\x00\x02a", Refusal::Incomplete.at(0)),
        ] {
            let mut reader = Reader::new(message);
            assert_eq!(reader.u8(), Ok(ASSIGNMENT));
            assert_eq!(reader.name(), Err(fault));
        }
    }

    #[test]
    fn utf8() {
        assert_eq!(check_name(&[0xF4, 0x8F, 0xBF, 0xBF]), Ok(()));
        assert_eq!(check_name(&[0]), Ok(()));
        for text in [&[0xC0, 0x80][..], &[0xED, 0xA0, 0x80], &[0xF4, 0x90, 0x80, 0x80]] {
            assert_eq!(check_name(text), Err(Refusal::Text.at(0)));
        }
    }
}
