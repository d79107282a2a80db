//! The C interface of libnt2.a: its structs, and with the feature `link` its functions.
//!
//! A field that an answer does not use is 0 (false).

#![no_std]

use core::iter;

/// Entries of a table.
pub const ENTRIES: usize = 64;
/// Bytes of the longest name.
pub const NAME_ROOM: usize = 64;
/// Bytes of the longest encoded value, prefix or count included.
pub const VALUE_ROOM: usize = 256;
/// Bytes from one entry's name to the next one's. The value stands behind the name's room.
pub const ENTRY_ROOM: usize = NAME_ROOM + VALUE_ROOM;
/// Bytes of a table.
pub const TABLE_BYTES: usize = ENTRIES * ENTRY_ROOM;
/// Connections of a server, 0 to 15.
pub const CONNECTIONS: usize = 16;
/// Bytes of the longest assignment.
pub const LONGEST_ASSIGNMENT: usize = 8 + NAME_ROOM + VALUE_ROOM;
/// Bytes of the longest update.
pub const LONGEST_UPDATE: usize = 5 + VALUE_ROOM;
/// Bytes of the longest answer to a hello.
pub const LONGEST_HELLO_ANSWER: usize = ENTRIES * LONGEST_ASSIGNMENT + 1;
/// Bytes of the heading before what each message of a delivery sends.
pub const HEADING: usize = 6;
/// Messages of a delivery at most.
pub const DELIVERY_MESSAGES: usize = 64;

/// Bytes that came in, at most, in one record of a line record.
pub const RECORD_DATA: usize = 64;
/// The connection of a record with what the plant's own code did.
pub const PLANT: usize = CONNECTIONS;

/// Bytes of a saved table's first record: kind and count.
pub const SAVED_FIRST: usize = 2;
/// Bytes of a saved entry: kind, the name behind its length, type, number, and the value behind its
/// length.
pub const SAVED_ENTRY: usize = 2 + NAME_ROOM + 5 + VALUE_ROOM;
/// Bytes of the longest saved table.
pub const LONGEST_SAVED: usize = SAVED_FIRST + ENTRIES * SAVED_ENTRY;

/// `nt2_head`: one entry head.
#[repr(C)]
#[derive(Clone, Copy, Debug, Default, PartialEq, Eq)]
pub struct Head {
    pub name_length: u16,
    pub value_length: u16,
    pub type_code: u16,
    pub number: u16,
}

/// `nt2_answer`: number, recipients, bytes taken and sent.
///
/// With the numbers 7 to 10 `place` is that of the first byte of the field that failed, counted from
/// the start of the message, name, value or saved table lent; it is 0 for a type given as a number,
/// and with every other number.
#[repr(C)]
#[derive(Clone, Copy, Debug, Default, PartialEq, Eq)]
pub struct Answer {
    pub number: u8,
    pub recipients: u16,
    pub taken: usize,
    pub sent: usize,
    pub place: usize,
}

/// `nt2_delivered`: what came of a delivery. With a refusal it tells what was done before it too, and
/// its `place`, which is as in [`Answer`], counts from the refused message's first byte.
#[repr(C)]
#[derive(Clone, Copy, Debug, Default, PartialEq, Eq)]
pub struct Delivered {
    pub number: u8,
    pub ended: u8,
    pub messages: usize,
    pub taken: usize,
    pub written: usize,
    pub place: usize,
}

/// What `ended` says.
impl Delivered {
    /// A message was refused.
    pub const REFUSED: u8 = 0;
    /// No input is left.
    pub const SPENT: u8 = 1;
    /// [`DELIVERY_MESSAGES`] were taken, and input is left.
    pub const MAX_REACHED: u8 = 2;
}

/// The recipients of each heading and the bytes behind it, in what a delivery wrote. Panics where a
/// heading is cut, or names more bytes than there are.
pub fn headed(mut written: &[u8]) -> impl Iterator<Item = (u16, &[u8])> {
    iter::from_fn(move || {
        if written.is_empty() {
            return None;
        }
        let whole = written.split_first_chunk::<HEADING>().expect("a whole heading");
        let (&[r, s, a, b, c, d], rest) = whole;
        let (bytes, rest) = rest.split_at(u32::from_be_bytes([a, b, c, d]) as usize);
        written = rest;
        Some((u16::from_be_bytes([r, s]), bytes))
    })
}

/// `nt2_reason`: which check decides a message, and the number that `nt2_receive` answers with.
///
/// `id` is that of the entry that has an assignment's name, `distance` that of an update's number from
/// the stored one. With a refusal `place` is that of the first byte of the field that failed, counted
/// from the start of the message: with the numbers 7 to 10 as in [`Answer`], with 1 that of the first
/// field not wholly there, with 4 that of the kind, with 5 and 6 that of the ID.
#[repr(C)]
#[derive(Clone, Copy, Debug, Default, PartialEq, Eq)]
pub struct Reason {
    pub reason: u8,
    pub number: u8,
    pub id: u16,
    pub distance: u16,
    pub place: usize,
}

/// What `reason` says.
impl Reason {
    /// Refused: `number` and `place` tell of it.
    pub const REFUSED: u8 = 0;
    /// Ignored: a keep alive.
    pub const KEEP_ALIVE: u8 = 1;
    /// Ignored: the entry `id` has the assignment's name.
    pub const NAME_HELD: u8 = 2;
    /// Ignored: the update's number is the stored one.
    pub const EQUAL: u8 = 3;
    /// Ignored: the update's number is older, by `distance`, 1 to 32,767.
    pub const OLDER: u8 = 4;
    /// Ignored: the numbers are 32,768 apart, which is `distance`, so neither is greater.
    pub const UNDEFINED: u8 = 5;
    /// Done: the update's number is greater, by `distance`, 1 to 32,767.
    pub const APPLIED: u8 = 6;
    /// Done: a hello of any revision, or a new assignment.
    pub const DONE: u8 = 7;
}

/// `nt2_replayed`: what came of a line record, and how many of its records were done.
#[repr(C)]
#[derive(Clone, Copy, Debug, Default, PartialEq, Eq)]
pub struct Replayed {
    pub number: u8,
    pub records: usize,
}

/// `nt2_scalar`: `found` is 0 for a Boolean, 1 for a Double, 2 for neither, and 0 with a refusal.
#[repr(C)]
#[derive(Clone, Copy, Debug, Default, PartialEq)]
pub struct Scalar {
    pub number: u8,
    pub found: u8,
    pub flag: bool,
    pub value: f64,
}

/// `nt2_copied`: the copy's answer. Its `place` is as in [`Answer`].
#[repr(C)]
#[derive(Clone, Copy, Debug, Default, PartialEq, Eq)]
pub struct Copied {
    pub number: u8,
    pub revision: u16,
    pub taken: usize,
    pub place: usize,
}

/// `nt2_fields`: a message's fields. A name starts at byte 3, a value ends at byte `taken`. With a
/// refusal there are number and `place` alone, which is as in [`Answer`].
#[repr(C)]
#[derive(Clone, Copy, Debug, Default, PartialEq, Eq)]
pub struct Fields {
    pub number: u8,
    pub kind: u8,
    pub type_code: u8,
    pub revision: u16,
    pub id: u16,
    pub entry_number: u16,
    pub taken: usize,
    pub name_length: usize,
    pub value_length: usize,
    pub place: usize,
}

/// A table as it is lent to a call: heads, bytes and count.
#[derive(Debug)]
pub struct LentTable<'a> {
    pub heads: &'a mut [Head],
    pub bytes: &'a mut [u8],
    pub count: &'a mut u16,
}

#[cfg(feature = "link")]
pub use functions::*;

#[cfg(feature = "link")]
mod functions {
    use crate::{Answer, Copied, Delivered, Fields, Head, Reason, Replayed, Scalar};

    unsafe extern "C" {
        pub fn nt2_fresh(
            heads: *mut Head,
            heads_length: usize,
            bytes: *mut u8,
            bytes_length: usize,
            count: *mut u16,
            marks: *mut u8,
            marks_length: usize,
        ) -> Answer;

        pub fn nt2_open(
            heads: *mut Head,
            heads_length: usize,
            bytes: *mut u8,
            bytes_length: usize,
            count: *mut u16,
            marks: *mut u8,
            marks_length: usize,
            connection: usize,
        ) -> Answer;

        pub fn nt2_leave(
            heads: *mut Head,
            heads_length: usize,
            bytes: *mut u8,
            bytes_length: usize,
            count: *mut u16,
            marks: *mut u8,
            marks_length: usize,
            connection: usize,
        ) -> Answer;

        pub fn nt2_receive(
            heads: *mut Head,
            heads_length: usize,
            bytes: *mut u8,
            bytes_length: usize,
            count: *mut u16,
            marks: *mut u8,
            marks_length: usize,
            connection: usize,
            message: *const u8,
            message_length: usize,
            out: *mut u8,
            out_length: usize,
        ) -> Answer;

        pub fn nt2_deliver(
            heads: *mut Head,
            heads_length: usize,
            bytes: *mut u8,
            bytes_length: usize,
            count: *mut u16,
            marks: *mut u8,
            marks_length: usize,
            connection: usize,
            input: *const u8,
            input_length: usize,
            out: *mut u8,
            out_length: usize,
        ) -> Delivered;

        pub fn nt2_why(
            heads: *mut Head,
            heads_length: usize,
            bytes: *mut u8,
            bytes_length: usize,
            count: *mut u16,
            marks: *mut u8,
            marks_length: usize,
            connection: usize,
            message: *const u8,
            message_length: usize,
        ) -> Reason;

        pub fn nt2_replay(
            heads: *mut Head,
            heads_length: usize,
            bytes: *mut u8,
            bytes_length: usize,
            count: *mut u16,
            marks: *mut u8,
            marks_length: usize,
            record: *const u8,
            record_length: usize,
        ) -> Replayed;

        pub fn nt2_save(
            heads: *mut Head,
            heads_length: usize,
            bytes: *mut u8,
            bytes_length: usize,
            count: *mut u16,
            out: *mut u8,
            out_length: usize,
        ) -> Answer;

        pub fn nt2_load(
            heads: *mut Head,
            heads_length: usize,
            bytes: *mut u8,
            bytes_length: usize,
            count: *mut u16,
            marks: *mut u8,
            marks_length: usize,
            saved: *const u8,
            saved_length: usize,
        ) -> Answer;

        pub fn nt2_create(
            heads: *mut Head,
            heads_length: usize,
            bytes: *mut u8,
            bytes_length: usize,
            count: *mut u16,
            marks: *mut u8,
            marks_length: usize,
            name: *const u8,
            name_length: usize,
            type_code: u8,
            value: *const u8,
            value_length: usize,
            out: *mut u8,
            out_length: usize,
        ) -> Answer;

        pub fn nt2_write(
            heads: *mut Head,
            heads_length: usize,
            bytes: *mut u8,
            bytes_length: usize,
            count: *mut u16,
            marks: *mut u8,
            marks_length: usize,
            id: u16,
            value: *const u8,
            value_length: usize,
            out: *mut u8,
            out_length: usize,
        ) -> Answer;

        pub fn nt2_read(
            heads: *mut Head,
            heads_length: usize,
            bytes: *mut u8,
            bytes_length: usize,
            count: *mut u16,
            id: u16,
        ) -> Scalar;

        pub fn nt2_encode(
            kind: u8,
            revision: u16,
            name: *const u8,
            name_length: usize,
            type_code: u8,
            id: u16,
            entry_number: u16,
            value: *const u8,
            value_length: usize,
            out: *mut u8,
            out_length: usize,
        ) -> Answer;

        pub fn nt2_decode(bytes: *const u8, bytes_length: usize, update_type: u8) -> Fields;

        pub fn nt2_copy_fresh(
            heads: *mut Head,
            heads_length: usize,
            bytes: *mut u8,
            bytes_length: usize,
            count: *mut u16,
        ) -> Answer;

        pub fn nt2_copy_receive(
            heads: *mut Head,
            heads_length: usize,
            bytes: *mut u8,
            bytes_length: usize,
            count: *mut u16,
            message: *const u8,
            message_length: usize,
        ) -> Copied;
    }
}

const _: () = assert!(SAVED_ENTRY == 327 && LONGEST_SAVED == 20_930);

/// Sizes that a C compiler gives these structs on x86-64.
#[cfg(target_pointer_width = "64")]
const _: () = {
    assert!(size_of::<Head>() == 8);
    assert!(size_of::<Answer>() == 32);
    assert!(size_of::<Delivered>() == 40);
    assert!(size_of::<Reason>() == 16);
    assert!(size_of::<Replayed>() == 16);
    assert!(size_of::<Scalar>() == 16);
    assert!(size_of::<Copied>() == 24);
    assert!(size_of::<Fields>() == 48);
};
