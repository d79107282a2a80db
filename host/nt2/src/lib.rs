//! A shared table server, NetworkTables revision 2.0, over libnt2.a.
//!
//! [`ServerTable`] is the server half and [`CopyTable`] the client's copy; both own their memory.
//! [`encode`] and [`decode`] write and read single messages. A name is given as its bytes alone, a
//! value as it is encoded: a String's length, an array's count and the elements' lengths are part of
//! it.
//!
//! ```
//! use nt2::{LONGEST_HELLO_ANSWER, Received, ServerTable, Type};
//!
//! let mut out = [0; LONGEST_HELLO_ANSWER];
//! let mut table = ServerTable::new();
//! table.create(b"tare", Type::Boolean, &[0], &mut out)?;
//! table.open(3)?;
//! match table.receive(3, &[0x01, 0x02, 0x00], &mut out)? {
//!     Received::Done { taken, sent } => {
//!         assert_eq!(taken, 3);
//!         assert_eq!(sent.bytes, b"\x10\x00\x04tare\x00\x00\x00\x00\x01\x00\x03");
//!         assert!(sent.recipients.iter().eq([3]));
//!     }
//!     Received::Ignored { .. } => unreachable!(),
//! }
//! # Ok::<(), nt2::Refusal>(())
//! ```
//!
//! [`ServerTable::deliver`] takes up to 64 messages of a client's bytes in one call. What those before
//! a refused one have done stands, and is sent:
//!
//! ```
//! use nt2::{Ended, HEADING, LONGEST_HELLO_ANSWER, Refusal, ServerTable};
//!
//! let mut out = [0; HEADING + LONGEST_HELLO_ANSWER];
//! let mut table = ServerTable::new();
//! table.open(3)?;
//! // A hello, a keep alive, a new entry and half of a message.
//! let input = b"\x01\x02\x00\x00\x10\x00\x04tare\x00\xFF\xFF\x00\x00\x01\x11\x00";
//! let delivery = table.deliver(3, input, &mut out);
//! assert_eq!(delivery.ended, Ended::Refused(Refusal::Incomplete));
//! assert_eq!((delivery.messages, &input[delivery.taken..]), (3, &b"\x11\x00"[..]));
//! let sent: Vec<_> = delivery.sent().map(|sent| (sent.recipients.0, sent.bytes)).collect();
//! let assigned = b"\x10\x00\x04tare\x00\x00\x00\x00\x01\x01";
//! assert_eq!(sent, [(1 << 3, &b"\x03"[..]), (1 << 3, assigned)]);
//! # Ok::<(), nt2::Refusal>(())
//! ```
//!
//! [`ServerTable::why`] says why a message is done, ignored or refused, and changes nothing:
//!
//! ```
//! use nt2::{LONGEST_HELLO_ANSWER, Reason, Refusal, ServerTable, Type};
//!
//! let mut out = [0; LONGEST_HELLO_ANSWER];
//! let mut table = ServerTable::new();
//! table.create(b"tare", Type::Boolean, &[0], &mut out)?;
//! table.open(3)?;
//! table.receive(3, &[0x01, 0x02, 0x00], &mut out)?;
//! // An update of entry 0, whose number is 1, with the number 0, and one of an entry that there is not.
//! let why = table.why(3, &[0x11, 0x00, 0x00, 0x00, 0x00, 0x01]);
//! assert_eq!(why, Reason::Older { by: 1 });
//! let why = table.why(3, &[0x11, 0x00, 0x01]);
//! assert_eq!(why, Reason::Refused { refusal: Refusal::UnknownId, place: 1 });
//! assert_eq!(why.to_string(), "refused with 6, ID is not in the table, at byte 1 of the message");
//! # Ok::<(), nt2::Refusal>(())
//! ```
//!
//! [`ServerTable::replay`] makes a table of what a line recorder wrote:
//!
//! ```
//! use nt2::{BadRecord, ServerTable, State};
//!
//! let mut table = ServerTable::new();
//! // Connection 3 opens, says hello and makes an entry, and the plant's own code writes its value.
//! let record = b"\x01\x03\x42\x03\x01\x02\x00\x4C\x03\x10\x00\x04tare\x00\xFF\xFF\x00\x00\x01\
//!     \x45\x10\x11\x00\x00\x00\x00\x00";
//! let replay = table.replay(record);
//! assert_eq!((replay.records, replay.refused), (4, None));
//! assert_eq!(table.state(3), Some(State::Greeted));
//! let entry = table.entry(0).unwrap();
//! assert_eq!((entry.name, entry.number, entry.value), (&b"tare"[..], 2, &[0][..]));
//! // Cut in its last record: the others are done.
//! let replay = table.replay(&record[..record.len() - 1]);
//! assert_eq!((replay.records, replay.refused), (3, Some(BadRecord::Cut)));
//! ```
//!
//! [`ServerTable::save`] writes the saved form of a table, and [`ServerTable::load`] makes its entries of
//! such a form. A refusal leaves the entries that there are:
//!
//! ```
//! use nt2::{LONGEST_SAVED, Place, Refusal, ServerTable, Type};
//!
//! let mut table = ServerTable::new();
//! table.create(b"tare", Type::Boolean, &[1], &mut [0; 20])?;
//! let mut saved = [0; LONGEST_SAVED];
//! let length = table.save(&mut saved)?.len();
//! let mut loaded = ServerTable::new();
//! loaded.load(&saved[..length])?;
//! assert_eq!(loaded.entry(0), table.entry(0));
//! // A part of it, and one with a value that is not Boolean.
//! assert_eq!(loaded.load(&saved[..length - 1]), Err(Refusal::Incomplete));
//! saved[73] = 7;
//! let refused = loaded.load(&saved[..length]);
//! assert_eq!(refused, Err(Refusal::Boolean(Place::Saved(73))));
//! assert_eq!(loaded.entry(0), table.entry(0));
//! # Ok::<(), nt2::Refusal>(())
//! ```
//!
//! A [`Refusal`] says what is wrong and, of a bad type, Boolean, text or length, where it stands:
//!
//! ```
//! use nt2::{Place, Refusal, ServerTable, Type};
//!
//! let refused = ServerTable::new().create(b"lots", Type::BooleanArray, &[2, 1, 7], &mut []);
//! let refusal = refused.unwrap_err();
//! assert_eq!(refusal, Refusal::Boolean(Place::Value(2)));
//! assert_eq!(refusal.place().map(Place::byte), Some(2));
//! assert_eq!(refusal.to_string(), "Boolean byte is not 0 or 1, at byte 2 of the value");
//! ```

mod answers;
mod copy;
pub mod lent;
mod memory;
mod message;
mod number;
mod server;

pub use answers::{
    BadRecord, Copied, Delivery, Ended, Place, Reason, Received, Recipients, Refusal, Replay,
    Scalar, Sent, Written,
};
pub use copy::CopyTable;
pub use memory::Entry;
pub use message::{Message, Type, decode, encode};
pub use nt2_sys::{
    CONNECTIONS, DELIVERY_MESSAGES, ENTRIES, HEADING, LONGEST_ASSIGNMENT, LONGEST_HELLO_ANSWER,
    LONGEST_SAVED, LONGEST_UPDATE, NAME_ROOM, PLANT, RECORD_DATA, SAVED_ENTRY, SAVED_FIRST,
    VALUE_ROOM,
};
pub use server::{ServerTable, Standing, State};
