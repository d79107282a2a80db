//! One call with its arguments, and what it answers.

use crate::implementation::Implementation;
use crate::memory::{Guarded, Memory};
use crate::{reason, saved};
use nt2_sys::{Answer, Copied, Delivered, Fields, Reason, Replayed, Scalar};
use std::fmt;
use std::hint::black_box;
use std::ops::RangeInclusive;

/// Bytes that are shown as hex.
#[derive(Clone, PartialEq, Eq)]
pub struct Hex(pub Vec<u8>);

impl fmt::Debug for Hex {
    fn fmt(&self, f: &mut fmt::Formatter<'_>) -> fmt::Result {
        self.0.iter().try_for_each(|byte| write!(f, "{byte:02x}"))
    }
}

/// The calls that there are.
pub const CALLS: usize = 18;

/// A call on a server's table, on a copy, or on single messages.
#[derive(Clone, Debug)]
pub enum Call {
    Fresh,
    Open { connection: usize },
    Leave { connection: usize },
    Receive { connection: usize, message: Hex },
    Deliver { connection: usize, input: Hex },
    Replay { record: Hex },
    Why { connection: usize, message: Hex },
    Save,
    Load { saved: Hex },
    Create { name: Hex, type_code: u8, value: Hex },
    Write { id: u16, value: Hex },
    Read { id: u16 },
    Encode { kind: u8, revision: u16, name: Hex, type_code: u8, id: u16, number: u16, value: Hex },
    Decode { bytes: Hex, update_type: u8 },
    CopyFresh,
    CopyReceive { message: Hex },
    CopyRead { id: u16 },
    CopySave,
}

/// The bytes that a call only reads, each in guarded memory.
#[derive(PartialEq)]
struct Inputs {
    message: Guarded<u8>,
    name: Guarded<u8>,
    value: Guarded<u8>,
}

/// The numbers of refusals with a place.
pub const PLACED: RangeInclusive<u8> = 7..=10;

#[derive(Clone, Copy, Debug)]
pub enum Outcome {
    Answer(Answer),
    Scalar(Scalar),
    Fields(Fields),
    Copied(Copied),
    Delivered(Delivered),
    Replayed(Replayed),
    Reason(Reason),
    /// Of a call that changes nothing but the output.
    Saved(Answer),
}

impl Call {
    pub const NAMES: [&'static str; CALLS] = [
        "fresh",
        "open",
        "leave",
        "receive",
        "deliver",
        "replay",
        "why",
        "save",
        "load",
        "create",
        "write",
        "read",
        "encode",
        "decode",
        "copy_fresh",
        "copy_receive",
        "copy_read",
        "copy_save",
    ];

    /// The call's index among the names.
    pub fn index(&self) -> usize {
        match self {
            Call::Fresh => 0,
            Call::Open { .. } => 1,
            Call::Leave { .. } => 2,
            Call::Receive { .. } => 3,
            Call::Deliver { .. } => 4,
            Call::Replay { .. } => 5,
            Call::Why { .. } => 6,
            Call::Save => 7,
            Call::Load { .. } => 8,
            Call::Create { .. } => 9,
            Call::Write { .. } => 10,
            Call::Read { .. } => 11,
            Call::Encode { .. } => 12,
            Call::Decode { .. } => 13,
            Call::CopyFresh => 14,
            Call::CopyReceive { .. } => 15,
            Call::CopyRead { .. } => 16,
            Call::CopySave => 17,
        }
    }

    fn inputs(&self) -> Inputs {
        let (message, name, value): (&[u8], &[u8], &[u8]) = match self {
            Call::Receive { message, .. }
            | Call::Deliver { input: message, .. }
            | Call::Replay { record: message }
            | Call::Why { message, .. }
            | Call::Load { saved: message }
            | Call::CopyReceive { message }
            | Call::Decode { bytes: message, .. } => (&message.0, &[], &[]),
            Call::Create { name, value, .. } | Call::Encode { name, value, .. } => {
                (&[], &name.0, &value.0)
            }
            Call::Write { value, .. } => (&[], &[], &value.0),
            _ => (&[], &[], &[]),
        };
        let lend = |bytes| Guarded::new(bytes, 0xDE);
        Inputs { message: lend(message), name: lend(name), value: lend(value) }
    }

    /// Makes the call: on a server's memory, a copy's memory and an output. Fails where it has
    /// changed what it only reads.
    pub fn perform<I: Implementation>(
        &self,
        server: &mut Memory,
        copy: &mut Memory,
        out: &mut Guarded<u8>,
    ) -> Result<Outcome, String> {
        let inputs = self.inputs();
        let outcome = self.perform_with::<I>(&inputs, server, copy, out.lent_mut());
        // The compiler takes what is lent as shared for unchanged; it has to be read again.
        black_box((&mut *server, &mut *copy));
        if *black_box(&inputs) == self.inputs() {
            Ok(outcome)
        } else {
            Err(format!("{}: message, name or value changed by {self:?}", I::NAME))
        }
    }

    fn perform_with<I: Implementation>(
        &self,
        inputs: &Inputs,
        server: &mut Memory,
        copy: &mut Memory,
        out: &mut [u8],
    ) -> Outcome {
        let (table, marks) = server.lend();
        let (message, name, value) =
            (inputs.message.lent(), inputs.name.lent(), inputs.value.lent());
        match self {
            Call::Fresh => Outcome::Answer(I::fresh(table, marks)),
            Call::Open { connection } => Outcome::Answer(I::open(table, marks, *connection)),
            Call::Leave { connection } => Outcome::Answer(I::leave(table, marks, *connection)),
            Call::Receive { connection, .. } => {
                Outcome::Answer(I::receive(table, marks, *connection, message, out))
            }
            Call::Deliver { connection, .. } => {
                Outcome::Delivered(I::deliver(table, marks, *connection, message, out))
            }
            Call::Replay { .. } => Outcome::Replayed(I::replay(table, marks, message)),
            Call::Why { connection, .. } => {
                Outcome::Reason(I::why(table, marks, *connection, message))
            }
            Call::Save => Outcome::Saved(I::save(table, out)),
            Call::Load { .. } => Outcome::Answer(I::load(table, marks, message)),
            Call::Create { type_code, .. } => {
                Outcome::Answer(I::create(table, marks, name, *type_code, value, out))
            }
            Call::Write { id, .. } => Outcome::Answer(I::write(table, marks, *id, value, out)),
            Call::Read { id } => Outcome::Scalar(I::read(table, *id)),
            _ => self.perform_elsewhere::<I>(inputs, copy, out),
        }
    }

    /// Makes a call on a copy or on single messages.
    fn perform_elsewhere<I: Implementation>(
        &self,
        inputs: &Inputs,
        copy: &mut Memory,
        out: &mut [u8],
    ) -> Outcome {
        let (message, name, value) =
            (inputs.message.lent(), inputs.name.lent(), inputs.value.lent());
        match self {
            Call::Encode { kind, revision, type_code, id, number, .. } => Outcome::Answer(
                I::encode(*kind, *revision, name, *type_code, *id, *number, value, out),
            ),
            Call::Decode { update_type, .. } => Outcome::Fields(I::decode(message, *update_type)),
            Call::CopyFresh => Outcome::Answer(I::copy_fresh(copy.lend_table())),
            Call::CopyReceive { .. } => {
                Outcome::Copied(I::copy_receive(copy.lend_table(), message))
            }
            Call::CopyRead { id } => Outcome::Scalar(I::read(copy.lend_table(), *id)),
            Call::CopySave => Outcome::Saved(I::save(copy.lend_table(), out)),
            _ => unreachable!("a call on a server's table"),
        }
    }
}

impl Outcome {
    pub fn number(&self) -> u8 {
        match self {
            Outcome::Answer(answer) | Outcome::Saved(answer) => answer.number,
            Outcome::Scalar(scalar) => scalar.number,
            Outcome::Fields(fields) => fields.number,
            Outcome::Copied(copied) => copied.number,
            Outcome::Delivered(delivered) => delivered.number,
            Outcome::Replayed(replayed) => replayed.number,
            Outcome::Reason(reason) => reason.number,
        }
    }

    /// Bytes of the output that are written.
    pub fn written(&self) -> usize {
        match self {
            Outcome::Answer(answer) | Outcome::Saved(answer) => answer.sent,
            Outcome::Delivered(delivered) => delivered.written,
            _ => 0,
        }
    }

    /// Whether memory may have changed. Each message of a delivery that is done writes something. A
    /// line record begins with a fresh start, if memory is large enough.
    pub fn may_change_memory(&self) -> bool {
        match self {
            Outcome::Delivered(delivered) => delivered.written > 0,
            Outcome::Replayed(replayed) => replayed.number != 14,
            Outcome::Reason(_) | Outcome::Saved(_) => false,
            _ => self.number() == 0,
        }
    }

    /// The place of a fault; 0 where there is none.
    pub fn place(&self) -> usize {
        match self {
            Outcome::Answer(answer) | Outcome::Saved(answer) => answer.place,
            Outcome::Scalar(_) | Outcome::Replayed(_) => 0,
            Outcome::Fields(fields) => fields.place,
            Outcome::Copied(copied) => copied.place,
            Outcome::Delivered(delivered) => delivered.place,
            Outcome::Reason(reason) => reason.place,
        }
    }

    /// Whether the number can have a place above 0. A reason tells that of a field not there, or of an
    /// ID, too.
    pub fn is_placed(&self) -> bool {
        let number = self.number();
        let told = matches!(self, Outcome::Reason(_)) && matches!(number, 1 | 5 | 6);
        told || PLACED.contains(&number)
    }

    /// Whether there is no place above 0, or the number can have one.
    pub fn keeps_place(&self) -> bool {
        self.place() == 0 || self.is_placed()
    }

    /// Whether a refusal, or a message ignored, says that nothing came of it, whether a delivery's
    /// number belongs to its end, a line record has one of its numbers, a reason the fields that it tells
    /// and a saved table the bytes that it can have, and whether only a refusal that can have a place has one.
    pub fn keeps_form(&self) -> bool {
        let (number, place) = (self.number(), self.place());
        let refused = (1..=15).contains(&number);
        let in_form = match *self {
            Outcome::Delivered(d) => match d.ended {
                Delivered::REFUSED => refused,
                Delivered::SPENT | Delivered::MAX_REACHED => number == 0,
                _ => false,
            },
            Outcome::Replayed(r) => matches!(number, 0 | 1 | 4) || number == 14 && r.records == 0,
            Outcome::Reason(r) => reason::keeps_form(r),
            Outcome::Saved(a) => saved::keeps_form(a),
            _ if number == 0 => true,
            Outcome::Answer(a) => a.sent == 0 && a.recipients == 0 && (!refused || a.taken == 0),
            Outcome::Scalar(s) => s == Scalar { number, ..Scalar::default() },
            Outcome::Fields(f) => f == Fields { number, place, ..Fields::default() },
            Outcome::Copied(c) => !refused || c == Copied { number, place, ..Copied::default() },
        };
        let known = refused || matches!(number, 0 | 16);
        known && in_form && self.keeps_place()
    }
}

/// A NaN is answered as some NaN; other numbers are the same bit by bit.
impl PartialEq for Outcome {
    fn eq(&self, other: &Outcome) -> bool {
        match (self, other) {
            (Outcome::Answer(left), Outcome::Answer(right))
            | (Outcome::Saved(left), Outcome::Saved(right)) => left == right,
            (Outcome::Fields(left), Outcome::Fields(right)) => left == right,
            (Outcome::Copied(left), Outcome::Copied(right)) => left == right,
            (Outcome::Delivered(left), Outcome::Delivered(right)) => left == right,
            (Outcome::Replayed(left), Outcome::Replayed(right)) => left == right,
            (Outcome::Reason(left), Outcome::Reason(right)) => left == right,
            (Outcome::Scalar(left), Outcome::Scalar(right)) => {
                let same_value = left.value.to_bits() == right.value.to_bits()
                    || left.value.is_nan() && right.value.is_nan();
                let found = |s: &Scalar| (s.number, s.found, s.flag);
                found(left) == found(right) && same_value
            }
            _ => false,
        }
    }
}
