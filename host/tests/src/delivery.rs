//! A delivery beside single calls.

use crate::implementation::Implementation;
use crate::memory::Memory;
use nt2_sys::{Answer, DELIVERY_MESSAGES, Delivered, HEADING};

/// A hello that is accepted where it is done.
pub const HELLO: &[u8] = &[0x01, 0x02, 0x00];

/// What a delivery can be like: so many sorts.
pub const SORTS: usize = 14;

/// A message of a delivery, as a single call takes it.
#[derive(Clone, Debug)]
pub struct Taken<'a> {
    pub message: &'a [u8],
    pub answer: Answer,
    /// Bytes of output left before the heading.
    pub left: usize,
}

/// What single calls make of a delivery's input.
#[derive(Clone, Debug, Default)]
pub struct SingleCalls<'a> {
    pub delivered: Delivered,
    pub messages: Vec<Taken<'a>>,
    /// Bytes of output left at the end.
    pub left: usize,
}

impl<'a> SingleCalls<'a> {
    /// Makes a delivery by single calls, each lent the output left behind its heading, and none where
    /// there is no room for that.
    pub fn make<I: Implementation>(
        server: &mut Memory,
        connection: usize,
        input: &'a [u8],
        out: &mut [u8],
    ) -> Self {
        let mut made = SingleCalls::default();
        let delivered = &mut made.delivered;
        delivered.number = number_without_message::<I>(server, connection);
        while delivered.number == 0 {
            if delivered.taken == input.len() {
                delivered.ended = Delivered::SPENT;
                break;
            }
            if delivered.messages == DELIVERY_MESSAGES {
                delivered.ended = Delivered::MAX_REACHED;
                break;
            }
            let message = &input[delivered.taken..];
            let rest = &mut out[delivered.written..];
            let left = rest.len();
            let (heading, room) = rest.split_at_mut(HEADING.min(left));
            let (table, marks) = server.lend();
            let answer = I::receive(table, marks, connection, message, room);
            match answer.number {
                0 => {
                    put_heading(&answer, heading);
                    delivered.written += HEADING + answer.sent;
                }
                16 => {}
                refused => {
                    (delivered.number, delivered.place) = (refused, answer.place);
                    break;
                }
            }
            delivered.messages += 1;
            delivered.taken += answer.taken;
            made.messages.push(Taken { message: &message[..answer.taken], answer, left });
        }
        made.left = out.len() - made.delivered.written;
        made
    }

    /// What a delivery can be like, and whether this one is.
    pub fn sorts(&self) -> [(&'static str, bool); SORTS] {
        let Delivered { number, ended, messages, written, .. } = self.delivered;
        let (spent, refused) = (ended == Delivered::SPENT, ended == Delivered::REFUSED);
        let (without_room, most) = (number == 12, messages == DELIVERY_MESSAGES);
        let ignored_without_room = |t: &Taken<'_>| t.answer.number == 16 && t.left == 0;
        let hello = |t: &Taken<'_>| t.message == HELLO;
        let long_answer = |t: &Taken<'_>| t.answer.sent >= 1 << 14;
        let other_hello = |t: &Taken<'_>| t.message[0] == HELLO[0] && !hello(t);
        [
            ("without input", spent && messages == 0),
            ("input spent", spent && messages > 0),
            ("input spent by 64 messages", spent && most),
            ("after 64 messages", ended == Delivered::MAX_REACHED),
            ("refused first", refused && messages == 0),
            ("refused behind ignored", refused && messages > 0 && written == 0),
            ("refused behind done", refused && written > 0),
            ("no room first", without_room && messages == 0),
            ("no room behind done", without_room && written > 0),
            ("no room for a heading", without_room && (1..HEADING).contains(&self.left)),
            ("ignored without room", self.messages.iter().any(ignored_without_room)),
            ("hello before others", self.messages.iter().rev().skip(1).any(hello)),
            ("long hello answer", self.messages.iter().any(long_answer)),
            ("refused when closed", number == 3 && self.messages.last().is_some_and(other_hello)),
        ]
    }
}

/// What is refused without a message: 14, 2 or 3, or 0 if nothing is.
fn number_without_message<I: Implementation>(server: &mut Memory, connection: usize) -> u8 {
    let (table, marks) = server.lend();
    match I::receive(table, marks, connection, &[], &mut []).number {
        1 => 0,
        refused => refused,
    }
}

fn put_heading(answer: &Answer, heading: &mut [u8]) {
    heading[..2].copy_from_slice(&answer.recipients.to_be_bytes());
    heading[2..].copy_from_slice(&(answer.sent as u32).to_be_bytes());
}
