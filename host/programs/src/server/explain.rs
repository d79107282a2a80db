//! Why messages were ignored. A delivery does not say which ones were, and those behind them may have
//! changed the entry; so its messages are taken again, one by one, on a table as it stood before it.

use crate::notice::{Ignored, Notice};
use nt2::{Delivery, LONGEST_HELLO_ANSWER, Message, Reason, ServerTable, Standing, Type, decode};

/// The kind of an update.
pub const UPDATE: u8 = 0x11;

/// The messages of a delivery that were ignored, but for keep alives.
pub struct IgnoredMessages {
    connection: usize,
    /// The table as it stood before the delivery.
    table: ServerTable,
    /// All messages that were taken.
    taken: Vec<u8>,
    count: usize,
}

impl IgnoredMessages {
    /// Those of a delivery that was just made, if there are any.
    pub fn of(
        connection: usize,
        delivery: Delivery<'_>,
        input: &[u8],
        before: &Standing,
        after: &ServerTable,
    ) -> Option<Self> {
        let ignored = delivery.ignored();
        if ignored == 0 {
            return None;
        }
        let taken = &input[..delivery.taken];
        let count = ignored - keep_alives(after, taken);
        (count > 0).then(|| {
            let (table, taken) = (after.back_to(before), taken.to_vec());
            IgnoredMessages { connection, table, taken, count }
        })
    }

    pub fn count(&self) -> usize {
        self.count
    }

    /// A notice for each of them, in their order.
    pub fn notices(self) -> Vec<Notice> {
        let IgnoredMessages { connection, mut table, taken, count } = self;
        let mut out = vec![0; LONGEST_HELLO_ANSWER];
        let (mut rest, mut notices) = (&taken[..], Vec::with_capacity(count));
        while notices.len() < count
            && let Some((message, length)) = first_message(&table, rest)
        {
            match notice(&table, connection, rest, &message) {
                Some(notice) => notices.push(notice),
                // It was taken before, so it is taken again.
                None => drop(table.receive(connection, rest, &mut out)),
            }
            rest = &rest[length..];
        }
        notices
    }
}

/// The first message of a client's bytes, and its length. There is none where it is not complete, or
/// refused in every state of the connection.
fn first_message<'a>(table: &ServerTable, bytes: &'a [u8]) -> Option<(Message<'a>, usize)> {
    let value_type = match *bytes {
        [UPDATE, high, low, ..] => table.entry(u16::from_be_bytes([high, low]))?.value_type,
        // Not looked at.
        _ => Type::Boolean,
    };
    decode(bytes, value_type).ok()
}

/// How many of the messages taken are keep alives. A table after them has the types of their updates:
/// no entry's type changes, and none goes away.
fn keep_alives(table: &ServerTable, mut taken: &[u8]) -> usize {
    let mut count = 0;
    while let Some((message, length)) = first_message(table, taken) {
        count += usize::from(message == Message::KeepAlive);
        taken = &taken[length..];
    }
    count
}

/// Why the first message of a client's bytes is ignored. None if it is done, or a keep alive.
fn notice(
    table: &ServerTable,
    connection: usize,
    bytes: &[u8],
    message: &Message<'_>,
) -> Option<Notice> {
    let (name, why) = match (table.why(connection, bytes), *message) {
        (Reason::NameHeld { id }, Message::Assignment { name, .. }) => {
            (name, Ignored::NameHeld { id })
        }
        (reason, Message::Update { id, number, .. }) => {
            let entry = table.entry(id)?;
            (entry.name, ignored_update(reason, number, entry.number)?)
        }
        _ => return None,
    };
    Some(Notice::Ignored { connection, name: name.to_vec(), why })
}

/// Why an update with this number is ignored, if it is.
fn ignored_update(reason: Reason, number: u16, stored: u16) -> Option<Ignored> {
    Some(match reason {
        Reason::Equal => Ignored::Equal { number },
        Reason::Older { by } => Ignored::Older { number, stored, by },
        Reason::Undefined => Ignored::Undefined { number, stored },
        _ => return None,
    })
}

#[cfg(test)]
mod tests {
    use super::*;
    use nt2::{Ended, HEADING, LONGEST_ASSIGNMENT, Refusal, encode};

    /// A table with the Boolean "a" and the String "b", and connection 3 open.
    fn opened() -> ServerTable {
        let mut table = ServerTable::new();
        let mut out = [0; LONGEST_ASSIGNMENT];
        table.create(b"a", Type::Boolean, &[0], &mut out).unwrap();
        table.create(b"b", Type::String, &[0, 0], &mut out).unwrap();
        table.open(3).unwrap();
        table
    }

    fn bytes_of(message: Message<'_>) -> Vec<u8> {
        let mut out = vec![0; LONGEST_ASSIGNMENT];
        let length = encode(&message, &mut out).unwrap();
        out.truncate(length);
        out
    }

    fn hello(revision: u16) -> Vec<u8> {
        bytes_of(Message::Hello { revision })
    }

    /// An update of "a", or of "b" with one of several lengths.
    fn update(id: u16, number: u16) -> Vec<u8> {
        let length = number % 7;
        let text = [&length.to_be_bytes()[..], &vec![b'v'; length.into()]].concat();
        let (value_type, value) =
            if id == 0 { (Type::Boolean, &[1][..]) } else { (Type::String, &text[..]) };
        bytes_of(Message::Update { value_type, id, number, value })
    }

    fn new_entry(name: &str) -> Vec<u8> {
        let (name, value_type, value) = (name.as_bytes(), Type::String, b"\0\x01v");
        bytes_of(Message::Assignment { name, value_type, id: 0xFFFF, number: 0, value })
    }

    fn said(messages: IgnoredMessages) -> Vec<String> {
        let (count, notices) = (messages.count(), messages.notices());
        assert_eq!(count, notices.len());
        notices.iter().map(ToString::to_string).collect()
    }

    /// Makes a delivery, as the owner does. Answers how it ended, the bytes taken and what is said of
    /// the messages that were ignored, which a copy of the whole table before it says too.
    fn deliver(table: &mut ServerTable, input: &[u8], room: usize) -> (Ended, usize, Vec<String>) {
        let (mut out, copy, before) = (vec![0; room], table.clone(), table.standing());
        let delivery = table.deliver(3, input, &mut out);
        let Some(messages) = IgnoredMessages::of(3, delivery, input, &before, table) else {
            return (delivery.ended, delivery.taken, Vec::new());
        };
        let (taken, count) = (messages.taken.clone(), messages.count());
        let by_copy = IgnoredMessages { connection: 3, table: copy, taken, count };
        let said_of_them = said(messages);
        assert_eq!(said_of_them, said(by_copy));
        (delivery.ended, delivery.taken, said_of_them)
    }

    const ROOM: usize = HEADING + LONGEST_HELLO_ANSWER;

    #[test]
    fn reasons_are_those_of_their_moment() {
        let input = [
            hello(0x0200),
            update(0, 1),
            update(0, 9),
            new_entry("c"),
            update(0, 2),
            vec![0x00],
            new_entry("c"),
            update(0, 32_777),
            update(0, 32_776),
            update(0, 32_777),
            update(0, 32_777),
        ];
        let mut table = opened();
        let (ended, _, said) = deliver(&mut table, &input.concat(), ROOM);
        let expected = [
            r#"connection 3: update of "a" ignored: number 1 is the one that is stored"#,
            r#"connection 3: update of "a" ignored: number 2 is older than 9 by 7"#,
            r#"connection 3: assignment of "c" ignored: entry 2 has this name"#,
            r#"connection 3: update of "a" ignored: number 32777 and the stored 9 are 32,768 apart, so neither is greater"#,
            r#"connection 3: update of "a" ignored: number 32777 is the one that is stored"#,
        ];
        assert_eq!((ended, said), (Ended::Spent, expected.map(String::from).to_vec()));
        assert_eq!((table.count(), table.entry(0).unwrap().number), (3, 32_777));
    }

    #[test]
    fn nothing_is_said_of_keep_alives_and_of_messages_that_are_done() {
        let nothing = Vec::<String>::new();
        for input in [vec![], vec![0x00], vec![0x00; 70], [hello(0x0200), update(0, 2)].concat()] {
            assert_eq!(deliver(&mut opened(), &input, ROOM).2, nothing);
        }
    }

    #[test]
    fn deliveries_that_end_before_their_input() {
        let older = r#"connection 3: update of "a" ignored: number 0 is older than 1 by 1"#;
        // No room for the last message.
        let mut table = opened();
        let input = [hello(0x0200), update(0, 0), update(0, 2), update(0, 3)].concat();
        let answer = 10 + 11 + 1;
        let (ended, taken, said) = deliver(&mut table, &input, HEADING + answer + HEADING + 6);
        assert_eq!((ended, said), (Ended::Refused(Refusal::Room), vec![older.into()]));
        let (ended, _, said) = deliver(&mut table, &input[taken..], ROOM);
        assert_eq!((ended, said), (Ended::Spent, vec![]));
        // A message that is refused, and one that is not complete.
        for end in [&[0x04][..], &[0x11, 0x00]] {
            let input = [&hello(0x0200), &update(0, 0), &update(0, 2), end, &update(0, 0)].concat();
            assert_eq!(deliver(&mut opened(), &input, ROOM).2, [older]);
        }
        // A hello for another revision closes the connection.
        let input = [vec![0x00], hello(0x0300), update(0, 0)].concat();
        let (ended, taken, said) = deliver(&mut opened(), &input, ROOM);
        assert_eq!((ended, taken, said), (Ended::Refused(Refusal::State), 4, vec![]));
    }

    /// Messages of all kinds that a greeted client sends, by a generator of numbers.
    fn messages(mut seed: u32) -> Vec<Vec<u8>> {
        let mut below = |bound: u32| {
            seed = seed.wrapping_mul(1_664_525).wrapping_add(1_013_904_223);
            (seed >> 16) % bound
        };
        let mut message = || match below(8) {
            0 => vec![0x00],
            1 => new_entry(&below(6).to_string()),
            2 => update(below(2) as u16, 32_768 + below(8) as u16),
            _ => update(below(2) as u16, below(8) as u16),
        };
        (0..200).map(|_| message()).collect()
    }

    #[test]
    fn messages_together_as_one_by_one() {
        for seed in 0..20 {
            let (mut together, mut alone) = (opened(), opened());
            deliver(&mut together, &hello(0x0200), ROOM);
            deliver(&mut alone, &hello(0x0200), ROOM);
            let messages = messages(seed);
            let one_by_one: Vec<_> =
                messages.iter().flat_map(|bytes| deliver(&mut alone, bytes, ROOM).2).collect();
            let (input, mut all, mut said) = (messages.concat(), 0, Vec::new());
            while all < input.len() {
                let (_, taken, lines) = deliver(&mut together, &input[all..], ROOM);
                all += taken;
                said.extend(lines);
            }
            assert!(said.len() > 50);
            assert_eq!(said, one_by_one, "seed {seed}");
        }
    }
}
