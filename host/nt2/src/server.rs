//! The server half.

use crate::answers::{
    Delivery, Place, Reason, Received, Recipients, Refusal, Replay, Scalar, Sent, Written, is_done,
};
use crate::lent;
use crate::memory::{Entry, Memory, Numbers};
use crate::message::Type;
use crate::number::DONE;
use nt2_sys::{Answer, CONNECTIONS};

/// A connection's state.
#[derive(Clone, Copy, Debug, PartialEq, Eq)]
pub enum State {
    Closed,
    Open,
    Greeted,
}

/// A server's table with its connections.
#[derive(Clone)]
pub struct ServerTable {
    memory: Memory,
    marks: [u8; CONNECTIONS],
}

/// What a client's messages change in a table, but for values: how many entries there are, their
/// sequence numbers and the connections' states. An entry's name and type stay, and no stored value
/// plays a part in why a message is done, ignored or refused.
#[derive(Clone, Copy)]
pub struct Standing {
    numbers: Numbers,
    marks: [u8; CONNECTIONS],
}

impl ServerTable {
    /// A table after its fresh start: no entries, all connections closed.
    pub fn new() -> Self {
        let mut table = ServerTable { memory: Memory::new(), marks: [0; CONNECTIONS] };
        table.fresh();
        table
    }

    /// Starts afresh: no entries, all connections closed.
    pub fn fresh(&mut self) {
        let answer = lent::fresh(self.memory.lend(), &mut self.marks);
        assert_eq!(answer.number, DONE, "an owned table is large enough");
    }

    /// Starts afresh and runs a line record again: the calls that its records stand for, without what
    /// they send. A record that is refused ends the run; those before it are done.
    ///
    /// A record is a kind byte and a connection byte. Kind 1: the connection opens. Kind 2: it leaves.
    /// Kinds 64 to 127: behind them stand the kind minus 63 bytes, up to
    /// [`RECORD_DATA`](crate::RECORD_DATA), that came in from the connection, or that the plant's own
    /// code wrote, whose connection is [`PLANT`](crate::PLANT). The plant's assignments, with the ID
    /// 0xFFFF, are run as [`create`](Self::create), its updates as [`write`](Self::write).
    ///
    /// Bytes of a message that is not complete are held until more came in. A message, opening or
    /// leaving that is refused is no refusal of a record: the bytes that came in behind the message
    /// are dropped, and a client's connection leaves.
    pub fn replay(&mut self, record: &[u8]) -> Replay {
        Replay::of(lent::replay(self.memory.lend(), &mut self.marks, record))
    }

    /// Writes the table's saved form at the start of the output, and answers it. It has
    /// [`SAVED_FIRST`](crate::SAVED_FIRST) bytes and [`SAVED_ENTRY`](crate::SAVED_ENTRY) for each entry,
    /// at most [`LONGEST_SAVED`](crate::LONGEST_SAVED). Connections are not saved.
    pub fn save<'o>(&self, out: &'o mut [u8]) -> Result<&'o [u8], Refusal> {
        self.memory.save(out)
    }

    /// Loads a saved table in place of the entries that there are. All connections have to be closed.
    /// All of it is judged first: a refusal changes nothing.
    pub fn load(&mut self, saved: &[u8]) -> Result<(), Refusal> {
        let answer = lent::load(self.memory.lend(), &mut self.marks, saved);
        is_done(answer.number, Some(Place::Saved(answer.place))).map(|_| ())
    }

    /// Opens a closed connection.
    pub fn open(&mut self, connection: usize) -> Result<(), Refusal> {
        let answer = lent::open(self.memory.lend(), &mut self.marks, connection);
        is_done(answer.number, None).map(|_| ())
    }

    /// Closes a connection that is open or greeted.
    pub fn leave(&mut self, connection: usize) -> Result<(), Refusal> {
        let answer = lent::leave(self.memory.lend(), &mut self.marks, connection);
        is_done(answer.number, None).map(|_| ())
    }

    /// Takes the first message of a client's bytes.
    pub fn receive<'a>(
        &mut self,
        connection: usize,
        message: &[u8],
        out: &'a mut [u8],
    ) -> Result<Received<'a>, Refusal> {
        let answer = lent::receive(self.memory.lend(), &mut self.marks, connection, message, out);
        let taken = answer.taken;
        Ok(if is_done(answer.number, Some(Place::Message(answer.place)))? {
            Received::Done { taken, sent: sent(answer, out) }
        } else {
            Received::Ignored { taken }
        })
    }

    /// Takes the messages of a client's bytes in order, each as [`receive`](Self::receive) does, until
    /// one is refused, none is left or [`DELIVERY_MESSAGES`](crate::DELIVERY_MESSAGES) are taken. The
    /// table is judged once for all of them, so this costs far less than single calls.
    ///
    /// What a message sends stands in the output behind a heading of [`HEADING`](crate::HEADING)
    /// bytes. An output of that and [`LONGEST_HELLO_ANSWER`](crate::LONGEST_HELLO_ANSWER) has room
    /// for any message, so one that has no room behind others has it in the next delivery.
    pub fn deliver<'a>(
        &mut self,
        connection: usize,
        input: &[u8],
        out: &'a mut [u8],
    ) -> Delivery<'a> {
        let delivered = lent::deliver(self.memory.lend(), &mut self.marks, connection, input, out);
        Delivery::of(delivered, out)
    }

    /// Says why [`receive`](Self::receive) would take, ignore or refuse the first message of a client's
    /// bytes, with an output that has room for its answer. Changes nothing.
    pub fn why(&self, connection: usize, message: &[u8]) -> Reason {
        self.memory.why(&self.marks, connection, message)
    }

    /// How the table stands now. This costs far less than a copy of the table.
    pub fn standing(&self) -> Standing {
        Standing { numbers: self.memory.numbers(), marks: self.marks }
    }

    /// A copy of the table as it stood earlier, though not before its last fresh start or load, with the
    /// values of now. [`why`](Self::why) answers there as it did then, and goes on to do so behind the messages
    /// that were received since.
    pub fn back_to(&self, standing: &Standing) -> Self {
        ServerTable { memory: self.memory.with_numbers(&standing.numbers), marks: standing.marks }
    }

    /// Creates an entry for the plant's own code.
    pub fn create<'a>(
        &mut self,
        name: &[u8],
        value_type: Type,
        value: &[u8],
        out: &'a mut [u8],
    ) -> Result<Sent<'a>, Refusal> {
        let table = self.memory.lend();
        let answer = lent::create(table, &mut self.marks, name, value_type.code(), value, out);
        is_done(answer.number, Some(Place::in_name_or_value(name, answer)))?;
        Ok(sent(answer, out))
    }

    /// Writes an entry's value for the plant's own code. It is ignored where the value has these bytes
    /// already, whatever its type: minus zero differs from plus zero, and a NaN is equal to one with
    /// the same bytes only.
    pub fn write<'a>(
        &mut self,
        id: u16,
        value: &[u8],
        out: &'a mut [u8],
    ) -> Result<Written<'a>, Refusal> {
        let answer = lent::write(self.memory.lend(), &mut self.marks, id, value, out);
        Ok(if is_done(answer.number, Some(Place::Value(answer.place)))? {
            Written::Done(sent(answer, out))
        } else {
            Written::Ignored
        })
    }

    /// Reads an entry's value, where it is one number or flag.
    pub fn read(&self, id: u16) -> Result<Scalar, Refusal> {
        self.memory.read(id)
    }

    /// Entries held; their IDs are 0 up to this.
    pub fn count(&self) -> usize {
        self.memory.count()
    }

    pub fn entry(&self, id: u16) -> Option<Entry<'_>> {
        self.memory.entry(id)
    }

    /// The state of a connection, 0 to 15.
    pub fn state(&self, connection: usize) -> Option<State> {
        Some(match self.marks.get(connection)? {
            0 => State::Closed,
            1 => State::Open,
            _ => State::Greeted,
        })
    }
}

impl Default for ServerTable {
    fn default() -> Self {
        ServerTable::new()
    }
}

fn sent(answer: Answer, out: &[u8]) -> Sent<'_> {
    Sent { bytes: &out[..answer.sent], recipients: Recipients(answer.recipients) }
}
