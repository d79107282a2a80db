//! The owner of the table.

use super::explain::{IgnoredMessages, UPDATE};
use super::keeper::Keeper;
use super::link::{Link, WRITE_TRY};
use super::notices::Notices;
use super::{Fault, Settings, spawn};
use crate::notice::{Notice, Reason};
use nt2::{
    CONNECTIONS, Delivery, Ended, HEADING, LONGEST_HELLO_ANSWER, Place, Refusal, Sent, ServerTable,
    State,
};
use std::collections::VecDeque;
use std::io;
use std::mem;
use std::net::{SocketAddr, TcpStream};
use std::sync::mpsc::{Receiver, RecvTimeoutError, SyncSender};
use std::sync::{Arc, Weak};
use std::time::{Duration, Instant};

/// At most so many closed connections still have their stream, to send what waits. At the end all
/// have.
pub const MOST_LINGERING: usize = 16;

/// Whether all streams have ended is looked at so often.
const END_LOOK: Duration = Duration::from_millis(10);

/// What the owner is told.
pub enum Event {
    Accepted(io::Result<(TcpStream, SocketAddr)>),
    Arrived { client: ClientKey, bytes: Vec<u8> },
    Ended { client: ClientKey, reason: Reason },
    Stop,
}

/// A client by its connection number, which a later client may have again, and by how many were
/// accepted before it.
#[derive(Clone, Copy, PartialEq, Eq)]
pub struct ClientKey {
    connection: usize,
    accepted_before: u64,
}

struct Client {
    key: ClientKey,
    link: Arc<Link>,
    /// The beginning of a message that is not complete.
    held: Vec<u8>,
}

pub struct Owner {
    table: ServerTable,
    /// None where the table is not kept.
    keeper: Option<Keeper>,
    clients: [Option<Client>; CONNECTIONS],
    /// Closed connections whose reader or writer may still be at work, the oldest first.
    lingering: VecDeque<Weak<Link>>,
    accepted: u64,
    output: Vec<u8>,
    events: SyncSender<Event>,
    settings: Settings,
    notices: Notices,
}

impl Owner {
    /// Readers are given the sender of events.
    pub fn new(
        table: ServerTable,
        keeper: Option<Keeper>,
        events: SyncSender<Event>,
        settings: Settings,
        notices: Notices,
    ) -> Self {
        Owner {
            table,
            keeper,
            clients: [const { None }; CONNECTIONS],
            lingering: VecDeque::new(),
            accepted: 0,
            output: vec![0; HEADING + LONGEST_HELLO_ANSWER],
            events,
            settings,
            notices,
        }
    }

    /// Makes the calls that the events ask for, until it is told to stop.
    pub fn run(mut self, events: &Receiver<Event>) -> Result<(), Fault> {
        while let Some(event) = self.next_event(events) {
            match event {
                Event::Accepted(Ok((stream, peer))) => self.accept(stream, peer),
                Event::Accepted(Err(error)) => self.notices.add(Notice::NotAccepted { error }),
                Event::Arrived { client, bytes } => self.receive(client, &bytes),
                Event::Ended { client, reason } => self.ended(client, reason),
                Event::Stop => break,
            }
        }
        if let Some(keeper) = &mut self.keeper {
            keeper.save_last(&self.table);
        }
        (0..CONNECTIONS).for_each(|connection| self.close(connection, Reason::Stopped));
        self.wait_for_streams(events);
        self.keeper.map_or(Ok(()), Keeper::end)
    }

    /// Waits for the next event, and saves the table meanwhile where that is due.
    fn next_event(&mut self, events: &Receiver<Event>) -> Option<Event> {
        while let Some(keeper) = &mut self.keeper
            && let Some(left) = keeper.time_left()
        {
            if left.is_zero() {
                keeper.save(&self.table);
                continue;
            }
            match events.recv_timeout(left) {
                Ok(event) => return Some(event),
                Err(RecvTimeoutError::Timeout) => {}
                Err(RecvTimeoutError::Disconnected) => return None,
            }
        }
        events.recv().ok()
    }

    /// Waits until what waits for the clients is sent and they have closed their streams, or their
    /// time is over. What still arrives is dropped.
    fn wait_for_streams(&self, events: &Receiver<Event>) {
        let end = Instant::now() + self.settings.linger + 2 * WRITE_TRY;
        while self.lingering.iter().any(|link| link.strong_count() > 0) && Instant::now() < end {
            drop(events.recv_timeout(END_LOOK));
        }
    }

    /// Gives a stream the lowest closed connection, or closes it where there is none.
    fn accept(&mut self, stream: TcpStream, peer: SocketAddr) {
        let closed = |&connection: &usize| self.table.state(connection) == Some(State::Closed);
        let Some(connection) = (0..CONNECTIONS).find(closed) else {
            return self.notices.add(Notice::NoConnectionLeft { peer });
        };
        let key = ClientKey { connection, accepted_before: self.accepted };
        let link = match self.start(stream, key) {
            Ok(link) => link,
            Err(error) => return self.notices.add(Notice::NotAccepted { error }),
        };
        self.accepted += 1;
        self.clients[connection] = Some(Client { key, link, held: Vec::new() });
        self.notices.add(Notice::Opened { connection, peer });
        if let Err(refusal) = self.table.open(connection) {
            self.refuse(connection, refusal, None);
        }
    }

    /// Starts a stream's reader and writer.
    fn start(&self, stream: TcpStream, key: ClientKey) -> io::Result<Arc<Link>> {
        let link = Arc::new(Link::new(stream, self.settings)?);
        let writer = Arc::clone(&link);
        spawn("writer", move || writer.write())?;
        let (reader, events) = (Arc::clone(&link), self.events.clone());
        let read = move || {
            let arrived = |bytes: &[u8]| Event::Arrived { client: key, bytes: bytes.to_vec() };
            let reason = reader.read(|bytes| events.send(arrived(bytes)).is_ok());
            // Without an owner the event is not needed.
            let _ = events.send(Event::Ended { client: key, reason });
        };
        spawn("reader", read).inspect_err(|_| link.abandon())?;
        Ok(link)
    }

    /// The client, unless its connection was closed.
    fn client(&mut self, key: ClientKey) -> Option<&mut Client> {
        self.clients[key.connection].as_mut().filter(|client| client.key == key)
    }

    /// Gathers a client's bytes and takes the messages that are complete.
    fn receive(&mut self, key: ClientKey, bytes: &[u8]) {
        let Some(client) = self.client(key) else {
            return;
        };
        let mut held = mem::take(&mut client.held);
        held.extend_from_slice(bytes);
        let taken = self.take_messages(key.connection, &held);
        if let Some(client) = self.client(key) {
            held.drain(..taken);
            client.held = held;
        }
    }

    /// Makes deliveries of a connection's bytes until none are left, the next message is not complete
    /// or the connection is closed. Answers how many bytes were taken.
    fn take_messages(&mut self, connection: usize, bytes: &[u8]) -> usize {
        let mut all = 0;
        loop {
            let (ended, taken) = self.deliver(connection, &bytes[all..]);
            all += taken;
            // By a hello for another revision; a client that does not read is gone already.
            if self.table.state(connection) == Some(State::Closed) {
                self.close(connection, Reason::OtherRevision);
                return all;
            }
            match ended {
                Ended::MaxReached => {}
                // The output is empty again, and has room for any message.
                Ended::Refused(Refusal::Room) if taken > 0 => {}
                Ended::Spent | Ended::Refused(Refusal::Incomplete) => return all,
                Ended::Refused(refusal) => {
                    // A refused message has changed nothing, so the table is as it was before it.
                    let place = self.table.why(connection, &bytes[all..]).place();
                    self.refuse(connection, refusal, place);
                    return all;
                }
            }
        }
    }

    /// Makes one delivery, sends what it has for the clients and says what was ignored. Answers how it
    /// ended, and how many bytes were taken.
    fn deliver(&mut self, connection: usize, input: &[u8]) -> (Ended, usize) {
        let (before, count) = (self.table.standing(), self.table.count());
        let delivery = self.table.deliver(connection, input, &mut self.output);
        let (ended, taken) = (delivery.ended, delivery.taken);
        if let Some(keeper) = &mut self.keeper
            && (self.table.count() > count || has_update(delivery))
        {
            keeper.changed();
        }
        let not_reading = send(delivery, &self.clients);
        let ignored = IgnoredMessages::of(connection, delivery, input, &before, &self.table);
        if let Some(messages) = ignored {
            self.notices.add_ignored(messages);
        }
        for connection in not_reading {
            self.close(connection, Reason::NotReading);
        }
        (ended, taken)
    }

    fn refuse(&mut self, connection: usize, refusal: Refusal, place: Option<Place>) {
        self.notices.add(Notice::Refused { connection, refusal, place });
        self.close(connection, Reason::Refused);
    }

    fn ended(&mut self, key: ClientKey, reason: Reason) {
        if self.client(key).is_some() {
            self.close(key.connection, reason);
        }
    }

    /// Closes a connection, with a call unless the table has closed it by itself. The bytes that
    /// the client sent and that are not taken are dropped.
    fn close(&mut self, connection: usize, reason: Reason) {
        let Some(client) = self.clients[connection].take() else {
            return;
        };
        match reason {
            Reason::NotReading => client.link.abandon(),
            Reason::Stopped => self.linger(&client.link, usize::MAX),
            _ => self.linger(&client.link, MOST_LINGERING),
        }
        if self.table.state(connection) != Some(State::Closed)
            && let Err(refusal) = self.table.leave(connection)
        {
            self.notices.add(Notice::Refused { connection, refusal, place: None });
        }
        self.notices.add(Notice::Left { connection, reason });
    }

    /// Lets a closed connection send what waits. Where more do than the bound, the oldest is
    /// abandoned.
    fn linger(&mut self, link: &Arc<Link>, most: usize) {
        link.finish();
        self.lingering.retain(|link| link.strong_count() > 0);
        self.lingering.push_back(Arc::downgrade(link));
        if self.lingering.len() > most
            && let Some(oldest) = self.lingering.pop_front().and_then(|link| link.upgrade())
        {
            oldest.abandon();
        }
    }
}

/// Whether a delivery has applied an update. All that was done is written, whether or not there is
/// a client for it, and the answer to a hello does not begin with an update.
fn has_update(delivery: Delivery<'_>) -> bool {
    delivery.sent().any(|sent| sent.bytes.first() == Some(&UPDATE))
}

/// Sends what a delivery has for each client, in its order. Answers the connections that do not read.
fn send(delivery: Delivery<'_>, clients: &[Option<Client>]) -> Vec<usize> {
    let does_not_read = |client: &&Client| {
        let addressed = |sent: &Sent<'_>| sent.recipients.contains(client.key.connection);
        !client.link.push(delivery.sent().filter(addressed).map(|sent| sent.bytes))
    };
    let not_reading = clients.iter().flatten().filter(does_not_read);
    not_reading.map(|client| client.key.connection).collect()
}
