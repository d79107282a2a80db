//! Clients that write without a pause, and one that reads what they write.

use crate::support::{TestClient, bytes_of, new_entry};
use nt2::{Copied, CopyTable, Entry, Message, Type};
use std::net::SocketAddr;
use std::sync::Arc;
use std::sync::atomic::{AtomicBool, AtomicU64, Ordering};
use std::thread::{self, JoinHandle};
use std::time::{Duration, Instant};

/// Clients that write.
const WRITERS: usize = 3;
/// Entries of each of them.
const ENTRIES_EACH: usize = 5;
/// A writer is at most so many turns ahead of what the reader has read.
const MOST_AHEAD: u64 = 3;
const PAUSE: Duration = Duration::from_micros(100);
/// What was read is noted so often.
const NOTE: Duration = Duration::from_millis(5);

/// The turn of each entry, by its ID. An entry begins with turn 0, and an update has the next one.
pub type Turns = Vec<u64>;

/// The value of a turn: its number, in a text whose length changes from turn to turn.
fn value_of(turn: u64) -> Vec<u8> {
    let text = format!("{turn:0>width$}", width = 20 + (turn % 230) as usize);
    [&(text.len() as u16).to_be_bytes(), text.as_bytes()].concat()
}

/// The sequence number of a turn.
fn number_of(turn: u64) -> u16 {
    (turn as u16).wrapping_add(1)
}

/// The turn of an entry, which has this turn's number and value.
fn turn_of(entry: &Entry<'_>) -> u64 {
    let turn = str::from_utf8(&entry.value[2..]).unwrap().parse().unwrap();
    assert_eq!((entry.number, entry.value), (number_of(turn), &value_of(turn)[..]));
    turn
}

/// The turns of all entries, in the order of their IDs.
pub fn turns<'a>(entries: impl Iterator<Item = Entry<'a>>) -> Turns {
    entries.map(|entry| turn_of(&entry)).collect()
}

/// Clients at work.
pub struct Load {
    reader: JoinHandle<Reading>,
    writers: Vec<JoinHandle<()>>,
}

/// What the client that reads has read.
pub struct Reading {
    pub copy: CopyTable,
    /// Whether the stream ended behind a whole message.
    pub is_whole: bool,
    /// The turns that had been read at a moment, the earliest first.
    noted: Vec<(Instant, Turns)>,
}

impl Load {
    pub fn start(address: SocketAddr) -> Self {
        let read = Arc::new([const { AtomicU64::new(0) }; WRITERS]);
        let greeted = || {
            let mut client = TestClient::connect(address);
            client.greet();
            client
        };
        let reader = greeted();
        let writer = |writer: usize| {
            let (client, read) = (greeted(), Arc::clone(&read));
            thread::spawn(move || write(client, writer, &read[writer]).unwrap_or_default())
        };
        let writers = (0..WRITERS).map(writer).collect();
        Load { reader: thread::spawn(move || Reading::of(reader, &read[..])), writers }
    }

    /// Waits until all streams have ended.
    pub fn ended(self) -> Reading {
        self.writers.into_iter().for_each(|writer| writer.join().unwrap());
        self.reader.join().unwrap()
    }
}

impl Reading {
    /// Reads until the stream ends, and lets the writers know what is read.
    fn of(mut client: TestClient, read: &[AtomicU64]) -> Self {
        let note = |entry: Entry<'_>| {
            read[writer_of(entry.name)].fetch_max(turn_of(&entry), Ordering::Relaxed);
        };
        client.copy.entries().for_each(|(_, entry)| note(entry));
        let mut noted: Vec<(Instant, Turns)> = Vec::new();
        while let Some(copied) = client.next_or_end() {
            if let Copied::Stored { id, .. } = copied {
                note(client.copy.entry(id).unwrap());
            }
            if noted.last().is_none_or(|(last, _)| last.elapsed() >= NOTE) {
                let turns = turns(client.copy.entries().map(|(_, entry)| entry));
                noted.push((Instant::now(), turns));
            }
        }
        let is_whole = client.holds_nothing();
        Reading { copy: client.copy, is_whole, noted }
    }

    /// The moment at which more than these turns had been read, if that was so.
    pub fn beyond(&self, turns: &[u64]) -> Option<Instant> {
        let later = |(_, read): &&(Instant, Turns)| !is_reached(read, turns);
        self.noted.iter().find(later).map(|(moment, _)| *moment)
    }

    /// The turns that had been read at a moment.
    pub fn turns_at(&self, moment: Instant) -> &[u64] {
        let noted = self.noted.iter().rev().find(|(noted, _)| *noted <= moment);
        noted.map_or(&[], |(_, turns)| turns)
    }
}

/// Whether all entries are there, with turns that are the same or later.
pub fn is_reached(turns: &[u64], later: &[u64]) -> bool {
    turns.len() <= later.len() && turns.iter().zip(later).all(|(turn, later)| turn <= later)
}

/// The name of a writer's entry.
fn name(writer: usize, entry: usize) -> String {
    format!("{writer}/{entry}")
}

/// The writer whose entry has this name.
fn writer_of(name: &[u8]) -> usize {
    usize::from(name[0] - b'0')
}

/// Makes the writer's entries where there are none, and then updates them until the stream ends.
/// None where that is before all entries are made.
fn write(mut client: TestClient, writer: usize, read: &AtomicU64) -> Option<()> {
    let mut entries = Vec::new();
    for entry in 0..ENTRIES_EACH {
        let id = make_entry(&mut client, &name(writer, entry))?;
        entries.push((id, turn_of(&client.copy.entry(id)?)));
    }
    let ended = Arc::new(AtomicBool::new(false));
    let discarding = client.discard_aside(Arc::clone(&ended));
    while !ended.load(Ordering::Relaxed) {
        let (_, last) = entries[ENTRIES_EACH - 1];
        if last > read.load(Ordering::Relaxed) + MOST_AHEAD {
            thread::sleep(PAUSE);
        } else if !client.sends(&entries.iter_mut().flat_map(next_update).collect::<Vec<u8>>()) {
            break;
        }
    }
    drop(client);
    discarding.join().ok()
}

/// An entry's ID, also where it has to be made first; none where the stream ends before.
fn make_entry(client: &mut TestClient, name: &str) -> Option<u16> {
    if client.copy.find(name.as_bytes()).is_none() {
        client.sends(&bytes_of(&new_entry(name, Type::String, &value_of(0))));
    }
    loop {
        match client.copy.find(name.as_bytes()) {
            Some(id) => return Some(id),
            None => client.next_or_end()?,
        };
    }
}

/// The update of an entry with its next turn.
fn next_update((id, turn): &mut (u16, u64)) -> Vec<u8> {
    *turn += 1;
    let (number, value) = (number_of(*turn), value_of(*turn));
    bytes_of(&Message::Update { value_type: Type::String, id: *id, number, value: &value })
}
