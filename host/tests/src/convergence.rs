//! Demand 3: after any run each clean client's copy equals the table.

use crate::call::{Call, Hex, Outcome};
use crate::delivery::{HELLO, SingleCalls, Taken};
use crate::generate::{Generator, MOST_ROOM, Weights};
use crate::implementation::Implementation;
use crate::line_record::ByHand;
use crate::memory::{Guarded, Memory};
use crate::random::Random;
use crate::saved::check_saved;
use nt2_sys::{Answer, CONNECTIONS, ENTRIES, Head, LONGEST_SAVED, TABLE_BYTES, headed};

/// The kind of an update.
const UPDATE: u8 = 0x11;

/// The bytes addressed to each client since its last accepted hello, as long as it has not left
/// and no update of its own was applied.
pub struct Clients {
    addressed: [Option<Vec<u8>>; CONNECTIONS],
}

/// What the copies of a run took.
#[derive(Clone, Copy, Debug, Default)]
pub struct Compared {
    pub clients: usize,
    pub messages: usize,
    pub entries: usize,
}

impl Clients {
    pub fn new() -> Self {
        Clients { addressed: [const { None }; CONNECTIONS] }
    }

    /// The bytes addressed to a clean client.
    pub fn addressed(&self, connection: usize) -> Option<&[u8]> {
        self.addressed[connection].as_deref()
    }

    /// Follows a call of the run by its answer and the bytes sent.
    pub fn follow(&mut self, call: &Call, answer: Answer, sent: &[u8]) {
        if answer.number != 0 {
            return;
        }
        match call {
            Call::Fresh | Call::Load { .. } => *self = Clients::new(),
            Call::Leave { connection } => self.addressed[*connection] = None,
            Call::Receive { connection, message } => {
                self.follow_message(*connection, &message.0, answer.recipients, sent);
            }
            _ => self.address(answer.recipients, sent),
        }
    }

    /// Follows a call of the run, which may be a delivery.
    fn follow_made(
        &mut self,
        call: &Call,
        outcome: Outcome,
        made: &SingleCalls<'_>,
        written: &[u8],
    ) -> Result<(), String> {
        match (call, outcome) {
            (Call::Deliver { connection, .. }, _) => {
                self.follow_delivery(*connection, made, written)?;
            }
            (_, Outcome::Answer(answer)) => self.follow(call, answer, written),
            _ => {}
        }
        Ok(())
    }

    /// Follows a delivery by what it wrote, each message that is done as a call of the run. Single
    /// calls on the memory before it have told which these are.
    fn follow_delivery(
        &mut self,
        connection: usize,
        made: &SingleCalls<'_>,
        written: &[u8],
    ) -> Result<(), String> {
        let mut headed = headed(written);
        for taken in made.messages.iter().filter(|taken| taken.answer.number == 0) {
            let (recipients, bytes) = headed.next().ok_or("a heading is missing")?;
            self.follow_message(connection, taken.message, recipients, bytes);
        }
        if headed.next().is_none() { Ok(()) } else { Err("a heading too many".into()) }
    }

    /// Follows a client's message that is done.
    fn follow_message(&mut self, connection: usize, message: &[u8], to: u16, sent: &[u8]) {
        if message.starts_with(HELLO) {
            self.addressed[connection] = Some(Vec::new());
        }
        self.address(to, sent);
        if message.starts_with(&[UPDATE]) {
            self.addressed[connection] = None;
        }
    }

    fn address(&mut self, recipients: u16, sent: &[u8]) {
        for (connection, addressed) in self.addressed.iter_mut().enumerate() {
            if let Some(addressed) = addressed
                && recipients >> connection & 1 == 1
            {
                addressed.extend_from_slice(sent);
            }
        }
    }

    /// Compares each clean client's copy with the server's table.
    pub fn compare<I: Implementation>(&self, server: &Memory) -> Result<Compared, String> {
        let mut compared = Compared::default();
        for (connection, addressed) in self.addressed.iter().enumerate() {
            let Some(addressed) = addressed else {
                continue;
            };
            let (copy, messages) = copy_of::<I>(addressed, connection as u64)
                .map_err(|failure| format!("client {connection}: {failure}"))?;
            same_entries(server, &copy)
                .map_err(|failure| format!("client {connection}: {failure}"))?;
            compared.clients += 1;
            compared.messages += messages;
            compared.entries += copy.count();
        }
        Ok(compared)
    }
}

impl Default for Clients {
    fn default() -> Self {
        Clients::new()
    }
}

/// Memory with any contents.
pub fn any_memory(random: &mut Random) -> Memory {
    let heads: Vec<Head> = (0..ENTRIES)
        .map(|_| Head {
            name_length: random.u16(),
            value_length: random.u16(),
            type_code: random.u16(),
            number: random.u16(),
        })
        .collect();
    Memory::new(&heads, &random.bytes(TABLE_BYTES), random.u16(), &random.bytes(CONNECTIONS))
}

/// The copy that the client half makes of all the bytes, and the messages in them.
fn copy_of<I: Implementation>(mut bytes: &[u8], seed: u64) -> Result<(Memory, usize), String> {
    let mut copy = any_memory(&mut Random::new(seed));
    if I::copy_fresh(copy.lend_table()).number != 0 {
        return Err("the copy's fresh start is refused".into());
    }
    let mut messages = 0;
    while !bytes.is_empty() {
        let copied = I::copy_receive(copy.lend_table(), bytes);
        if !matches!(copied.number, 0 | 16) || copied.taken == 0 || copied.taken > bytes.len() {
            return Err(format!("message {messages}: {copied:?}"));
        }
        bytes = &bytes[copied.taken..];
        messages += 1;
    }
    Ok((copy, messages))
}

/// Counts, types, numbers, names and values of two tables.
pub fn same_entries(server: &Memory, copy: &Memory) -> Result<(), String> {
    if server.count() != copy.count() {
        return Err(format!("{} entries, the copy has {}", server.count(), copy.count()));
    }
    for i in 0..server.count() {
        let fields = |table: &Memory| {
            let head = table.heads.lent()[i];
            (head.type_code, head.number)
        };
        let same = fields(server) == fields(copy)
            && server.name(i) == copy.name(i)
            && server.value(i) == copy.value(i);
        if !same {
            return Err(format!("entry {i} differs"));
        }
    }
    Ok(())
}

/// Calls of the run that made a table to load, at most.
const EARLIER_CALLS: usize = 1500;

/// How a run begins: with a fresh start, and behind it, for every second seed, with the load of a table
/// that an earlier run left and saved.
fn beginning<S: Implementation>(seed: u64, random: &mut Random) -> Result<Vec<Call>, String> {
    if seed.is_multiple_of(2) {
        return Ok(vec![Call::Fresh]);
    }
    let (mut earlier, mut unused) = (any_memory(random), any_memory(random));
    let mut out = Guarded::output(MOST_ROOM);
    let mut generator = Generator::new(random.number(), Weights::RUN);
    Call::Fresh.perform::<S>(&mut earlier, &mut unused, &mut out)?;
    let most = random.pick(&[1, EARLIER_CALLS / 30, EARLIER_CALLS / 5, EARLIER_CALLS]);
    for _ in 0..random.below(most) {
        let (call, room) = generator.call(&earlier, &unused);
        out.lend_only(room);
        call.perform::<S>(&mut earlier, &mut unused, &mut out)?;
    }
    let mut saved = vec![0; LONGEST_SAVED];
    let answer = S::save(earlier.lend_table(), &mut saved);
    saved.truncate(answer.sent);
    check_saved::<S>(&earlier, &saved, &mut unused)?;
    Ok(vec![Call::Fresh, Call::Load { saved: Hex(saved) }])
}

/// What came of a run.
#[derive(Clone, Copy, Debug, Default)]
pub struct Run {
    pub calls: usize,
    pub done: usize,
    /// Whether it begins with a load, and the entries that were loaded.
    pub loads: usize,
    pub entries_loaded: usize,
    /// Messages that deliveries took, and hellos accepted among them.
    pub delivered: usize,
    pub hellos_delivered: usize,
    pub compared: Compared,
}

/// A run of random calls from a seed, on memory with any contents. Its clients' copies are compared some
/// times on the way, since each beginning of a run is a run, and at its end.
pub fn run<S: Implementation, C: Implementation>(seed: u64, calls: usize) -> Result<Run, String> {
    let mut random = Random::new(seed);
    let mut server = any_memory(&mut random);
    let mut unused = any_memory(&mut random);
    let mut out = Guarded::output(MOST_ROOM);
    let mut generator = Generator::new(random.number(), Weights::RUN);
    generator.choose_readers();
    let beginning = beginning::<S>(seed, &mut random)?;
    let (mut clients, mut run) = (Clients::new(), Run::default());
    for place in 0..calls {
        let (call, room) = match beginning.get(place) {
            Some(call) => (call.clone(), 0),
            None => generator.call(&server, &unused),
        };
        out.lend_only(room);
        let made = single_calls::<S>(&call, &server, room);
        let outcome = call.perform::<S>(&mut server, &mut unused, &mut out)?;
        run.count(outcome, &made);
        clients.follow_made(&call, outcome, &made, &out.lent()[..outcome.written()])?;
        out.refill(outcome.written());
        if place < beginning.len() && outcome.number() != 0 {
            return Err(format!("it begins with a refusal: {call:?}, {outcome:?}"));
        }
        if matches!(call, Call::Load { .. }) {
            (run.loads, run.entries_loaded) = (1, server.count());
        }
        if place + 1 == calls || place % (calls / 3 + 1) == 1 {
            run.compared = clients
                .compare::<C>(&server)
                .map_err(|failure| format!("after call {place}, {call:?}: {failure}"))?;
        }
    }
    Ok(run)
}

/// A random line record from a seed. The same calls made by hand tell what is addressed to each client;
/// the copies are compared with the table that the record makes.
pub fn replayed<S: Implementation, C: Implementation>(seed: u64) -> Result<Compared, String> {
    let mut random = Random::new(seed);
    let mut generator = Generator::new(random.number(), Weights::RUN);
    generator.choose_readers();
    let record = generator.line_record();
    let mut server = any_memory(&mut random);
    let (table, marks) = server.lend();
    let replayed = S::replay(table, marks, &record);
    let by_hand = ByHand::run::<S>(any_memory(&mut random), &record);
    if replayed != by_hand.replayed {
        return Err(format!("{replayed:?}, and by hand {:?}", by_hand.replayed));
    }
    let mut clients = Clients::new();
    by_hand.calls.iter().for_each(|made| clients.follow(&made.call, made.answer, &made.sent));
    clients.compare::<C>(&server)
}

impl Compared {
    /// Adds what the copies of another run took.
    pub fn add(&mut self, other: &Compared) {
        self.clients += other.clients;
        self.messages += other.messages;
        self.entries += other.entries;
    }
}

impl Run {
    /// Adds what came of another run.
    pub fn add(&mut self, other: &Run) {
        self.calls += other.calls;
        self.done += other.done;
        self.loads += other.loads;
        self.entries_loaded += other.entries_loaded;
        self.delivered += other.delivered;
        self.hellos_delivered += other.hellos_delivered;
        self.compared.add(&other.compared);
    }

    fn count(&mut self, outcome: Outcome, made: &SingleCalls<'_>) {
        self.calls += 1;
        self.done += usize::from(outcome.number() == 0);
        self.delivered += made.messages.len();
        let hello = |taken: &&Taken<'_>| taken.answer.number == 0 && taken.message == HELLO;
        self.hellos_delivered += made.messages.iter().filter(hello).count();
    }
}

/// What single calls make of a delivery; nothing of another call.
fn single_calls<'a, I: Implementation>(
    call: &'a Call,
    server: &Memory,
    room: usize,
) -> SingleCalls<'a> {
    match call {
        Call::Deliver { connection, input } => {
            let out = &mut vec![0; room];
            SingleCalls::make::<I>(&mut server.clone(), *connection, &input.0, out)
        }
        _ => SingleCalls::default(),
    }
}
