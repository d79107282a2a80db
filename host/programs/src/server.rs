//! The server: one thread owns the table and makes every call, so no two calls run at a time and
//! the bytes for a client go out in the order of the calls. Each connection has a reader, which
//! feeds the owner, and a writer with bytes of its own that wait. Notices have a thread too, which
//! finds out on copies of the table why messages were ignored. So has the table's file, if there is
//! one.

mod explain;
mod keeper;
mod link;
mod notices;
mod owner;

use crate::notice::Notice;
use crate::table_file::KeptTable;
use keeper::Keeper;
pub use link::MOST_WAITING;
pub use notices::MOST_NOTICES;
use notices::Notices;
use nt2::ServerTable;
pub use owner::MOST_LINGERING;
use owner::{Event, Owner};
use std::convert::Infallible;
use std::fmt;
use std::io;
use std::net::{SocketAddr, TcpListener, TcpStream, ToSocketAddrs};
use std::path::PathBuf;
use std::sync::mpsc::{Receiver, SyncSender, sync_channel};
use std::thread::{self, JoinHandle};
use std::time::Duration;

/// No event waits beside those that the readers hold themselves, one each: a client that sends
/// without a pause leaves the others their turn.
const WAITING_EVENTS: usize = 0;
/// The pause after a connection that could not be accepted, for instance for want of memory.
const ACCEPT_PAUSE: Duration = Duration::from_millis(100);

/// What a server's times are if nothing else is said.
const LINGER: Duration = Duration::from_secs(2);
const IDLE_LIMIT: Duration = Duration::from_secs(30);
const SAVE_DELAY: Duration = Duration::from_millis(250);
/// At the server's end notices that wait have this long to be taken.
const LAST_NOTICES: Duration = Duration::from_secs(1);

/// The times of a server.
#[derive(Clone, Copy, Debug)]
pub struct Settings {
    /// A client has this long to take what was sent to it before its connection was closed.
    pub linger: Duration,
    /// A connection is closed if no byte has arrived for so long, which is not 0. Clients send a
    /// keep alive after each second in which they sent nothing.
    pub idle_limit: Duration,
    /// A change is saved so long after it, with all others that came by then.
    pub save_delay: Duration,
}

impl Default for Settings {
    fn default() -> Self {
        Settings { linger: LINGER, idle_limit: IDLE_LIMIT, save_delay: SAVE_DELAY }
    }
}

/// A server at work.
pub struct Server {
    address: SocketAddr,
    events: SyncSender<Event>,
    owner: JoinHandle<Result<(), Fault>>,
    acceptor: JoinHandle<()>,
    /// Disconnected once all notices are handed over.
    notices: Receiver<Infallible>,
}

impl Server {
    /// Listens at an address and serves a table: the kept one, or else a fresh one that is not
    /// kept. Each notice is handed over as it comes; if that takes long, some are dropped.
    pub fn start(
        address: impl ToSocketAddrs,
        settings: Settings,
        kept: Option<KeptTable>,
        notify: impl FnMut(&Notice) + Send + 'static,
    ) -> io::Result<Self> {
        let listener = TcpListener::bind(address)?;
        let address = listener.local_addr()?;
        let (events, received) = sync_channel(WAITING_EVENTS);
        let (notices, notices_end) = Notices::start(notify)?;
        let (table, keeper) = start_keeper(kept, settings, &notices)?;
        let owner = Owner::new(table, keeper, events.clone(), settings, notices);
        let owner = spawn("table", move || owner.run(&received))?;
        let accepted = events.clone();
        let acceptor = spawn("accept", move || accept(&listener, &accepted))?;
        Ok(Server { address, events, owner, acceptor, notices: notices_end })
    }

    /// The address at which it listens.
    pub fn address(&self) -> SocketAddr {
        self.address
    }

    /// Something that another thread can stop the server with.
    pub fn stopper(&self) -> Stopper {
        Stopper { events: self.events.clone() }
    }

    /// Waits for the server's end.
    pub fn wait(self) -> Result<(), Fault> {
        wait(self.owner, &self.notices)
    }

    /// Stops the server, waits for its end and listens no more.
    pub fn stop(self) -> Result<(), Fault> {
        self.stopper().stop();
        let ended = wait(self.owner, &self.notices);
        // The acceptor ends with the first connection that it cannot hand over.
        let woken = TcpStream::connect(self.address).is_ok();
        if woken && self.acceptor.join().is_err() {
            return Err(Fault::Panicked);
        }
        ended
    }
}

/// Waits for a server's end, and for its last notices. Whoever does not take them does not stop the
/// end.
fn wait(owner: JoinHandle<Result<(), Fault>>, notices: &Receiver<Infallible>) -> Result<(), Fault> {
    let ended = owner.join().unwrap_or(Err(Fault::Panicked));
    let _ = notices.recv_timeout(LAST_NOTICES);
    ended
}

/// Stops a server.
pub struct Stopper {
    events: SyncSender<Event>,
}

impl Stopper {
    /// No more is taken from the clients. What was taken is saved, and what waits for the clients
    /// is sent to those that read.
    pub fn stop(&self) {
        // Without an owner the event is not needed.
        let _ = self.events.send(Event::Stop);
    }
}

/// Why a server did not end well.
#[derive(Debug)]
pub enum Fault {
    Panicked,
    /// The file does not have the table as it was at the end.
    NotSaved {
        file: PathBuf,
        error: io::Error,
    },
}

impl fmt::Display for Fault {
    fn fmt(&self, f: &mut fmt::Formatter<'_>) -> fmt::Result {
        match self {
            Fault::Panicked => f.write_str("the server failed"),
            Fault::NotSaved { file, error } => {
                write!(f, "{}: the table is not saved: {error}", file.display())
            }
        }
    }
}

/// The table to begin with, and its keeper where it is kept.
fn start_keeper(
    kept: Option<KeptTable>,
    settings: Settings,
    notices: &Notices,
) -> io::Result<(ServerTable, Option<Keeper>)> {
    let Some(KeptTable { file, loaded }) = kept else {
        return Ok((ServerTable::new(), None));
    };
    let (path, entries) = (file.path().to_path_buf(), loaded.as_ref().map(ServerTable::count));
    notices.add(Notice::Loaded { file: path, entries });
    let mut keeper = Keeper::start(file, settings.save_delay, notices.clone())?;
    if loaded.is_none() {
        keeper.changed();
    }
    Ok((loaded.unwrap_or_default(), Some(keeper)))
}

/// Hands over each connection, as long as there is an owner of the table.
fn accept(listener: &TcpListener, events: &SyncSender<Event>) {
    loop {
        let accepted = listener.accept();
        let failed = accepted.is_err();
        if events.send(Event::Accepted(accepted)).is_err() {
            return;
        }
        if failed {
            thread::sleep(ACCEPT_PAUSE);
        }
    }
}

fn spawn<T: Send + 'static>(
    name: &str,
    work: impl FnOnce() -> T + Send + 'static,
) -> io::Result<JoinHandle<T>> {
    thread::Builder::new().name(name.into()).spawn(work)
}
