//! Messages per second of a server program over the loopback: some clients send updates in bursts,
//! and all others get each of them. With `--before` an earlier server takes its turn in every
//! round, and with `--table` the server once more, with its table kept in that file, which is
//! removed first.
//!
//! Arguments: `--server PROGRAM` (else the nt2-server beside this program), `--before PROGRAM`,
//! `--table FILE`, `--writers N`, `--readers N`, `--burst N` updates in one write, `--bursts N` of
//! each writer, `--rounds N` (the fastest counts).

#![forbid(unsafe_code)]

use bench::subject::{TYPICAL, assignment, entry, update};
use nt2_sys::{CONNECTIONS, ENTRIES};
use nt2_tests::arguments::Arguments;
use nt2_tests::ending::status;
use std::env;
use std::fs;
use std::io::{BufRead, BufReader, Read, Write};
use std::net::TcpStream;
use std::path::{Path, PathBuf};
use std::process::{Child, Command, ExitCode, Stdio};
use std::sync::atomic::{AtomicBool, AtomicUsize, Ordering};
use std::thread;
use std::time::{Duration, Instant};

/// At most so many bytes are on their way to a client. A server drops one that has far more to read.
const MOST_UNREAD: usize = 128 * 1024;
/// A writer that has to wait looks again so often.
const PAUSE: Duration = Duration::from_micros(50);
/// Updates of each writer, if nothing else is said.
const UPDATES: usize = 256_000;
/// A server that does not answer for so long has failed.
const TIMEOUT: Duration = Duration::from_secs(20);

const HELLO: [u8; 3] = [0x01, 0x02, 0x00];
/// The ID in a client's assignment.
const NEW_ENTRY: u16 = 0xFFFF;

/// Who sends how much.
#[derive(Clone, Copy)]
struct Load {
    writers: usize,
    readers: usize,
    burst: usize,
    bursts: usize,
}

/// A server program, which ends with this.
struct Server {
    child: Child,
    address: String,
}

impl Server {
    fn start(program: &Path, table: Option<&str>) -> Result<Self, String> {
        let failed = |why: String| format!("{}: {why}", program.display());
        let mut command = Command::new(program);
        if let Some(file) = table {
            // It fails only where there is none.
            let _ = fs::remove_file(file);
            command.args(["--table", file]);
        }
        command.arg("127.0.0.1:0").stdout(Stdio::piped()).stderr(Stdio::null());
        let mut child = command.spawn().map_err(|error| failed(error.to_string()))?;
        let mut line = String::new();
        let read = child.stdout.take().map(|out| BufReader::new(out).read_line(&mut line));
        let address = line.trim().strip_prefix("listening at ").map(String::from);
        let server = Server { child, address: address.unwrap_or_default() };
        match read {
            Some(Ok(_)) if !server.address.is_empty() => Ok(server),
            _ => Err(failed("does not listen".into())),
        }
    }

    /// A client whose hello is answered with so many bytes.
    fn greeted(&self, answer: usize) -> Result<TcpStream, String> {
        let connect = || {
            let mut stream = TcpStream::connect(&self.address)?;
            stream.set_nodelay(true)?;
            stream.set_read_timeout(Some(TIMEOUT))?;
            stream.set_write_timeout(Some(TIMEOUT))?;
            stream.write_all(&HELLO)?;
            stream.read_exact(&mut vec![0; answer])?;
            Ok(stream)
        };
        connect().map_err(|error: std::io::Error| format!("hello: {error}"))
    }

    /// Fills the table, and answers how long a hello's answer is then.
    fn fill(&self) -> Result<usize, String> {
        let entries = (0..ENTRIES).flat_map(|i| {
            let (name, type_code, value) = entry(TYPICAL, i, 0);
            assignment(&name, type_code, NEW_ENTRY, &value)
        });
        let entries: Vec<u8> = entries.collect();
        let mut client = self.greeted(1)?;
        let sent = client.write_all(&entries);
        let answered = sent.and_then(|()| client.read_exact(&mut vec![0; entries.len()]));
        answered.map_err(|error| format!("new entries: {error}"))?;
        Ok(entries.len() + 1)
    }
}

impl Drop for Server {
    fn drop(&mut self) {
        // It fails only where the program has ended already.
        let _ = self.child.kill();
        let _ = self.child.wait();
    }
}

/// What a client is to read, and how much of that was sent and read so far.
struct Progress {
    expected: usize,
    sent: AtomicUsize,
    read: AtomicUsize,
    failed: AtomicBool,
}

impl Progress {
    fn new(expected: usize) -> Self {
        let (sent, read) = (AtomicUsize::new(0), AtomicUsize::new(0));
        Progress { expected, sent, read, failed: AtomicBool::new(false) }
    }

    /// Whether more can be sent; an error once nothing more is read.
    fn has_room(&self, length: usize) -> Result<bool, String> {
        if self.failed.load(Ordering::Relaxed) {
            return Err("a client has failed".into());
        }
        let (sent, read) = (self.sent.load(Ordering::Relaxed), self.read.load(Ordering::Relaxed));
        Ok(sent <= read || sent - read + length <= MOST_UNREAD)
    }

    /// Reads until all that is expected has arrived.
    fn read_from(&self, mut stream: &TcpStream) -> Result<(), String> {
        let mut buffer = vec![0; MOST_UNREAD];
        while self.read.load(Ordering::Relaxed) < self.expected {
            let failure = match stream.read(&mut buffer) {
                Ok(0) => "the server has closed a stream".to_string(),
                Ok(length) => {
                    self.read.fetch_add(length, Ordering::Relaxed);
                    continue;
                }
                Err(error) => format!("reading: {error}"),
            };
            self.failed.store(true, Ordering::Relaxed);
            return Err(failure);
        }
        Ok(())
    }
}

/// Sends bursts, as fast as all others read them.
fn write(mut stream: &TcpStream, bursts: &[Vec<u8>], others: &[&Progress]) -> Result<(), String> {
    for burst in bursts {
        for other in others {
            while !other.has_room(burst.len())? {
                thread::sleep(PAUSE);
            }
        }
        for other in others {
            other.sent.fetch_add(burst.len(), Ordering::Relaxed);
        }
        stream.write_all(burst).map_err(|error| format!("writing: {error}"))?;
    }
    Ok(())
}

/// A writer's bursts: its own entries in turn, each time with the next number.
fn bursts(load: Load, writer: usize) -> Vec<Vec<u8>> {
    let own: Vec<usize> = (writer..ENTRIES).step_by(load.writers).collect();
    let message = |place: usize| {
        let (i, turn) = (own[place % own.len()], place / own.len());
        update(i as u16, (2 + turn) as u16, &entry(TYPICAL, i, turn % 2).2)
    };
    let burst = |place: usize| {
        let first = place * load.burst;
        (first..first + load.burst).flat_map(message).collect()
    };
    (0..load.bursts).map(burst).collect()
}

/// Messages per second that a server takes and that all others have read.
fn measure(program: &Path, table: Option<&str>, load: Load) -> Result<f64, String> {
    let server = Server::start(program, table)?;
    let answer = server.fill()?;
    let bursts: Vec<_> = (0..load.writers).map(|writer| bursts(load, writer)).collect();
    let sizes: Vec<usize> = bursts.iter().map(|bursts| bursts.iter().map(Vec::len).sum()).collect();
    let clients: Vec<(TcpStream, Progress)> = (0..load.writers + load.readers)
        .map(|client| {
            let own = sizes.get(client).unwrap_or(&0);
            let expected = sizes.iter().sum::<usize>() - own;
            Ok((server.greeted(answer)?, Progress::new(expected)))
        })
        .collect::<Result<_, String>>()?;
    let start = Instant::now();
    thread::scope(|scope| {
        let readers =
            clients.iter().map(|(stream, progress)| scope.spawn(|| progress.read_from(stream)));
        let mut threads: Vec<_> = readers.collect();
        for (writer, bursts) in bursts.iter().enumerate() {
            let others = clients.iter().enumerate().filter(move |(client, _)| *client != writer);
            let others: Vec<_> = others.map(|(_, (_, progress))| progress).collect();
            let stream = &clients[writer].0;
            threads.push(scope.spawn(move || write(stream, bursts, &others)));
        }
        threads.into_iter().try_for_each(|thread| thread.join().map_err(|_| "a client panicked")?)
    })?;
    let messages = load.writers * load.bursts * load.burst;
    Ok(messages as f64 / start.elapsed().as_secs_f64())
}

fn run() -> Result<(), String> {
    let keys = ["server", "before", "table", "writers", "readers", "burst", "bursts", "rounds"];
    let arguments = Arguments::read(&keys)?;
    let (writers, readers) = (arguments.number("writers", 2)?, arguments.number("readers", 2)?);
    if writers == 0 || writers + readers < 2 || writers + readers > CONNECTIONS {
        return Err("1 to 16 writers, and 2 to 16 clients".into());
    }
    let (burst, rounds) = (arguments.number("burst", 64)?, arguments.number("rounds", 5)?);
    if burst == 0 || rounds == 0 {
        return Err("a burst has an update, and there is a round".into());
    }
    let load =
        Load { writers, readers, burst, bursts: arguments.number("bursts", UPDATES / burst)? };
    let beside = env::current_exe().map_err(|error| error.to_string())?;
    let beside = beside.with_file_name("nt2-server");
    let now = arguments.text("server").map_or(beside, PathBuf::from);
    let before = arguments.text("before").map(|before| ("before", PathBuf::from(before), None));
    let kept = arguments.text("table").map(|file| ("kept", now.clone(), Some(file)));
    let servers: Vec<_> = before.into_iter().chain([("now", now, None)]).chain(kept).collect();
    let mut fastest = vec![0.0f64; servers.len()];
    for _ in 0..rounds {
        for ((_, program, table), best) in servers.iter().zip(&mut fastest) {
            *best = measure(program, *table, load)?.max(*best);
        }
    }
    println!("{writers} writers, {readers} readers, bursts of {burst} updates, 64 entries");
    for ((name, ..), best) in servers.iter().zip(fastest) {
        println!("{name:<8} {best:>9.0} messages a second");
    }
    Ok(())
}

fn main() -> ExitCode {
    status("throughput", run())
}
