//! One client's stream, with the bytes that wait to be sent.

use super::Settings;
use crate::READ_SIZE;
use crate::notice::Reason;
use std::io::{self, ErrorKind, Read, Write};
use std::mem;
use std::net::{Shutdown, TcpStream};
use std::sync::{Condvar, Mutex, MutexGuard, PoisonError};
use std::time::{Duration, Instant};

/// At most so many bytes wait for a client, beside those that its writer is sending.
pub const MOST_WAITING: usize = 256 * 1024;

/// A write that cannot go on is tried again so often, to see whether its time is over.
pub const WRITE_TRY: Duration = Duration::from_millis(250);

/// A stream that one thread reads and another one writes. The owner of the table never waits for
/// either.
pub struct Link {
    stream: TcpStream,
    /// How long a closed connection's stream stays at most.
    linger: Duration,
    state: Mutex<State>,
    changed: Condvar,
}

struct State {
    waiting: Vec<u8>,
    reading: bool,
    /// Why sending failed, if it did. The stream is closed then, and its reader reports this.
    send_error: Option<io::Error>,
    /// Set once nothing more is to be sent: the stream is closed then at the latest.
    deadline: Option<Instant>,
}

impl Link {
    pub fn new(stream: TcpStream, settings: Settings) -> io::Result<Self> {
        let Settings { linger, idle_limit, .. } = settings;
        stream.set_nodelay(true)?;
        stream.set_read_timeout(Some(idle_limit))?;
        stream.set_write_timeout(Some(WRITE_TRY))?;
        let (waiting, send_error) = (Vec::new(), None);
        let state = State { waiting, reading: true, send_error, deadline: None };
        Ok(Link { stream, linger, state: Mutex::new(state), changed: Condvar::new() })
    }

    /// Lets messages wait behind the earlier ones; false where their bytes would be too many.
    #[must_use]
    pub fn push<'a>(&self, messages: impl Iterator<Item = &'a [u8]>) -> bool {
        let mut messages = messages.peekable();
        if messages.peek().is_none() {
            return true;
        }
        let mut state = self.lock();
        for bytes in messages {
            if state.waiting.len() + bytes.len() > MOST_WAITING {
                return false;
            }
            state.waiting.extend_from_slice(bytes);
        }
        self.changed.notify_all();
        true
    }

    /// Nothing more is to be sent: what waits goes out, and the stream is closed.
    pub fn finish(&self) {
        self.lock().deadline = Some(Instant::now() + self.linger);
        self.changed.notify_all();
    }

    /// Closes the stream at once. What waits is not sent.
    pub fn abandon(&self) {
        let mut state = self.lock();
        state.waiting.clear();
        state.deadline = Some(Instant::now());
        self.changed.notify_all();
        self.shut(Shutdown::Both);
    }

    /// The reader: hands over what arrives until the stream ends, nothing has arrived for too long
    /// or it is not wanted.
    pub fn read(&self, mut hand_over: impl FnMut(&[u8]) -> bool) -> Reason {
        let mut buffer = [0; READ_SIZE];
        let ended = loop {
            match (&self.stream).read(&mut buffer) {
                Ok(length) if length > 0 && hand_over(&buffer[..length]) => {}
                Ok(_) => break Reason::EndOfStream,
                Err(error) => match error.kind() {
                    ErrorKind::Interrupted => {}
                    ErrorKind::WouldBlock | ErrorKind::TimedOut => break Reason::Idle,
                    _ => break Reason::Failed(error),
                },
            }
        };
        let mut state = self.lock();
        state.reading = false;
        self.changed.notify_all();
        state.send_error.take().map_or(ended, Reason::NotSent)
    }

    /// The writer: sends what waits until nothing more is to be sent. The client may then still be
    /// writing; its bytes are read for a while, since closing before would lose what was sent.
    pub fn write(&self) {
        while let Some(batch) = self.next_batch() {
            if let Err(error) = self.send(&batch) {
                self.lock().send_error = Some(error);
                return self.shut(Shutdown::Both);
            }
        }
        self.shut(Shutdown::Write);
        self.wait_for_reader();
        self.shut(Shutdown::Both);
    }

    /// All that waits, once there is something; none where nothing more is to be sent.
    fn next_batch(&self) -> Option<Vec<u8>> {
        let idle = |state: &mut State| state.waiting.is_empty() && state.deadline.is_none();
        let waited = self.changed.wait_while(self.lock(), idle);
        let mut state = waited.unwrap_or_else(PoisonError::into_inner);
        Some(mem::take(&mut state.waiting)).filter(|batch| !batch.is_empty())
    }

    fn send(&self, mut rest: &[u8]) -> io::Result<()> {
        while !rest.is_empty() {
            if self.time_left() == Some(Duration::ZERO) {
                return Err(ErrorKind::TimedOut.into());
            }
            match (&self.stream).write(rest) {
                Ok(0) => return Err(ErrorKind::WriteZero.into()),
                Ok(length) => rest = &rest[length..],
                Err(error) => match error.kind() {
                    ErrorKind::WouldBlock | ErrorKind::TimedOut | ErrorKind::Interrupted => {}
                    _ => return Err(error),
                },
            }
        }
        Ok(())
    }

    fn wait_for_reader(&self) {
        let time = self.time_left().unwrap_or(self.linger);
        drop(self.changed.wait_timeout_while(self.lock(), time, |state| state.reading));
    }

    /// The time until the stream is closed, where nothing more is to be sent.
    fn time_left(&self) -> Option<Duration> {
        self.lock().deadline.map(|deadline| deadline.saturating_duration_since(Instant::now()))
    }

    /// Fails only where the stream has ended already.
    fn shut(&self, how: Shutdown) {
        let _ = self.stream.shutdown(how);
    }

    /// No part of the state is left half changed, so a panic elsewhere does not matter.
    fn lock(&self) -> MutexGuard<'_, State> {
        self.state.lock().unwrap_or_else(PoisonError::into_inner)
    }
}

#[cfg(test)]
mod tests {
    use super::*;
    use std::iter;
    use std::net::TcpListener;
    use std::thread;

    #[test]
    fn reader_reports_that_sending_failed() {
        let listener = TcpListener::bind("127.0.0.1:0").unwrap();
        let _client = TcpStream::connect(listener.local_addr().unwrap()).unwrap();
        let link = Link::new(listener.accept().unwrap().0, Settings::default()).unwrap();
        link.shut(Shutdown::Write);
        assert!(link.push(iter::once(&[0][..])));
        let reason = thread::scope(|scope| {
            scope.spawn(|| link.write());
            link.read(|_| true)
        });
        assert!(matches!(reason, Reason::NotSent(_)));
    }
}
