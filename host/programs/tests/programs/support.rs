//! A server with its notices, and a client that the tests lead message by message.

use nt2::{Copied, CopyTable, LONGEST_ASSIGNMENT, Message, Refusal, Type, encode};
use nt2_programs::command;
use nt2_programs::failure::Failure;
use nt2_programs::server::{Server, Settings};
use std::io::{ErrorKind, Read, Write};
use std::net::{SocketAddr, TcpListener, TcpStream};
use std::sync::Arc;
use std::sync::atomic::{AtomicBool, Ordering};
use std::sync::mpsc::{Receiver, channel};
use std::thread::{self, JoinHandle};
use std::time::{Duration, Instant};

/// What is expected comes long before; a test that waits longer fails.
pub const TIMEOUT: Duration = Duration::from_secs(30);

/// Any free port of the loopback.
pub const ANY_PORT: &str = "127.0.0.1:0";

pub const HELLO: Message<'_> = Message::Hello { revision: 0x0200 };

/// A server whose notices are kept.
pub struct TestServer {
    server: Server,
    notices: Receiver<String>,
}

impl TestServer {
    pub fn start() -> Self {
        TestServer::start_with(Settings::default(), || {})
    }

    /// What is to be done first is done before each notice is taken.
    pub fn start_with(settings: Settings, mut first: impl FnMut() + Send + 'static) -> Self {
        let (notify, notices) = channel();
        let server = Server::start(ANY_PORT, settings, None, move |notice| {
            first();
            // A test that has ended needs no notices.
            let _ = notify.send(notice.to_string());
        });
        TestServer { server: server.unwrap(), notices }
    }

    pub fn address(&self) -> SocketAddr {
        self.server.address()
    }

    /// A client that is connected; the server has given it this connection.
    pub fn connected(&self, connection: usize) -> TestClient {
        let client = TestClient::connect(self.address());
        self.expect(&format!("connection {connection}: opened by"));
        client
    }

    /// A client whose hello was accepted.
    pub fn greeted(&self) -> TestClient {
        let mut client = TestClient::connect(self.address());
        client.greet();
        client
    }

    /// Waits for a notice that has this text.
    pub fn expect(&self, text: &str) {
        while !self.next_notice().contains(text) {}
    }

    pub fn next_notice(&self) -> String {
        self.notices.recv_timeout(TIMEOUT).unwrap()
    }

    /// Whether a notice comes within a time, and has this text.
    pub fn says_within(&self, time: Duration, text: &str) -> bool {
        self.notices.recv_timeout(time).is_ok_and(|notice| notice.contains(text))
    }

    /// Whether a notice that has come has this text.
    pub fn has_said(&self, text: &str) -> bool {
        self.notices.try_iter().any(|notice| notice.contains(text))
    }

    /// Runs a command of the client program and answers what it prints.
    pub fn run(&self, words: &[&str]) -> Result<String, Failure> {
        run_at(self.address(), words)
    }

    pub fn stop(self) {
        self.server.stop().unwrap();
    }
}

/// Runs a command of the client program with the server at an address.
pub fn run_at(address: SocketAddr, words: &[&str]) -> Result<String, Failure> {
    let (address, mut out) = (address.to_string(), Vec::new());
    let mut arguments = vec!["--server", &address];
    arguments.extend(words);
    command::run(&arguments, &mut out).map(|()| String::from_utf8(out).unwrap())
}

/// A server for one connection, with whatever it does there. It answers what that gave.
pub fn one_connection<T: Send + 'static>(
    work: impl FnOnce(TestClient) -> T + Send + 'static,
) -> (SocketAddr, JoinHandle<T>) {
    let listener = TcpListener::bind(ANY_PORT).unwrap();
    let address = listener.local_addr().unwrap();
    (address, thread::spawn(move || work(TestClient::on(listener.accept().unwrap().0))))
}

/// One end of a stream, with the copy that is made of what arrives.
pub struct TestClient {
    pub copy: CopyTable,
    stream: TcpStream,
    held: Vec<u8>,
}

impl TestClient {
    pub fn connect(address: SocketAddr) -> Self {
        TestClient::on(TcpStream::connect(address).unwrap())
    }

    fn on(stream: TcpStream) -> Self {
        stream.set_read_timeout(Some(TIMEOUT)).unwrap();
        stream.set_write_timeout(Some(TIMEOUT)).unwrap();
        stream.set_nodelay(true).unwrap();
        TestClient { copy: CopyTable::new(), stream, held: Vec::new() }
    }

    pub fn send_bytes(&mut self, bytes: &[u8]) {
        self.stream.write_all(bytes).unwrap();
    }

    /// Sends bytes; false where the other end has closed the stream.
    pub fn sends(&mut self, bytes: &[u8]) -> bool {
        self.stream.write_all(bytes).is_ok()
    }

    pub fn send(&mut self, message: &Message<'_>) {
        self.send_bytes(&bytes_of(message));
    }

    /// Sends messages together.
    pub fn send_all(&mut self, messages: &[Message<'_>]) {
        self.send_bytes(&messages.iter().flat_map(bytes_of).collect::<Vec<u8>>());
    }

    /// Says hello and reads until hello complete.
    pub fn greet(&mut self) {
        self.send(&HELLO);
        while !matches!(self.next(), Copied::HelloComplete { .. }) {}
    }

    /// Takes the next message into the copy.
    pub fn next(&mut self) -> Copied {
        self.next_or_end().expect("the stream ended")
    }

    /// Takes the next message into the copy; none at the end of the stream. Bytes of a message that
    /// is cut there are held.
    pub fn next_or_end(&mut self) -> Option<Copied> {
        loop {
            match self.copy.receive(&self.held) {
                Ok(copied) => {
                    self.held.drain(..copied.taken());
                    return Some(copied);
                }
                Err(Refusal::Incomplete) if self.read() => {}
                Err(Refusal::Incomplete) => return None,
                Err(refusal) => panic!("{refusal}"),
            }
        }
    }

    /// Takes all messages until the stream ends, which it does behind a whole one.
    pub fn take_rest(&mut self) {
        while self.next_or_end().is_some() {}
        assert!(self.holds_nothing());
    }

    /// Whether all that has arrived is taken.
    pub fn holds_nothing(&self) -> bool {
        self.held.is_empty()
    }

    /// Takes the next message, which is an assignment or update of this entry with this number.
    pub fn expect(&mut self, id: u16, number: u16) {
        assert!(matches!(self.next(), Copied::Stored { id: stored, .. } if stored == id));
        assert_eq!(self.copy.entry(id).unwrap().number, number);
    }

    /// Creates an entry, takes messages until the server has assigned it, and answers its ID.
    pub fn create(&mut self, name: &str, value_type: Type, value: &[u8]) -> u16 {
        self.send(&new_entry(name, value_type, value));
        self.find(name)
    }

    /// Takes messages until there is an entry of this name, and answers its ID.
    pub fn find(&mut self, name: &str) -> u16 {
        loop {
            match self.copy.find(name.as_bytes()) {
                Some(id) => return id,
                None => drop(self.next()),
            }
        }
    }

    /// So many bytes as they arrive.
    pub fn bytes(&mut self, length: usize) -> Vec<u8> {
        while self.held.len() < length {
            assert!(self.read(), "the stream ended");
        }
        self.held.drain(..length).collect()
    }

    /// Nothing more is sent.
    pub fn finish(&mut self) {
        self.stream.shutdown(std::net::Shutdown::Write).unwrap();
    }

    /// Sends bytes that are not looked at until the other end has closed the stream.
    pub fn send_until_closed(&mut self) {
        let start = Instant::now();
        while self.stream.write_all(&[0]).is_ok() {
            assert!(start.elapsed() < TIMEOUT, "the stream is not closed");
            thread::sleep(Duration::from_millis(1));
        }
    }

    /// Reads until the stream ends, and looks at nothing.
    pub fn discard(&mut self) {
        while self.read() {}
    }

    /// Reads until the stream ends on a thread of its own, which looks at nothing, and says then
    /// that it has ended.
    pub fn discard_aside(&self, ended: Arc<AtomicBool>) -> JoinHandle<()> {
        let mut aside = TestClient::on(self.stream.try_clone().unwrap());
        thread::spawn(move || {
            while aside.read() {
                aside.held.clear();
            }
            ended.store(true, Ordering::Relaxed);
        })
    }

    /// The stream ends, and nothing arrives before.
    pub fn expect_end(&mut self) {
        assert!(!self.read());
        assert_eq!(self.held, []);
    }

    /// Waits for bytes; false at the end of the stream. Where all connections were open, the
    /// stream is reset if something was sent.
    fn read(&mut self) -> bool {
        let mut buffer = [0; 65_536];
        match self.stream.read(&mut buffer) {
            Ok(length) => {
                self.held.extend_from_slice(&buffer[..length]);
                length > 0
            }
            Err(error) if error.kind() == ErrorKind::ConnectionReset => false,
            Err(error) => panic!("{error}"),
        }
    }
}

pub fn bytes_of(message: &Message<'_>) -> Vec<u8> {
    let mut out = vec![0; LONGEST_ASSIGNMENT];
    let length = encode(message, &mut out).unwrap();
    out.truncate(length);
    out
}

/// A client's assignment.
pub fn new_entry<'a>(name: &'a str, value_type: Type, value: &'a [u8]) -> Message<'a> {
    Message::Assignment { name: name.as_bytes(), value_type, id: 0xFFFF, number: 0, value }
}

/// Both copies have the same entries.
pub fn assert_same(left: &CopyTable, right: &CopyTable) {
    assert_eq!(left.entries().collect::<Vec<_>>(), right.entries().collect::<Vec<_>>());
}
