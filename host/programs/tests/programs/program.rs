//! The server program at work, and a folder for its files.

use crate::support::{ANY_PORT, TIMEOUT, TestClient};
use std::fs::{self, DirEntry, File};
use std::io::{self, BufRead, BufReader, Read, Write};
use std::net::SocketAddr;
use std::path::{Path, PathBuf};
use std::process::{Child, Command, Stdio};
use std::sync::Arc;
use std::sync::atomic::{AtomicBool, Ordering};
use std::sync::mpsc::{Receiver, channel};
use std::thread::{self, JoinHandle};
use std::time::{Duration, Instant};

/// A disk is tried so often.
const WATCH_PAUSE: Duration = Duration::from_millis(20);

const SERVER_PROGRAM: &str = env!("CARGO_BIN_EXE_nt2-server");

/// A program that is to be run with these arguments.
pub fn program(path: &str, arguments: &[&str]) -> Command {
    let mut command = Command::new(path);
    command.args(arguments).stdin(Stdio::null()).stdout(Stdio::piped()).stderr(Stdio::piped());
    command
}

/// A program that is killed with its test.
struct Running(Child);

impl Drop for Running {
    fn drop(&mut self) {
        let _ = self.0.kill();
        let _ = self.0.wait();
    }
}

/// Runs the server program until it ends. Answers its exit status and what it prints.
pub fn server_program(arguments: &[&str]) -> (Option<i32>, String, String) {
    let mut server = Running(program(SERVER_PROGRAM, arguments).spawn().unwrap());
    let status = wait_until(|| server.0.try_wait().unwrap());
    let (mut printed, mut said) = (String::new(), String::new());
    server.0.stdout.take().unwrap().read_to_string(&mut printed).unwrap();
    server.0.stderr.take().unwrap().read_to_string(&mut said).unwrap();
    (status.code(), printed, said)
}

/// The server program at work.
pub struct ServerProgram {
    running: Running,
    address: SocketAddr,
    said: Receiver<String>,
}

impl ServerProgram {
    /// Starts the program at any port, and waits until it listens.
    pub fn start(options: &[&str]) -> Self {
        let arguments = [options, &[ANY_PORT]].concat();
        let mut running = Running(program(SERVER_PROGRAM, &arguments).spawn().unwrap());
        let said = lines(running.0.stderr.take().unwrap());
        let mut line = String::new();
        BufReader::new(running.0.stdout.take().unwrap()).read_line(&mut line).unwrap();
        let Some(address) = line.trim_end().strip_prefix("listening at ") else {
            drop(running);
            panic!("{:?}", said.iter().collect::<Vec<_>>());
        };
        ServerProgram { running, address: address.parse().unwrap(), said }
    }

    pub fn address(&self) -> SocketAddr {
        self.address
    }

    /// A client whose hello was accepted.
    pub fn greeted(&self) -> TestClient {
        let mut client = TestClient::connect(self.address);
        client.greet();
        client
    }

    /// The next line of standard error.
    pub fn next_line(&self) -> String {
        self.said.recv_timeout(TIMEOUT).unwrap()
    }

    /// Waits for a line of standard error that has this text.
    pub fn expect(&self, text: &str) {
        while !self.next_line().contains(text) {}
    }

    /// Sends a signal by its name.
    pub fn signal(&self, name: &str) {
        let kill = format!("kill -{name} {}", self.running.0.id());
        assert!(Command::new("sh").args(["-c", &kill]).status().unwrap().success());
    }

    /// Waits until the program has ended. Answers its exit status and the lines not taken yet.
    pub fn ended(mut self) -> (Option<i32>, Vec<String>) {
        let status = wait_until(|| self.running.0.try_wait().unwrap());
        (status.code(), self.said.iter().collect())
    }

    /// Kills the program at once.
    pub fn kill(&mut self) {
        self.running.0.kill().unwrap();
        self.running.0.wait().unwrap();
    }
}

/// Each line as it comes.
fn lines(stream: impl Read + Send + 'static) -> Receiver<String> {
    let (send, lines) = channel();
    thread::spawn(move || {
        let read = BufReader::new(stream).lines().map_while(Result::ok);
        // A test that has ended needs no lines, but the program is to be rid of them.
        read.for_each(|line| drop(send.send(line)));
    });
    lines
}

/// Waits for something that comes, and looks for it often.
pub fn wait_until<T>(mut look: impl FnMut() -> Option<T>) -> T {
    let start = Instant::now();
    loop {
        if let Some(found) = look() {
            return found;
        }
        assert!(start.elapsed() < TIMEOUT, "it does not come");
        thread::sleep(Duration::from_millis(1));
    }
}

/// A folder of a test, which ends with it.
pub struct TestFolder(PathBuf);

impl TestFolder {
    pub fn new(test: &str) -> Self {
        let path = Path::new(env!("CARGO_TARGET_TMPDIR")).join(test);
        let _ = fs::remove_dir_all(&path);
        fs::create_dir_all(&path).unwrap();
        TestFolder(path)
    }

    /// The path of a file in it.
    pub fn path(&self, name: &str) -> String {
        self.0.join(name).into_os_string().into_string().unwrap()
    }

    /// The names of all files in it, in their order.
    pub fn names(&self) -> Vec<String> {
        let name = |entry: io::Result<DirEntry>| entry.unwrap().file_name().into_string().unwrap();
        let mut names: Vec<_> = fs::read_dir(&self.0).unwrap().map(name).collect();
        names.sort();
        names
    }
}

impl Drop for TestFolder {
    fn drop(&mut self) {
        let _ = fs::remove_dir_all(&self.0);
    }
}

/// How long the disk takes for a new file. A disk that many use may stop for a while.
pub struct DiskWatch {
    ends: Arc<AtomicBool>,
    thread: JoinHandle<Duration>,
}

impl DiskWatch {
    /// Writes a file in the folder again and again.
    pub fn start(folder: &TestFolder) -> Self {
        let (path, ends) = (folder.path("watch"), Arc::new(AtomicBool::new(false)));
        let ended = Arc::clone(&ends);
        let thread = thread::spawn(move || {
            let mut longest = Duration::ZERO;
            while !ended.load(Ordering::Relaxed) {
                let start = Instant::now();
                let mut file = File::create(&path).unwrap();
                file.write_all(&[0]).unwrap();
                file.sync_all().unwrap();
                longest = longest.max(start.elapsed());
                fs::remove_file(&path).unwrap();
                thread::sleep(WATCH_PAUSE);
            }
            longest
        });
        DiskWatch { ends, thread }
    }

    /// The longest time so far.
    pub fn longest(self) -> Duration {
        self.ends.store(true, Ordering::Relaxed);
        self.thread.join().unwrap()
    }
}
