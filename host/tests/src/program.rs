//! What a program writes to its standard output.

use std::io::Write;
use std::process::{ChildStdin, Command, Stdio};
use std::thread;
use std::time::Duration;

/// Between two bytes of an input that comes in slowly.
const PAUSE: Duration = Duration::from_micros(200);

/// What a program writes for an input.
pub fn written(program: &str, input: &[u8]) -> Result<Vec<u8>, String> {
    // A program that does not read all of its input leaves the rest of it unwritten.
    output(program, |mut stdin| drop(stdin.write_all(input)))
}

/// What it writes where each byte of the input comes in by itself.
pub fn written_slowly(program: &str, input: &[u8]) -> Result<Vec<u8>, String> {
    output(program, |mut stdin| {
        for byte in input.chunks(1) {
            if stdin.write_all(byte).is_err() {
                return;
            }
            thread::sleep(PAUSE);
        }
    })
}

/// Runs a program, and something that writes its input.
fn output(program: &str, write: impl FnOnce(ChildStdin) + Send) -> Result<Vec<u8>, String> {
    let mut child = Command::new(program)
        .stdin(Stdio::piped())
        .stdout(Stdio::piped())
        .spawn()
        .map_err(|e| format!("{program}: {e}"))?;
    let stdin = child.stdin.take().ok_or("no standard input")?;
    let output = thread::scope(|scope| {
        scope.spawn(|| write(stdin));
        child.wait_with_output()
    });
    let output = output.map_err(|e| e.to_string())?;
    if output.status.success() { Ok(output.stdout) } else { Err(output.status.to_string()) }
}
