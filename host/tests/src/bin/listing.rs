//! Runs the listing program on the inputs of the acceptance cases and on inputs with the longest
//! listings, and compares what it writes.
//!
//! Argument: the program.

use nt2_tests::acceptance::{folder, listing, listing_cases};
use nt2_tests::ending::status;
use nt2_tests::implementation::Reference;
use nt2_tests::program::written;
use std::process::ExitCode;

fn run() -> Result<(), String> {
    let program = std::env::args().nth(1).ok_or("argument: the program")?;
    let mut cases = listing_cases(&folder())?;
    for input in [vec![0; 27], vec![0; 4096], vec![0; 5000]] {
        let text = listing::<Reference>(&input);
        cases.push((input, text));
    }
    for (place, (input, text)) in cases.iter().enumerate() {
        if written(&program, input)? != text.as_bytes() {
            return Err(format!("input {place}: another listing than {text:?}"));
        }
    }
    println!("listing program: {} of {} listings equal", cases.len(), cases.len());
    Ok(())
}

fn main() -> ExitCode {
    status("listing", run())
}
