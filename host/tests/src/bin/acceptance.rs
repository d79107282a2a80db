//! Runs all acceptance cases against the reference and the library.
//!
//! Arguments: `--folder FOLDER` with other cases of the same format.

use nt2_tests::acceptance::{FILES, folder, run_file};
use nt2_tests::arguments::Arguments;
use nt2_tests::ending::status;
use nt2_tests::implementation::{Implementation, Reference};
use std::path::{Path, PathBuf};
use std::process::ExitCode;

fn run_all<I: Implementation>(folder: &Path) -> Result<(), String> {
    let (mut cases, mut failed) = (0, 0);
    for (file, expected) in FILES {
        let run = run_file::<I>(folder, file)?;
        run.failures.iter().take(10).for_each(|failure| println!("  {failure}"));
        if run.cases != expected {
            return Err(format!("{file} has {} cases, not {expected}", run.cases));
        }
        cases += run.cases;
        failed += run.failures.len();
    }
    println!("acceptance, {}: {} of {cases} cases passed", I::NAME, cases - failed);
    if failed == 0 { Ok(()) } else { Err(format!("{failed} cases failed")) }
}

fn run() -> Result<(), String> {
    let arguments = Arguments::read(&["folder"])?;
    let folder = arguments.text("folder").map_or_else(folder, PathBuf::from);
    run_all::<Reference>(&folder)?;
    #[cfg(feature = "library")]
    run_all::<nt2_tests::implementation::Library>(&folder)?;
    Ok(())
}

fn main() -> ExitCode {
    status("acceptance", run())
}
