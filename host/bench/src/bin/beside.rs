//! Two libraries beside each other: runs the `rows` of an earlier checkout and of this one in turn,
//! and prints every row's best time in both and their ratio, the highest last, and the rows that are
//! new. The last line says how many rows are above the limit.
//!
//! Arguments: `--before ROWS`, `--now ROWS` (else the one beside this program), `--runs N`.

#![forbid(unsafe_code)]

use nt2_tests::arguments::Arguments;
use nt2_tests::ending::status;
use std::collections::BTreeMap;
use std::env;
use std::path::{Path, PathBuf};
use std::process::{Command, ExitCode, Stdio};

/// The highest ratio, now by before, that a row may have.
const MOST_RATIO: f64 = 1.03;

/// Nanoseconds by a row's name.
type Rows = BTreeMap<String, f64>;

/// The rows of a program's output.
fn parse(output: &str) -> Result<Rows, String> {
    let row = |line: &str| {
        let (nanoseconds, name) = line.split_once('\t')?;
        let nanoseconds: f64 = nanoseconds.parse().ok()?;
        (nanoseconds.is_finite() && nanoseconds > 0.0).then(|| (name.to_string(), nanoseconds))
    };
    output.lines().map(|line| row(line).ok_or_else(|| format!("not a row: {line}"))).collect()
}

/// Runs a program once; each row keeps its best time.
fn run_once(program: &Path, best: &mut Rows) -> Result<(), String> {
    let failed = |why: String| format!("{}: {why}", program.display());
    let output = Command::new(program)
        .stderr(Stdio::inherit())
        .output()
        .map_err(|error| failed(error.to_string()))?;
    if !output.status.success() {
        return Err(failed(output.status.to_string()));
    }
    for (name, nanoseconds) in parse(&String::from_utf8_lossy(&output.stdout)).map_err(failed)? {
        let kept = best.entry(name).or_insert(nanoseconds);
        *kept = kept.min(nanoseconds);
    }
    Ok(())
}

/// All earlier rows with their ratios, the lowest first. There have to be some, and each of them now.
fn ratios<'a>(before: &'a Rows, now: &Rows) -> Result<Vec<(f64, &'a str)>, String> {
    if before.is_empty() || !before.keys().all(|name| now.contains_key(name)) {
        return Err("the earlier program prints other rows".to_string());
    }
    let mut all: Vec<_> =
        before.iter().map(|(name, earlier)| (now[name] / earlier, name.as_str())).collect();
    all.sort_by(|left, right| left.0.total_cmp(&right.0));
    Ok(all)
}

fn run() -> Result<(), String> {
    let arguments = Arguments::read(&["before", "now", "runs"])?;
    let program_before = PathBuf::from(arguments.text("before").ok_or("--before is missing")?);
    let beside = env::current_exe().map_err(|error| error.to_string())?.with_file_name("rows");
    let program_now = arguments.text("now").map_or(beside, PathBuf::from);
    let (mut before, mut now) = (Rows::new(), Rows::new());
    for _ in 0..arguments.number("runs", 32)? {
        run_once(&program_before, &mut before)?;
        run_once(&program_now, &mut now)?;
    }
    let all = ratios(&before, &now)?;
    println!("{:>10} {:>10} {:>6}", "before", "now", "ratio");
    for (ratio, name) in &all {
        println!("{:>10.1} {:>10.1} {ratio:>6.3}  {name}", before[*name], now[*name]);
    }
    for (name, nanoseconds) in now.iter().filter(|(name, _)| !before.contains_key(*name)) {
        println!("{:>10} {nanoseconds:>10.1} {:>6}  {name}", "-", "new");
    }
    let mean = (all.iter().map(|(ratio, _)| ratio.ln()).sum::<f64>() / all.len() as f64).exp();
    let above = all.iter().filter(|(ratio, _)| *ratio > MOST_RATIO).count();
    println!("{} rows, mean {mean:.3}; above {MOST_RATIO}: {above}", all.len());
    Ok(())
}

fn main() -> ExitCode {
    status("beside", run())
}

#[cfg(test)]
mod tests {
    use super::*;

    #[test]
    fn rows_are_compared_by_their_names() {
        let before = parse("10.0\tsmall, read, 1\n4.0\tsmall, open, 1\n").unwrap();
        let now = parse("5.0\tsmall, open, 1\n9.0\tsmall, read, 1\n").unwrap();
        let expected = [(0.9, "small, read, 1"), (1.25, "small, open, 1")];
        assert_eq!(ratios(&before, &now).unwrap(), expected);
    }

    #[test]
    fn no_earlier_row_is_left_out() {
        let (one, two) = (parse("1.0\ta").unwrap(), parse("1.0\ta\n1.0\tb").unwrap());
        assert_eq!(ratios(&one, &two).unwrap(), [(1.0, "a")]);
        assert!(ratios(&two, &one).is_err());
        assert!(ratios(&Rows::new(), &Rows::new()).is_err());
    }

    #[test]
    fn times_are_numbers_above_zero() {
        assert!(parse("10.0 small").is_err());
        assert!(parse("inf\tsmall").is_err());
        assert!(parse("NaN\tsmall").is_err());
        assert!(parse("0.0\tsmall").is_err());
    }
}
