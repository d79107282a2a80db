//! The server program, killed at any moment under load: its file is whole, and has what clients had
//! read a second before.

use crate::kept::{entries_of, loaded};
use crate::load::{Load, Turns, is_reached, turns};
use crate::program::{DiskWatch, ServerProgram, TestFolder};
use std::env;
use std::fs;
use std::os::unix::fs::MetadataExt;
use std::thread::{self, JoinHandle};
use std::time::{Duration, Instant, SystemTime, UNIX_EPOCH};

/// Kills, if nothing else is said by `KILLS`.
const KILLS: u64 = 33;
/// Servers at work at the same time.
const SERVERS: u64 = 3;
/// A server is killed within so many milliseconds.
const MOST_TIME: u64 = 1800;
/// What was read so long before the kill is in the file, if the disk does not stop meanwhile.
const KEPT_AFTER: Duration = Duration::from_secs(1);
/// A change that comes now is being saved by then.
const NEXT_SAVE: Duration = Duration::from_millis(700);

/// Whether a save has begun is looked at so often.
const PAUSE: Duration = Duration::from_micros(50);

/// A number that the environment gives.
fn given(name: &str) -> Option<u64> {
    env::var(name).ok().map(|text| text.parse().unwrap())
}

/// The turns of a file's entries; none where there is no file.
fn kept_turns(path: &str) -> Turns {
    if fs::exists(path).unwrap() {
        turns(entries_of(&loaded(path)).into_iter())
    } else {
        Vec::new()
    }
}

/// What tells a file from another one of the same name.
fn identity(path: &str) -> Option<(u64, SystemTime)> {
    fs::metadata(path).ok().map(|found| (found.ino(), found.modified().unwrap()))
}

/// What came of a series of kills.
#[derive(Default)]
struct Series {
    /// Kills after which the file had to have something new.
    with_news: u64,
    /// Kills in the middle of a save, which left the new file beside.
    in_a_save: u64,
    /// How long before the kill the first change that was lost had been read, at most.
    most_lost: Duration,
}

impl Series {
    /// Starts a server, kills it after some time under load, and looks at the file.
    fn kill(&mut self, path: &str, time: Duration, in_a_save: bool) {
        let (at_start, new) = (kept_turns(path), format!("{path}.new"));
        let (left_before, mut server) = (identity(&new), ServerProgram::start(&["--table", path]));
        let started = server.greeted().copy;
        assert_eq!(turns(started.entries().map(|(_, entry)| entry)), at_start);

        let load = Load::start(server.address());
        thread::sleep(time);
        let (waits, saves) =
            (Instant::now(), || identity(&new).is_some_and(|new| Some(new) != left_before));
        while in_a_save && !saves() && waits.elapsed() < NEXT_SAVE {
            thread::sleep(PAUSE);
        }
        let killed = Instant::now();
        server.kill();

        let (reading, kept) = (load.ended(), kept_turns(path));
        assert!(is_reached(&at_start, &kept), "what was loaded is lost");
        let lost = reading.beyond(&kept).map_or(Duration::ZERO, |moment| killed - moment);
        self.most_lost = self.most_lost.max(lost);
        self.with_news += u64::from(!is_reached(reading.turns_at(killed - KEPT_AFTER), &at_start));
        self.in_a_save += u64::from(saves());
    }
}

/// Random times, from a generator of numbers.
fn series(mut seed: u64, server: u64, kills: u64) -> Series {
    let folder = TestFolder::new(&format!("killed_at_any_moment_{server}"));
    let (path, mut series) = (folder.path("table"), Series::default());
    for kill in 0..kills {
        seed = seed.wrapping_mul(6_364_136_223_846_793_005).wrapping_add(1_442_695_040_888_963_407);
        let time = Duration::from_millis((seed >> 33) % MOST_TIME);
        series.kill(&path, time, kill % 2 == 1);
    }
    series
}

#[test]
fn killed_at_any_moment() {
    let clock = || SystemTime::now().duration_since(UNIX_EPOCH).unwrap().as_nanos() as u64;
    let seed = given("SEED").unwrap_or_else(clock);
    let kills = given("KILLS").unwrap_or(KILLS).div_ceil(SERVERS);
    println!("SEED={seed}");
    let folder = TestFolder::new("killed_at_any_moment");
    let disk = DiskWatch::start(&folder);
    let servers: Vec<_> = (0..SERVERS)
        .map(|server| thread::spawn(move || series(seed.wrapping_add(server), server, kills)))
        .collect();
    // Each of them ends its server, also where another one has failed.
    let all: Vec<_> = servers.into_iter().map(JoinHandle::join).collect();
    let longest = disk.longest();
    for ended in all {
        let Series { with_news, in_a_save, most_lost } = ended.unwrap();
        println!("{kills} kills, {with_news} with news, {in_a_save} in a save");
        println!("lost: read {most_lost:?} before; the disk took {longest:?}");
        assert!(with_news > 0 && most_lost < KEPT_AFTER + longest);
    }
}
