//! Times of whole listings, the bench's beside the model's. Each row's file is near the longest;
//! the time of a file with settings alone is taken off, so that what is left is the work on events.

use std::env;
use std::fs::{self, File};
use std::io;
use std::path::{Path, PathBuf};
use std::process::{Command, Stdio};
use std::time::{Duration, Instant};

use crate::builds::RIGHT;
use crate::cell::{Event, Settings};
use crate::compare::listing_by;
use crate::driver::Driver;
use crate::listing::LONGEST_FILE;
use crate::record::SETTINGS_LENGTH;

/// So often each program is run with each file; the best time counts.
const TIMES: usize = 400;

/// The longest record of an event.
const LONGEST_RECORD: usize = 9;

const LONGEST_LEASE: u32 = 100;
const SPREAD: u32 = 5;

/// A cell of n hosts, none of which waits any more.
fn opened(n: u8) -> Option<Driver> {
    let settings = Settings { n, longest: LONGEST_LEASE, spread: SPREAD, clock: 0 };
    let mut driver = Driver::open(settings, RIGHT)?;
    driver.advance_all(u64::from(LONGEST_LEASE + SPREAD));
    Some(driver)
}

/// A file filled up by events, which are told by their place.
fn filled(mut driver: Driver, event: impl Fn(usize) -> Event) -> Driver {
    let mut place = 0;
    while driver.bytes.len() + LONGEST_RECORD <= LONGEST_FILE {
        driver.apply(event(place));
        place += 1;
    }
    driver
}

/// A prepare request repeated and delivered, over and over.
fn repeats_and_deliveries() -> Option<Driver> {
    let mut driver = opened(3)?;
    driver.start(0, 50);
    Some(filled(driver, |place| match place % 2 {
        0 => Event::Repeat { slot: 0 },
        _ => Event::Deliver { slot: 3 },
    }))
}

/// The same where the lowest empty slot is the 81st.
fn eighty_slots() -> Option<Driver> {
    let mut driver = opened(3)?;
    driver.start(0, 50);
    for _ in 3..80 {
        driver.apply(Event::Repeat { slot: 0 });
    }
    Some(filled(driver, |place| match place % 2 {
        0 => Event::Repeat { slot: 0 },
        _ => Event::Deliver { slot: 80 },
    }))
}

/// A cell of nine hosts with so many slots in use: none, or nine and more.
fn in_use(slots: u8) -> Option<Driver> {
    let mut driver = opened(9)?;
    if slots > 0 {
        driver.start(0, 50);
    }
    while driver.cell.slots.taken() < u32::from(slots) {
        driver.apply(Event::Repeat { slot: 0 });
    }
    Some(driver)
}

/// Over and over a host sends to all nine, and its messages are lost.
fn nine_messages(slots: u8) -> Option<Driver> {
    Some(filled(in_use(slots)?, |place| match place % 11 {
        0 => Event::AdvanceAll { ticks: 1 },
        1 => Event::Start { host: 1, duration: 50 },
        sent => Event::Lose { slot: slots + sent as u8 - 2 },
    }))
}

/// Starts of a host that would send to all nine, with slots for fewer.
fn no_room(slots: u8) -> Option<Driver> {
    Some(filled(in_use(slots)?, |_| Event::Start { host: 1, duration: 50 }))
}

/// The hosts start in turn, a tick apart, and all messages of each round are delivered.
fn whole_rounds(n: u8) -> Option<Driver> {
    let mut driver = opened(n)?;
    let messages = 5 * usize::from(n) - 1;
    let round = 8 + LONGEST_RECORD + 5 * messages;
    let mut host = 0;
    while driver.bytes.len() + round <= LONGEST_FILE {
        driver.advance_all(1);
        driver.start(host, 50);
        while driver.cell.slots.taken() > 0 {
            driver.deliver(|_| true);
        }
        host = (host + 1) % n;
    }
    Some(driver)
}

/// Each of the eight events in turn, refused.
fn all_refused() -> Option<Driver> {
    let driver = opened(3)?;
    Some(filled(driver, |place| match place % 8 {
        0 => Event::AdvanceAll { ticks: 0 },
        1 => Event::AdvanceOne { host: 1, ticks: SPREAD + 1 },
        2 => Event::Start { host: 2, duration: 0 },
        3 => Event::Deliver { slot: 0 },
        4 => Event::Lose { slot: 95 },
        5 => Event::Repeat { slot: 96 },
        6 => Event::Restart { host: 3 },
        _ => Event::Release { host: 1 },
    }))
}

/// The clocks of nine hosts go up one after the other, then all at once.
fn advances() -> Option<Driver> {
    let driver = opened(9)?;
    Some(filled(driver, |place| match place % 10 {
        9 => Event::AdvanceAll { ticks: 1 },
        host => Event::AdvanceOne { host: host as u8, ticks: 1 },
    }))
}

/// The best times of both programs with each file, all run in turn.
fn best(programs: [&Path; 2], files: [&Path; 2]) -> io::Result<[[Duration; 2]; 2]> {
    let mut best = [[Duration::MAX; 2]; 2];
    for _ in 0..TIMES {
        for (row, file) in best.iter_mut().zip(files) {
            for (best, program) in row.iter_mut().zip(programs) {
                *best = time(program, file)?.min(*best);
            }
        }
    }
    Ok(best)
}

/// The time of one process, from its start to its end.
fn time(program: &Path, run_file: &Path) -> io::Result<Duration> {
    let input = File::open(run_file)?;
    let started = Instant::now();
    Command::new(program).stdin(input).stdout(Stdio::null()).status()?;
    Ok(started.elapsed())
}

struct Measurement {
    bench: PathBuf,
    model: PathBuf,
    folder: PathBuf,
}

impl Measurement {
    /// One row: events, microseconds of both, and how many times as long the bench takes.
    fn row(&self, name: &str, driver: Option<Driver>) -> io::Result<()> {
        let bytes = driver.map_or(Vec::new(), |driver| driver.bytes);
        let settings = self.folder.join("settings.run");
        let run_file = self.folder.join("measured.run");
        fs::write(&settings, &bytes[..bytes.len().min(SETTINGS_LENGTH)])?;
        fs::write(&run_file, &bytes)?;
        let listing = listing_by(&self.model, &run_file)?;
        if listing != listing_by(&self.bench, &run_file)? {
            return Err(io::Error::new(io::ErrorKind::Other, "the listings differ"));
        }
        let events = listing.iter().filter(|&&byte| byte == b'\n').count() - 2;
        let [without, whole] = best([&self.bench, &self.model], [&settings, &run_file])?;
        let micros = |at: usize| whole[at].saturating_sub(without[at]).as_secs_f64() * 1e6;
        let (bench, model) = (micros(0), micros(1));
        let ratio = bench / model;
        println!("| {} | {} | {:.0} | {:.0} | {:.1} |", name, events, bench, model, ratio);
        Ok(())
    }
}

/// The table, one row for each file.
pub fn run(bench: PathBuf, folder: PathBuf) -> io::Result<bool> {
    fs::create_dir_all(&folder)?;
    let measurement = Measurement { bench, model: env::current_exe()?, folder };
    println!("| file | events | bench, us | model, us | bench / model |");
    println!("|---|---|---|---|---|");
    measurement.row("deliveries and repeats", repeats_and_deliveries())?;
    measurement.row("whole rounds, 3 hosts", whole_rounds(3))?;
    measurement.row("whole rounds, 9 hosts", whole_rounds(9))?;
    measurement.row("80 slots in use", eighty_slots())?;
    measurement.row("nine messages, no slot in use", nine_messages(0))?;
    measurement.row("nine messages, 87 slots in use", nine_messages(87))?;
    measurement.row("13, 88 slots in use", no_room(88))?;
    measurement.row("13, every slot in use", no_room(96))?;
    measurement.row("all refused", all_refused())?;
    measurement.row("advances, 9 hosts", advances())?;
    Ok(true)
}
