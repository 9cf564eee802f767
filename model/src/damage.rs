//! Run files that stop: cut, with a wrong kind or length, with settings that opening refuses, too
//! long, empty, or of any bytes.

use crate::builds::RIGHT;
use crate::cell::{Event, Settings, LAST_TICK, LONGEST};
use crate::generate;
use crate::listing::LONGEST_FILE;
use crate::random::Random;
use crate::record::{write_event, write_settings, HEAD, SETTINGS_LENGTH};

/// How many kinds of damage there are.
pub const DAMAGES: u64 = 15;

/// A damaged file of a seed; seeds that follow one another go through all kinds.
pub fn run(seed: u64) -> Vec<u8> {
    let mut random = Random::new(seed);
    let mut bytes = generate::run(seed, RIGHT);
    damage(seed % DAMAGES, &mut random, &mut bytes);
    bytes
}

/// One kind of damage, below `DAMAGES`, to a whole file.
pub fn damage(kind: u64, random: &mut Random, bytes: &mut Vec<u8>) {
    match kind {
        0 => cut(random, bytes),
        1 => wrong_kind(random, bytes),
        2 => wrong_length(random, bytes),
        3 => settings_again(random, bytes),
        4 => replace_settings(bytes, refused_by_1(random)),
        5 => replace_settings(bytes, refused_by_6(random)),
        6 => too_long(random, bytes),
        7 => padded(random, bytes),
        8 => bytes.clear(),
        9 => *bytes = any_bytes(random),
        10 => first_record(random, bytes),
        11 => one_byte(random, bytes),
        12 => two_faults(random, bytes),
        13 => cut_head(random, bytes),
        _ => cut_fields(random, bytes),
    }
}

/// Where the records of a whole file begin, the end of the file included.
fn offsets(bytes: &[u8]) -> Vec<usize> {
    let mut offsets = vec![0];
    let mut at = 0;
    while at + 2 <= bytes.len() {
        at += usize::from(u16::from_le_bytes([bytes[at], bytes[at + 1]]));
        offsets.push(at);
    }
    offsets
}

/// Where a record after the first begins, or the file ends.
fn later_record(random: &mut Random, bytes: &[u8]) -> usize {
    let offsets = offsets(bytes);
    random.pick(&offsets[1..]).copied().unwrap_or(0)
}

fn put_u16(bytes: &mut [u8], at: usize, value: u64) {
    if at + 2 <= bytes.len() {
        bytes[at..at + 2].copy_from_slice(&(value as u16).to_le_bytes());
    }
}

fn cut(random: &mut Random, bytes: &mut Vec<u8>) {
    let length = random.below(bytes.len() as u64 + 1);
    bytes.truncate(length as usize);
}

/// Cut within the first four bytes of a record.
fn cut_head(random: &mut Random, bytes: &mut Vec<u8>) {
    let at = later_record(random, bytes) + random.below(5) as usize;
    bytes.truncate(at);
}

/// Cut behind the first four bytes of one of the longest records of events.
fn cut_fields(random: &mut Random, bytes: &mut Vec<u8>) {
    let (host, ticks) = (random.below(3) as u8, random.below(100) as u32);
    let at = later_record(random, bytes);
    bytes.truncate(at);
    match random.below(2) {
        0 => write_event(bytes, Event::AdvanceOne { host, ticks }),
        _ => write_event(bytes, Event::Start { host, duration: ticks }),
    }
    let left = random.between(HEAD as u64, (bytes.len() - at) as u64 - 1);
    bytes.truncate(at + left as usize);
}

fn a_kind(random: &mut Random) -> u64 {
    match random.below(6) {
        0 => 0,
        1 => random.between(99, 109),
        2 => 101 << 8,
        3 => 256 + 104,
        _ => random.below(65_536),
    }
}

fn wrong_kind(random: &mut Random, bytes: &mut [u8]) {
    let at = later_record(random, bytes);
    put_u16(bytes, at + 2, a_kind(random));
}

fn a_length(random: &mut Random) -> u64 {
    match random.below(4) {
        0 => random.below(5),
        1 => random.between(5, 10),
        2 => 256 + 5,
        _ => random.below(65_536),
    }
}

fn wrong_length(random: &mut Random, bytes: &mut [u8]) {
    let at = later_record(random, bytes);
    put_u16(bytes, at, a_length(random));
}

/// A settings record at the place of a later record.
fn settings_again(random: &mut Random, bytes: &mut Vec<u8>) {
    let at = later_record(random, bytes);
    let mut again = bytes[..SETTINGS_LENGTH].to_vec();
    again.extend_from_slice(&bytes[at..]);
    bytes.truncate(at);
    bytes.append(&mut again);
    bytes.truncate(LONGEST_FILE);
}

fn replace_settings(bytes: &mut Vec<u8>, settings: Settings) {
    let mut replaced = Vec::new();
    write_settings(&mut replaced, settings);
    replaced.extend_from_slice(&bytes[SETTINGS_LENGTH..]);
    *bytes = replaced;
}

fn above_last_tick(random: &mut Random) -> u64 {
    match random.below(3) {
        0 => LAST_TICK + 1,
        1 => u64::MAX,
        _ => random.between(LAST_TICK + 1, u64::MAX - 1),
    }
}

/// n, T or S outside its range, and now and then another of them, or the clock, as well.
fn refused_by_1(random: &mut Random) -> Settings {
    let mut settings = generate::settings(random);
    put_outside(random, &mut settings);
    if random.chance(300) {
        put_outside(random, &mut settings);
    }
    if random.chance(300) {
        settings.clock = above_last_tick(random);
    }
    settings
}

fn put_outside(random: &mut Random, settings: &mut Settings) {
    match random.below(6) {
        0 => settings.n = 0,
        1 => settings.n = 10,
        2 => settings.n = random.between(10, 255) as u8,
        3 => settings.longest = 0,
        4 => settings.longest = random.between(u64::from(LONGEST) + 1, 0xFFFF_FFFF) as u32,
        _ => settings.spread = settings.longest.saturating_add(random.below(2) as u32),
    }
}

fn refused_by_6(random: &mut Random) -> Settings {
    let settings = generate::settings(random);
    Settings { clock: above_last_tick(random), ..settings }
}

fn too_long(random: &mut Random, bytes: &mut Vec<u8>) {
    let length = match random.below(3) {
        0 => LONGEST_FILE + 1,
        _ => LONGEST_FILE + random.between(1, 140_000) as usize,
    };
    let fill = random.next() as u8;
    bytes.resize(length, fill);
}

/// Exactly as long as may be, the rest one byte over and over.
fn padded(random: &mut Random, bytes: &mut Vec<u8>) {
    let fill = random.next() as u8;
    bytes.resize(LONGEST_FILE, fill);
}

fn any_bytes(random: &mut Random) -> Vec<u8> {
    let length = random.below(300);
    let small = random.chance(500);
    (0..length).map(|_| if small { random.below(8) } else { random.next() } as u8).collect()
}

/// Damage within the settings record.
fn first_record(random: &mut Random, bytes: &mut Vec<u8>) {
    match random.below(4) {
        0 => put_u16(bytes, 0, a_length(random)),
        1 => put_u16(bytes, 2, a_kind(random)),
        2 => bytes.truncate(random.below(SETTINGS_LENGTH as u64) as usize),
        _ => {
            let at = random.below(SETTINGS_LENGTH as u64) as usize;
            bytes[at] = random.next() as u8;
        }
    }
}

fn one_byte(random: &mut Random, bytes: &mut [u8]) {
    let at = random.below(bytes.len() as u64) as usize;
    bytes[at] = random.next() as u8;
}

/// Two faults in one record, of which the one that is earlier in reading's order is told.
fn two_faults(random: &mut Random, bytes: &mut Vec<u8>) {
    let offsets = offsets(bytes);
    let at = random.pick(&offsets).copied().unwrap_or(0);
    let which = random.below(3);
    if which != 0 {
        put_u16(bytes, at, a_length(random));
    }
    if which != 1 {
        put_u16(bytes, at + 2, a_kind(random));
    }
    if which != 2 {
        bytes.truncate(at + 4);
    }
}
