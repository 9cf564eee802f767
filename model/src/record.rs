//! The records of a run file, read from bytes and written to them.

use std::cmp::Ordering;

use crate::builds::Build;
use crate::cell::{Event, Setting, Settings};
use crate::refusal::{Fault, CUT, KIND, LENGTH, SHORT};

pub const SETTINGS: u16 = 100;
pub const ADVANCE_ALL: u16 = 101;
pub const ADVANCE_ONE: u16 = 102;
pub const START: u16 = 103;
pub const DELIVER: u16 = 104;
pub const LOSE: u16 = 105;
pub const REPEAT: u16 = 106;
pub const RESTART: u16 = 107;
pub const RELEASE: u16 = 108;

/// Length and kind, two bytes each.
pub const HEAD: usize = 4;
const LENGTH_AT: usize = 0;
const KIND_AT: usize = 2;

pub const SETTINGS_LENGTH: usize = 21;

/// The length of a settings record, the only kind that may come first.
pub fn first_length(kind: u16) -> Option<usize> {
    match kind {
        SETTINGS => Some(SETTINGS_LENGTH),
        _ => None,
    }
}

/// The length of an event's record, by its kind.
pub fn event_length(kind: u16) -> Option<usize> {
    match kind {
        ADVANCE_ALL => Some(8),
        ADVANCE_ONE | START => Some(9),
        DELIVER | LOSE | REPEAT | RESTART | RELEASE => Some(5),
        _ => None,
    }
}

pub fn u16_at(bytes: &[u8], at: usize) -> u16 {
    u16::from_le_bytes([bytes[at], bytes[at + 1]])
}

fn u32_at(bytes: &[u8], at: usize) -> u32 {
    u32::from(u16_at(bytes, at)) | u32::from(u16_at(bytes, at + 2)) << 16
}

fn u64_at(bytes: &[u8], at: usize) -> u64 {
    u64::from(u32_at(bytes, at)) | u64::from(u32_at(bytes, at + 4)) << 32
}

/// 17 or 4: a length field that says less, or more, than its kind's length.
fn length_fault(told: usize, length: usize) -> Option<Fault> {
    match told.cmp(&length) {
        Ordering::Less => Some(Fault { number: SHORT, offset: LENGTH_AT }),
        Ordering::Equal => None,
        Ordering::Greater => Some(Fault { number: LENGTH, offset: LENGTH_AT }),
    }
}

/// A record's kind, its fields and how far the next record is; it is handed the file from the
/// record on. 'Record faults are 2, 3, 4 in reading's order': 2 (under 4 bytes), 3, 4 or 17, 2.
fn record(
    bytes: &[u8],
    length_of: fn(u16) -> Option<usize>,
    build: Build,
) -> Result<(u16, &[u8], usize), Fault> {
    let cut = Fault { number: CUT, offset: bytes.len() };
    if bytes.len() < HEAD {
        return Err(cut);
    }
    let told = usize::from(u16_at(bytes, LENGTH_AT));
    let kind = u16_at(bytes, KIND_AT);
    let length = length_of(kind).ok_or(Fault { number: KIND, offset: KIND_AT })?;
    match length_fault(told, length) {
        Some(fault) if !build.skips_by_the_length_field => return Err(fault),
        _ => {}
    }
    let fields = bytes.get(HEAD..length.max(told)).ok_or(cut)?;
    Ok((kind, fields, told.max(HEAD)))
}

/// What a run file stops by where opening refuses a setting; the settings record has them behind
/// its head, one after the other.
pub fn setting_fault(setting: Setting) -> Fault {
    let before = match setting {
        Setting::Hosts => 0,
        Setting::Longest => 1,
        Setting::Spread => 1 + 4,
        Setting::Clock => 1 + 4 + 4,
    };
    Fault { number: setting.refusal(), offset: HEAD + before }
}

/// The settings, from a file's first record.
pub fn settings(bytes: &[u8], build: Build) -> Result<(Settings, usize), Fault> {
    let (_, fields, length) = record(bytes, first_length, build)?;
    let settings = Settings {
        n: fields[0],
        longest: u32_at(fields, 1),
        spread: u32_at(fields, 5),
        clock: u64_at(fields, 9),
    };
    Ok((settings, length))
}

/// The event that a later record stands for, its kind and its length.
pub fn event(bytes: &[u8], build: Build) -> Result<(Event, u16, usize), Fault> {
    let (kind, fields, length) = record(bytes, event_length, build)?;
    let first = fields[0];
    let event = match kind {
        ADVANCE_ALL => Event::AdvanceAll { ticks: u32_at(fields, 0) },
        ADVANCE_ONE => Event::AdvanceOne { host: first, ticks: u32_at(fields, 1) },
        START => Event::Start { host: first, duration: u32_at(fields, 1) },
        DELIVER => Event::Deliver { slot: first },
        LOSE => Event::Lose { slot: first },
        REPEAT => Event::Repeat { slot: first },
        RESTART => Event::Restart { host: first },
        _ => Event::Release { host: first },
    };
    Ok((event, kind, length))
}

fn write(bytes: &mut Vec<u8>, kind: u16, fields: &[&[u8]]) {
    let length = HEAD + fields.iter().map(|field| field.len()).sum::<usize>();
    bytes.extend_from_slice(&(length as u16).to_le_bytes());
    bytes.extend_from_slice(&kind.to_le_bytes());
    for field in fields {
        bytes.extend_from_slice(field);
    }
}

pub fn write_settings(bytes: &mut Vec<u8>, settings: Settings) {
    let Settings { n, longest, spread, clock } = settings;
    let (longest, spread, clock) =
        (longest.to_le_bytes(), spread.to_le_bytes(), clock.to_le_bytes());
    write(bytes, SETTINGS, &[&[n], &longest, &spread, &clock]);
}

pub fn write_event(bytes: &mut Vec<u8>, event: Event) {
    match event {
        Event::AdvanceAll { ticks } => write(bytes, ADVANCE_ALL, &[&ticks.to_le_bytes()]),
        Event::AdvanceOne { host, ticks } => {
            write(bytes, ADVANCE_ONE, &[&[host], &ticks.to_le_bytes()]);
        }
        Event::Start { host, duration } => write(bytes, START, &[&[host], &duration.to_le_bytes()]),
        Event::Deliver { slot } => write(bytes, DELIVER, &[&[slot]]),
        Event::Lose { slot } => write(bytes, LOSE, &[&[slot]]),
        Event::Repeat { slot } => write(bytes, REPEAT, &[&[slot]]),
        Event::Restart { host } => write(bytes, RESTART, &[&[host]]),
        Event::Release { host } => write(bytes, RELEASE, &[&[host]]),
    }
}
