//! The listing of a run file: document 01's 'The run file and its listing', byte for byte, with
//! document 02's offset at the end of the `stop` line.

use crate::builds::Build;
use crate::cell::{Cell, Event, Settings};
use crate::record;
use crate::refusal::{Fault, DONE, LONG};

pub const LONGEST_FILE: usize = 65_536;

/// Whoever looks on while a run file is played.
pub trait Watch {
    fn opened(&mut self, _cell: &Cell) {}
    fn before(&mut self, _event: Event, _cell: &Cell) {}
    fn event(&mut self, _place: u64, _kind: u16, _answer: u8, _cell: &Cell) {}
    fn stop(&mut self, _fault: Fault) {}
}

/// Nobody looks on.
pub struct Unwatched;

impl Watch for Unwatched {}

/// The listing of a run file's bytes.
pub fn list(bytes: &[u8], build: Build, watch: &mut impl Watch) -> Vec<u8> {
    let mut text = Vec::with_capacity(10 * bytes.len().min(LONGEST_FILE) + 128);
    if let Err(fault) = play(bytes, build, watch, &mut text) {
        watch.stop(fault);
        stop(&mut text, 0, fault);
    }
    text
}

/// All but the files of which 'only stop 0 and the number' is printed, with the offset; those are
/// the errors.
fn play(
    bytes: &[u8],
    build: Build,
    watch: &mut impl Watch,
    text: &mut Vec<u8>,
) -> Result<(), Fault> {
    if bytes.len() > LONGEST_FILE {
        return Err(Fault { number: LONG, offset: 0 });
    }
    let (settings, mut offset) = record::settings(bytes, build)?;
    let mut cell = Cell::open(settings, build).map_err(record::setting_fault)?;
    watch.opened(&cell);
    first_line(text, settings);
    let (mut applied, mut refused) = (0, 0);
    while offset < bytes.len() {
        let (event, kind, length) = match record::event(&bytes[offset..], build) {
            Ok(read) => read,
            Err(fault) => {
                watch.stop(fault);
                stop(text, offset, fault);
                break;
            }
        };
        watch.before(event, &cell);
        let answer = cell.apply(event);
        match answer {
            DONE => applied += 1,
            _ => refused += 1,
        }
        let place = applied + refused;
        watch.event(place, kind, answer, &cell);
        event_line(text, place, kind, answer, &cell);
        offset += length;
    }
    counts(text, applied, refused);
    Ok(())
}

fn first_line(text: &mut Vec<u8>, settings: Settings) {
    number(text, u64::from(settings.n));
    for value in [u64::from(settings.longest), u64::from(settings.spread), settings.clock] {
        text.push(b' ');
        number(text, value);
    }
    text.push(b'\n');
}

fn event_line(text: &mut Vec<u8>, place: u64, kind: u16, answer: u8, cell: &Cell) {
    number(text, place);
    text.push(b' ');
    number(text, u64::from(kind));
    text.push(b' ');
    number(text, u64::from(answer));
    for host in &cell.hosts {
        let name = host.named.map_or(b'-', |holder| b'0' + holder.owner);
        text.extend_from_slice(&[b' ', name]);
    }
    text.push(b'\n');
}

/// Where the record begins, the number, and the offset in the record.
fn stop(text: &mut Vec<u8>, at: usize, fault: Fault) {
    text.extend_from_slice(b"stop");
    for value in [at as u64, u64::from(fault.number), fault.offset as u64] {
        text.push(b' ');
        number(text, value);
    }
    text.push(b'\n');
}

fn counts(text: &mut Vec<u8>, applied: u64, refused: u64) {
    text.extend_from_slice(b"applied ");
    number(text, applied);
    text.extend_from_slice(b" refused ");
    number(text, refused);
    text.push(b'\n');
}

/// A number in decimal.
fn number(text: &mut Vec<u8>, value: u64) {
    let mut digits = [0; 20];
    let mut start = digits.len();
    let mut rest = value;
    loop {
        start -= 1;
        digits[start] = b'0' + (rest % 10) as u8;
        rest /= 10;
        if rest == 0 {
            break;
        }
    }
    text.extend_from_slice(&digits[start..]);
}

#[cfg(test)]
mod tests {
    use super::*;
    use crate::builds::RIGHT;
    use crate::cell::{LAST_TICK, LONGEST};
    use crate::record::{event_length, write_settings, RELEASE, SETTINGS, SETTINGS_LENGTH};

    const OPENED: Settings = Settings { n: 3, longest: 100, spread: 5, clock: 0 };
    const ADVANCE: [u8; 8] = [8, 0, 101, 0, 10, 0, 0, 0];

    /// The line of a listing that begins with `stop`, or nothing.
    fn stop_of(bytes: &[u8]) -> String {
        let listing = list(bytes, RIGHT, &mut Unwatched);
        let text = String::from_utf8_lossy(&listing);
        text.lines().find(|line| line.starts_with("stop")).unwrap_or_default().into()
    }

    fn settings_bytes(settings: Settings) -> Vec<u8> {
        let mut bytes = Vec::new();
        write_settings(&mut bytes, settings);
        bytes
    }

    /// A cell, an advance, and a record that begins so; it stands at byte 29.
    fn with_record(length: u16, kind: u16) -> Vec<u8> {
        let head = [length.to_le_bytes(), kind.to_le_bytes()].concat();
        [&settings_bytes(OPENED), &ADVANCE[..], &head].concat()
    }

    /// What a length field gives where the right one is known: 17 below it, 4 above it.
    fn told_wrong(at: usize, told: u16, length: usize) -> String {
        let number = if usize::from(told) < length { 17 } else { 4 };
        format!("stop {} {} 0", at, number)
    }

    #[test]
    fn a_cut_is_at_the_end_of_the_file() {
        let settings = settings_bytes(OPENED);
        for count in 0..SETTINGS_LENGTH {
            assert_eq!(stop_of(&settings[..count]), format!("stop 0 2 {}", count));
        }
        for kind in SETTINGS + 1..=RELEASE {
            let length = event_length(kind).unwrap_or(0);
            let mut bytes = with_record(length as u16, kind);
            bytes.resize(29 + length, 0);
            assert_eq!(stop_of(&bytes), "", "kind {}", kind);
            assert_eq!(stop_of(&bytes[..29]), "", "kind {}", kind);
            for count in 1..length {
                assert_eq!(stop_of(&bytes[..29 + count]), format!("stop 29 2 {}", count));
            }
        }
    }

    #[test]
    fn a_wrong_kind_is_at_2() {
        assert_eq!(stop_of(&ADVANCE), "stop 0 3 2");
        for kind in (0..=SETTINGS).chain(RELEASE + 1..=u16::MAX) {
            assert_eq!(stop_of(&with_record(0, kind)), "stop 29 3 2", "kind {}", kind);
        }
    }

    #[test]
    fn a_wrong_length_is_at_0_and_tells_which_way() {
        let mut settings = settings_bytes(OPENED);
        for told in (0..=u16::MAX).filter(|&told| usize::from(told) != SETTINGS_LENGTH) {
            settings[..2].copy_from_slice(&told.to_le_bytes());
            assert_eq!(stop_of(&settings), told_wrong(0, told, SETTINGS_LENGTH));
        }
        for kind in SETTINGS + 1..=RELEASE {
            let length = event_length(kind).unwrap_or(0);
            for told in (0..=u16::MAX).filter(|&told| usize::from(told) != length) {
                let expected = told_wrong(29, told, length);
                assert_eq!(stop_of(&with_record(told, kind)), expected, "kind {}", kind);
            }
        }
    }

    #[test]
    fn refused_settings_are_at_the_first_of_them() {
        let late = LAST_TICK + 1;
        let settings = |n, longest, spread, clock| Settings { n, longest, spread, clock };
        for (settings, stop) in [
            (settings(0, 100, 5, 0), "stop 0 1 4"),
            (settings(10, 100, 5, 0), "stop 0 1 4"),
            (settings(3, 0, 0, 0), "stop 0 1 5"),
            (settings(3, LONGEST + 1, 5, 0), "stop 0 1 5"),
            (settings(3, 100, 100, 0), "stop 0 1 9"),
            (settings(3, 100, 5, late), "stop 0 6 13"),
            (settings(0, 0, 7, late), "stop 0 1 4"),
            (settings(3, 0, 7, late), "stop 0 1 5"),
            (settings(3, LONGEST + 1, u32::MAX, late), "stop 0 1 5"),
            (settings(3, 100, 100, late), "stop 0 1 9"),
            (settings(9, LONGEST, LONGEST - 1, LAST_TICK), ""),
        ] {
            assert_eq!(stop_of(&settings_bytes(settings)), stop, "{:?}", settings);
        }
    }

    #[test]
    fn a_file_that_is_too_long_is_so_at_0() {
        assert_eq!(stop_of(&[0; LONGEST_FILE]), "stop 0 3 2");
        assert_eq!(stop_of(&[0; LONGEST_FILE + 1]), "stop 0 16 0");
    }

    #[test]
    fn the_stop_stands_before_the_counts_or_alone() {
        let listing = list(&with_record(4, RELEASE), RIGHT, &mut Unwatched);
        let expected = "3 100 5 0\n1 101 0 - - -\nstop 29 17 0\napplied 1 refused 0\n";
        assert_eq!(String::from_utf8_lossy(&listing), expected);
        assert_eq!(list(&[], RIGHT, &mut Unwatched), b"stop 0 2 0\n");
    }
}
