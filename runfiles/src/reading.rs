//! A run file as far as its records can be read, and where and why that ends.

use model::builds::{Build, RIGHT};
use model::cell::{Cell, Event, Setting, Settings, LAST_TICK, LONGEST, MOST_HOSTS};
use model::listing::LONGEST_FILE;
use model::record::{self, event_length, first_length, setting_fault, u16_at, HEAD};
use model::refusal::{Fault, CUT, LONG};

use crate::words;

/// Where the bench stops, or reading ends, and why.
pub struct Stop {
    /// The byte at which the record begins.
    place: usize,
    fault: Fault,
    why: Why,
}

/// Why a record is refused.
enum Why {
    /// For something that stands at the fault's offset, and what is wrong with it.
    Found(&'static str, String),
    /// For the whole of it.
    Whole(String),
}

impl Stop {
    /// The byte, number and word, and the reason, with its offset in the record.
    pub fn place_and_reason(&self) -> String {
        let Stop { place, fault: Fault { number, offset }, why } = self;
        let why = match why {
            Why::Found(what, wrong) => format!("{} (at {}) {}", what, offset, wrong),
            Why::Whole(why) => why.clone(),
        };
        format!("at byte {}: {}: {}", place, words::refusal(*number), why)
    }
}

/// The records of a run file, whatever its length and its settings.
pub struct Reading<'a> {
    bytes: &'a [u8],
    build: Build,
    /// None where the first record is at fault.
    pub settings: Option<Settings>,
    pub events: Vec<Event>,
    /// Where the first record stands that cannot be read, and its fault.
    fault: Option<(usize, Fault)>,
}

impl<'a> Reading<'a> {
    /// As the bench reads it.
    pub fn of(bytes: &'a [u8]) -> Reading<'a> {
        Reading::by(bytes, RIGHT)
    }

    /// As some build reads it.
    pub fn by(bytes: &'a [u8], build: Build) -> Reading<'a> {
        let mut reading = Reading { bytes, build, settings: None, events: Vec::new(), fault: None };
        reading.fault = reading.read().err();
        reading
    }

    fn read(&mut self) -> Result<(), (usize, Fault)> {
        let build = self.build;
        let at = |offset| move |fault| (offset, fault);
        let (settings, mut offset) = record::settings(self.bytes, build).map_err(at(0))?;
        self.settings = Some(settings);
        while offset < self.bytes.len() {
            let (event, _, length) =
                record::event(&self.bytes[offset..], build).map_err(at(offset))?;
            self.events.push(event);
            offset += length;
        }
        Ok(())
    }

    /// The bytes from the fault on.
    pub fn rest(&self) -> &'a [u8] {
        self.fault.map_or(&[], |(offset, _)| &self.bytes[offset..])
    }

    /// Where and why no further record can be read.
    pub fn fault(&self) -> Option<Stop> {
        let (place, fault) = self.fault?;
        Some(Stop { place, fault, why: why_faulty(self.rest(), place == 0, fault.number) })
    }

    /// The cell as it opens, with its settings.
    pub fn opened(&self) -> Option<(Settings, Cell)> {
        let settings = self.settings.filter(|_| self.unopened().is_none())?;
        Some((settings, Cell::open(settings, self.build).ok()?))
    }

    /// Where and why the bench stops before any event.
    pub fn unopened(&self) -> Option<Stop> {
        if self.bytes.len() > LONGEST_FILE {
            let why = format!("{} bytes, expected at most {}", self.bytes.len(), LONGEST_FILE);
            let fault = Fault { number: LONG, offset: 0 };
            return Some(Stop { place: 0, fault, why: Why::Whole(why) });
        }
        let settings = self.settings?;
        let setting = settings.refused()?;
        let (what, wrong) = why_refused(settings, setting);
        Some(Stop { place: 0, fault: setting_fault(setting), why: Why::Found(what, wrong) })
    }

    /// Where and why the bench stops.
    pub fn stop(&self) -> Option<Stop> {
        self.unopened().or_else(|| self.fault())
    }
}

/// What a setting is called, and what is wrong with it.
pub fn why_refused(settings: Settings, setting: Setting) -> (&'static str, String) {
    let Settings { n, longest, spread, clock } = settings;
    match setting {
        Setting::Hosts => {
            ("the number of hosts", format!("is {}, expected 1 to {}", n, MOST_HOSTS))
        }
        Setting::Longest => ("T", format!("is {}, expected 1 to {}", longest, LONGEST)),
        Setting::Spread => {
            ("S", format!("is {}, expected 0 to T - 1, which is {}", spread, longest - 1))
        }
        Setting::Clock => ("the clock", format!("is {}, expected 0 to {}", clock, LAST_TICK)),
    }
}

/// What a text of a run file begins with, if it is handed in for the run file.
const TEXTS: [&[u8]; 2] = [b"cell ", b"# "];

fn why_faulty(rest: &[u8], first: bool, number: u8) -> Why {
    if rest.len() < HEAD {
        return too_early(format!("{} bytes or more", HEAD));
    }
    let (told, kind) = (u16_at(rest, 0), u16_at(rest, 2));
    let length = if first { first_length(kind) } else { event_length(kind) };
    match (number, length) {
        (CUT, Some(length)) => too_early(format!("{} bytes for kind {}", length, kind)),
        (_, Some(length)) => {
            let wrong = format!("says {}, expected {} for kind {}", told, length, kind);
            Why::Found("the length field", wrong)
        }
        (_, None) => {
            let expected = match first {
                true if TEXTS.iter().any(|text| rest.starts_with(text)) => {
                    "100 in the first record; this looks like a run file's text: `make` it first"
                }
                true => "100 in the first record",
                false => "101 to 108",
            };
            Why::Found("the kind field", format!("says {}, expected {}", kind, expected))
        }
    }
}

fn too_early(expected: String) -> Why {
    Why::Found("the file's end", format!("is too early, expected {}", expected))
}

#[cfg(test)]
mod tests {
    use super::*;
    use model::damage;
    use model::listing::{list, Unwatched};

    fn listed(bytes: &[u8]) -> Option<String> {
        let listing = list(bytes, RIGHT, &mut Unwatched);
        let text = String::from_utf8_lossy(&listing);
        text.lines().find(|line| line.starts_with("stop")).map(String::from)
    }

    #[test]
    fn it_stops_where_the_listing_does() {
        let line = |Stop { place, fault: Fault { number, offset }, .. }| {
            format!("stop {} {} {}", place, number, offset)
        };
        for seed in 0..20 * damage::DAMAGES {
            let bytes = damage::run(seed);
            let stop = Reading::of(&bytes).stop().map(line);
            assert_eq!(stop, listed(&bytes), "damage of seed {}", seed);
        }
    }

    #[test]
    fn an_offset_is_told_beside_what_stands_there() {
        let stop = Reading::of(&[20, 0, 100, 0]).stop().map(|stop| stop.place_and_reason());
        let field = "the length field (at 0) says 20, expected 21 for kind 100";
        assert_eq!(stop, Some(format!("at byte 0: 17 short length: {}", field)));
    }
}
