//! The text of a run file: its words, a line to what it says, and an event to its line.

use std::str::SplitWhitespace;

use model::cell::{Event, Settings};

/// What a line says.
#[derive(Clone, Debug, PartialEq, Eq)]
pub enum Line {
    Settings(Settings),
    Event(Event),
    /// Bytes as they are, whatever record they make, or none.
    Bytes(Vec<u8>),
}

/// Each word, and how its line goes on.
const FORMS: [(&str, &str); 9] = [
    ("cell", "cell HOSTS T S CLOCK"),
    ("advance", "advance TICKS` or `advance HOST by TICKS"),
    ("start", "start HOST for DURATION"),
    ("deliver", "deliver SLOT"),
    ("lose", "lose SLOT"),
    ("repeat", "repeat SLOT"),
    ("restart", "restart HOST"),
    ("release", "release HOST"),
    ("bytes", "bytes HEX HEX ..."),
];

/// What some editors put before a text.
const BYTE_ORDER_MARK: char = '\u{feff}';

/// The highest number of a field, by its name.
fn highest(field: &str) -> u64 {
    match field {
        "HOSTS" | "HOST" | "SLOT" => u64::from(u8::MAX),
        "CLOCK" => u64::MAX,
        _ => u64::from(u32::MAX),
    }
}

/// The line without its comment, or none if nothing is left.
pub fn without_comment(line: &str) -> Option<&str> {
    let told =
        line.split('#').next().unwrap_or_default().trim_start_matches(BYTE_ORDER_MARK).trim();
    if told.is_empty() {
        None
    } else {
        Some(told)
    }
}

/// What a line without a comment says, or what was expected of it and what was found.
pub fn line(told: &str) -> Result<Line, String> {
    let mut fields = Fields { told, form: "", rest: told.split_whitespace() };
    let word = fields.rest.next().unwrap_or_default();
    fields.form = match FORMS.iter().find(|(known, _)| *known == word) {
        Some((_, form)) => form,
        None => return Err(unknown(word)),
    };
    let line = match word {
        "cell" => Line::Settings(fields.settings()?),
        "bytes" => Line::Bytes(fields.bytes()?),
        _ => Line::Event(fields.event(word)?),
    };
    fields.end()?;
    Ok(line)
}

fn unknown(word: &str) -> String {
    let words: Vec<&str> = FORMS.iter().map(|(word, _)| *word).collect();
    format!("expected {}, found `{}`", crate::words::either(&words), word)
}

/// The fields of a line, taken one after the other.
struct Fields<'a> {
    told: &'a str,
    form: &'static str,
    rest: SplitWhitespace<'a>,
}

impl Fields<'_> {
    fn settings(&mut self) -> Result<Settings, String> {
        Ok(Settings {
            n: self.byte("HOSTS")?,
            longest: self.ticks("T")?,
            spread: self.ticks("S")?,
            clock: self.number("CLOCK")?,
        })
    }

    fn event(&mut self, word: &str) -> Result<Event, String> {
        Ok(match word {
            "advance" => return self.advance(),
            "start" => {
                let host = self.byte("HOST")?;
                self.word("for")?;
                Event::Start { host, duration: self.ticks("DURATION")? }
            }
            "deliver" => Event::Deliver { slot: self.byte("SLOT")? },
            "lose" => Event::Lose { slot: self.byte("SLOT")? },
            "repeat" => Event::Repeat { slot: self.byte("SLOT")? },
            "restart" => Event::Restart { host: self.byte("HOST")? },
            _ => Event::Release { host: self.byte("HOST")? },
        })
    }

    /// Of all, or of one `by`.
    fn advance(&mut self) -> Result<Event, String> {
        if self.rest.clone().count() < 2 {
            return Ok(Event::AdvanceAll { ticks: self.ticks("TICKS")? });
        }
        let host = self.byte("HOST")?;
        self.word("by")?;
        Ok(Event::AdvanceOne { host, ticks: self.ticks("TICKS")? })
    }

    fn bytes(&mut self) -> Result<Vec<u8>, String> {
        let bytes: Result<Vec<u8>, String> = self.rest.by_ref().map(hex).collect();
        match bytes {
            Ok(bytes) if bytes.is_empty() => Err(self.unexpected()),
            bytes => bytes,
        }
    }

    fn word(&mut self, word: &str) -> Result<(), String> {
        match self.rest.next() {
            Some(found) if found == word => Ok(()),
            _ => Err(self.unexpected()),
        }
    }

    fn end(&mut self) -> Result<(), String> {
        match self.rest.next() {
            None => Ok(()),
            Some(_) => Err(self.unexpected()),
        }
    }

    fn byte(&mut self, field: &str) -> Result<u8, String> {
        self.number(field).map(|number| number as u8)
    }

    fn ticks(&mut self, field: &str) -> Result<u32, String> {
        self.number(field).map(|number| number as u32)
    }

    /// A number in decimal digits that its field can hold.
    fn number(&mut self, field: &str) -> Result<u64, String> {
        let found = self.rest.next().ok_or_else(|| self.unexpected())?;
        let is_number = found.bytes().all(|digit| digit.is_ascii_digit());
        match found.parse() {
            Ok(number) if is_number && number <= highest(field) => Ok(number),
            _ => {
                let range = format!("{} from 0 to {}", field, highest(field));
                Err(format!("expected {}, found `{}` in `{}`", range, found, self.told))
            }
        }
    }

    fn unexpected(&self) -> String {
        format!("expected `{}`, found `{}`", self.form, self.told)
    }
}

/// One byte as two hexadecimal digits.
fn hex(found: &str) -> Result<u8, String> {
    let is_hex = found.len() == 2 && found.bytes().all(|digit| digit.is_ascii_hexdigit());
    match u8::from_str_radix(found, 16) {
        Ok(byte) if is_hex => Ok(byte),
        _ => Err(format!("expected two hexadecimal digits for each byte, found `{}`", found)),
    }
}

pub fn settings_line(settings: Settings) -> String {
    let Settings { n, longest, spread, clock } = settings;
    format!("cell {} {} {} {}", n, longest, spread, clock)
}

pub fn event_line(event: Event) -> String {
    match event {
        Event::AdvanceAll { ticks } => format!("advance {}", ticks),
        Event::AdvanceOne { host, ticks } => format!("advance {} by {}", host, ticks),
        Event::Start { host, duration } => format!("start {} for {}", host, duration),
        Event::Deliver { slot } => format!("deliver {}", slot),
        Event::Lose { slot } => format!("lose {}", slot),
        Event::Repeat { slot } => format!("repeat {}", slot),
        Event::Restart { host } => format!("restart {}", host),
        Event::Release { host } => format!("release {}", host),
    }
}

pub fn bytes_line(bytes: &[u8]) -> String {
    bytes.iter().fold(String::from("bytes"), |line, byte| format!("{} {:02x}", line, byte))
}

#[cfg(test)]
mod tests {
    use super::*;

    #[test]
    fn every_event_is_read_from_its_line() {
        let (host, slot) = (u8::MAX, u8::MAX);
        let (ticks, duration) = (u32::MAX, u32::MAX);
        let events = [
            Event::AdvanceAll { ticks },
            Event::AdvanceOne { host, ticks },
            Event::Start { host, duration },
            Event::Deliver { slot },
            Event::Lose { slot },
            Event::Repeat { slot },
            Event::Restart { host },
            Event::Release { host },
        ];
        for event in events {
            assert_eq!(line(&event_line(event)), Ok(Line::Event(event)));
        }
    }

    #[test]
    fn settings_and_bytes_are_read_from_their_lines() {
        let settings =
            Settings { n: u8::MAX, longest: u32::MAX, spread: u32::MAX, clock: u64::MAX };
        assert_eq!(line(&settings_line(settings)), Ok(Line::Settings(settings)));
        let bytes: Vec<u8> = (0..=u8::MAX).collect();
        assert_eq!(line(&bytes_line(&bytes)), Ok(Line::Bytes(bytes)));
    }

    #[test]
    fn comments_are_left_out() {
        assert_eq!(without_comment("  deliver 1  # the request to host 1"), Some("deliver 1"));
        assert_eq!(without_comment("# deliver 1"), None);
        assert_eq!(without_comment(" \t"), None);
    }
}
