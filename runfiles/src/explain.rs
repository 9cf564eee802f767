//! `runfile explain`: a run file and its listing side by side, each event in words.

use model::breach::Breach;
use model::compare::watched;
use model::coverage::Coverage;

use crate::arguments::Given;
use crate::bench::Sides;
use crate::lines::{self, EventLine};
use crate::reading::Reading;
use crate::{account, files, source, words, Done, Outcome};

pub const HELP: &str = "\
A run file and its listing side by side: what each event was, in words.

usage: runfile explain [RUNFILE] [-o TEXT] [--bench PATH | --wrong NAME]

At the left stands the bench's listing: for each event its place, kind and answer, this one with
its word, and for each host the holder that it names. Then the event as `make` reads it, and what
it was: which message went from whom to whom, and what came of it. Of a stop it says why, and
(at 2) is the byte of a field in its record. Each line of the listing is compared with the model's,
and a DISAGREEMENT is said to be one; so are TWO HOLDERS, and AGREEMENT BROKEN otherwise.

  RUNFILE        the run file; standard input where it is left out
  -o TEXT        where to write it; standard output where it is left out
";

/// Lines are broken so as to end here.
const WIDTH: usize = 100;

/// The least width of an answer's word.
const ANSWER: usize = 9;

/// Between two columns.
const GAP: &str = "  ";

pub fn run(given: &Given) -> Outcome {
    let input = files::read(given.at_most_one()?)?;
    let sides = Sides::given(given)?;
    let theirs = lines::of(&sides.player.listing(&input.bytes)?);
    let (ours, breaches) = watched(&input.bytes, sides.model, &mut Coverage::default());
    let (ours, broken) = (lines::of(&ours), sides.broken(&breaches));
    let told = told(&input.bytes, &sides);
    let explanation = Explanation { name: input.name, theirs, ours, told, broken };
    let (text, found) = explanation.text(&sides);
    Ok(Done { output: text.into_bytes(), found })
}

/// One line of the listing told: the event as a line of text, and in words. Other lines have words
/// alone.
struct Told {
    event: Option<String>,
    words: String,
}

/// What the model says of each line of its listing.
fn told(bytes: &[u8], sides: &Sides) -> Vec<Told> {
    let reading = Reading::by(bytes, sides.model);
    let mut told = Vec::new();
    if let Some((settings, cell)) = reading.opened() {
        told.push(Told { event: None, words: words::opening(settings) });
        account::play(cell, &reading.events, |account| {
            let event = Some(source::event_line(account.event));
            told.push(Told { event, words: account.text() });
        });
    }
    if let Some(stop) = reading.stop() {
        let words = format!("The bench stops {}.", stop.place_and_reason());
        told.push(Told { event: None, words });
    }
    told
}

/// A run file's two listings, and what is to be said of each line.
struct Explanation {
    name: String,
    theirs: Vec<String>,
    ours: Vec<String>,
    told: Vec<Told>,
    /// What the model has seen that no run should come to, with the place of its event.
    broken: Option<(u64, Breach)>,
}

impl Explanation {
    /// The text, and whether it has a disagreement or broken agreement.
    fn text(&self, sides: &Sides) -> (String, bool) {
        let columns = Columns::of(self);
        let two_holders = lines::two_holders(&self.theirs);
        let mut text = String::new();
        let mut differing = 0;
        for at in 0..self.ours.len().max(self.theirs.len()) {
            text += &self.row(at, &columns);
            if self.ours.get(at) != self.theirs.get(at) {
                differing += 1;
                text += &self.disagreement(at);
            }
            if two_holders == Some(at) {
                text += &format!("TWO HOLDERS, for the first time, after event {}\n", at);
            }
            if let Some((_, breach)) = self.broken.filter(|(event, _)| *event == at as u64) {
                text += &format!("AGREEMENT BROKEN after event {}: {}\n", at, breach);
            }
        }
        text += &self.verdict(differing, sides);
        (text, differing > 0 || two_holders.is_some() || self.broken.is_some())
    }

    fn row(&self, at: usize, columns: &Columns) -> String {
        let theirs = self.theirs.get(at).map_or("", String::as_str);
        let told = self.told.get(at);
        let told_words = told.map_or("", |told| told.words.as_str());
        match (told.and_then(|told| told.event.as_ref()), EventLine::of(theirs)) {
            (Some(event), Some(line)) => columns.row(&line, event, told_words),
            (Some(event), None) => beside(&format!("{}{}{}", theirs, GAP, event), told_words),
            _ if at == 0 && self.told.len() > 1 => beside(theirs, told_words) + "\n",
            _ => beside(theirs, told_words),
        }
    }

    fn disagreement(&self, at: usize) -> String {
        let line = |of: &[String]| of.get(at).cloned().unwrap_or_else(|| "(no line)".into());
        let place = match EventLine::of(&line(&self.ours)) {
            Some(event) if at > 0 => format!("event {}", event.place),
            _ => format!("line {} of the listing", at + 1),
        };
        format!(
            "DISAGREEMENT at {}\n  bench: {}\n  model: {}\n  run file to attach: {}\n",
            place,
            line(&self.theirs),
            line(&self.ours),
            self.name
        )
    }

    fn verdict(&self, differing: usize, sides: &Sides) -> String {
        match (differing, sides.wrong) {
            (0, None) => "The bench and the model agree in every line.\n".into(),
            (0, Some(wrong)) => format!("So it goes in a build that {}.\n", wrong.what()),
            _ => format!(
                "DISAGREEMENT of the bench and the model in {} of {} lines: attach {}\n",
                differing,
                self.ours.len().max(self.theirs.len()),
                self.name
            ),
        }
    }
}

/// How wide the columns of the events' lines are.
struct Columns {
    place: usize,
    answer: usize,
    names: usize,
    event: usize,
}

impl Columns {
    fn of(explanation: &Explanation) -> Columns {
        let rows = || explanation.theirs.iter().skip(1).filter_map(|line| EventLine::of(line));
        let events = explanation.told.iter().filter_map(|told| told.event.as_ref());
        Columns {
            place: rows().map(|row| row.place.len()).max().unwrap_or(0),
            answer: rows().map(|row| answer(&row).len()).max().unwrap_or(0).max(ANSWER),
            names: rows().map(|row| 2 * row.names.len() - 1).max().unwrap_or(0),
            event: events.map(String::len).max().unwrap_or(0),
        }
    }

    /// The bench's line with its answer's word, then the event as text and in words.
    fn row(&self, line: &EventLine, event: &str, told: &str) -> String {
        let left = format!(
            "{:>place$} {} {:>2} {:answer$}{gap}{:names$}{gap}{:event$}",
            line.place,
            line.kind,
            line.answer,
            answer(line),
            line.names.join(" "),
            event,
            gap = GAP,
            place = self.place,
            answer = self.answer,
            names = self.names,
            event = self.event
        );
        beside(&left, told)
    }
}

fn answer(line: &EventLine) -> &'static str {
    line.answer.parse().map_or("?", words::answer)
}

/// A text beside what it is about, broken into lines under one another.
fn beside(left: &str, text: &str) -> String {
    let indent = left.chars().count() + GAP.len();
    let broken = broken(text, WIDTH.saturating_sub(indent));
    let rows = broken.iter().enumerate().map(|(at, row)| match at {
        0 => format!("{}{}{}", left, GAP, row),
        _ => format!("{:indent$}{}", "", row, indent = indent),
    });
    rows.map(|row| row.trim_end().to_string() + "\n").collect()
}

/// A text broken at its blanks, so that no line is longer than it must be.
fn broken(text: &str, width: usize) -> Vec<String> {
    let mut rows = vec![String::new()];
    for word in text.split(' ') {
        let last = rows.len() - 1;
        if rows[last].is_empty() {
            rows[last] = word.into();
        } else if rows[last].chars().count() + 1 + word.chars().count() <= width {
            rows[last] = format!("{} {}", rows[last], word);
        } else {
            rows.push(word.into());
        }
    }
    rows
}

#[cfg(test)]
mod tests {
    use super::*;

    #[test]
    fn texts_are_broken_at_blanks() {
        assert_eq!(broken("one two three", 7), ["one two", "three"]);
        assert_eq!(broken("longer than that", 4), ["longer", "than", "that"]);
        assert_eq!(beside("1 101", "one two"), "1 101  one two\n");
    }
}
