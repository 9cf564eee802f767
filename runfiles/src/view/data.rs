//! What the page's script is given, as JSON: the listing's lines, each event in words with what it
//! changed at the hosts, and the messages.

use model::host::{Host, Replies, Round};

use crate::trace::{Flight, Moment, Trace};
use crate::{source, words};

/// What is told of a host, in the order of the page's columns.
const FIELDS: usize = 6;

pub fn json(trace: &Trace) -> String {
    let lines = trace.lines.iter().take(trace.moments.len()).map(|line| quoted(line));
    let answers = words::ANSWERS.iter().map(|word| quoted(word));
    format!(
        "{{\"hosts\":{},\n\"answers\":{},\n\"lines\":{},\n\"events\":{},\n\"messages\":{}}}",
        trace.settings.n,
        list(answers),
        list(lines),
        events(trace),
        list(trace.flights.iter().map(message))
    )
}

/// A text as JSON; `<` is hidden, so that no text can end the script that holds it.
fn quoted(text: &str) -> String {
    let escaped = text.replace('\\', "\\\\").replace('"', "\\\"").replace('<', "\\u003c");
    format!("\"{}\"", escaped)
}

fn list(items: impl IntoIterator<Item = String>) -> String {
    let items: Vec<String> = items.into_iter().collect();
    format!("[{}]", items.join(","))
}

/// Each event: as its text has it, in words, and the fields that it changed.
fn events(trace: &Trace) -> String {
    let mut told = vec![<[String; FIELDS]>::default(); usize::from(trace.settings.n)];
    let mut events = Vec::with_capacity(trace.moments.len());
    for moment in &trace.moments {
        let line = quoted(&line(moment));
        events.push(list([line, quoted(&moment.words), changes(&mut told, &moment.hosts)]));
    }
    format!("[{}]", events.join(",\n"))
}

fn line(moment: &Moment) -> String {
    moment.event.map_or("opening".into(), source::event_line)
}

/// Host, field and text, for each field whose text is no more what was told before.
fn changes(told: &mut [[String; FIELDS]], hosts: &[Host]) -> String {
    let mut changes = Vec::new();
    for (number, (before, host)) in told.iter_mut().zip(hosts).enumerate() {
        let now = fields(host);
        for (field, text) in now.iter().enumerate().filter(|(field, text)| before[*field] != **text)
        {
            changes.push(list([number.to_string(), field.to_string(), quoted(text)]));
        }
        *before = now;
    }
    list(changes)
}

fn fields(host: &Host) -> [String; FIELDS] {
    let wait = if host.waits() { "until" } else { "ended at" };
    let none = || "none".to_string();
    [
        host.clock.to_string(),
        format!("{} {}", wait, host.wait_end),
        host.promised.map_or_else(none, words::ballot),
        host.accepted.as_ref().map_or_else(none, words::lease),
        round(host),
        host.named.as_ref().map_or("nobody".into(), words::holder_by_ballot),
    ]
}

/// The round of a host, with the tick of its last ballot where no round shows it.
fn round(host: &Host) -> String {
    match host.round {
        Round::Idle => match host.last_tick {
            None => "idle".into(),
            Some(tick) => format!("idle; last ballot at {}", tick),
        },
        Round::Asking { ballot, own_end, replies, kept } => {
            let kept = kept
                .map_or("no lease kept".into(), |lease| format!("keeps {}", words::lease(&lease)));
            let ballot = words::ballot(ballot);
            format!("asking with {}, own end {}; {}; {}", ballot, own_end.0, replied(replies), kept)
        }
        Round::Proposing { ballot, owner, end, replies } => {
            let ballot = words::ballot(ballot);
            let proposal = format!("host {}, keepers' end {}", owner, end.0);
            format!("proposing with {}: {}; {}", ballot, proposal, replied(replies))
        }
    }
}

fn replied(replies: Replies) -> String {
    match replies.hosts.size() {
        0 => "no reply yet".into(),
        _ => format!("replies of {}", words::hosts(&replies.hosts.collect::<Vec<u8>>())),
    }
}

/// When a message was sent and when it ended, its slot, what it says, and whether it is a copy.
fn message(flight: &Flight) -> String {
    let number = |number: usize| number.to_string();
    list([
        number(flight.sent),
        flight.ended().map_or("null".into(), number),
        number(usize::from(flight.slot)),
        quoted(&words::message(&flight.message)),
        flight.copy_of.is_some().to_string(),
    ])
}
