//! What numbers and lists are called: refusals, ballots, hosts, slots and messages in words.

use model::cell::Settings;
use model::message::{Ballot, Body, Holder, Lease, Message};
use model::refusal::NUMBERS;

/// Document 01's 'Refusals by number', and document 02's.
pub const ANSWERS: [&str; NUMBERS] = [
    "done",
    "cell",
    "cut",
    "kind",
    "length",
    "host",
    "tick",
    "party",
    "room",
    "waiting",
    "same tick",
    "duration",
    "slot",
    "full",
    "spread",
    "clock",
    "long",
    "short length",
    "not holder",
];

/// The word of an answer; a number that is none has no word.
pub fn answer(number: usize) -> &'static str {
    ANSWERS.get(number).copied().unwrap_or("?")
}

/// A refusal by number and word.
pub fn refusal(number: u8) -> String {
    format!("{} {}", number, answer(usize::from(number)))
}

/// `1 run`, `2 runs`.
pub fn counted(count: u64, what: &str) -> String {
    match count {
        1 => format!("1 {}", what),
        _ => format!("{} {}s", count, what),
    }
}

/// `a`, `a or b`, `a, b or c`.
pub fn either(names: &[&str]) -> String {
    joined(names, "or")
}

fn joined(names: &[impl AsRef<str>], word: &str) -> String {
    let names: Vec<&str> = names.iter().map(AsRef::as_ref).collect();
    match names.split_last() {
        Some((last, [])) => last.to_string(),
        Some((last, others)) => format!("{} {} {}", others.join(", "), word, last),
        None => String::new(),
    }
}

/// `host 0`, `hosts 0 and 1`, `hosts 0 to 8`.
pub fn hosts(numbers: &[u8]) -> String {
    listed("host", numbers)
}

/// `slot 0`, `slots 0 and 1`, `slots 0, 4 to 7 and 18`.
pub fn slots(numbers: &[u8]) -> String {
    listed("slot", numbers)
}

fn listed(what: &str, numbers: &[u8]) -> String {
    match numbers {
        [one] => format!("{} {}", what, one),
        _ => format!("{}s {}", what, joined(&rows(numbers), "and")),
    }
}

/// Rising numbers; three or more that follow one another are told by the first and the last.
fn rows(numbers: &[u8]) -> Vec<String> {
    let mut rows = Vec::new();
    let mut rest = numbers;
    while let Some(&first) = rest.first() {
        let follows = |(number, next): &(u8, &u8)| number == *next;
        let length = (first..=u8::MAX).zip(rest).take_while(follows).count();
        match length {
            1 | 2 => rows.push(first.to_string()),
            _ => rows.push(format!("{} to {}", first, rest[length - 1])),
        }
        rest = if length > 2 { &rest[length..] } else { &rest[1..] };
    }
    rows
}

/// The first letter large.
pub fn sentence(text: &str) -> String {
    let mut letters = text.chars();
    let first = letters.next().map(|first| first.to_uppercase().to_string());
    first.unwrap_or_default() + letters.as_str()
}

pub fn ballot(ballot: Ballot) -> String {
    format!("({},{})", ballot.tick, ballot.host)
}

/// A lease as its keepers have it.
pub fn lease(lease: &Lease) -> String {
    let Lease { ballot: by, owner, end } = lease;
    format!("host {}'s lease by {}, keepers' end {}", owner, ballot(*by), end.0)
}

/// A holder up to the holder's end.
pub fn holder(holder: &Holder) -> String {
    format!("host {} until {}", holder.owner, holder.end.0)
}

pub fn holder_by_ballot(named: &Holder) -> String {
    format!("{}, by {}", holder(named), ballot(named.ballot))
}

/// The opening of a cell.
pub fn opening(settings: Settings) -> String {
    let Settings { n, longest, spread, clock } = settings;
    let wait_end = clock + u64::from(longest) + u64::from(spread);
    format!(
        "{}; T, the longest lease, is {} and S, the spread of clocks, is {}. Clocks open at {}, \
         and every host waits until {}. A majority is {}.",
        counted(u64::from(n), "host"),
        longest,
        spread,
        clock,
        wait_end,
        n / 2 + 1
    )
}

/// The kind of a message.
pub fn kind(body: &Body) -> &'static str {
    match body {
        Body::PrepareRequest => "prepare request",
        Body::PrepareResponse(_) => "prepare response",
        Body::ProposeRequest { .. } => "propose request",
        Body::ProposeResponse => "propose response",
        Body::Learn { .. } => "learn",
        Body::ReleaseRequest => "release request",
    }
}

/// A message with its ballot, who sends it to whom, and what else it says.
pub fn message(message: &Message) -> String {
    let Message { sender, target, ballot: by, body } = message;
    let said = match body {
        Body::PrepareResponse(None) => ", empty".into(),
        Body::PrepareResponse(Some(accepted)) => format!(", with {}", lease(accepted)),
        Body::ProposeRequest { owner, end } => {
            format!(", for host {}, keepers' end {}", owner, end.0)
        }
        Body::Learn { owner, end } => format!(", that host {} holds until {}", owner, end.0),
        Body::PrepareRequest | Body::ProposeResponse | Body::ReleaseRequest => String::new(),
    };
    format!("{} {} from host {} to host {}{}", kind(body), ballot(*by), sender, target, said)
}

#[cfg(test)]
mod tests {
    use super::*;

    #[test]
    fn numbers_in_a_row_are_told_by_their_ends() {
        assert_eq!(hosts(&[4]), "host 4");
        assert_eq!(hosts(&[0, 1]), "hosts 0 and 1");
        assert_eq!(slots(&[3, 4, 5, 6]), "slots 3 to 6");
        assert_eq!(slots(&[3, 4, 6]), "slots 3, 4 and 6");
        assert_eq!(slots(&[0, 4, 5, 6, 7, 18, 19, 20]), "slots 0, 4 to 7 and 18 to 20");
    }

    #[test]
    fn every_refusal_has_its_word() {
        assert_eq!(refusal(model::refusal::WAITING), "9 waiting");
        assert_eq!(refusal(model::refusal::LONG), "16 long");
        assert_eq!(refusal(model::refusal::SHORT), "17 short length");
        assert_eq!(refusal(model::refusal::NOT_HOLDER), "18 not holder");
        assert_eq!(answer(NUMBERS), "?");
    }
}
