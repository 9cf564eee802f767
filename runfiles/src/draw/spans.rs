//! What hosts do, as spans: waiting, asking and proposing above a host's line, naming beneath it.

use model::host::{Host, Round};
use model::message::Ballot;

use super::canvas::{fits, Canvas};
use super::layout::{Layout, BAR, DOES, NAMES, STEP};
use crate::trace::Trace;
use crate::words;

#[derive(Clone, Copy, PartialEq, Eq)]
enum Doing {
    Waits { until: u64 },
    Asks { ballot: Ballot, own_end: u64 },
    Proposes { ballot: Ballot, owner: u8, end: u64 },
    Names { ballot: Ballot, owner: u8, end: u64 },
}

/// From an event to that which ends it.
pub struct Span {
    from: usize,
    to: usize,
    host: u8,
    doing: Doing,
}

/// What is shown above a host's line.
fn does(host: &Host) -> Option<Doing> {
    match host.round {
        _ if host.waits() => Some(Doing::Waits { until: host.wait_end }),
        Round::Idle => None,
        Round::Asking { ballot, own_end, .. } => Some(Doing::Asks { ballot, own_end: own_end.0 }),
        Round::Proposing { ballot, owner, end, .. } => {
            Some(Doing::Proposes { ballot, owner, end: end.0 })
        }
    }
}

/// What is shown beneath it.
fn names(host: &Host) -> Option<Doing> {
    let holder = host.named?;
    Some(Doing::Names { ballot: holder.ballot, owner: holder.owner, end: holder.end.0 })
}

/// The spans of a host, each as long as nothing of it changes.
fn spans_of(trace: &Trace, host: u8, shown: fn(&Host) -> Option<Doing>) -> Vec<Span> {
    let mut spans: Vec<Span> = Vec::new();
    for (place, moment) in trace.moments.iter().enumerate() {
        let doing = match shown(&moment.hosts[usize::from(host)]) {
            Some(doing) => doing,
            None => continue,
        };
        match spans.last_mut() {
            Some(span) if span.to == place && span.doing == doing => span.to = place + 1,
            _ => spans.push(Span { from: place, to: place + 1, host, doing }),
        }
    }
    spans
}

/// The spans of all hosts.
pub fn all(trace: &Trace) -> Vec<Span> {
    let of = |host| spans_of(trace, host, does).into_iter().chain(spans_of(trace, host, names));
    (0..trace.settings.n).flat_map(of).collect()
}

impl Span {
    /// Whose colour it has, and its class.
    fn look(&self) -> (u8, &'static str) {
        match self.doing {
            Doing::Waits { .. } => (self.host, "waits"),
            Doing::Asks { .. } => (self.host, "asks"),
            Doing::Proposes { owner, .. } => (owner, "proposes"),
            Doing::Names { owner, .. } => (owner, "names"),
        }
    }

    /// Its top and its height in the lane, and how far its corners are rounded.
    fn bar(&self) -> (usize, usize, usize) {
        match self.doing {
            Doing::Waits { .. } => (DOES + 2, BAR - 4, 0),
            Doing::Asks { .. } => (DOES, BAR, 9),
            Doing::Proposes { .. } => (DOES, BAR, 0),
            Doing::Names { .. } => (NAMES, BAR, 0),
        }
    }

    /// What it says, the longest first.
    fn labels(&self) -> Vec<String> {
        match self.doing {
            Doing::Waits { until } => {
                vec![format!("waits until {}", until), "waits".into()]
            }
            Doing::Asks { ballot, own_end } => {
                let ballot = words::ballot(ballot);
                vec![
                    format!("asks {}, own end {}", ballot, own_end),
                    format!("asks {}", ballot),
                    "asks".into(),
                ]
            }
            Doing::Proposes { ballot, owner, end } => labels("proposes", ballot, owner, end),
            Doing::Names { ballot, owner, end } => labels("names", ballot, owner, end),
        }
    }
}

fn labels(verb: &str, ballot: Ballot, owner: u8, end: u64) -> Vec<String> {
    let ballot = words::ballot(ballot);
    vec![
        format!("{} {}, end {}, by {}", verb, owner, end, ballot),
        format!("{} {}, end {}", verb, owner, end),
        format!("{} {}", verb, owner),
    ]
}

/// Those that are seen in a strip.
fn seen<'a>(spans: &'a [Span], layout: &'a Layout) -> impl Iterator<Item = &'a Span> {
    spans.iter().filter(move |span| layout.crosses(span.from, span.to))
}

pub fn draw(canvas: &mut Canvas, spans: &[Span], layout: &Layout) {
    for span in seen(spans, layout) {
        let (owner, class) = span.look();
        let (top, height, round) = span.bar();
        let (x, end) = (layout.x(span.from), layout.x(span.to));
        let tag = format!(
            "<rect class=\"o{} {}\" x=\"{}\" y=\"{}\" width=\"{}\" height=\"{}\" rx=\"{}\"",
            owner,
            class,
            x + 2,
            layout.lane(span.host) + top,
            end - x - 4,
            height,
            round
        );
        let title = || format!("Host {} {}", span.host, span.labels()[0]);
        canvas.shape(&tag, "rect", title);
    }
}

/// The labels, which stand over the arrows; those of long spans come again.
pub fn label(canvas: &mut Canvas, spans: &[Span], layout: &Layout) {
    canvas.open("on");
    for span in seen(spans, layout) {
        let (top, height, _) = span.bar();
        let y = layout.lane(span.host) + top + height / 2 + 4;
        for (place, columns) in layout.labelled(span.from, span.to) {
            let width = STEP * columns - 4;
            if let Some(words) = span.labels().iter().find(|words| fits(words, width)) {
                canvas.words(layout.x(place) + 7, y, words);
            }
        }
    }
    canvas.close();
}
