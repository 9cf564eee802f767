//! Messages as arrows along their ways, in the colour of their ballot's host, by kind and by what
//! became of them.

use super::canvas::Canvas;
use super::layout::{Layout, LANE};
use super::paths::{Path, Way};
use super::short;
use crate::trace::{Fate, Flight, Trace};
use crate::words;

/// So many of the messages under way to a host at the end are said, in lines of their own.
const MOST_TO_COME: usize = 6;

/// An end of a broken way, with its words, is within so many columns.
const BROKEN: usize = 4;

pub fn draw(canvas: &mut Canvas, trace: &Trace, layout: &Layout, ways: &[Way]) {
    let seen = seen(trace, layout, ways);
    halo(canvas, &seen);
    canvas.open("arrows");
    for (flight, way) in &seen {
        arrow(canvas, trace, flight, way);
    }
    canvas.close();
    canvas.open("gaps on");
    for (flight, way) in &seen {
        gap_words(canvas, flight, way);
    }
    canvas.close();
    if layout.has(trace.events()) {
        canvas.open("to-come");
        for host in 0..trace.settings.n {
            to_come(canvas, trace, layout, host);
        }
        canvas.close();
    }
}

/// The messages that are seen in a strip, with their ways.
fn seen<'a>(trace: &'a Trace, layout: &Layout, ways: &'a [Way]) -> Vec<(&'a Flight, &'a Way)> {
    let crosses = |(flight, way): &(&Flight, &Way)| {
        let (sent, end) = (flight.sent, flight.ended().unwrap_or(trace.events()));
        match way {
            Way::Whole(_) => layout.crosses(sent, end),
            Way::Broken(..) => {
                layout.crosses(sent, sent + BROKEN) || layout.crosses(end - BROKEN, end)
            }
        }
    };
    trace.flights.iter().zip(ways).filter(crosses).collect()
}

/// A pale rim, so that arrows stand out from the spans behind them.
fn halo(canvas: &mut Canvas, seen: &[(&Flight, &Way)]) {
    canvas.add("<path class=\"halo\" d=\"");
    for (_, way) in seen {
        match way {
            Way::Whole(path) | Way::Broken(path, None) => canvas.add(&path.text()),
            Way::Broken(leaves, Some(arrives)) => {
                canvas.add(&leaves.text());
                canvas.add(&arrives.text());
            }
        }
    }
    canvas.add("\"/>\n");
}

/// An arrow, whole or as its two ends.
fn arrow(canvas: &mut Canvas, trace: &Trace, flight: &Flight, way: &Way) {
    let start = if flight.copy_of.is_some() { " copy" } else { "" };
    let end = end_class(flight, trace);
    match way {
        Way::Whole(path) => piece(canvas, flight, path, &format!("{}{}", end, start)),
        Way::Broken(leaves, None) => piece(canvas, flight, leaves, &format!("{}{}", end, start)),
        Way::Broken(leaves, Some(arrives)) => {
            piece(canvas, flight, leaves, &format!("gap-end{}", start));
            piece(canvas, flight, arrives, &format!("{} gap-start", end));
        }
    }
}

fn piece(canvas: &mut Canvas, flight: &Flight, path: &Path, class: &str) {
    let host = flight.message.ballot.host;
    let kind = short::kind(&flight.message.body);
    let path = path.text();
    let tag = format!("<path class=\"b{} k{} {}\" d=\"{}\"", host, kind, class, path);
    canvas.shape(&tag, "path", || flight_words(flight));
}

/// How an arrow ends: filled where its delivery did something, else hollow, cut or open.
fn end_class(flight: &Flight, trace: &Trace) -> &'static str {
    match flight.fate {
        Fate::UnderWay => "open",
        Fate::Lost(_) => "lost",
        Fate::Delivered(place) => match trace.moments[place].case {
            Some(case) if short::did_nothing(case) => "idle",
            _ => "did",
        },
    }
}

/// A message with where it was sent and where it ended.
fn flight_words(flight: &Flight) -> String {
    let words = words::message(&flight.message);
    let how = if flight.copy_of.is_some() { "copied" } else { "sent" };
    let fate = match flight.fate {
        Fate::UnderWay => "under way at the end".into(),
        Fate::Lost(place) => format!("lost at {}", place),
        Fate::Delivered(place) => format!("delivered at {}", place),
    };
    format!("{}, slot {}, {} at {}, {}", words, flight.slot, how, flight.sent, fate)
}

/// At the ends of a gap, the host and the event at its other side.
fn gap_words(canvas: &mut Canvas, flight: &Flight, way: &Way) {
    let (leaves, arrives) = match way {
        Way::Whole(_) => return,
        Way::Broken(leaves, arrives) => (leaves, arrives),
    };
    let target = flight.message.target;
    let to = match flight.ended() {
        Some(place) => format!("to {}, at {}", target, place),
        None => format!("to {}, open", target),
    };
    let (x, y) = leaves.to;
    canvas.words(x as usize + 7, y as usize + 3, &to);
    if let Some(arrives) = arrives {
        let (x, y) = arrives.from;
        let words = format!("from {}, at {}", flight.message.sender, flight.sent);
        let (x, y) = (x as usize - 7, y as usize + 3);
        canvas.add(&format!("<text class=\"e\" x=\"{}\" y=\"{}\">{}</text>\n", x, y, words));
    }
}

/// What is still under way to a host at the end, right of its lane.
fn to_come(canvas: &mut Canvas, trace: &Trace, layout: &Layout, host: u8) {
    let open = |flight: &&Flight| flight.fate == Fate::UnderWay && flight.message.target == host;
    let mut slots: Vec<&Flight> = trace.flights.iter().filter(open).collect();
    slots.sort_by_key(|flight| flight.slot);
    let shown = if slots.len() > MOST_TO_COME { MOST_TO_COME - 1 } else { slots.len() };
    let mut lines: Vec<String> = slots[..shown].iter().map(|flight| to_come_line(flight)).collect();
    if slots.len() > shown {
        lines.push(format!("and {} more", slots.len() - shown));
    }
    let step = 11;
    let top = layout.lane(host) + LANE / 2 + 4 - step * lines.len().saturating_sub(1) / 2;
    for (number, line) in lines.iter().enumerate() {
        canvas.words(layout.end() + 16, top + step * number, line);
    }
}

fn to_come_line(flight: &Flight) -> String {
    format!("slot {}: {}", flight.slot, short::message(&flight.message))
}
