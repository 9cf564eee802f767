//! What frames a drawing: the settings, a head for each event, the lanes and their names.

use model::cell::Event;
use model::refusal::DONE;

use super::canvas::Canvas;
use super::layout::{Layout, HEAD, LANE, LANES, LEFT, STEP};
use super::{counts_words, escaped, settings_words, short};
use crate::trace::{Flight, Moment, Trace};
use crate::{source, words};

/// What stands over a drawing.
pub fn titles(canvas: &mut Canvas, trace: &Trace) {
    let (settings, counts) = (settings_words(trace), escaped(&counts_words(trace)));
    canvas.add(&format!("<text class=\"big\" x=\"8\" y=\"20\">{}</text>\n", settings));
    canvas.add(&format!("<text class=\"plain\" x=\"8\" y=\"38\">{}</text>\n", counts));
}

pub fn draw(canvas: &mut Canvas, trace: &Trace, layout: &Layout) {
    columns(canvas, trace, layout);
    lanes(canvas, trace, layout);
    for (place, moment) in layout.moments(trace) {
        head(canvas, layout.x(place), place, moment, &trace.flights);
    }
}

/// The lines of the events; behind refused ones the column is grey.
fn columns(canvas: &mut Canvas, trace: &Trace, layout: &Layout) {
    let height = layout.bottom() - HEAD;
    for (place, moment) in layout.moments(trace) {
        if moment.answer != DONE {
            let tag = format!(
                "<rect class=\"refused\" x=\"{}\" y=\"{}\" width=\"{}\" height=\"{}\"",
                layout.x(place),
                HEAD,
                STEP,
                height
            );
            canvas.shape(&tag, "rect", || moment.words.clone());
        }
    }
    canvas.add(&format!(
        "<rect class=\"ruled\" x=\"{}\" y=\"{}\" width=\"{}\" height=\"{}\"/>\n",
        LEFT,
        HEAD,
        layout.end() - LEFT + 1,
        height
    ));
}

fn lanes(canvas: &mut Canvas, trace: &Trace, layout: &Layout) {
    let line = |host| format!("M{} {}H{}", LEFT, layout.line(host), layout.end());
    let lines: String = (0..trace.settings.n).map(line).collect();
    let edges = edges(trace, layout, layout.end());
    canvas.add(&format!("<path class=\"lane\" d=\"{}\"/>\n", edges));
    canvas.add(&format!("<path class=\"line\" d=\"{}\"/>\n", lines));
}

/// The edges of the lanes, up to a place at the right.
fn edges(trace: &Trace, layout: &Layout, right: usize) -> String {
    let edge = |host| format!("M0 {}H{}", layout.lane(host) + LANE, right);
    let first = format!("M0 {}H{}", LANES, right);
    (0..trace.settings.n).map(edge).fold(first, |edges, edge| edges + &edge)
}

/// An event's place, what it is, and what it came to.
fn head(canvas: &mut Canvas, x: usize, place: usize, moment: &Moment, flights: &[Flight]) {
    let (first, second) = rows(moment, flights);
    canvas.add(&format!("<text class=\"place\" x=\"{}\" y=\"{}\">{}</text>\n", x + 4, 62, place));
    canvas.words_within(x + 4, 75, &first, STEP);
    if !second.is_empty() {
        canvas.words_within(x + 4, 88, &second, STEP);
    }
    if moment.answer != DONE {
        refusal(canvas, x + 11, 102, moment.answer);
        let word = words::answer(usize::from(moment.answer));
        return canvas.words_within(x + 21, 102, word, STEP - 16);
    }
    if let Some(came_to) = came_to(moment, flights) {
        canvas.words_within(x + 4, 102, &came_to, STEP);
    }
}

/// A refusal's number, white on black.
pub fn refusal(canvas: &mut Canvas, middle: usize, y: usize, answer: u8) {
    canvas.add(&format!(
        "<g class=\"no\"><rect x=\"{}\" y=\"{}\" width=\"16\" height=\"13\"/>\
         <text x=\"{}\" y=\"{}\">{}</text></g>\n",
        middle - 8,
        y - 10,
        middle,
        y,
        answer
    ));
}

/// An event as its text has it, in two rows; the second is its message, if it has one.
fn rows(moment: &Moment, flights: &[Flight]) -> (String, String) {
    let line = match moment.event {
        None => return ("opening".into(), String::new()),
        Some(event) => source::event_line(event),
    };
    match (moment.event, moment.about) {
        (_, Some(flight)) => (line, short::message(&flights[flight].message)),
        (Some(Event::Deliver { .. } | Event::Lose { .. } | Event::Repeat { .. }), None) => {
            (line, "no message".into())
        }
        _ => match line.match_indices(' ').nth(1) {
            Some((end, _)) => (line[..end].into(), line[end + 1..].into()),
            None => (line, String::new()),
        },
    }
}

/// What a release or a delivery came to, in a word or two.
fn came_to(moment: &Moment, flights: &[Flight]) -> Option<String> {
    if let Some(Event::Release { .. }) = moment.event {
        return Some("lets go".into());
    }
    let word = short::case(moment.case?);
    let receiver = moment.host(flights)?;
    match moment.hosts[usize::from(receiver)].named {
        Some(holder) if word == "names" => Some(format!("names {}", holder.owner)),
        _ => Some(word.into()),
    }
}

/// The names of the lanes at the left, and again along the way.
pub fn lane_names(canvas: &mut Canvas, trace: &Trace, layout: &Layout) {
    canvas.open("tag on");
    for host in 0..trace.settings.n {
        for place in layout.range().skip(1).filter(|place| place % layout.again == 0) {
            again(canvas, trace, layout, host, place);
        }
    }
    canvas.close();
    canvas.open("lane-name");
    let (right, bottom) = (LEFT - 6, layout.bottom());
    canvas.add(&format!("<path class=\"back\" d=\"M0 {}H{}V{}H0Z\"/>\n", HEAD, right, bottom + 1));
    canvas.add(&format!("<path class=\"lane\" d=\"{}\"/>\n", edges(trace, layout, right)));
    for host in 0..trace.settings.n {
        let line = layout.line(host);
        canvas.add(&format!(
            "<rect class=\"o{}\" x=\"8\" y=\"{}\" width=\"14\" height=\"14\"/>\n",
            host,
            line - 11
        ));
        canvas.words(28, line, &format!("host {}", host));
    }
    canvas.close();
}

/// A lane's name, right of an event where no clock is written.
fn again(canvas: &mut Canvas, trace: &Trace, layout: &Layout, host: u8, place: usize) {
    let of = usize::from(host);
    let clock = |place: usize| trace.moments[place].hosts[of].clock;
    let free = |place: &usize| clock(*place) == clock(*place - 1);
    let near = place..(place + layout.again / 2).min(trace.moments.len());
    if let Some(place) = near.into_iter().find(free).filter(|&place| layout.has(place)) {
        canvas.words(layout.x(place) + 4, layout.lane(host) + 11, &format!("host {}", host));
    }
}
