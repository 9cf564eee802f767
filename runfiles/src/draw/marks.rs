//! What stands on the lanes beside spans and arrows: clocks where they move, a dot where a host
//! acts, a full bar where it restarts and a hollow one where it lets go, and a refusal's number
//! where it was refused.

use model::cell::Event;
use model::refusal::DONE;

use super::canvas::Canvas;
use super::head::refusal;
use super::layout::{Layout, LANE, STEP};
use crate::trace::{Moment, Trace};

pub fn draw(canvas: &mut Canvas, trace: &Trace, layout: &Layout) {
    clocks(canvas, trace, layout);
    for (place, moment) in layout.moments(trace) {
        if let Some(host) = moment.host(&trace.flights) {
            mark(canvas, moment, layout, layout.x(place), host);
        }
    }
}

fn clocks(canvas: &mut Canvas, trace: &Trace, layout: &Layout) {
    canvas.open("clock on");
    for (place, moment) in layout.moments(trace) {
        let before = place.checked_sub(1).map(|before| &trace.moments[before].hosts);
        for (number, host) in moment.hosts.iter().enumerate() {
            if before.map_or(true, |hosts| hosts[number].clock != host.clock) {
                let y = layout.lane(host.number) + 11;
                canvas.words_within(layout.x(place) + 4, y, &host.clock.to_string(), STEP);
            }
        }
    }
    canvas.close();
}

fn mark(canvas: &mut Canvas, moment: &Moment, layout: &Layout, x: usize, host: u8) {
    if moment.answer != DONE {
        return refusal(canvas, x, layout.line(host) + 4, moment.answer);
    }
    match moment.event {
        Some(Event::Restart { .. }) => bar(canvas, "restart", layout, x, host),
        Some(Event::Release { .. }) => bar(canvas, "release", layout, x, host),
        Some(Event::AdvanceOne { .. }) => {}
        _ => canvas.add(&format!(
            "<circle class=\"dot\" cx=\"{}\" cy=\"{}\" r=\"2.5\"/>\n",
            x,
            layout.line(host)
        )),
    }
}

fn bar(canvas: &mut Canvas, class: &str, layout: &Layout, x: usize, host: u8) {
    canvas.add(&format!(
        "<rect class=\"{}\" x=\"{}\" y=\"{}\" width=\"5\" height=\"{}\"/>\n",
        class,
        x - 2,
        layout.lane(host) + 4,
        LANE - 8
    ));
}
