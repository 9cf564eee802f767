//! The ways of messages over a drawing, from the line of the event that sent them to that of their
//! delivery. Lost ones end before they come to their lane; a copy begins on the way of what it was
//! copied from, not at its sender; a way of more than a screen's width is broken in two.

use model::message::Message;

use super::layout::{self, Layout, STEP};
use crate::trace::{Fate, Flight, Trace};

/// How far a message to oneself leaves its line, and how far one that crosses lanes bends for each
/// of them: else those that are sent together and delivered one by one would lie on one another.
const BULGE: f64 = 16.0;
const BEND: f64 = 16.0;

/// How far towards their lane those come that do not arrive, and what they stay away from it.
const PART: f64 = 0.72;
const ASIDE: f64 = 9.0;

/// Over more columns than this a way is broken, and of each end so much is left: of its columns,
/// and of its height.
const MOST_COLUMNS: usize = 20;
const END_COLUMNS: f64 = 2.4;
const END_HEIGHT: f64 = 0.4;

type Point = (f64, f64);

/// A line, or a curve whose middle stands over the middle between its ends.
#[derive(Clone, Copy)]
pub struct Path {
    pub from: Point,
    middle: Option<f64>,
    pub to: Point,
}

/// The way of a message.
#[derive(Clone, Copy)]
pub enum Way {
    Whole(Path),
    /// The end that leaves the sender, and that which arrives, if it does.
    Broken(Path, Option<Path>),
}

impl Path {
    fn line(from: Point, to: Point) -> Path {
        Path { from, middle: None, to }
    }

    /// Its height over a place between its ends.
    fn at(&self, x: f64) -> f64 {
        let ((x1, y1), (x2, y2)) = (self.from, self.to);
        let t = ((x - x1) / (x2 - x1)).clamp(0.0, 1.0);
        let middle = self.middle.unwrap_or((y1 + y2) / 2.0);
        (1.0 - t) * (1.0 - t) * y1 + 2.0 * t * (1.0 - t) * middle + t * t * y2
    }

    /// As the text of a path.
    pub fn text(&self) -> String {
        let ((x1, y1), (x2, y2)) = (self.from, self.to);
        let from = format!("M{} {}", short(x1), short(y1));
        match self.middle {
            None => format!("{}L{} {}", from, short(x2), short(y2)),
            Some(y) => {
                let x = (x1 + x2) / 2.0;
                format!("{}Q{} {} {} {}", from, short(x), short(y), short(x2), short(y2))
            }
        }
    }
}

impl Way {
    fn at(&self, x: f64) -> f64 {
        match self {
            Way::Whole(path) => path.at(x),
            Way::Broken(_, Some(arrives)) if x >= arrives.from.0 => arrives.at(x),
            Way::Broken(leaves, _) => leaves.at(x),
        }
    }
}

/// A number with one digit after the point, where there is need of it.
fn short(number: f64) -> String {
    let text = format!("{:.1}", number);
    match text.strip_suffix(".0") {
        Some(whole) => whole.into(),
        None => text,
    }
}

/// The ways of all messages; that of a copy needs the one that it was copied from.
pub fn ways(trace: &Trace) -> Vec<Way> {
    let layout = &layout::whole(trace);
    let mut ways: Vec<Way> = Vec::with_capacity(trace.flights.len());
    for flight in &trace.flights {
        let x = layout.x(flight.sent) as f64;
        let y = match flight.copy_of {
            Some(original) => ways[original].at(x),
            None => layout.line(flight.message.sender) as f64,
        };
        ways.push(way(flight, layout, (x, y), trace.moments.len()));
    }
    ways
}

fn way(flight: &Flight, layout: &Layout, from: Point, places: usize) -> Way {
    let line = layout.line(flight.message.target) as f64;
    let to_itself = flight.message.sender == flight.message.target;
    let cut = match to_itself {
        true => line - ASIDE,
        false => from.1 + (line - from.1) * PART,
    };
    let to = match flight.fate {
        Fate::Delivered(place) => (layout.x(place) as f64, line),
        Fate::Lost(place) => (layout.x(place) as f64, cut),
        Fate::UnderWay => (layout.end() as f64 + 6.0, cut),
    };
    if flight.ended().unwrap_or(places) - flight.sent > MOST_COLUMNS {
        let aside = if to_itself { ASIDE } else { 0.0 };
        return broken(from, to, aside, flight.fate != Fate::UnderWay);
    }
    Way::Whole(Path { from, middle: middle(&flight.message, from.1, to.1), to })
}

/// The height of a way's middle, if it is not a line.
fn middle(message: &Message, from: f64, to: f64) -> Option<f64> {
    let lanes = f64::from(message.target) - f64::from(message.sender);
    match message.sender.abs_diff(message.target) {
        0 => Some(from - BULGE),
        1 => None,
        _ => Some((from + to) / 2.0 - BEND * (lanes - lanes.signum())),
    }
}

fn broken(from: Point, to: Point, aside: f64, arrives: bool) -> Way {
    let columns = END_COLUMNS * STEP as f64;
    let height = END_HEIGHT * (to.1 - from.1);
    let leaves = Path::line(from, (from.0 + columns, from.1 + height - aside));
    let comes = Path::line((to.0 - columns, to.1 - height - aside), to);
    Way::Broken(leaves, if arrives { Some(comes) } else { None })
}
