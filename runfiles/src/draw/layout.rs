//! Where things stand in a drawing. An event is a line at the left of its column; the column shows
//! what it left behind.

use std::ops::Range;

use crate::trace::{Moment, Trace};

/// Where the opening stands, and how wide the column of an event is.
pub const LEFT: usize = 84;
pub const STEP: usize = 64;

/// Where the heads of the columns begin, and the lanes beneath them.
pub const HEAD: usize = 50;
pub const LANES: usize = 112;

/// The height of a lane and of the rows in it: what the host does, its line, whom it names.
pub const LANE: usize = 78;
pub const DOES: usize = 15;
pub const LINE: usize = 42;
pub const NAMES: usize = 51;
pub const BAR: usize = 18;

/// What is left at the right for the messages still under way, and beneath for the legend.
pub const RIGHT: usize = 120;
pub const LEGEND: usize = 192;
const LEAST_WIDTH: usize = 900;

/// How many columns a strip has at most, and after how many of a run in one strip names and labels
/// come again.
const LONGEST_STRIP: usize = 18;
const AGAIN: usize = 14;

/// What is seen of the column before a strip's first, and left between strips.
const BEFORE: usize = 10;
const BETWEEN: usize = 14;

/// One strip of a drawing: its lanes from an event up to another.
pub struct Layout {
    hosts: usize,
    places: usize,
    from: usize,
    to: usize,
    /// After so many columns names and labels come again.
    pub again: usize,
    /// How many strips stand above it.
    above: usize,
}

/// A run in one strip, however long.
pub fn whole(trace: &Trace) -> Layout {
    strip(trace, 0..trace.moments.len(), AGAIN, 0)
}

/// A run in strips that fit a screen and a sheet of paper, about as long as one another.
pub fn strips(trace: &Trace) -> Vec<Layout> {
    let places = trace.moments.len();
    let count = (places + LONGEST_STRIP - 1) / LONGEST_STRIP;
    let columns = (places + count - 1) / count;
    let starts = (0..places).step_by(columns).enumerate();
    let ranges = starts.map(|(above, from)| (above, from..(from + columns).min(places)));
    ranges.map(|(above, range)| strip(trace, range, columns, above)).collect()
}

fn strip(trace: &Trace, range: Range<usize>, again: usize, above: usize) -> Layout {
    Layout {
        hosts: usize::from(trace.settings.n),
        places: trace.moments.len(),
        from: range.start,
        to: range.end,
        again,
        above,
    }
}

impl Layout {
    /// The places of its events.
    pub fn range(&self) -> Range<usize> {
        self.from..self.to
    }

    /// Whether it has an event.
    pub fn has(&self, place: usize) -> bool {
        self.range().contains(&place)
    }

    /// Whether something between two events is seen in it.
    pub fn crosses(&self, from: usize, to: usize) -> bool {
        from < self.to && to >= self.from
    }

    /// Its events.
    pub fn moments<'a>(&self, trace: &'a Trace) -> impl Iterator<Item = (usize, &'a Moment)> {
        let count = self.to - self.from;
        trace.moments.iter().enumerate().skip(self.from).take(count)
    }

    /// Where labels of something between two events stand, and in how many columns.
    pub fn labelled(&self, from: usize, to: usize) -> impl Iterator<Item = (usize, usize)> {
        let (start, end, again) = (from.max(self.from), to.min(self.to), self.again);
        (start..end).step_by(again).map(move |place| (place, again.min(end - place)))
    }

    /// How far down it is moved.
    pub fn down(&self) -> usize {
        self.above * (self.bottom() - HEAD + BETWEEN)
    }

    /// Where its window on the events stands, where it begins among them, and its width.
    pub fn window(&self) -> (usize, usize, usize) {
        let more = if self.to == self.places { BEFORE + RIGHT } else { 0 };
        (LEFT - BEFORE, self.x(self.from) - BEFORE, STEP * (self.to - self.from) + more)
    }

    /// The line of an event.
    pub fn x(&self, place: usize) -> usize {
        LEFT + STEP * place
    }

    /// The right edge of the last event's column.
    pub fn end(&self) -> usize {
        self.x(self.places)
    }

    /// The top of a host's lane.
    pub fn lane(&self, host: u8) -> usize {
        LANES + LANE * usize::from(host)
    }

    /// The line of a host, on which messages leave and come.
    pub fn line(&self, host: u8) -> usize {
        self.lane(host) + LINE
    }

    /// The end of the last lane.
    pub fn bottom(&self) -> usize {
        LANES + LANE * self.hosts
    }

    /// The right edge of what is seen of it.
    pub fn right(&self) -> usize {
        let (left, _, width) = self.window();
        (left + width).max(LEAST_WIDTH)
    }
}

#[cfg(test)]
mod tests {
    use super::*;
    use model::builds::RIGHT;
    use model::compare;

    #[test]
    fn every_event_stands_in_one_strip() {
        for seed in 0..100 {
            let bytes = compare::file_of(seed, RIGHT);
            if let Ok(trace) = Trace::of(&bytes, "run") {
                let places: Vec<usize> = strips(&trace).iter().flat_map(Layout::range).collect();
                let all: Vec<usize> = (0..trace.moments.len()).collect();
                assert_eq!(places, all, "seed {}", seed);
            }
        }
    }
}
