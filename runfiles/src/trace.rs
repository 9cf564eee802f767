//! What happened in a run, event by event, as the model plays it: every host after each event, the
//! messages from their sending to their end, and the answers.

use model::builds::RIGHT;
use model::cell::{Cell, Event, Settings, SLOTS};
use model::host::{Case, Host};
use model::listing::{list, Unwatched};
use model::message::Message;
use model::refusal::DONE;

use crate::account::{self, Account};
use crate::lines;
use crate::reading::{Reading, Stop};
use crate::words;

/// A run from its opening to its end.
pub struct Trace {
    pub settings: Settings,
    /// The opening, then each event, so that an event's place in the listing is its place here.
    pub moments: Vec<Moment>,
    pub flights: Vec<Flight>,
    /// The record that could not be read, if one ended the run.
    pub stop: Option<Stop>,
    /// The lines of the listing.
    pub lines: Vec<String>,
}

/// An event, what it came to, and every host after it.
pub struct Moment {
    /// None at the opening.
    pub event: Option<Event>,
    /// What it was.
    pub words: String,
    pub answer: u8,
    pub case: Option<Case>,
    /// The message in the slot that the event names, as it was before the event.
    pub about: Option<usize>,
    pub hosts: Vec<Host>,
}

/// A message under way, from the event that placed it.
pub struct Flight {
    pub message: Message,
    pub slot: u8,
    pub sent: usize,
    /// The message that it was copied from, if a repeat placed it.
    pub copy_of: Option<usize>,
    pub fate: Fate,
}

/// What became of a message, and at which event.
#[derive(Clone, Copy, PartialEq, Eq)]
pub enum Fate {
    UnderWay,
    Delivered(usize),
    Lost(usize),
}

impl Trace {
    /// The run of a file of that name, or why there is none.
    pub fn of(bytes: &[u8], name: &str) -> Result<Trace, String> {
        let reading = Reading::of(bytes);
        let stop = reading.stop();
        let (settings, cell) = reading.opened().ok_or_else(|| no_run(name, stop.as_ref()))?;
        let mut recorder = Recorder::new(settings, &cell);
        account::play(cell, &reading.events, |account| recorder.event(account));
        let Recorder { moments, flights, .. } = recorder;
        let lines = lines::of(&list(bytes, RIGHT, &mut Unwatched));
        Ok(Trace { settings, moments, flights, stop, lines })
    }

    /// How many events there are, beside the opening.
    pub fn events(&self) -> usize {
        self.moments.len() - 1
    }

    pub fn refused(&self) -> usize {
        self.moments.iter().filter(|moment| moment.answer != DONE).count()
    }
}

fn no_run(name: &str, stop: Option<&Stop>) -> String {
    let stop = stop.map(Stop::place_and_reason).unwrap_or_default();
    format!("{}: there is no run to see: the bench stops {}", name, stop)
}

impl Moment {
    /// The host whose lane an event belongs to, if it is one host's and that host exists.
    pub fn host(&self, flights: &[Flight]) -> Option<u8> {
        let host = match self.event? {
            Event::AdvanceAll { .. } | Event::Lose { .. } | Event::Repeat { .. } => None,
            Event::AdvanceOne { host, .. } | Event::Start { host, .. } => Some(host),
            Event::Restart { host } | Event::Release { host } => Some(host),
            Event::Deliver { .. } => self.about.map(|flight| flights[flight].message.target),
        };
        host.filter(|&host| usize::from(host) < self.hosts.len())
    }
}

impl Flight {
    /// The event that ended it.
    pub fn ended(&self) -> Option<usize> {
        match self.fate {
            Fate::UnderWay => None,
            Fate::Delivered(place) | Fate::Lost(place) => Some(place),
        }
    }
}

/// Looks on while events are played, and writes down what it sees.
struct Recorder {
    moments: Vec<Moment>,
    flights: Vec<Flight>,
    /// The message in each slot, as a place in `flights`.
    in_slot: [Option<usize>; SLOTS],
}

impl Recorder {
    fn new(settings: Settings, cell: &Cell) -> Recorder {
        let opening = Moment {
            event: None,
            words: words::opening(settings),
            answer: DONE,
            case: None,
            about: None,
            hosts: cell.hosts.clone(),
        };
        Recorder { moments: vec![opening], flights: Vec::new(), in_slot: [None; SLOTS] }
    }

    fn event(&mut self, account: &Account) {
        let Account { event, answer, after, .. } = *account;
        let about = match event {
            Event::Deliver { slot } | Event::Lose { slot } | Event::Repeat { slot } => {
                self.in_slot(slot)
            }
            _ => None,
        };
        if answer == DONE {
            self.follow(event, after);
        }
        let (words, hosts) = (account.text(), after.hosts.clone());
        let case = after.case;
        self.moments.push(Moment { event: Some(event), words, answer, case, about, hosts });
    }

    fn in_slot(&self, slot: u8) -> Option<usize> {
        self.in_slot.get(usize::from(slot)).copied().flatten()
    }

    /// Ends the message of a slot.
    fn end(&mut self, slot: u8, fate: Fate) {
        if let Some(flight) = self.in_slot(slot) {
            self.flights[flight].fate = fate;
            self.in_slot[usize::from(slot)] = None;
        }
    }

    /// Takes up the messages that stand in slots which were empty.
    fn take_up(&mut self, cell: &Cell, sent: usize, copy_of: Option<usize>) {
        for slot in 0..SLOTS as u8 {
            let empty = self.in_slot(slot).is_none();
            if let Some(&message) = cell.slots.get(slot).filter(|_| empty) {
                self.in_slot[usize::from(slot)] = Some(self.flights.len());
                let fate = Fate::UnderWay;
                self.flights.push(Flight { message, slot, sent, copy_of, fate });
            }
        }
    }

    /// What an event that was done did to the slots.
    fn follow(&mut self, event: Event, cell: &Cell) {
        let place = self.moments.len();
        match event {
            Event::Deliver { slot } => self.end(slot, Fate::Delivered(place)),
            Event::Lose { slot } => self.end(slot, Fate::Lost(place)),
            _ => {}
        }
        let copy_of = match event {
            Event::Repeat { slot } => self.in_slot(slot),
            _ => None,
        };
        self.take_up(cell, place, copy_of);
    }
}
