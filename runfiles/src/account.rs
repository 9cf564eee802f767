//! What an event was, in words: from the cell before it, its answer, and the cell after it.

use model::cell::{Cell, Event, LAST_TICK, MOST_HOSTS, SLOTS};
use model::host::{Host, Round};
use model::message::{Ballot, Body};
use model::refusal::{
    CLOCK, DONE, DURATION, FULL, HOST, NOT_HOLDER, SAME_TICK, SLOT, SPREAD, WAITING,
};

use crate::delivery::Delivery;
use crate::words::{ballot, hosts, message, refusal, sentence, slots};

/// An event between two cells.
pub struct Account<'a> {
    pub before: &'a Cell,
    pub event: Event,
    pub answer: u8,
    pub after: &'a Cell,
}

/// Plays events in a cell, and hands on each between the cells before and after it.
pub fn play(mut cell: Cell, events: &[Event], mut each: impl FnMut(&Account)) {
    for &event in events {
        let before = cell.clone();
        let answer = cell.apply(event);
        each(&Account { before: &before, event, answer, after: &cell });
    }
}

impl Account<'_> {
    /// What it was, and who names whom where that has changed.
    pub fn text(&self) -> String {
        let told = match self.answer {
            DONE => self.done(),
            _ => format!("Refused: {}.", self.why_refused()),
        };
        match names(&self.before.hosts) == names(&self.after.hosts) {
            true => told,
            false => format!("{} Now {}.", told, who_names_whom(&self.after.hosts)),
        }
    }

    fn done(&self) -> String {
        match self.event {
            Event::AdvanceAll { ticks } => self.advanced_all(ticks),
            Event::AdvanceOne { host, ticks } => {
                let clock = self.host_after(host).clock;
                let moved = format!("Host {}'s clock goes up by {}, to {}.", host, ticks, clock);
                moved + &self.aged()
            }
            Event::Start { host, duration } => self.started(host, duration),
            Event::Deliver { slot } => self.delivered(slot),
            Event::Lose { slot } => match self.before.slots.get(slot) {
                Some(lost) => format!("Lost: {}.", message(lost)),
                None => String::new(),
            },
            Event::Repeat { slot } => match self.before.slots.get(slot) {
                Some(repeated) => format!("In {} too: {}.", self.placed(), message(repeated)),
                None => String::new(),
            },
            Event::Restart { host } => {
                let Host { clock, wait_end, .. } = self.host_after(host);
                let wait = format!("and waits until that is {}", wait_end);
                format!("Host {} forgets everything but its clock, {}, {}.", host, clock, wait)
            }
            Event::Release { host } => self.released(host),
        }
    }

    pub fn host_after(&self, number: u8) -> &Host {
        &self.after.hosts[usize::from(number)]
    }

    pub fn host_before(&self, number: u8) -> &Host {
        &self.before.hosts[usize::from(number)]
    }

    /// The slots that this event has filled.
    pub fn placed(&self) -> String {
        let freed = match self.event {
            Event::Deliver { slot } => Some(slot),
            _ => None,
        };
        let is_new = |slot: &u8| {
            let was_empty = freed == Some(*slot) || self.before.slots.get(*slot).is_none();
            was_empty && self.after.slots.get(*slot).is_some()
        };
        slots(&(0..SLOTS as u8).filter(is_new).collect::<Vec<u8>>())
    }

    fn advanced_all(&self, ticks: u32) -> String {
        let clocks = || self.after.hosts.iter().map(|host| host.clock);
        let (low, high) = (clocks().min().unwrap_or(0), clocks().max().unwrap_or(0));
        let to = match low == high {
            true => format!("to {}", low),
            false => format!("to between {} and {}", low, high),
        };
        format!("All clocks go up by {}, {}.", ticks, to) + &self.aged()
    }

    /// What has come to its end as clocks went up.
    fn aged(&self) -> String {
        let which = |changed: fn(&Host, &Host) -> bool| -> Vec<u8> {
            let pairs = self.before.hosts.iter().zip(&self.after.hosts);
            pairs.filter(|(old, new)| changed(old, new)).map(|(old, _)| old.number).collect()
        };
        let awake = which(|old, new| old.waits() && !new.waits());
        let dropped = which(|old, new| old.accepted.is_some() && new.accepted.is_none());
        let tell = |of: Vec<u8>, one: &str, many: &str| match of.len() {
            0 => String::new(),
            1 => format!(" {} {}.", sentence(&hosts(&of)), one),
            _ => format!(" {} {}.", sentence(&hosts(&of)), many),
        };
        tell(awake, "waits no longer", "wait no longer")
            + &tell(dropped, "drops its accepted lease", "drop their accepted leases")
    }

    fn started(&self, host: u8, duration: u32) -> String {
        let ticks = if duration == 1 { "tick" } else { "ticks" };
        let ballot = self.last_ballot(host);
        let asks = format!("asks with ballot {} for {} {}", ballot, duration, ticks);
        self.sent_to_all(host, &asks, "prepare requests")
    }

    fn released(&self, host: u8) -> String {
        let lets_go = format!("lets go of its lease with ballot {}", self.last_ballot(host));
        self.sent_to_all(host, &lets_go, "release requests")
    }

    fn last_ballot(&self, host: u8) -> String {
        let tick = self.host_after(host).last_tick.unwrap_or(0);
        ballot(Ballot { tick, host })
    }

    /// What a host does that drops its round and is sent to all.
    fn sent_to_all(&self, host: u8, does: &str, requests: &str) -> String {
        let dropped = match self.host_before(host).round {
            Round::Idle => "",
            _ => " Its old round is dropped.",
        };
        let to = hosts(&(0..self.after.rules.n).collect::<Vec<u8>>());
        format!("Host {} {}: {} to {} in {}.{}", host, does, requests, to, self.placed(), dropped)
    }

    fn delivered(&self, slot: u8) -> String {
        match (self.before.slots.get(slot), self.after.case) {
            (Some(handed), Some(case)) => {
                let came_to = Delivery { account: self, handed, case }.came_to();
                format!("{}: host {} {}.", sentence(&message(handed)), handed.target, came_to)
            }
            _ => String::new(),
        }
    }

    /// Why the event was refused, from the cell as it is.
    fn why_refused(&self) -> String {
        let rules = self.before.rules;
        match (self.answer, self.event) {
            (
                HOST,
                Event::AdvanceOne { host, .. }
                | Event::Start { host, .. }
                | Event::Restart { host }
                | Event::Release { host },
            ) => format!("there is no host {}: they go from 0 to {}", host, rules.n - 1),
            (WAITING, Event::Start { host, .. } | Event::Release { host }) => {
                let Host { clock, wait_end, .. } = self.host_before(host);
                format!("host {} waits until its clock, {}, is {}", host, clock, wait_end)
            }
            (SAME_TICK, Event::Start { host, .. } | Event::Release { host }) => {
                let Host { clock, last_tick, .. } = self.host_before(host);
                let last = last_tick.unwrap_or(0);
                format!(
                    "host {}'s clock, {}, is not above its last ballot's tick, {}",
                    host, clock, last
                )
            }
            (NOT_HOLDER, Event::Release { host }) => {
                let named = self.host_before(host).named;
                let named = named.map_or("nobody".into(), |named| format!("host {}", named.owner));
                format!("host {} does not name itself: it names {}", host, named)
            }
            (DURATION, Event::Start { duration, .. }) => {
                let most = rules.longest - rules.spread;
                format!("a duration of {}, expected 1 to T - S, which is {}", duration, most)
            }
            (SLOT, Event::Deliver { slot } | Event::Lose { slot } | Event::Repeat { slot }) => {
                match usize::from(slot) < SLOTS {
                    true => format!("slot {} is empty", slot),
                    false => format!("there is no slot {}: they go from 0 to {}", slot, SLOTS - 1),
                }
            }
            (FULL, event) => self.why_full(event),
            (SPREAD, Event::AdvanceOne { host, ticks }) => self.why_spread(host, ticks),
            (CLOCK, Event::AdvanceAll { ticks: 0 } | Event::AdvanceOne { ticks: 0, .. }) => {
                "an advance by 0".into()
            }
            (CLOCK, _) => format!("a clock would pass its last tick, {}", LAST_TICK),
            (number, _) => refusal(number),
        }
    }

    /// What would be sent, and the empty slots, to which a delivery adds the one that it frees.
    fn why_full(&self, event: Event) -> String {
        let (n, room) = (self.before.rules.n, self.before.slots.room());
        let (messages, room) = match event {
            Event::Deliver { slot } => {
                let handed = self.before.slots.get(slot).map(|handed| handed.body);
                let learns = handed == Some(Body::ProposeResponse);
                (if learns { n - 1 } else { n }, room + 1)
            }
            Event::Repeat { .. } => (1, room),
            _ => (n, room),
        };
        format!("messages to send: {}; empty slots: {}", messages, room)
    }

    fn why_spread(&self, host: u8, ticks: u32) -> String {
        let clock = self.host_before(host).clock + u64::from(ticks);
        let others = self.before.hosts.iter().filter(|other| other.number != host);
        let last = others.map(|other| other.clock).min().unwrap_or(clock);
        let spread = self.before.rules.spread;
        format!("clocks at {} and {} would be more than S, {}, apart", last, clock, spread)
    }
}

fn names(hosts: &[Host]) -> Vec<Option<u8>> {
    hosts.iter().map(|host| host.named.map(|holder| holder.owner)).collect()
}

/// `hosts 0 and 1 name host 0`, for each that is named.
pub fn who_names_whom(hosts: &[Host]) -> String {
    let names = names(hosts);
    let is_named = |owner: &u8| names.contains(&Some(*owner));
    let told: Vec<String> =
        (0..MOST_HOSTS).filter(is_named).map(|owner| who_names(&names, owner)).collect();
    match told.is_empty() {
        true => "nobody is named".into(),
        false => told.join("; "),
    }
}

fn who_names(names: &[Option<u8>], owner: u8) -> String {
    let pairs = (0..).zip(names).filter(|(_, named)| **named == Some(owner));
    let naming: Vec<u8> = pairs.map(|(host, _)| host).collect();
    let name = if naming.len() == 1 { "names" } else { "name" };
    format!("{} {} host {}", hosts(&naming), name, owner)
}
