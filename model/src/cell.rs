//! The whole cell: its hosts, the messages under way in 96 slots, opening and the eight events.

use crate::builds::Build;
use crate::host::{Case, Host, Rules, Sending};
use crate::message::{Body, HoldersEnd, Hosts, Message};
use crate::refusal::{CELL, CLOCK, DONE, FULL, HOST, SLOT, SPREAD, TICK};

pub const LAST_TICK: u64 = 1 << 48;
pub const LONGEST: u32 = 1 << 31;
pub const MOST_HOSTS: u8 = 9;
pub const SLOTS: usize = 96;

/// So much later is the end of which one wrong build tells.
const TOLD_LATER: u64 = 1_000;

/// What a run file's first record says.
#[derive(Clone, Copy, Debug, PartialEq, Eq)]
pub struct Settings {
    pub n: u8,
    pub longest: u32,
    pub spread: u32,
    pub clock: u64,
}

/// One of them.
#[derive(Clone, Copy, Debug, PartialEq, Eq)]
pub enum Setting {
    Hosts,
    Longest,
    Spread,
    Clock,
}

impl Setting {
    /// The number by which opening refuses it.
    pub fn refusal(self) -> u8 {
        match self {
            Setting::Hosts | Setting::Longest | Setting::Spread => CELL,
            Setting::Clock => TICK,
        }
    }
}

impl Settings {
    /// The first that opening refuses, if there is one: 'Opening 1, 6.'
    pub fn refused(self) -> Option<Setting> {
        if !(1..=MOST_HOSTS).contains(&self.n) {
            return Some(Setting::Hosts);
        }
        if !(1..=LONGEST).contains(&self.longest) {
            return Some(Setting::Longest);
        }
        if self.spread > self.longest - 1 {
            return Some(Setting::Spread);
        }
        if self.clock > LAST_TICK {
            return Some(Setting::Clock);
        }
        None
    }
}

#[derive(Clone, Copy, Debug, PartialEq, Eq)]
pub enum Event {
    AdvanceAll { ticks: u32 },
    AdvanceOne { host: u8, ticks: u32 },
    Start { host: u8, duration: u32 },
    Deliver { slot: u8 },
    Lose { slot: u8 },
    Repeat { slot: u8 },
    Restart { host: u8 },
    Release { host: u8 },
}

/// The messages under way, with one bit for each slot that holds one.
#[derive(Clone, Debug)]
pub struct Slots {
    messages: [Option<Message>; SLOTS],
    taken: u128,
}

impl Slots {
    fn new() -> Slots {
        Slots { messages: [None; SLOTS], taken: 0 }
    }

    pub fn get(&self, slot: u8) -> Option<&Message> {
        self.messages.get(usize::from(slot)).and_then(Option::as_ref)
    }

    pub fn taken(&self) -> u32 {
        self.taken.count_ones()
    }

    pub fn room(&self) -> u32 {
        SLOTS as u32 - self.taken()
    }

    fn free(&mut self, slot: u8) {
        self.messages[usize::from(slot)] = None;
        self.taken &= !(1 << slot);
    }

    /// 'A message sent takes the lowest empty slot.' Whoever places has asked for room.
    fn place(&mut self, message: Message) {
        let lowest = self.taken.trailing_ones();
        self.messages[lowest as usize] = Some(message);
        self.taken |= 1 << lowest;
    }

    /// 'Receivers in rising order.'
    fn send(&mut self, sender: u8, sending: Sending) {
        let Sending { ballot, body, receivers } = sending;
        for target in receivers {
            self.place(Message { sender, target, ballot, body });
        }
    }
}

#[derive(Clone, Debug)]
pub struct Cell {
    pub rules: Rules,
    pub hosts: Vec<Host>,
    pub slots: Slots,
    /// What the last event came to, if it was a delivery that was done.
    pub case: Option<Case>,
    /// Whether anybody has let go, which no rule asks: two wrong builds do.
    let_go: bool,
}

impl Cell {
    /// The cell, or the setting that is refused.
    pub fn open(settings: Settings, build: Build) -> Result<Cell, Setting> {
        if let Some(setting) = settings.refused() {
            return Err(setting);
        }
        let Settings { n, longest, spread, clock } = settings;
        let (longest, spread) = (u64::from(longest), u64::from(spread));
        let rules = Rules { n, longest, spread, build };
        let hosts = (0..n).map(|number| Host::new(&rules, number, clock)).collect();
        Ok(Cell { rules, hosts, slots: Slots::new(), case: None, let_go: false })
    }

    /// The answer: 0, or a refusal, which leaves the cell as it was.
    pub fn apply(&mut self, event: Event) -> u8 {
        self.case = None;
        let done = match event {
            Event::AdvanceAll { ticks } => self.advance_all(u64::from(ticks)),
            Event::AdvanceOne { host, ticks } => self.advance_one(host, u64::from(ticks)),
            Event::Start { host, duration } => self.start(host, u64::from(duration)),
            Event::Deliver { slot } => self.deliver(slot),
            Event::Lose { slot } => self.lose(slot),
            Event::Repeat { slot } => self.repeat(slot),
            Event::Restart { host } => self.restart(host),
            Event::Release { host } => self.release(host),
        };
        match done {
            Ok(()) => DONE,
            Err(refusal) => refusal,
        }
    }

    /// 'Advance all 15.'
    fn advance_all(&mut self, ticks: u64) -> Result<(), u8> {
        if ticks == 0 || self.hosts.iter().any(|host| host.clock + ticks > LAST_TICK) {
            return Err(CLOCK);
        }
        for host in &mut self.hosts {
            host.advance(ticks);
        }
        Ok(())
    }

    /// 'Advance one 5, 15, 14.'
    fn advance_one(&mut self, number: u8, ticks: u64) -> Result<(), u8> {
        let clock = self.hosts.get(usize::from(number)).ok_or(HOST)?.clock + ticks;
        if ticks == 0 || clock > LAST_TICK {
            return Err(CLOCK);
        }
        let spread = self.rules.spread;
        let behind = |other: &Host| other.number != number && other.clock + spread < clock;
        if self.hosts.iter().any(behind) {
            return Err(SPREAD);
        }
        self.hosts[usize::from(number)].advance(ticks);
        Ok(())
    }

    /// 'Start 5, 9, 11, 10, 13.'
    fn start(&mut self, number: u8, duration: u64) -> Result<(), u8> {
        let room = self.slots.room();
        let host = self.hosts.get_mut(usize::from(number)).ok_or(HOST)?;
        let sending = host.start(&self.rules, duration, room)?;
        self.slots.send(number, sending);
        Ok(())
    }

    /// 'Deliver 12, 13, counting the freed slot as empty.'
    fn deliver(&mut self, slot: u8) -> Result<(), u8> {
        let message = *self.slots.get(slot).ok_or(SLOT)?;
        let room = self.slots.room() + 1;
        let host = &mut self.hosts[usize::from(message.target)];
        let (case, sending) = host.receive(&self.rules, &message, room)?;
        self.case = Some(case);
        self.slots.free(slot);
        if let Some(sending) = sending {
            self.slots.send(message.target, self.as_told(sending));
        }
        Ok(())
    }

    /// What is sent, as it is; but for a learn message in two wrong builds.
    fn as_told(&self, sending: Sending) -> Sending {
        let Rules { n, build, .. } = self.rules;
        match sending.body {
            Body::Learn { owner, end } if self.let_go => {
                let owner = if build.tells_of_the_next_host { (owner + 1) % n } else { owner };
                let later = if build.tells_of_a_later_end { TOLD_LATER } else { 0 };
                Sending { body: Body::Learn { owner, end: HoldersEnd(end.0 + later) }, ..sending }
            }
            _ => sending,
        }
    }

    fn lose(&mut self, slot: u8) -> Result<(), u8> {
        self.slots.get(slot).ok_or(SLOT)?;
        self.slots.free(slot);
        Ok(())
    }

    /// 'Repeat 12, 13.'
    fn repeat(&mut self, slot: u8) -> Result<(), u8> {
        let message = *self.slots.get(slot).ok_or(SLOT)?;
        if self.slots.room() == 0 {
            return Err(FULL);
        }
        self.slots.place(message);
        Ok(())
    }

    fn restart(&mut self, number: u8) -> Result<(), u8> {
        let host = self.hosts.get_mut(usize::from(number)).ok_or(HOST)?;
        host.restart(&self.rules);
        Ok(())
    }

    /// 'A release checks 5, 9, 18, 10, 13.'
    fn release(&mut self, number: u8) -> Result<(), u8> {
        let room = self.slots.room();
        let host = self.hosts.get_mut(usize::from(number)).ok_or(HOST)?;
        let sending = host.release(&self.rules, room)?;
        self.let_go = true;
        self.slots.send(number, sending);
        Ok(())
    }

    /// The owners that hosts name, as a set.
    pub fn owners(&self) -> Hosts {
        let owners = self.hosts.iter().filter_map(|host| host.named).map(|holder| holder.owner);
        owners.fold(Hosts::default(), Hosts::with)
    }
}
