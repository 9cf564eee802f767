//! A run file in the making: each event is written down and applied to a cell of the model's own,
//! so that the next one can be chosen by what is under way, who waits and who holds.

use crate::builds::Build;
use crate::cell::{Cell, Event, Settings, SLOTS};
use crate::message::{Body, Message};
use crate::record::{write_event, write_settings};

/// The two halves of a round.
#[derive(Clone, Copy, PartialEq, Eq)]
pub enum Phase {
    Prepare,
    Propose,
}

pub const PHASES: [Phase; 2] = [Phase::Prepare, Phase::Propose];

pub struct Driver {
    pub cell: Cell,
    pub bytes: Vec<u8>,
}

impl Driver {
    /// None where opening refuses the settings.
    pub fn open(settings: Settings, build: Build) -> Option<Driver> {
        let cell = Cell::open(settings, build).ok()?;
        let mut bytes = Vec::new();
        write_settings(&mut bytes, settings);
        Some(Driver { cell, bytes })
    }

    pub fn apply(&mut self, event: Event) -> u8 {
        write_event(&mut self.bytes, event);
        self.cell.apply(event)
    }

    pub fn advance_all(&mut self, ticks: u64) {
        self.apply(Event::AdvanceAll { ticks: ticks as u32 });
    }

    pub fn advance_one(&mut self, host: u8, ticks: u64) {
        self.apply(Event::AdvanceOne { host, ticks: ticks as u32 });
    }

    pub fn start(&mut self, host: u8, duration: u64) {
        self.apply(Event::Start { host, duration: duration as u32 });
    }

    pub fn release(&mut self, host: u8) {
        self.apply(Event::Release { host });
    }

    /// The slots whose messages are as asked, rising.
    pub fn slots_with(&self, wanted: impl Fn(&Message) -> bool) -> Vec<u8> {
        let holds = |slot: &u8| self.cell.slots.get(*slot).map_or(false, &wanted);
        (0..SLOTS as u8).filter(holds).collect()
    }

    /// Delivers the first message as asked, if there is one.
    pub fn deliver(&mut self, wanted: impl Fn(&Message) -> bool) {
        if let Some(&slot) = self.slots_with(wanted).first() {
            self.apply(Event::Deliver { slot });
        }
    }

    /// Repeats the first message as asked, if there is one.
    pub fn repeat(&mut self, wanted: impl Fn(&Message) -> bool) {
        if let Some(&slot) = self.slots_with(wanted).first() {
            self.apply(Event::Repeat { slot });
        }
    }

    /// The last requests of one host, prepare or propose, delivered to some hosts.
    pub fn request(&mut self, of: u8, phase: Phase, to: impl IntoIterator<Item = u8>) {
        let last = self.last_tick(of);
        for target in to {
            self.deliver(|message| {
                let asked = match phase {
                    Phase::Prepare => message.body == Body::PrepareRequest,
                    Phase::Propose => matches!(message.body, Body::ProposeRequest { .. }),
                };
                asked && (message.sender, message.target) == (of, target) && last == tick(message)
            });
        }
    }

    /// The responses to the last ballot of one host, delivered from some hosts.
    pub fn respond(&mut self, to: u8, phase: Phase, from: impl IntoIterator<Item = u8>) {
        let last = self.last_tick(to);
        for sender in from {
            self.deliver(|message| {
                is_response(message, phase, sender, to) && last == tick(message)
            });
        }
    }

    /// The release requests of one host, delivered to some hosts.
    pub fn let_go(&mut self, of: u8, to: impl IntoIterator<Item = u8>) {
        for target in to {
            self.deliver(|message| {
                let asked = message.body == Body::ReleaseRequest;
                asked && (message.sender, message.target) == (of, target)
            });
        }
    }

    /// The learn messages of one host, delivered to some hosts.
    pub fn learn(&mut self, from: u8, to: impl IntoIterator<Item = u8>) {
        for target in to {
            self.deliver(|message| {
                let told = matches!(message.body, Body::Learn { .. });
                told && (message.sender, message.target) == (from, target)
            });
        }
    }

    /// A whole round of a host with some hosts: asked, answered, proposed, accepted.
    pub fn round(&mut self, of: u8, duration: u64, with: impl IntoIterator<Item = u8> + Clone) {
        self.start(of, duration);
        for phase in PHASES {
            self.request(of, phase, with.clone());
            self.respond(of, phase, with.clone());
        }
    }

    fn last_tick(&self, host: u8) -> Option<u64> {
        self.cell.hosts.get(usize::from(host)).and_then(|host| host.last_tick)
    }
}

fn tick(message: &Message) -> Option<u64> {
    Some(message.ballot.tick)
}

pub fn is_response(message: &Message, phase: Phase, sender: u8, target: u8) -> bool {
    let response = match phase {
        Phase::Prepare => matches!(message.body, Body::PrepareResponse(_)),
        Phase::Propose => message.body == Body::ProposeResponse,
    };
    response && (message.sender, message.target) == (sender, target)
}
