//! What has happened in a run, as far as demand 3 speaks of it: who has let go, which leases were
//! won, and who has accepted them. All of it is told from the cell before an event, the message
//! that the event delivers, and the cell after it.

use crate::cell::{Cell, Event, MOST_HOSTS};
use crate::host::{Host, Round};
use crate::message::{Ballot, Body, Hosts, Lease, Message};
use crate::refusal::DONE;

/// What an event is, if it is done.
#[derive(Clone, Copy)]
enum Deed {
    /// A host lets go with this ballot.
    LetsGo(Ballot),
    Wins(Lease),
    /// A host is asked to accept, and may.
    MayAccept(u8, Lease),
}

/// Nothing of it is ever forgotten: a learn message may be under way for as long as a run goes on.
#[derive(Default)]
pub struct Past {
    /// The event that comes.
    next: Option<Deed>,
    /// The highest ballot with which each host has let go.
    let_go: [Option<Ballot>; MOST_HOSTS as usize],
    won: Vec<Lease>,
    accepted: Vec<(Lease, Hosts)>,
}

impl Past {
    pub fn before(&mut self, event: Event, cell: &Cell) {
        self.next = deed(event, cell);
    }

    pub fn after(&mut self, answer: u8, cell: &Cell) {
        match self.next.take().filter(|_| answer == DONE) {
            Some(Deed::LetsGo(ballot)) => {
                let highest = &mut self.let_go[usize::from(ballot.host)];
                *highest = Some(ballot).max(*highest);
            }
            Some(Deed::Wins(lease)) => self.won.push(lease),
            Some(Deed::MayAccept(host, lease)) if has_accepted(cell, host, lease) => {
                self.accept(host, lease);
            }
            _ => {}
        }
    }

    fn accept(&mut self, host: u8, lease: Lease) {
        match self.accepted.iter_mut().rev().find(|(other, _)| *other == lease) {
            Some((_, hosts)) => *hosts = hosts.with(host),
            None => self.accepted.push((lease, Hosts::only(host))),
        }
    }

    /// Whether anybody has let go.
    pub fn has_release(&self) -> bool {
        self.let_go.iter().any(Option::is_some)
    }

    /// Whether a host has let go with a ballot above this one.
    pub fn has_let_go(&self, host: u8, above: Ballot) -> bool {
        self.let_go[usize::from(host)] > Some(above)
    }

    pub fn was_won(&self, lease: Lease) -> bool {
        self.won.iter().rev().any(|won| *won == lease)
    }

    /// The hosts that have accepted it, at one time or another.
    pub fn acceptors(&self, lease: Lease) -> Hosts {
        let accepted = self.accepted.iter().rev().find(|(other, _)| *other == lease);
        accepted.map_or(Hosts::default(), |(_, hosts)| *hosts)
    }
}

fn deed(event: Event, cell: &Cell) -> Option<Deed> {
    match event {
        Event::Release { host } => {
            let tick = cell.hosts.get(usize::from(host))?.clock;
            Some(Deed::LetsGo(Ballot { tick, host }))
        }
        Event::Deliver { slot } => {
            let message = cell.slots.get(slot)?;
            delivered(message, &cell.hosts[usize::from(message.target)], cell.rules.majority())
        }
        _ => None,
    }
}

fn delivered(message: &Message, to: &Host, majority: u32) -> Option<Deed> {
    match message.body {
        Body::ProposeRequest { owner, end } => {
            let lease = Lease { ballot: message.ballot, owner, end };
            Some(Deed::MayAccept(to.number, lease)).filter(|_| may_accept(to, lease))
        }
        Body::ProposeResponse => won_with(message, to, majority).map(Deed::Wins),
        _ => None,
    }
}

/// The lease that the host of its ballot proposes, where this response makes those who replied a
/// majority. Of them each host counts once, whatever the build has counted.
fn won_with(response: &Message, to: &Host, majority: u32) -> Option<Lease> {
    match to.round {
        Round::Proposing { ballot, owner, end, replies }
            if ballot == response.ballot
                && ballot.host == to.number
                && replies.hosts.with(response.sender).size() >= majority =>
        {
            Some(Lease { ballot, owner, end })
        }
        _ => None,
    }
}

/// 'Nothing if its end is at or below the clock, or its ballot is below the promise.'
fn may_accept(host: &Host, lease: Lease) -> bool {
    !host.waits() && !lease.end.has_come(host.clock) && host.promised <= Some(lease.ballot)
}

/// 'Promise that ballot, accept.' That a host may accept says nothing of a build that does not, and
/// that it has accepted nothing of one that may not: an acceptance is both.
fn has_accepted(cell: &Cell, host: u8, lease: Lease) -> bool {
    let host = &cell.hosts[usize::from(host)];
    host.accepted == Some(lease) && host.promised == Some(lease.ballot)
}
