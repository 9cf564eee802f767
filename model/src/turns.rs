//! The turns that releases take, and those that prepare responses take whose lease has ended, told
//! from the cell before an event, for the count of what a comparison has met.

use crate::cell::{Cell, Event};
use crate::host::{Host, Round};
use crate::message::{Ballot, Body, Lease, Message};

#[derive(Clone, Copy, Debug, PartialEq, Eq)]
pub enum Turn {
    /// A host lets go in the middle of a round of its own.
    LetsGoAsking,
    LetsGoProposing,
    /// What a release request finds at its receiver.
    ReceiverWaits,
    SendersLease,
    AnothersLease,
    SendersHolder,
    /// At a promise that equals its ballot: a learn came in between.
    SendersHolderAgain,
    SendersHolderHigher,
    AnothersHolder,
    /// What a response whose lease has ended finds kept by the round that counts it; a lease with
    /// an equal ballot is among the higher ones.
    EndedNoneKept,
    EndedLowerKept,
    EndedHigherKept,
}

pub const TURNS: usize = Turn::EndedHigherKept as usize + 1;

impl Turn {
    pub const ALL: [Turn; TURNS] = [
        Turn::LetsGoAsking,
        Turn::LetsGoProposing,
        Turn::ReceiverWaits,
        Turn::SendersLease,
        Turn::AnothersLease,
        Turn::SendersHolder,
        Turn::SendersHolderAgain,
        Turn::SendersHolderHigher,
        Turn::AnothersHolder,
        Turn::EndedNoneKept,
        Turn::EndedLowerKept,
        Turn::EndedHigherKept,
    ];

    /// The turns of an event, if it is done.
    pub fn of(event: Event, cell: &Cell) -> Vec<Turn> {
        match event {
            Event::Release { host } => {
                cell.hosts.get(usize::from(host)).and_then(letting_go).into_iter().collect()
            }
            Event::Deliver { slot } => match cell.slots.get(slot) {
                Some(message) => delivered_to(&cell.hosts[usize::from(message.target)], message),
                None => Vec::new(),
            },
            _ => Vec::new(),
        }
    }
}

fn letting_go(host: &Host) -> Option<Turn> {
    match host.round {
        Round::Idle => None,
        Round::Asking { .. } => Some(Turn::LetsGoAsking),
        Round::Proposing { .. } => Some(Turn::LetsGoProposing),
    }
}

fn delivered_to(host: &Host, message: &Message) -> Vec<Turn> {
    match message.body {
        Body::ReleaseRequest => found_at(host, message.ballot),
        Body::PrepareResponse(Some(lease)) if lease.end.has_come(host.clock) => {
            kept_by(host, message, lease).into_iter().collect()
        }
        _ => Vec::new(),
    }
}

/// What a response whose lease has ended finds kept, if it is counted.
fn kept_by(host: &Host, message: &Message, ended: Lease) -> Option<Turn> {
    match host.round {
        Round::Asking { ballot, replies, kept, .. }
            if ballot == message.ballot && !replies.hosts.has(message.sender) && !host.waits() =>
        {
            Some(match kept {
                None => Turn::EndedNoneKept,
                Some(kept) if kept.ballot < ended.ballot => Turn::EndedLowerKept,
                Some(_) => Turn::EndedHigherKept,
            })
        }
        _ => None,
    }
}

/// What a release request finds, unless its ballot is below the promise.
fn found_at(host: &Host, release: Ballot) -> Vec<Turn> {
    if host.waits() {
        return vec![Turn::ReceiverWaits];
    }
    if host.promised.map_or(false, |promised| release < promised) {
        return Vec::new();
    }
    let again = host.promised == Some(release);
    let lease = host.accepted.map(|lease| match lease.owner == release.host {
        true => Turn::SendersLease,
        false => Turn::AnothersLease,
    });
    let holder = host.named.map(|holder| match holder.owner == release.host {
        true if holder.ballot > release => Turn::SendersHolderHigher,
        true if again => Turn::SendersHolderAgain,
        true => Turn::SendersHolder,
        false => Turn::AnothersHolder,
    });
    lease.into_iter().chain(holder).collect()
}
