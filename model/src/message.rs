//! Ballots, the two ends of a lease, sets of hosts and the messages between hosts.

use crate::builds::Build;

/// 'A ballot is (tick, host), ordered by tick, then host.'
#[derive(Clone, Copy, Debug, PartialEq, Eq, PartialOrd, Ord)]
pub struct Ballot {
    pub tick: u64,
    pub host: u8,
}

/// The end 'carried in proposals and held by acceptors'.
#[derive(Clone, Copy, Debug, PartialEq, Eq, PartialOrd, Ord)]
pub struct KeepersEnd(pub u64);

/// The end 'carried in learn messages and held by whoever names the holder'.
#[derive(Clone, Copy, Debug, PartialEq, Eq, PartialOrd, Ord)]
pub struct HoldersEnd(pub u64);

impl KeepersEnd {
    pub fn has_come(self, clock: u64) -> bool {
        self.0 <= clock
    }

    /// 'The holder's end is S ticks earlier', or none where the lease cannot be named any more:
    /// 'if the keepers' end is above clock + S, the host names the owner'.
    pub fn namable(self, clock: u64, spread: u64, build: Build) -> Option<HoldersEnd> {
        let earlier = if build.names_up_to_the_keepers_end { 0 } else { spread };
        if self.0 > clock + earlier {
            Some(HoldersEnd(self.0 - earlier))
        } else {
            None
        }
    }
}

impl HoldersEnd {
    pub fn has_come(self, clock: u64) -> bool {
        self.0 <= clock
    }

    pub fn to_keepers(self, spread: u64) -> KeepersEnd {
        KeepersEnd(self.0 + spread)
    }
}

/// An accepted lease.
#[derive(Clone, Copy, Debug, PartialEq, Eq)]
pub struct Lease {
    pub ballot: Ballot,
    pub owner: u8,
    pub end: KeepersEnd,
}

/// A named holder.
#[derive(Clone, Copy, Debug, PartialEq, Eq)]
pub struct Holder {
    pub ballot: Ballot,
    pub owner: u8,
    pub end: HoldersEnd,
}

impl Holder {
    /// The lease that it holds, if there is one.
    pub fn lease(self, spread: u64) -> Lease {
        Lease { ballot: self.ballot, owner: self.owner, end: self.end.to_keepers(spread) }
    }
}

/// What a message says beside its ballot.
#[derive(Clone, Copy, Debug, PartialEq, Eq)]
pub enum Body {
    PrepareRequest,
    PrepareResponse(Option<Lease>),
    ProposeRequest { owner: u8, end: KeepersEnd },
    ProposeResponse,
    Learn { owner: u8, end: HoldersEnd },
    ReleaseRequest,
}

#[derive(Clone, Copy, Debug, PartialEq, Eq)]
pub struct Message {
    pub sender: u8,
    pub target: u8,
    pub ballot: Ballot,
    pub body: Body,
}

/// 'A set with one bit a host.'
#[derive(Clone, Copy, Debug, Default, PartialEq, Eq)]
pub struct Hosts(u16);

impl Hosts {
    pub fn all(n: u8) -> Hosts {
        Hosts((1 << n) - 1)
    }

    pub fn only(host: u8) -> Hosts {
        Hosts(1 << host)
    }

    pub fn with(self, host: u8) -> Hosts {
        Hosts(self.0 | 1 << host)
    }

    pub fn without(self, host: u8) -> Hosts {
        Hosts(self.0 & !(1 << host))
    }

    pub fn has(self, host: u8) -> bool {
        self.0 & 1 << host != 0
    }

    /// 'Its size is the number of ones.'
    pub fn size(self) -> u32 {
        self.0.count_ones()
    }
}

/// The hosts of a set, rising.
impl Iterator for Hosts {
    type Item = u8;

    fn next(&mut self) -> Option<u8> {
        if self.0 == 0 {
            return None;
        }
        let host = self.0.trailing_zeros() as u8;
        self.0 &= self.0 - 1;
        Some(host)
    }
}
