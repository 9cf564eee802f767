//! One host as proposer, acceptor and learner: document 01's 'What each event does', host by host,
//! with document 02's changes.
//! A step that would send more messages than there is room for changes nothing.

use crate::builds::Build;
use crate::message::{Ballot, Body, Holder, Hosts, KeepersEnd, Lease, Message};
use crate::refusal::{DURATION, FULL, NOT_HOLDER, SAME_TICK, WAITING};

/// What every host of a cell goes by.
#[derive(Clone, Copy, Debug)]
pub struct Rules {
    pub n: u8,
    pub longest: u64,
    pub spread: u64,
    pub build: Build,
}

impl Rules {
    /// 'A majority is floor(n / 2) + 1 hosts.'
    pub fn majority(&self) -> u32 {
        u32::from(self.n / 2) + 1
    }
}

/// Who replied. Only the build that counts a repeated response twice has repeats.
#[derive(Clone, Copy, Debug, Default)]
pub struct Replies {
    pub hosts: Hosts,
    repeats: u32,
}

impl Replies {
    /// The replies with one more, or none if it is 'from a host' already counted.
    fn counting(self, sender: u8, build: Build) -> Option<Replies> {
        if !self.hosts.has(sender) {
            Some(Replies { hosts: self.hosts.with(sender), ..self })
        } else if build.counts_a_repeated_response_twice {
            Some(Replies { repeats: self.repeats + 1, ..self })
        } else {
            None
        }
    }

    pub fn count(self) -> u32 {
        self.hosts.size() + self.repeats
    }
}

/// A round keeps, for its duration, the end that a lease of the host's own would have: 'ballot tick
/// + duration + S', all three known at the start.
#[derive(Clone, Copy, Debug)]
pub enum Round {
    Idle,
    Asking { ballot: Ballot, own_end: KeepersEnd, replies: Replies, kept: Option<Lease> },
    Proposing { ballot: Ballot, owner: u8, end: KeepersEnd, replies: Replies },
}

/// What a delivery came to, for the count of what a comparison has met.
#[derive(Clone, Copy, Debug, PartialEq, Eq)]
pub enum Case {
    Waits,
    PrepareNotAbove,
    PromisedEmpty,
    PromisedLease,
    ResponseToNoRound,
    ResponseRepeated,
    ResponseEnded,
    ResponseCounted,
    ProposesOwn,
    ProposesOwnAfterKept,
    ProposesOwnLater,
    ProposesOwnAsKept,
    ProposesKept,
    AskedTooLong,
    ProposeExpired,
    ProposeBelow,
    Accepted,
    AnswerToNoRound,
    AnswerRepeated,
    AnswerCounted,
    ChosenTooLate,
    ChosenNamed,
    ChosenNotHigher,
    LearnOwn,
    LearnExpired,
    LearnNamed,
    LearnNotHigher,
    ReleaseBelow,
    ReleaseAgain,
    ReleasePromised,
    ReleaseDropped,
}

pub const CASES: usize = Case::ReleaseDropped as usize + 1;

impl Case {
    pub const ALL: [Case; CASES] = [
        Case::Waits,
        Case::PrepareNotAbove,
        Case::PromisedEmpty,
        Case::PromisedLease,
        Case::ResponseToNoRound,
        Case::ResponseRepeated,
        Case::ResponseEnded,
        Case::ResponseCounted,
        Case::ProposesOwn,
        Case::ProposesOwnAfterKept,
        Case::ProposesOwnLater,
        Case::ProposesOwnAsKept,
        Case::ProposesKept,
        Case::AskedTooLong,
        Case::ProposeExpired,
        Case::ProposeBelow,
        Case::Accepted,
        Case::AnswerToNoRound,
        Case::AnswerRepeated,
        Case::AnswerCounted,
        Case::ChosenTooLate,
        Case::ChosenNamed,
        Case::ChosenNotHigher,
        Case::LearnOwn,
        Case::LearnExpired,
        Case::LearnNamed,
        Case::LearnNotHigher,
        Case::ReleaseBelow,
        Case::ReleaseAgain,
        Case::ReleasePromised,
        Case::ReleaseDropped,
    ];
}

/// One message to a set of receivers.
#[derive(Clone, Copy, Debug)]
pub struct Sending {
    pub ballot: Ballot,
    pub body: Body,
    pub receivers: Hosts,
}

/// What a message did at its receiver, and what it sends.
pub type Step = (Case, Option<Sending>);

#[derive(Clone, Debug)]
pub struct Host {
    pub number: u8,
    pub clock: u64,
    pub wait_end: u64,
    pub promised: Option<Ballot>,
    pub accepted: Option<Lease>,
    pub last_tick: Option<u64>,
    pub round: Round,
    pub named: Option<Holder>,
}

impl Host {
    /// 'Every host waits as after a restart.'
    pub fn new(rules: &Rules, number: u8, clock: u64) -> Host {
        Host {
            number,
            clock,
            wait_end: clock + rules.longest + rules.spread,
            promised: None,
            accepted: None,
            last_tick: None,
            round: Round::Idle,
            named: None,
        }
    }

    /// 'Everything but the clock is forgotten. The wait ends at clock + T + S.'
    pub fn restart(&mut self, rules: &Rules) {
        *self = Host::new(rules, self.number, self.clock);
    }

    pub fn waits(&self) -> bool {
        self.clock < self.wait_end
    }

    /// 'A host whose clock moved then drops an accepted lease or named holder whose end is at or
    /// below its clock.'
    pub fn advance(&mut self, ticks: u64) {
        self.clock += ticks;
        if self.accepted.map_or(false, |lease| lease.end.has_come(self.clock)) {
            self.accepted = None;
        }
        if self.named.map_or(false, |holder| holder.end.has_come(self.clock)) {
            self.named = None;
        }
    }

    /// The tick of the next ballot: the clock, or 10 if that is 'not above the last ballot's tick'.
    fn ballot_tick(&self, build: Build) -> Result<u64, u8> {
        match self.last_tick {
            last if build.ballots_from_a_counter => Ok(last.map_or(0, |count| count + 1)),
            Some(last) if self.clock <= last => Err(SAME_TICK),
            _ => Ok(self.clock),
        }
    }

    /// A new ballot, for a message to all n: 10, then 13 if `room` is too little.
    fn take_ballot(&mut self, rules: &Rules, room: u32) -> Result<Ballot, u8> {
        let tick = self.ballot_tick(rules.build)?;
        if room < u32::from(rules.n) {
            return Err(FULL);
        }
        self.last_tick = Some(tick);
        Ok(Ballot { tick, host: self.number })
    }

    /// 'Start 5, 9, 11, 10, 13', of which 5 is the cell's.
    pub fn start(&mut self, rules: &Rules, duration: u64, room: u32) -> Result<Sending, u8> {
        if self.waits() {
            return Err(WAITING);
        }
        if duration < 1 || duration > rules.longest - rules.spread {
            return Err(DURATION);
        }
        let ballot = self.take_ballot(rules, room)?;
        self.round = Round::Asking {
            ballot,
            own_end: KeepersEnd(self.clock + duration + rules.spread),
            replies: Replies::default(),
            kept: None,
        };
        let receivers = Hosts::all(rules.n);
        Ok(Sending { ballot, body: Body::PrepareRequest, receivers })
    }

    pub fn names_itself(&self) -> bool {
        self.named.map_or(false, |holder| holder.owner == self.number)
    }

    /// 'It stops naming itself, drops its round, takes a ballot and sends a release request ... to
    /// all n.' 'A release checks 5, 9, 18, 10, 13', of which 5 is the cell's.
    pub fn release(&mut self, rules: &Rules, room: u32) -> Result<Sending, u8> {
        if self.waits() {
            return Err(WAITING);
        }
        if !self.names_itself() {
            return Err(NOT_HOLDER);
        }
        let ballot = self.take_ballot(rules, room)?;
        if !rules.build.names_itself_until_its_release_comes {
            self.named = None;
        }
        if !rules.build.keeps_its_round_on_release {
            self.round = Round::Idle;
        }
        Ok(Sending { ballot, body: Body::ReleaseRequest, receivers: Hosts::all(rules.n) })
    }

    /// 'A waiting host does nothing.' Else by the kind of message; 13 if `room` is too little.
    pub fn receive(&mut self, rules: &Rules, message: &Message, room: u32) -> Result<Step, u8> {
        if self.waits() {
            return Ok((Case::Waits, None));
        }
        let (sender, ballot) = (message.sender, message.ballot);
        match message.body {
            Body::PrepareRequest => Ok(self.prepare_request(ballot)),
            Body::PrepareResponse(lease) => {
                self.prepare_response(rules, sender, ballot, lease, room)
            }
            Body::ProposeRequest { owner, end } => {
                Ok(self.propose_request(rules, Lease { ballot, owner, end }))
            }
            Body::ProposeResponse => self.propose_response(rules, sender, ballot, room),
            Body::Learn { owner, end } => {
                Ok((self.learn(rules, Holder { ballot, owner, end }), None))
            }
            Body::ReleaseRequest => Ok((self.release_request(rules, ballot), None)),
        }
    }

    /// 'If nothing is promised or the ballot is above the promise, promise it and reply with the
    /// accepted lease, or empty. Else nothing.'
    fn prepare_request(&mut self, ballot: Ballot) -> Step {
        if self.promised.map_or(false, |promised| ballot <= promised) {
            return (Case::PrepareNotAbove, None);
        }
        self.promised = Some(ballot);
        let case = match self.accepted {
            Some(_) => Case::PromisedLease,
            None => Case::PromisedEmpty,
        };
        (case, Some(reply(ballot, Body::PrepareResponse(self.accepted))))
    }

    /// 'Count it and keep the reply with the highest accepted ballot, the earlier one at a tie.'
    /// 'Such a response', one with a lease whose end has come, 'now counts as empty'.
    fn prepare_response(
        &mut self,
        rules: &Rules,
        sender: u8,
        to: Ballot,
        lease: Option<Lease>,
        room: u32,
    ) -> Result<Step, u8> {
        let (own_end, replies, kept) = match self.round {
            Round::Asking { ballot, own_end, replies, kept } if ballot == to => {
                (own_end, replies, kept)
            }
            _ => return Ok((Case::ResponseToNoRound, None)),
        };
        let replies = match replies.counting(sender, rules.build) {
            Some(replies) => replies,
            None => return Ok((Case::ResponseRepeated, None)),
        };
        let build = rules.build;
        let ended = lease.map_or(false, |lease| lease.end.has_come(self.clock));
        if ended && build.discards_an_ended_response {
            return Ok((Case::ResponseEnded, None));
        }
        let kept = match ended && !build.keeps_an_ended_lease {
            true => kept.filter(|_| !build.forgets_the_kept_lease),
            false => highest(kept, lease),
        };
        if replies.count() < rules.majority() {
            self.round = Round::Asking { ballot: to, own_end, replies, kept };
            let case = if ended { Case::ResponseEnded } else { Case::ResponseCounted };
            return Ok((case, None));
        }
        self.propose(rules, to, own_end, kept, room)
    }

    /// What a majority of prepare responses leads to. 'If the resulting end is at or below its
    /// clock the round becomes idle; else it is proposing and sends to all n.'
    fn propose(
        &mut self,
        rules: &Rules,
        ballot: Ballot,
        own_end: KeepersEnd,
        kept: Option<Lease>,
        room: u32,
    ) -> Result<Step, u8> {
        let (case, owner, end) = self.to_propose(own_end, kept);
        if end.has_come(self.clock) {
            self.round = Round::Idle;
            return Ok((Case::AskedTooLong, None));
        }
        if room < u32::from(rules.n) {
            return Err(FULL);
        }
        self.round = Round::Proposing { ballot, owner, end, replies: Replies::default() };
        let body = Body::ProposeRequest { owner, end };
        Ok((case, Some(Sending { ballot, body, receivers: Hosts::all(rules.n) })))
    }

    /// 'If no lease was kept, or its end has come, the lease is the host's own ... If the kept
    /// lease is its own, the later of that end and the kept one. Else the kept lease unchanged.'
    fn to_propose(&self, own_end: KeepersEnd, kept: Option<Lease>) -> (Case, u8, KeepersEnd) {
        match kept {
            None => (Case::ProposesOwn, self.number, own_end),
            Some(lease) if lease.end.has_come(self.clock) => {
                (Case::ProposesOwnAfterKept, self.number, own_end)
            }
            Some(lease) if lease.owner != self.number => {
                (Case::ProposesKept, lease.owner, lease.end)
            }
            Some(lease) if lease.end < own_end => (Case::ProposesOwnLater, lease.owner, own_end),
            Some(lease) => (Case::ProposesOwnAsKept, lease.owner, lease.end),
        }
    }

    /// 'Nothing if its end is at or below the clock, or its ballot is below the promise. Else
    /// promise that ballot, accept, reply.'
    fn propose_request(&mut self, rules: &Rules, lease: Lease) -> Step {
        if lease.end.has_come(self.clock) {
            return (Case::ProposeExpired, None);
        }
        if self.promised.map_or(false, |promised| lease.ballot < promised) {
            return (Case::ProposeBelow, None);
        }
        if !rules.build.accepts_without_raising_its_promise {
            self.promised = Some(lease.ballot);
        }
        self.accepted = Some(lease);
        (Case::Accepted, Some(reply(lease.ballot, Body::ProposeResponse)))
    }

    /// 'Count it. At a majority the round becomes idle; if the keepers' end is above clock + S, the
    /// host names the owner and sends learn to the n - 1 others.'
    fn propose_response(
        &mut self,
        rules: &Rules,
        sender: u8,
        to: Ballot,
        room: u32,
    ) -> Result<Step, u8> {
        let (owner, end, replies) = match self.round {
            Round::Proposing { ballot, owner, end, replies } if ballot == to => {
                (owner, end, replies)
            }
            _ => return Ok((Case::AnswerToNoRound, None)),
        };
        let replies = match replies.counting(sender, rules.build) {
            Some(replies) => replies,
            None => return Ok((Case::AnswerRepeated, None)),
        };
        if replies.count() < rules.majority() {
            self.round = Round::Proposing { ballot: to, owner, end, replies };
            return Ok((Case::AnswerCounted, None));
        }
        self.choose(rules, Lease { ballot: to, owner, end }, room)
    }

    /// What a majority of propose responses leads to.
    fn choose(&mut self, rules: &Rules, chosen: Lease, room: u32) -> Result<Step, u8> {
        let end = match chosen.end.namable(self.clock, rules.spread, rules.build) {
            Some(end) => end,
            None => {
                self.round = Round::Idle;
                return Ok((Case::ChosenTooLate, None));
            }
        };
        if room + 1 < u32::from(rules.n) {
            return Err(FULL);
        }
        self.round = Round::Idle;
        let (ballot, owner) = (chosen.ballot, chosen.owner);
        let case = match self.name(Holder { ballot, owner, end }) {
            true => Case::ChosenNamed,
            false => Case::ChosenNotHigher,
        };
        let receivers = Hosts::all(rules.n).without(self.number);
        Ok((case, Some(Sending { ballot, body: Body::Learn { owner, end }, receivers })))
    }

    /// 'Nothing if its end is at or below the clock. Else name the owner.' 'A learn message that
    /// names its own receiver is ignored.'
    fn learn(&mut self, rules: &Rules, holder: Holder) -> Case {
        if holder.owner == self.number && !rules.build.takes_a_learn_of_its_own_lease {
            Case::LearnOwn
        } else if holder.end.has_come(self.clock) {
            Case::LearnExpired
        } else if self.name(holder) {
            Case::LearnNamed
        } else {
            Case::LearnNotHigher
        }
    }

    /// 'Ignores it below its promise; else it promises that ballot, and drops an accepted lease or
    /// named holder owned by the sender if its ballot is lower. No reply is sent.' The sender is
    /// the ballot's host.
    fn release_request(&mut self, rules: &Rules, release: Ballot) -> Case {
        if self.promised.map_or(false, |promised| release < promised) {
            return Case::ReleaseBelow;
        }
        let again = self.promised == Some(release);
        self.promised = Some(release);
        let stays = |ballot: Ballot, owner: u8| {
            let owned = owner == release.host || rules.build.drops_whoever_owns_the_lease;
            !owned || ballot >= release
        };
        let before = (self.accepted, self.named);
        self.accepted = self.accepted.filter(|lease| stays(lease.ballot, lease.owner));
        self.named = self.named.filter(|holder| stays(holder.ballot, holder.owner));
        match before == (self.accepted, self.named) {
            false => Case::ReleaseDropped,
            true if again => Case::ReleaseAgain,
            true => Case::ReleasePromised,
        }
    }

    /// 'Naming replaces a named holder only if the new ballot is higher.' Says whether it named.
    fn name(&mut self, holder: Holder) -> bool {
        if self.named.map_or(false, |named| holder.ballot <= named.ballot) {
            return false;
        }
        self.named = Some(holder);
        true
    }
}

/// A reply goes to the ballot's host.
fn reply(ballot: Ballot, body: Body) -> Sending {
    Sending { ballot, body, receivers: Hosts::only(ballot.host) }
}

/// The one with the highest ballot, the earlier one at a tie.
fn highest(kept: Option<Lease>, lease: Option<Lease>) -> Option<Lease> {
    match (kept, lease) {
        (Some(kept), Some(lease)) if lease.ballot > kept.ballot => Some(lease),
        (Some(kept), _) => Some(kept),
        (None, lease) => lease,
    }
}

#[cfg(test)]
mod tests {
    use super::*;
    use crate::builds::RIGHT;
    use crate::message::HoldersEnd;

    const RULES: Rules = Rules { n: 3, longest: 100, spread: 5, build: RIGHT };
    const ROOM: u32 = 96;

    fn ballot(tick: u64, host: u8) -> Ballot {
        Ballot { tick, host }
    }

    fn lease(tick: u64, owner: u8) -> Lease {
        Lease { ballot: ballot(tick, owner), owner, end: KeepersEnd(160) }
    }

    fn holder(tick: u64, owner: u8) -> Holder {
        Holder { ballot: ballot(tick, owner), owner, end: HoldersEnd(155) }
    }

    /// At 110, awake, with what it has accepted promised.
    fn host(number: u8, accepted: Option<Lease>, named: Option<Holder>) -> Host {
        let promised = accepted.map(|lease| lease.ballot);
        let last_tick = Some(105);
        let mut host = Host::new(&RULES, number, 0);
        host.advance(110);
        Host { promised, accepted, last_tick, named, ..host }
    }

    /// What a release of host 0 with that tick comes to.
    fn told(host: &mut Host, tick: u64) -> Option<Case> {
        let (sender, target, ballot) = (0, host.number, ballot(tick, 0));
        let message = Message { sender, target, ballot, body: Body::ReleaseRequest };
        host.receive(&RULES, &message, 0).ok().map(|(case, _)| case)
    }

    #[test]
    fn whoever_lets_go_keeps_promise_and_lease_until_told() {
        let mut host = host(0, Some(lease(105, 0)), Some(holder(105, 0)));
        let sent = host.release(&RULES, ROOM).map(|sending| (sending.ballot, sending.receivers));
        assert_eq!(sent, Ok((ballot(110, 0), Hosts::all(3))));
        assert_eq!((host.named, host.last_tick), (None, Some(110)));
        assert_eq!((host.promised, host.accepted), (Some(ballot(105, 0)), Some(lease(105, 0))));
        assert_eq!(told(&mut host, 110), Some(Case::ReleaseDropped));
        assert_eq!((host.promised, host.accepted), (Some(ballot(110, 0)), None));
    }

    #[test]
    fn a_release_is_refused_by_9_18_10_and_13_in_this_order() {
        let refused = |host: &Host, room| host.clone().release(&RULES, room).err();
        let holding = host(0, None, Some(holder(105, 0)));
        assert_eq!(refused(&holding, 3), None);
        assert_eq!(refused(&holding, 2), Some(FULL));
        let used = Host { last_tick: Some(110), ..holding.clone() };
        assert_eq!(refused(&used, 2), Some(SAME_TICK));
        assert_eq!(refused(&Host { named: Some(holder(105, 1)), ..used }, 2), Some(NOT_HOLDER));
        assert_eq!(refused(&Host { wait_end: 111, ..holding }, 2), Some(WAITING));
    }

    #[test]
    fn lease_and_holder_are_judged_each_for_itself() {
        let mut higher = host(1, Some(lease(105, 0)), Some(holder(111, 0)));
        assert_eq!(told(&mut higher, 110), Some(Case::ReleaseDropped));
        assert_eq!((higher.accepted, higher.named), (None, Some(holder(111, 0))));
        let mut anothers = host(1, Some(lease(106, 2)), Some(holder(105, 0)));
        assert_eq!(told(&mut anothers, 110), Some(Case::ReleaseDropped));
        assert_eq!((anothers.accepted, anothers.named), (Some(lease(106, 2)), None));
    }

    #[test]
    fn a_release_is_taken_at_an_equal_promise_and_not_below_it() {
        let mut host = host(1, None, None);
        assert_eq!(told(&mut host, 110), Some(Case::ReleasePromised));
        assert_eq!(told(&mut host, 110), Some(Case::ReleaseAgain));
        host.named = Some(holder(105, 0));
        assert_eq!(told(&mut host, 109), Some(Case::ReleaseBelow));
        assert_eq!(host.named, Some(holder(105, 0)));
        assert_eq!(told(&mut host, 110), Some(Case::ReleaseDropped));
        assert_eq!(host.named, None);
        host.restart(&RULES);
        assert_eq!(told(&mut host, 110), Some(Case::Waits));
        assert_eq!(host.promised, None);
    }

    /// What a prepare response of host 2 with this lease comes to at host 1, which asks at 110, has
    /// counted its own reply and keeps `kept`; and its round after that.
    fn heard(n: u8, kept: Option<Lease>, lease: Lease) -> (Option<Case>, Round) {
        let rules = Rules { n, ..RULES };
        let mut asking = host(1, None, None);
        let (to, own_end) = (ballot(110, 1), KeepersEnd(165));
        let replies = Replies { hosts: Hosts::only(1), repeats: 0 };
        asking.round = Round::Asking { ballot: to, own_end, replies, kept };
        let body = Body::PrepareResponse(Some(lease));
        let message = Message { sender: 2, target: 1, ballot: to, body };
        let case = asking.receive(&rules, &message, ROOM).ok().map(|(case, _)| case);
        (case, asking.round)
    }

    #[test]
    fn a_response_whose_lease_has_ended_counts_as_empty() {
        let ended = |tick, end| Lease { end: KeepersEnd(end), ..lease(tick, 0) };
        for before in [None, Some(lease(105, 2))] {
            for tick in [104, 106] {
                match heard(5, before, ended(tick, 110)) {
                    (Some(Case::ResponseEnded), Round::Asking { replies, kept, .. }) => {
                        assert_eq!((replies.hosts.size(), kept), (2, before));
                    }
                    other => panic!("{:?}", other),
                }
            }
        }
        match heard(5, Some(lease(105, 2)), ended(106, 111)) {
            (Some(Case::ResponseCounted), Round::Asking { kept, .. }) => {
                assert_eq!(kept, Some(ended(106, 111)));
            }
            other => panic!("{:?}", other),
        }
        let proposed = |before| heard(3, before, ended(106, 110)).0;
        assert_eq!(proposed(None), Some(Case::ProposesOwn));
        assert_eq!(proposed(Some(lease(105, 2))), Some(Case::ProposesKept));
    }

    #[test]
    fn a_learn_of_its_own_lease_is_ignored() {
        let Holder { owner, end, .. } = holder(105, 0);
        let (ballot, body) = (ballot(111, 1), Body::Learn { owner, end });
        for named in [None, Some(holder(105, 0)), Some(holder(105, 2))] {
            let mut host = host(0, None, named);
            let message = Message { sender: 1, target: 0, ballot, body };
            let case = host.receive(&RULES, &message, 0).ok().map(|(case, _)| case);
            assert_eq!((case, host.named), (Some(Case::LearnOwn), named));
        }
    }
}
