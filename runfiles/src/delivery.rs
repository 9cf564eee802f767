//! What a delivered message came to at its receiver, in words.

use model::host::{Case, Host, Round};
use model::message::{Body, Holder, Message};

use crate::account::Account;
use crate::words::{self, ballot, lease};

/// A message that was delivered, and the case that it was at its receiver.
pub struct Delivery<'a> {
    pub account: &'a Account<'a>,
    pub handed: &'a Message,
    pub case: Case,
}

impl Delivery<'_> {
    fn before(&self) -> &Host {
        self.account.host_before(self.handed.target)
    }

    fn after(&self) -> &Host {
        self.account.host_after(self.handed.target)
    }

    fn placed(&self) -> String {
        self.account.placed()
    }

    /// What the receiver did, as 'host N' does it.
    pub fn came_to(&self) -> String {
        match self.case {
            Case::Waits => {
                let Host { clock, wait_end, .. } = self.before();
                format!("waits until its clock, {}, is {}, and does nothing", clock, wait_end)
            }
            Case::PrepareNotAbove | Case::ProposeBelow | Case::ReleaseBelow => {
                let promised = self.before().promised.map(ballot).unwrap_or_default();
                let not_above = self.case == Case::PrepareNotAbove;
                let how = if not_above { "is not above" } else { "is below" };
                format!("ignores it, which {} its promise {}", how, promised)
            }
            Case::PromisedEmpty | Case::PromisedLease => self.promised(),
            Case::ResponseToNoRound | Case::AnswerToNoRound => {
                format!("ignores it: {}", round(&self.before().round))
            }
            Case::ResponseRepeated | Case::AnswerRepeated => {
                format!("has counted host {} already and ignores it", self.handed.sender)
            }
            Case::ResponseEnded | Case::ResponseCounted | Case::AnswerCounted => self.counted(),
            Case::ProposesOwn
            | Case::ProposesOwnAfterKept
            | Case::ProposesOwnLater
            | Case::ProposesOwnAsKept
            | Case::ProposesKept
            | Case::AskedTooLong => self.asked(),
            Case::ProposeExpired | Case::LearnExpired => {
                format!("ignores it: that end has come, its clock is {}", self.before().clock)
            }
            Case::Accepted => format!("accepts and replies in {}", self.placed()),
            Case::ChosenTooLate | Case::ChosenNamed | Case::ChosenNotHigher => self.chosen(),
            Case::LearnOwn => "ignores it, which names its own receiver".into(),
            Case::LearnNamed => format!("names {}", holder(self.after().named)),
            Case::LearnNotHigher => {
                format!("goes on naming {}", not_lower(self.before().named))
            }
            Case::ReleaseAgain | Case::ReleasePromised | Case::ReleaseDropped => self.let_go(),
        }
    }

    /// What a release request leaves of lease and name.
    fn let_go(&self) -> String {
        let (old, new) = (self.before(), self.after());
        let promises = if old.promised == new.promised { "has promised" } else { "promises" };
        let promised = format!("{} {}", promises, ballot(self.handed.ballot));
        let kept = old.accepted.map(|accepted| match new.accepted {
            Some(_) => format!("keeps {}", lease(&accepted)),
            None => format!("drops {}", lease(&accepted)),
        });
        let named = old.named.map(|named| match new.named {
            Some(_) => format!("goes on naming {}", words::holder_by_ballot(&named)),
            None => format!("no longer names host {}", named.owner),
        });
        let told: Vec<String> = [Some(promised), kept, named].into_iter().flatten().collect();
        told.join("; ")
    }

    fn promised(&self) -> String {
        let replies = format!("promises {} and replies in", ballot(self.handed.ballot));
        match &self.before().accepted {
            Some(accepted) => format!("{} {} with {}", replies, self.placed(), lease(accepted)),
            None => format!("{} {} that it has accepted nothing", replies, self.placed()),
        }
    }

    /// So many replies or votes; and that this one counts as empty, if its lease has ended.
    fn counts(&self, count: u32) -> String {
        let clock = self.before().clock;
        let as_empty = match self.handed.body {
            Body::PrepareResponse(Some(lease)) if lease.end.has_come(clock) => {
                format!(" (as empty: that end has come by its clock, {})", clock)
            }
            _ => String::new(),
        };
        format!("counts {} of {}{}", count, self.account.after.rules.majority(), as_empty)
    }

    fn counted(&self) -> String {
        let (count, kept) = match self.after().round {
            Round::Asking { replies, kept, .. } => (replies.count(), kept),
            Round::Proposing { replies, .. } => (replies.count(), None),
            Round::Idle => (0, None),
        };
        let told_now = self.handed.body == Body::PrepareResponse(kept);
        let kept = match kept {
            Some(_) if told_now && self.case != Case::ResponseEnded => {
                ", and keeps that lease".into()
            }
            Some(kept) => format!(", and goes on keeping {}", lease(&kept)),
            None => String::new(),
        };
        format!("{}{}", self.counts(count), kept)
    }

    /// A majority of prepare responses.
    fn asked(&self) -> String {
        let majority = self.counts(self.account.after.rules.majority());
        let why = match self.case {
            Case::ProposesOwn => "no reply had a lease to keep",
            Case::ProposesOwnAfterKept => "the lease that it kept has ended",
            Case::ProposesOwnLater => "the lease that it kept is its own, and this end is later",
            Case::ProposesOwnAsKept => "the lease that it kept is its own, and ends no sooner",
            Case::ProposesKept => "that is the lease that it kept",
            _ => {
                let late = format!("the end would have come by its clock, {}", self.before().clock);
                return format!("{}, and its round is over: {}", majority, late);
            }
        };
        let value = match self.after().round {
            Round::Proposing { owner, end, .. } => {
                format!("host {}, keepers' end {}", owner, end.0)
            }
            _ => String::new(),
        };
        format!("{} and proposes {}, in {}: {}", majority, value, self.placed(), why)
    }

    /// A majority of propose responses.
    fn chosen(&self) -> String {
        let rules = self.account.after.rules;
        let majority = self.counts(rules.majority());
        let old = self.before();
        if self.case == Case::ChosenTooLate {
            let late = format!("its clock, {}, and S, {}", old.clock, rules.spread);
            return format!(
                "{} too late and names nobody: the end is not above {}",
                majority, late
            );
        }
        let names = match self.case {
            Case::ChosenNamed => format!("names {}", holder(self.after().named)),
            _ => format!("goes on naming {}", not_lower(old.named)),
        };
        match rules.n {
            1 => format!("{} and {}", majority, names),
            _ => format!("{} and {}; it tells the others in {}", majority, names, self.placed()),
        }
    }
}

/// What a host does as proposer.
fn round(round: &Round) -> String {
    match round {
        Round::Idle => "its round is over".into(),
        Round::Asking { ballot: by, .. } => format!("it is asking with {}", ballot(*by)),
        Round::Proposing { ballot: by, .. } => format!("it is proposing with {}", ballot(*by)),
    }
}

fn holder(named: Option<Holder>) -> String {
    named.as_ref().map(words::holder).unwrap_or_default()
}

/// A holder that stays, since its ballot is as high.
fn not_lower(named: Option<Holder>) -> String {
    let named = named.as_ref().map(words::holder_by_ballot).unwrap_or_default();
    format!("{}, which is not lower", named)
}
