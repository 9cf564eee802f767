//! What no run may come to: a breach for each part of demand 3, in a sentence and in words.

use std::fmt;

/// What no run may come to.
#[derive(Clone, Copy, Debug, PartialEq, Eq)]
pub enum Breach {
    /// 'No two hosts ever name themselves at one moment.'
    TwoHolders,
    /// 'Runs without a release keep the wider agreement': whoever names a holder names the same.
    TwoNames,
    /// A holder may be named 'up to that lease's end'.
    PastItsEnd,
    /// 'A host may name another that has let go': of two that are named, the one with the lower
    /// ballot has let go with a ballot above that.
    NotLetGo,
    /// 'Up to that lease's end', and that lease was won: the host of its ballot came to a majority
    /// of responses for it, with this owner and the keepers' end S after this one.
    NotWon,
    /// And a majority has accepted that very lease.
    NotAccepted,
    /// The same as a listing shows it: before a line with two names there is one of a release that
    /// was done, in which one of the two names nobody.
    NoEarlierLine,
}

impl Breach {
    pub const ALL: [Breach; 7] = [
        Breach::TwoHolders,
        Breach::TwoNames,
        Breach::PastItsEnd,
        Breach::NotLetGo,
        Breach::NotWon,
        Breach::NotAccepted,
        Breach::NoEarlierLine,
    ];

    /// Whether it is two holders: two hosts that name themselves or, while nobody has let go, any
    /// two that are named.
    pub fn is_two_holders(self) -> bool {
        matches!(self, Breach::TwoHolders | Breach::TwoNames)
    }
}

impl fmt::Display for Breach {
    fn fmt(&self, to: &mut fmt::Formatter) -> fmt::Result {
        to.write_str(match self {
            Breach::TwoHolders => "two hosts name themselves",
            Breach::TwoNames => "two holders are named, and nobody has let go",
            Breach::PastItsEnd => "a holder is named past its end",
            Breach::NotLetGo => "two holders are named, neither an earlier one that has let go",
            Breach::NotWon => "a holder is named whose lease was not won",
            Breach::NotAccepted => "a holder is named whose lease no majority has accepted",
            Breach::NoEarlierLine => "two holders are named, and no earlier line has one let go",
        })
    }
}
