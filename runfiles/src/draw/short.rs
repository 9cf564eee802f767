//! What stands in few letters in a drawing: kinds of messages, and what deliveries came to.

use model::host::Case;
use model::message::{Body, Message};

/// The kinds of messages, as document 01's table of frames and document 02 have them: in a few
/// letters, where `?` asks and `!` answers, and whole.
pub const KINDS: [(&str, &str); 7] = [
    ("prep?", "prepare request"),
    ("prep!", "prepare response, empty"),
    ("prep!+", "prepare response, lease"),
    ("prop?", "propose request"),
    ("prop!", "propose response"),
    ("learn", ""),
    ("rel", "release request"),
];

/// The place of a kind among them.
pub fn kind(body: &Body) -> usize {
    match body {
        Body::PrepareRequest => 0,
        Body::PrepareResponse(None) => 1,
        Body::PrepareResponse(Some(_)) => 2,
        Body::ProposeRequest { .. } => 3,
        Body::ProposeResponse => 4,
        Body::Learn { .. } => 5,
        Body::ReleaseRequest => 6,
    }
}

/// `prep? 0→1`.
pub fn message(message: &Message) -> String {
    let Message { sender, target, body, .. } = message;
    format!("{} {}\u{2192}{}", KINDS[kind(body)].0, sender, target)
}

/// What a delivery came to at its receiver.
pub fn case(case: Case) -> &'static str {
    match case {
        Case::Waits => "waits",
        Case::PrepareNotAbove => "not above",
        Case::PromisedEmpty | Case::PromisedLease | Case::ReleasePromised => "promises",
        Case::ResponseToNoRound | Case::AnswerToNoRound => "no round",
        Case::ResponseRepeated | Case::AnswerRepeated | Case::ReleaseAgain => "had it",
        Case::ProposeExpired | Case::LearnExpired => "expired",
        Case::ResponseEnded => "as empty",
        Case::ResponseCounted | Case::AnswerCounted => "counts",
        Case::ProposesOwn
        | Case::ProposesOwnAfterKept
        | Case::ProposesOwnLater
        | Case::ProposesOwnAsKept
        | Case::ProposesKept => "proposes",
        Case::AskedTooLong | Case::ChosenTooLate => "too late",
        Case::ProposeBelow | Case::ReleaseBelow => "below",
        Case::Accepted => "accepts",
        Case::ChosenNamed | Case::LearnNamed => "names",
        Case::ChosenNotHigher | Case::LearnNotHigher => "not higher",
        Case::LearnOwn => "of itself",
        Case::ReleaseDropped => "drops",
    }
}

/// Whether a delivery left the receiver as it was, with nothing sent.
pub fn did_nothing(case: Case) -> bool {
    matches!(
        case,
        Case::Waits
            | Case::PrepareNotAbove
            | Case::ResponseToNoRound
            | Case::ResponseRepeated
            | Case::ProposeExpired
            | Case::ProposeBelow
            | Case::AnswerToNoRound
            | Case::AnswerRepeated
            | Case::LearnOwn
            | Case::LearnExpired
            | Case::LearnNotHigher
            | Case::ReleaseBelow
            | Case::ReleaseAgain
    )
}
