//! The build that follows the documents, and those that are to be turned away, as switches in the
//! rules: document 01's five, four that do wrong by document 02's release, two by what hosts tell
//! one another after it, and three by its rule on a prepare response whose lease has ended.

/// Which of the documents' sentences a build breaks; the right one breaks none.
#[derive(Clone, Copy, Debug, Default, PartialEq, Eq)]
pub struct Build {
    pub accepts_without_raising_its_promise: bool,
    pub counts_a_repeated_response_twice: bool,
    pub names_up_to_the_keepers_end: bool,
    pub ballots_from_a_counter: bool,
    pub takes_a_learn_of_its_own_lease: bool,
    pub keeps_its_round_on_release: bool,
    pub names_itself_until_its_release_comes: bool,
    pub drops_whoever_owns_the_lease: bool,
    pub forgets_the_kept_lease: bool,
    pub tells_of_the_next_host: bool,
    pub tells_of_a_later_end: bool,
    pub keeps_an_ended_lease: bool,
    pub discards_an_ended_response: bool,
    pub skips_by_the_length_field: bool,
}

pub const RIGHT: Build = Build {
    accepts_without_raising_its_promise: false,
    counts_a_repeated_response_twice: false,
    names_up_to_the_keepers_end: false,
    ballots_from_a_counter: false,
    takes_a_learn_of_its_own_lease: false,
    keeps_its_round_on_release: false,
    names_itself_until_its_release_comes: false,
    drops_whoever_owns_the_lease: false,
    forgets_the_kept_lease: false,
    tells_of_the_next_host: false,
    tells_of_a_later_end: false,
    keeps_an_ended_lease: false,
    discards_an_ended_response: false,
    skips_by_the_length_field: false,
};

/// Document 01's 'Builds to turn away', in its order, with those of document 02 before the last.
pub const WRONG: [(&str, Build); 14] = [
    (
        "accepts without raising its promise",
        Build { accepts_without_raising_its_promise: true, ..RIGHT },
    ),
    ("counts a repeated response twice", Build { counts_a_repeated_response_twice: true, ..RIGHT }),
    ("names a holder up to the keepers' end", Build { names_up_to_the_keepers_end: true, ..RIGHT }),
    (
        "takes ballots from a counter that restarts at zero",
        Build { ballots_from_a_counter: true, ..RIGHT },
    ),
    ("takes a learn of its own lease", Build { takes_a_learn_of_its_own_lease: true, ..RIGHT }),
    ("keeps its round when it lets go", Build { keeps_its_round_on_release: true, ..RIGHT }),
    (
        "names itself until its own release request comes in",
        Build { names_itself_until_its_release_comes: true, ..RIGHT },
    ),
    (
        "drops a lease at a release request, whoever owns it",
        Build { drops_whoever_owns_the_lease: true, ..RIGHT },
    ),
    (
        "forgets the lease that it kept at a response whose lease has ended",
        Build { forgets_the_kept_lease: true, ..RIGHT },
    ),
    (
        "tells of the next host as owner once anybody has let go",
        Build { tells_of_the_next_host: true, ..RIGHT },
    ),
    (
        "tells of an end 1,000 ticks later once anybody has let go",
        Build { tells_of_a_later_end: true, ..RIGHT },
    ),
    (
        "keeps the lease of a response like any other when it has ended",
        Build { keeps_an_ended_lease: true, ..RIGHT },
    ),
    (
        "discards a response whose lease has ended, as document 01 has it",
        Build { discards_an_ended_response: true, ..RIGHT },
    ),
    (
        "skips by the length field without comparing it with the kind",
        Build { skips_by_the_length_field: true, ..RIGHT },
    ),
];

/// The first so many break a rule of the cell, and lead to two holders.
pub const TWO_HOLDERS: usize = 9;

/// So many break agreement, the last two of them as document 02 narrows it: whom a host may name
/// that is not the holder.
pub const BREAK_AGREEMENT: usize = 11;

/// So many break a rule of the cell, the last two of them without harm to agreement; the last one
/// of all breaks the reading of records.
pub const WRONG_RULES: usize = 13;
