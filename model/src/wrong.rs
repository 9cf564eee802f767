//! The search for broken agreement in the builds that lead to it. A build that agrees in every run
//! of it would show that the runs are too tame to tell it from the right one.

use std::ops::Range;
use std::thread;

use crate::breach::Breach;
use crate::builds::{Build, BREAK_AGREEMENT, RIGHT, TWO_HOLDERS, WRONG};
use crate::compare::watched;
use crate::coverage::Coverage;
use crate::{directed, generate};

/// So many seeds are tried at most, for each build and each way to make runs.
const SEEDS: u64 = 40_000;

/// The seeds with which any runs first turn each build away, as `first_seeds` found them; those
/// before tell nothing, so that any runs are tried from there on.
const FIRST_OF_ANY: [u64; BREAK_AGREEMENT] =
    [6_012, 585, 6, 131_558, 12, 1_302, 538, 105_634, 464, 5, 5];

/// `first_seeds` goes so far.
const LAST_OF_ANY: u64 = 2_000_000;

/// The lines of a listing that are shown.
const SHOWN: usize = 6;

/// How runs are made: for the wrong build that is looked for, or as any other.
#[derive(Clone, Copy, Debug)]
enum Way {
    Directed,
    Any,
}

/// A run in which a build breaks agreement.
struct Caught {
    seed: u64,
    place: u64,
    breach: Breach,
    listing: Vec<u8>,
}

/// The run of a seed for a wrong build, as that build goes through it.
fn run_of(way: Way, of: usize, seed: u64) -> Vec<u8> {
    match way {
        Way::Directed => directed::run(seed, of, WRONG[of].1),
        Way::Any => generate::run(seed, WRONG[of].1),
    }
}

fn watched_in(bytes: &[u8], build: Build) -> (Vec<u8>, Vec<(u64, Breach)>) {
    watched(bytes, build, &mut Coverage::default())
}

/// Whether a breach is what is looked for in a build. Some of those that lead to two holders come
/// to other breaches long before: there nothing less than two holders counts.
fn is_sought(breach: Breach, of: usize) -> bool {
    of >= TWO_HOLDERS || breach.is_two_holders()
}

/// The first of the seeds whose run leads to it.
fn search(way: Way, of: usize, mut seeds: Range<u64>) -> Option<Caught> {
    seeds.find_map(|seed| {
        let (listing, breaches) = watched_in(&run_of(way, of, seed), WRONG[of].1);
        let sought = breaches.into_iter().find(|(_, breach)| is_sought(*breach, of));
        sought.map(|(place, breach)| Caught { seed, place, breach, listing })
    })
}

/// The last lines of a listing up to the event with which agreement is broken.
fn shown(caught: &Caught) -> String {
    let text = String::from_utf8_lossy(&caught.listing);
    let lines: Vec<&str> = text.lines().take(caught.place as usize + 1).collect();
    lines[lines.len().saturating_sub(SHOWN)..].join("\n")
}

/// What is to be said of one build and one way, and whether it was found as it should be.
fn look(way: Way, of: usize) -> (bool, String) {
    let name = WRONG[of].0;
    let first = match way {
        Way::Directed => 0,
        Way::Any => FIRST_OF_ANY[of],
    };
    let caught = match search(way, of, first..first + SEEDS) {
        Some(caught) => caught,
        None => return (false, format!("{:?} runs do not turn away one that {}", way, name)),
    };
    let Caught { seed, place, breach, .. } = caught;
    if let Some((_, breach)) = watched_in(&run_of(way, of, seed), RIGHT).1.first() {
        return (false, format!("{:?} run of seed {}: {} in the right build", way, seed, breach));
    }
    let run = format!("{:?} run of seed {}, event {}, {}", way, seed, place, breach);
    let head = format!("One that {}.\n{}:", name, run);
    (true, format!("{}\n{}\n", head, shown(&caught)))
}

/// Looks for broken agreement in each build, both ways. Says what it did not find, and if asked to,
/// what it found.
pub fn run(tell: bool) -> bool {
    let tasks: Vec<(Way, usize)> =
        (0..BREAK_AGREEMENT).flat_map(|of| [(Way::Directed, of), (Way::Any, of)]).collect();
    let looked: Vec<(bool, String)> = thread::scope(|scope| {
        let spawn = |(way, of)| scope.spawn(move || look(way, of));
        let running: Vec<_> = tasks.into_iter().map(spawn).collect();
        let failed = |_| (false, "a search failed".into());
        running.into_iter().map(|task| task.join().unwrap_or_else(failed)).collect()
    });
    for (_, said) in looked.iter().filter(|(found, _)| tell || !found) {
        println!("{}", said);
    }
    looked.iter().all(|(found, _)| *found)
}

/// Says with which seed any runs first turn each build away. That takes minutes, and is wanted when
/// the generator has changed.
pub fn first_seeds() -> bool {
    let firsts: Vec<Option<u64>> = (0..BREAK_AGREEMENT)
        .map(|of| {
            let first = search(Way::Any, of, 0..LAST_OF_ANY).map(|caught| caught.seed);
            println!("{:?}: one that {}", first, WRONG[of].0);
            first
        })
        .collect();
    firsts.iter().all(Option::is_some)
}

#[cfg(test)]
mod tests {
    use super::*;
    use crate::builds::WRONG_RULES;
    use crate::releases;

    /// The breaches that the build at that place of `WRONG` comes to in some runs.
    fn breaches_of(of: usize) -> Vec<Breach> {
        let build = WRONG[of].1;
        let runs = |seed| {
            let any = [generate::run(seed, build), releases::run(seed, build)];
            any.into_iter().chain([directed::run(seed, of, build)])
        };
        let met = |bytes: Vec<u8>| watched_in(&bytes, build).1;
        (0..100).flat_map(runs).flat_map(met).map(|(_, breach)| breach).collect()
    }

    #[test]
    fn what_is_told_after_a_release_breaks_only_what_is_claimed_of_releases() {
        for of in TWO_HOLDERS..BREAK_AGREEMENT {
            let met = breaches_of(of);
            for breach in [Breach::NotLetGo, Breach::NotWon, Breach::NotAccepted] {
                assert!(met.contains(&breach), "{}: {:?}", WRONG[of].0, breach);
            }
            for breach in [Breach::TwoHolders, Breach::TwoNames, Breach::PastItsEnd] {
                assert!(!met.contains(&breach), "{}: {:?}", WRONG[of].0, breach);
            }
        }
    }

    #[test]
    fn what_a_wrong_build_takes_for_a_vote_or_a_win_is_none() {
        let first = [Breach::NotAccepted, Breach::NotWon, Breach::NotWon];
        for (of, breach) in first.iter().enumerate() {
            assert_eq!(breaches_of(of).first(), Some(breach), "{}", WRONG[of].0);
        }
    }

    #[test]
    fn builds_that_break_no_agreement_come_to_no_breach() {
        for of in BREAK_AGREEMENT..WRONG_RULES {
            assert_eq!(breaches_of(of), [], "{}", WRONG[of].0);
        }
    }
}
