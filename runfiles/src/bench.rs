//! Who plays run files: the proved bench, or a wrong build of the model in its place.

use std::env;
use std::io::Write;
use std::path::{Path, PathBuf};
use std::process::{Command, Output, Stdio};
use std::thread;

use model::breach::Breach;
use model::builds::{Build, BREAK_AGREEMENT, RIGHT, TWO_HOLDERS, WRONG};
use model::listing::{list, Unwatched};

use crate::arguments::Given;

/// The options by which a command's help says who plays.
pub const HELP: &str = "  --bench PATH   another bench than the proved one, target/bin/bench
  --wrong NAME   in the place of the bench, and of the model, a build that
                   promise  accepts without raising its promise
                   twice    counts a repeated response twice
                   keepers  names a holder up to the keepers' end
                   counter  takes ballots from a counter that restarts at zero
                   learn    takes a learn of its own lease
                   round    keeps its round when it lets go
                   itself   names itself until its own release request comes in
                   owner    drops a lease at a release request, whoever owns it
                   kept     forgets the lease that it kept at a response whose lease has ended
                   next     tells of the next host as owner once anybody has let go
                   later    tells of an end 1,000 ticks later once anybody has let go
                 in the place of the bench alone, a build that
                   ended    keeps the lease of a response like any other when it has ended
                   discard  discards a response whose lease has ended, as document 01 has it
                   length   skips by the length field without comparing it with the kind
";

/// The wrong builds by short names, in the model's order.
const WRONG_NAMES: [&str; WRONG.len()] = [
    "promise", "twice", "keepers", "counter", "learn", "round", "itself", "owner", "kept", "next",
    "later", "ended", "discard", "length",
];

/// One wrong build.
#[derive(Clone, Copy)]
pub struct Wrong {
    of: usize,
}

impl Wrong {
    pub fn build(self) -> Build {
        WRONG[self.of].1
    }

    /// What it does wrong, as 'one that' does it.
    pub fn what(self) -> &'static str {
        WRONG[self.of].0
    }

    fn breaks_agreement(self) -> bool {
        self.of < BREAK_AGREEMENT
    }

    /// Whether it breaks agreement so that there are two holders.
    fn leads_to_two_holders(self) -> bool {
        self.of < TWO_HOLDERS
    }

    /// The one that an option names.
    pub fn given(given: &Given) -> Result<Option<Wrong>, String> {
        let name = match given.value("--wrong") {
            Some(name) => name,
            None => return Ok(None),
        };
        match WRONG_NAMES.iter().position(|known| *known == name) {
            Some(of) => Ok(Some(Wrong { of })),
            None => Err(given.unexpected(&crate::words::either(&WRONG_NAMES), name)),
        }
    }
}

/// The two whose listings are compared: who plays, and a build of the model. A wrong build that
/// breaks agreement is both, so that this is what is found; any other is compared with the right
/// one.
pub struct Sides {
    pub player: Player,
    pub model: Build,
    pub wrong: Option<Wrong>,
}

impl Sides {
    pub fn given(given: &Given) -> Result<Sides, String> {
        let wrong = Wrong::given(given)?;
        if let (Some(_), Some(path)) = (wrong, given.value("--bench")) {
            return Err(given.unexpected("--wrong or --bench, not both", path));
        }
        Ok(match wrong {
            Some(build) if build.breaks_agreement() => {
                Sides { player: Player::Wrong(build), model: build.build(), wrong }
            }
            Some(build) => Sides { player: Player::Wrong(build), model: RIGHT, wrong },
            None => Sides { player: Player::bench(given)?, model: RIGHT, wrong },
        })
    }

    /// The breach to tell of, with the place of its event. In a build that leads to two holders it
    /// is those that are looked for, and what comes before is passed over.
    pub fn broken(&self, breaches: &[(u64, Breach)]) -> Option<(u64, Breach)> {
        let two_holders = self.wrong.map_or(false, Wrong::leads_to_two_holders);
        breaches.first().copied().filter(|_| !two_holders)
    }
}

/// Who plays a run file.
pub enum Player {
    Bench(PathBuf),
    Wrong(Wrong),
}

impl Player {
    /// The bench that an option names, or the one that is built beside this program.
    pub fn bench(given: &Given) -> Result<Player, String> {
        let path = match given.value("--bench") {
            Some(path) => PathBuf::from(path),
            None => beside_this_program()?,
        };
        match path.is_file() {
            true => Ok(Player::Bench(path)),
            false => Err(format!(
                "there is no bench at {}: ./bench makes the proved one, and --bench names another",
                path.display()
            )),
        }
    }

    /// The listing of a run file.
    pub fn listing(&self, bytes: &[u8]) -> Result<Vec<u8>, String> {
        match self {
            Player::Bench(path) => listing_by(path, bytes),
            Player::Wrong(wrong) => Ok(list(bytes, wrong.build(), &mut Unwatched)),
        }
    }
}

/// target/bin/bench, where this program is target/runfile/runfile.
fn beside_this_program() -> Result<PathBuf, String> {
    let program = env::current_exe().map_err(|error| format!("where am I? {}", error))?;
    let target = program.parent().and_then(Path::parent).unwrap_or_else(|| Path::new("target"));
    Ok(target.join("bin/bench"))
}

/// What a bench writes. Where it does not end well its listing has a last line that says so, which
/// no other listing has.
fn listing_by(path: &Path, bytes: &[u8]) -> Result<Vec<u8>, String> {
    let output =
        output_of(path, bytes).map_err(|error| format!("{}: {}", path.display(), error))?;
    let mut listing = output.stdout;
    if !output.status.success() {
        listing.extend_from_slice(format!("ended with {}\n", output.status).as_bytes());
    }
    Ok(listing)
}

/// A program that leaves some of its input unread, as the bench does of a file that is too long, is
/// no fault.
fn output_of(path: &Path, bytes: &[u8]) -> std::io::Result<Output> {
    let mut running = Command::new(path).stdin(Stdio::piped()).stdout(Stdio::piped()).spawn()?;
    let input = running.stdin.take();
    thread::scope(|scope| {
        scope.spawn(move || input.map(|mut input| input.write_all(bytes)));
        running.wait_with_output()
    })
}
