//! `runfile hunt`: random runs through the model and the bench, to find a disagreement or broken
//! agreement, and to make short what is found.

use std::mem::discriminant;
use std::path::Path;
use std::time::{Duration, Instant};

use model::breach::Breach;
use model::builds::WRONG_RULES;
use model::cell::Settings;
use model::compare::watched;
use model::coverage::Coverage;
use model::damage::{damage, DAMAGES};
use model::host::Case;
use model::random::Random;
use model::record::{ADVANCE_ALL, RELEASE, RESTART};
use model::refusal::DONE;
use model::{directed, generate, releases};

use crate::arguments::Given;
use crate::bench::Sides;
use crate::reading::{why_refused, Reading};
use crate::shorten::shortened;
use crate::source::{self, Line};
use crate::{files, lines, show, terminal, words, Done, Outcome};

pub const HELP: &str = "\
Random runs through the model and the bench, to find a disagreement or broken agreement.

usage: runfile hunt SEED COUNT SETTINGS [--into FOLDER] [--bench PATH | --wrong NAME]

The runs take, renew, lose, give back and pass on leases under losses, repeats, restarts and clocks
that stray as far as they may; some are damaged files, some go the ways in which wrong builds break
agreement, or are listed otherwise than the right one, and some go through the turns of releases.
Agreement is broken by two holders, that is two hosts that name themselves and, as long as nobody
has let go, any two that are named. In the model it is broken too by a holder whose lease was not
won, or not accepted by a majority, and by two that are named of which the earlier has not let go.
It ends at the first find, which is made short by dropping events while it still shows, and says how
many runs, events, leases, restarts and releases it tried.

  SEED           a number; the same one gives the same runs
  COUNT          how many runs to try
  SETTINGS       hosts, T, S and clock, as in 3,100,5,0 or 3 100 5 0
  --into FOLDER  where to write a find; the working folder where it is left out
";

/// Of so many runs one is damaged, one goes a way in which a wrong build breaks agreement or is
/// listed otherwise than the right one, and one goes through the turns of releases.
const MIXED: u64 = 20;

/// Between two looks at how far it is, on a terminal and elsewhere.
const OFTEN: Duration = Duration::from_millis(200);
const NOW_AND_THEN: Duration = Duration::from_secs(10);

pub fn run(given: &Given) -> Outcome {
    let wanted = Wanted::of(given)?;
    let sides = Sides::given(given)?;
    let folder = given.value("--into").unwrap_or_default();
    files::make_folder(folder)?;
    let mut hunt = Hunt { sides, wanted, tried: Coverage::default(), progress: Progress::new() };
    let found = hunt.all()?;
    hunt.progress.end();
    let told = match &found {
        Some(find) => hunt.keep(find, folder)?,
        None => "Nothing found.\n".into(),
    };
    let runs = words::counted(hunt.tried.files, "run");
    let output = format!("{}Tried {}, {}.\n", told, runs, tried(&hunt.tried)).into_bytes();
    Ok(Done { output, found: found.is_some() })
}

/// What is asked for.
struct Wanted {
    seed: u64,
    count: u64,
    settings: Settings,
    /// The options that say who plays.
    player: String,
}

impl Wanted {
    fn of(given: &Given) -> Result<Wanted, String> {
        let number = |told: &str| told.parse().map_err(|_| given.unexpected("a number", told));
        let player =
            |option: &&str| given.value(option).map(|value| format!(" {} {}", option, value));
        match given.plain.as_slice() {
            [seed, count, settings @ ..] if matches!(settings.len(), 1 | 4) => Ok(Wanted {
                seed: number(seed)?,
                count: number(count)?,
                settings: settings_of(&settings.join(" "))?,
                player: ["--bench", "--wrong"].iter().filter_map(player).collect(),
            }),
            plain => Err(given.unexpected("SEED COUNT SETTINGS", &plain.join(" "))),
        }
    }
}

/// Settings that opening takes.
fn settings_of(told: &str) -> Result<Settings, String> {
    let line = format!("cell {}", told.replace(',', " "));
    let settings = match source::line(&line) {
        Ok(Line::Settings(settings)) => settings,
        Ok(_) => return Err(format!("settings: expected four numbers, found `{}`", told)),
        Err(fault) => return Err(format!("settings: {}", fault)),
    };
    match settings.refused() {
        Some(setting) => {
            let refusal = words::refusal(setting.refusal());
            let (what, wrong) = why_refused(settings, setting);
            Err(format!("settings: opening refuses `{}`: {}: {} {}", told, refusal, what, wrong))
        }
        None => Ok(settings),
    }
}

/// What a run shows that no run should.
#[derive(Clone, Copy, PartialEq, Eq)]
enum Shown {
    TwoHolders { event: usize },
    Broken { event: u64, breach: Breach },
    Disagreement { line: usize },
}

impl Shown {
    fn is_like(self, other: Shown) -> bool {
        discriminant(&self) == discriminant(&other)
    }

    fn text(self) -> String {
        match self {
            Shown::TwoHolders { event } => format!("two holders after event {}", event),
            Shown::Broken { event, breach } => format!("after event {} {}", event, breach),
            Shown::Disagreement { line } => {
                format!("bench and model disagree in line {} of the listing", line + 1)
            }
        }
    }
}

/// A run that shows something, as it was and made short.
struct Find {
    run: u64,
    events: usize,
    short: Vec<u8>,
    shown: Shown,
}

struct Hunt {
    sides: Sides,
    wanted: Wanted,
    tried: Coverage,
    progress: Progress,
}

impl Hunt {
    /// The first find, made short.
    fn all(&mut self) -> Result<Option<Find>, String> {
        let mut seeds = Random::new(self.wanted.seed);
        for run in 1..=self.wanted.count {
            let bytes = self.bytes_of(seeds.next());
            if let Some(shown) = self.played(&bytes)? {
                self.progress.say(&format!("run {}: {}; making it short", run, shown.text()));
                return self.find(run, &bytes, shown).map(Some);
            }
            let (count, tried) = (self.wanted.count, &self.tried);
            self.progress
                .now_and_then(|| format!("run {} of {}: {}", run, count, self::tried(tried)));
        }
        Ok(None)
    }

    /// A run, as the model's cell goes through it.
    fn bytes_of(&self, seed: u64) -> Vec<u8> {
        let (settings, build) = (self.wanted.settings, self.sides.model);
        let mut random = Random::new(seed);
        let what = random.below(MIXED);
        if what == 0 {
            return directed::run_in(settings, random.below(WRONG_RULES as u64) as usize, build);
        }
        if what == 2 {
            return releases::run_in(settings, random, build);
        }
        let mut bytes = generate::run_in(settings, Random::new(random.next()), build);
        if what == 1 {
            damage(random.below(DAMAGES), &mut random, &mut bytes);
        }
        bytes
    }

    /// What a run shows, if anything, with what was tried by it.
    fn played(&mut self, bytes: &[u8]) -> Result<Option<Shown>, String> {
        let (ours, breaches) = watched(bytes, self.sides.model, &mut self.tried);
        let theirs = self.sides.player.listing(bytes)?;
        Ok(self.shown(&ours, &breaches, &theirs))
    }

    fn shown_by(&self, bytes: &[u8]) -> Option<Shown> {
        let (ours, breaches) = watched(bytes, self.sides.model, &mut Coverage::default());
        let theirs = self.sides.player.listing(bytes).ok()?;
        self.shown(&ours, &breaches, &theirs)
    }

    /// What two listings show, or else what the model has seen.
    fn shown(&self, ours: &[u8], breaches: &[(u64, Breach)], theirs: &[u8]) -> Option<Shown> {
        let broken = |(event, breach)| Shown::Broken { event, breach };
        shown(ours, theirs).or_else(|| self.sides.broken(breaches).map(broken))
    }

    fn find(&self, run: u64, bytes: &[u8], first: Shown) -> Result<Find, String> {
        let shows = |bytes: &[u8]| self.shown_by(bytes).map_or(false, |shown| shown.is_like(first));
        let short = shortened(bytes, self.sides.model, shows);
        let shown = self.shown_by(&short).unwrap_or(first);
        Ok(Find { run, events: Reading::of(bytes).events.len(), short, shown })
    }

    /// Writes the run file and its text, and says what and where they are.
    fn keep(&self, find: &Find, folder: &str) -> Result<String, String> {
        let Find { run, events, short, shown } = find;
        let left = Reading::of(short).events.len();
        let path = |end: &str| {
            let name = format!("hunt-{}-{}.{}", self.wanted.seed, run, end);
            Path::new(folder).join(name).display().to_string()
        };
        let what = format!("Run {}, of {} events, cut to {}: {}.", run, events, left, shown.text());
        let (run_file, text) = (path("run"), path("txt"));
        files::write(Some(&run_file), short)?;
        files::write(Some(&text), format!("# {}\n{}", what, show::text_of(short)).as_bytes())?;
        let see = format!("runfile explain {}{}", run_file, self.wanted.player);
        Ok(format!("{}\nRun file: {}\nIts text: {}\nTo see it: {}\n", what, run_file, text, see))
    }
}

/// What two listings show; two holders before a disagreement.
fn shown(ours: &[u8], theirs: &[u8]) -> Option<Shown> {
    let ours_lines = lines::of(ours);
    let ours_two = || lines::two_holders(&ours_lines);
    if ours == theirs {
        return ours_two().map(|event| Shown::TwoHolders { event });
    }
    let theirs_lines = lines::of(theirs);
    let two = lines::two_holders(&theirs_lines).or_else(ours_two);
    match two {
        Some(event) => Some(Shown::TwoHolders { event }),
        None => {
            let line = lines::difference(&ours_lines, &theirs_lines).unwrap_or(0);
            Some(Shown::Disagreement { line })
        }
    }
}

/// What was tried in all runs, in numbers.
fn tried(coverage: &Coverage) -> String {
    let done = |kind: u16| coverage.answers[usize::from(kind - ADVANCE_ALL)][usize::from(DONE)];
    let counts = [
        (coverage.events, "event"),
        (coverage.cases[Case::ChosenNamed as usize], "lease"),
        (done(RESTART), "restart"),
        (done(RELEASE), "release"),
    ];
    counts.map(|(count, what)| words::counted(count, what)).join(", ")
}

/// The line on standard error that says how far it is.
struct Progress {
    on_terminal: bool,
    last: Instant,
    /// How wide the line is that stands on the terminal.
    width: usize,
}

impl Progress {
    fn new() -> Progress {
        Progress { on_terminal: terminal::is_error(), last: Instant::now(), width: 0 }
    }

    fn now_and_then(&mut self, text: impl Fn() -> String) {
        let pause = if self.on_terminal { OFTEN } else { NOW_AND_THEN };
        if self.last.elapsed() >= pause {
            self.say(&text());
        }
    }

    fn say(&mut self, text: &str) {
        self.last = Instant::now();
        match self.on_terminal {
            true => eprint!("\r{:width$}", text, width = self.width),
            false => eprintln!("{}", text),
        }
        self.width = text.len().max(self.width);
    }

    fn end(&self) {
        if self.on_terminal && self.width > 0 {
            eprint!("\r{:width$}\r", "", width = self.width);
        }
    }
}
