//! What a comparison has met: answers, stops, what deliveries came to, the turns of releases and of
//! responses whose lease has ended, and what became of leases; and whether agreement was ever
//! broken.

use crate::agreement::Agreement;
use crate::breach::Breach;
use crate::cell::{Cell, Event};
use crate::host::{Case, CASES};
use crate::listing::Watch;
use crate::message::Holder;
use crate::record::{ADVANCE_ALL, RELEASE, SETTINGS_LENGTH};
use crate::refusal::{Fault, DONE, NUMBERS};
use crate::turns::{Turn, TURNS};

const KINDS: usize = (RELEASE - ADVANCE_ALL + 1) as usize;

/// The answers that an event of each kind, from 101 on, can have from an opened cell.
const POSSIBLE: [&[usize]; KINDS] = [
    &[0, 15],
    &[0, 5, 14, 15],
    &[0, 5, 9, 10, 11, 13],
    &[0, 12, 13],
    &[0, 12],
    &[0, 12, 13],
    &[0, 5],
    &[0, 5, 9, 10, 13, 18],
];

/// The numbers that a run file can stop by, with the offsets that each can have; a cut as far as
/// events go.
const STOPS: [(usize, &[usize]); 7] = [
    (1, &[4, 5, 9]),
    (2, &[0, 1, 2, 3, 4, 5, 6, 7, 8]),
    (3, &[2]),
    (4, &[0]),
    (6, &[13]),
    (16, &[0]),
    (17, &[0]),
];

/// An offset is within the longest record, but for a build that does not look for its end.
const OFFSETS: usize = SETTINGS_LENGTH;

/// How often each thing must be met for a comparison to count.
const LEAST_ANSWERS: u64 = 500;
const LEAST_STOPS: u64 = 5;
const LEAST_CASES: u64 = 200;
const LEAST_TURNS: u64 = 200;
const LEAST_LEASES: u64 = 1_000;

#[derive(Clone, Debug, Default)]
pub struct Coverage {
    pub files: u64,
    pub events: u64,
    pub answers: [[u64; NUMBERS]; KINDS],
    stops: [[u64; OFFSETS]; NUMBERS],
    pub cases: [u64; CASES],
    turns: [u64; TURNS],
    named: u64,
    renewed: u64,
    passed_on: u64,
    /// Passed on before its end.
    passed_on_early: u64,
}

impl Coverage {
    pub fn add(&mut self, other: &Coverage) {
        self.files += other.files;
        self.events += other.events;
        self.named += other.named;
        self.renewed += other.renewed;
        self.passed_on += other.passed_on;
        self.passed_on_early += other.passed_on_early;
        for (row, others) in self.answers.iter_mut().zip(&other.answers) {
            add_all(row, others);
        }
        for (row, others) in self.stops.iter_mut().zip(&other.stops) {
            add_all(row, others);
        }
        add_all(&mut self.cases, &other.cases);
        add_all(&mut self.turns, &other.turns);
    }

    /// What was met too rarely, a line each.
    pub fn lacks(&self) -> Vec<String> {
        let mut lacks = Vec::new();
        let mut want = |what: String, met: u64, least: u64| {
            if met < least {
                lacks.push(format!("{} was met {} times, not {}", what, met, least));
            }
        };
        for (row, (kind, possible)) in self.answers.iter().zip((ADVANCE_ALL..).zip(POSSIBLE)) {
            for &answer in possible {
                want(format!("answer {} to {}", answer, kind), row[answer], LEAST_ANSWERS);
            }
        }
        for (number, offsets) in STOPS {
            for &offset in offsets {
                let met = self.stops[number][offset];
                want(format!("stop by {} at {}", number, offset), met, LEAST_STOPS);
            }
        }
        for case in Case::ALL {
            want(format!("{:?}", case), self.cases[case as usize], LEAST_CASES);
        }
        for turn in Turn::ALL {
            want(format!("{:?}", turn), self.turns[turn as usize], LEAST_TURNS);
        }
        want("a holder named".into(), self.named, LEAST_LEASES);
        want("a lease renewed".into(), self.renewed, LEAST_LEASES);
        want("a lease passed on".into(), self.passed_on, LEAST_LEASES);
        want("a lease passed on early".into(), self.passed_on_early, LEAST_LEASES);
        lacks
    }

    /// The counts, for a person.
    pub fn print(&self) {
        println!("{} files, {} events", self.files, self.events);
        println!("named {} renewed {}", self.named, self.renewed);
        println!("passed on {}, of which early {}", self.passed_on, self.passed_on_early);
        for (row, kind) in self.answers.iter().zip(ADVANCE_ALL..) {
            println!("answers to {}: {}", kind, numbered(row));
        }
        for (number, offsets) in self.stops.iter().enumerate() {
            if offsets.iter().any(|&times| times > 0) {
                println!("stops by {}, at: {}", number, numbered(offsets));
            }
        }
        for case in Case::ALL {
            println!("{:?}: {}", case, self.cases[case as usize]);
        }
        for turn in Turn::ALL {
            println!("{:?}: {}", turn, self.turns[turn as usize]);
        }
    }
}

pub fn add_all(sums: &mut [u64], others: &[u64]) {
    for (sum, other) in sums.iter_mut().zip(others) {
        *sum += other;
    }
}

fn numbered(row: &[u64]) -> String {
    let met = row.iter().enumerate().filter(|(_, &times)| times > 0);
    met.map(|(number, times)| format!("{}: {}", number, times)).collect::<Vec<_>>().join(", ")
}

/// Looks on at one run.
pub struct Onlooker<'a> {
    coverage: &'a mut Coverage,
    named: Vec<Option<Holder>>,
    last_owner: Option<u8>,
    /// Whoever last named itself.
    last_holder: Option<Holder>,
    /// The turns of the event that comes.
    turns: Vec<Turn>,
    agreement: Agreement,
}

impl<'a> Onlooker<'a> {
    pub fn new(coverage: &'a mut Coverage) -> Onlooker<'a> {
        coverage.files += 1;
        Onlooker {
            coverage,
            named: Vec::new(),
            last_owner: None,
            last_holder: None,
            turns: Vec::new(),
            agreement: Agreement::default(),
        }
    }

    /// The first breach of each kind, with the place of its event.
    pub fn breaches(self) -> Vec<(u64, Breach)> {
        self.agreement.breaches
    }

    fn naming(&mut self, before: Option<Holder>, now: Option<Holder>) {
        let now = match now {
            Some(now) if before != Some(now) => now,
            _ => return,
        };
        match before {
            None => self.coverage.named += 1,
            Some(before) if before.owner == now.owner && before.end < now.end => {
                self.coverage.renewed += 1;
            }
            Some(_) => {}
        }
        if self.last_owner.map_or(false, |last| last != now.owner) {
            self.coverage.passed_on += 1;
        }
        self.last_owner = Some(now.owner);
    }

    /// A host has come to name itself; that is early where no clock is at the last one's end.
    fn holding(&mut self, now: Holder, cell: &Cell) {
        let ended = |last: Holder| cell.hosts.iter().any(|host| last.end.has_come(host.clock));
        let early = |last: Holder| last.owner != now.owner && !ended(last);
        if self.last_holder.map_or(false, early) {
            self.coverage.passed_on_early += 1;
        }
        self.last_holder = Some(now);
    }
}

impl Watch for Onlooker<'_> {
    fn opened(&mut self, cell: &Cell) {
        self.named = cell.hosts.iter().map(|host| host.named).collect();
    }

    fn before(&mut self, event: Event, cell: &Cell) {
        self.turns = Turn::of(event, cell);
        self.agreement.before(event, cell);
    }

    fn event(&mut self, place: u64, kind: u16, answer: u8, cell: &Cell) {
        self.coverage.events += 1;
        self.coverage.answers[usize::from(kind - ADVANCE_ALL)][usize::from(answer)] += 1;
        if let Some(case) = cell.case {
            self.coverage.cases[case as usize] += 1;
        }
        for turn in self.turns.drain(..).filter(|_| answer == DONE) {
            self.coverage.turns[turn as usize] += 1;
        }
        for (at, host) in cell.hosts.iter().enumerate() {
            self.naming(self.named[at], host.named);
            let is_new = host.names_itself() && host.named != self.named[at];
            if let Some(now) = host.named.filter(|_| is_new) {
                self.holding(now, cell);
            }
            self.named[at] = host.named;
        }
        self.agreement.after(place, kind, answer, cell);
    }

    fn stop(&mut self, fault: Fault) {
        let offsets = &mut self.coverage.stops[usize::from(fault.number)];
        if let Some(times) = offsets.get_mut(fault.offset) {
            *times += 1;
        }
    }
}
