//! Run files from seeds. Leases are taken, renewed, lost and passed on, under losses, repeats,
//! restarts and clocks that stray as far as they may; every refusal of an event is sought as well.

use crate::builds::Build;
use crate::cell::{Event, Settings, LAST_TICK, LONGEST, MOST_HOSTS, SLOTS};
use crate::driver::Driver;
use crate::host::{Host, Round};
use crate::listing::LONGEST_FILE;
use crate::message::{Hosts, Message};
use crate::random::Random;
use crate::record::write_settings;

/// How a run is inclined: chances in a thousand, at each event.
struct Temper {
    /// An event that is refused, or at the edge of it.
    refused: u64,
    lose: u64,
    repeat: u64,
    restart: u64,
    /// A host that can let go does so. At 0 none ever does, so that the wider agreement is looked
    /// for in all of the run.
    release: u64,
    /// A start while messages are under way.
    start: u64,
    advance: u64,
    /// An advance as far as to the end of something, and not by a few ticks.
    hasty: u64,
    /// An advance of one clock away from the others.
    stray: u64,
    /// A delivery of the round that is being carried through.
    focus: u64,
    /// Other hosts to carry it through with, so that its two halves have other majorities.
    redraw: u64,
    /// Another round to carry through.
    switch: u64,
    /// A new round at the end of one, its last messages left under way.
    restless: u64,
    /// Slots being filled up from here on.
    filling: u64,
    /// What a host sends to all, or what is on its way to one that restarts, being held back.
    hold: u64,
}

/// So many bytes are left for the records that fill a file to its last byte.
const CLOSING: usize = 40;

/// A run file of a seed, as the cell of some build goes through it.
pub fn run(seed: u64, build: Build) -> Vec<u8> {
    let mut random = Random::new(seed);
    let settings = settings(&mut random);
    run_in(settings, random, build)
}

/// The same in a cell of these settings, from numbers that go on as they come.
pub fn run_in(settings: Settings, mut random: Random, build: Build) -> Vec<u8> {
    let temper = temper(&mut random);
    let length = length(&mut random);
    match Driver::open(settings, build) {
        Some(driver) => {
            let reach = Hosts::all(settings.n);
            let generator =
                Generator { random, driver, temper, focus: None, reach, filling: false, held: 0 };
            generator.fill(length)
        }
        None => settings_alone(settings),
    }
}

fn settings_alone(settings: Settings) -> Vec<u8> {
    let mut bytes = Vec::new();
    write_settings(&mut bytes, settings);
    bytes
}

fn length(random: &mut Random) -> usize {
    let length = match random.below(100) {
        0..=9 => random.between(21, 500),
        10..=74 => random.between(1_000, 6_000),
        75..=94 => random.between(6_000, 16_000),
        95..=97 => random.between(16_000, LONGEST_FILE as u64),
        _ => LONGEST_FILE as u64,
    };
    length as usize
}

/// Settings that opening takes.
pub fn settings(random: &mut Random) -> Settings {
    let n = match random.below(10) {
        0..=3 => 3,
        4 => 5,
        _ => random.between(1, u64::from(MOST_HOSTS)),
    };
    let longest = match random.below(12) {
        0 => 1,
        1 => 2,
        2 => 3,
        3 => u64::from(LONGEST),
        4 => random.between(1, u64::from(LONGEST)),
        5..=7 => random.between(4, 20),
        _ => random.between(20, 1_000),
    };
    let spread = match random.below(6) {
        0 => 0,
        1 => longest - 1,
        2 => longest / 2,
        3 => 1.min(longest - 1),
        _ => random.below(longest),
    };
    let clock = match random.below(20) {
        0..=7 => 0,
        8..=10 => random.below(1_000),
        11..=13 => random.below(LAST_TICK - 100 * longest),
        14..=16 => LAST_TICK - random.between(2, 60) * (longest + spread),
        17 => LAST_TICK - longest - spread - random.below(3),
        18 => LAST_TICK - random.below(longest + spread),
        _ => LAST_TICK - random.below(2),
    };
    Settings { n: n as u8, longest: longest as u32, spread: spread as u32, clock }
}

fn temper(random: &mut Random) -> Temper {
    let rough = random.below(3);
    Temper {
        refused: [10, 40, 120][random.below(3) as usize],
        lose: rough * random.below(60),
        repeat: rough * random.below(80),
        restart: [0, 2, 6, 20][random.below(4) as usize],
        release: [0, 0, 20, 100][random.below(4) as usize],
        start: [2, 10, 50][random.below(3) as usize],
        advance: [2, 10, 30, 100][random.below(4) as usize],
        hasty: random.between(0, 1000),
        stray: random.between(0, 700),
        focus: random.between(300, 990),
        redraw: random.between(0, 200),
        switch: [0, 30, 100, 200][random.below(4) as usize],
        restless: random.between(0, 900),
        filling: [0, 0, 1, 4][random.below(4) as usize],
        hold: [0, 0, 0, 300][random.below(4) as usize],
    }
}

struct Generator {
    random: Random,
    driver: Driver,
    temper: Temper,
    /// The host whose round is being carried through, mostly.
    focus: Option<u8>,
    /// The hosts that it is being carried through with.
    reach: Hosts,
    /// Whether slots are being filled up, until none is empty.
    filling: bool,
    /// The slots that are held back, one bit each.
    held: u128,
}

impl Generator {
    /// Events up to that many bytes; a whole file is filled to its last byte.
    fn fill(mut self, length: usize) -> Vec<u8> {
        while self.driver.bytes.len() + CLOSING < length {
            if self.is_over() {
                return self.driver.bytes;
            }
            let event = self.event();
            self.driver.apply(event);
            self.hold(event);
        }
        if length == LONGEST_FILE {
            self.close();
        }
        self.driver.bytes
    }

    /// At the last tick little can happen, so that a run ends there, soon.
    fn is_over(&mut self) -> bool {
        let ended = self.driver.cell.hosts.iter().all(|host| host.clock == LAST_TICK);
        ended && self.random.chance(30)
    }

    /// The last few records, of 8 and of 5 bytes, so that the file is exactly full.
    fn close(&mut self) {
        while self.driver.bytes.len() < LONGEST_FILE {
            if (LONGEST_FILE - self.driver.bytes.len()) % 5 == 0 {
                let slot = self.any_taken().unwrap_or(0);
                self.driver.apply(Event::Deliver { slot });
            } else {
                self.driver.advance_all(1);
            }
        }
    }

    fn event(&mut self) -> Event {
        if self.random.chance(self.temper.refused) {
            return self.refused();
        }
        if self.filling || self.random.chance(self.temper.filling) {
            return self.filled();
        }
        if self.random.chance(self.temper.restart) {
            return Event::Restart { host: self.host_to_restart() };
        }
        if self.random.chance(self.temper.release) {
            if let Some(host) = self.able_to_let_go() {
                return self.release(host);
            }
        }
        if self.random.chance(self.temper.advance) {
            return self.advance();
        }
        match self.any_taken() {
            Some(slot) => self.message_event(slot),
            None => self.start_or_advance(),
        }
    }

    /// What befalls a message under way; a start now and then between.
    fn message_event(&mut self, slot: u8) -> Event {
        if self.random.chance(self.temper.lose) {
            return Event::Lose { slot };
        }
        if self.random.chance(self.temper.repeat) {
            return Event::Repeat { slot };
        }
        if self.random.chance(self.temper.start) {
            return self.start_or_advance();
        }
        if self.driver.cell.slots.taken() > 60 && self.random.chance(300) {
            return Event::Lose { slot };
        }
        match self.focused() {
            Some(slot) => Event::Deliver { slot },
            None if self.focus.is_none() && self.random.chance(self.temper.restless) => {
                self.start_or_advance()
            }
            None => Event::Deliver { slot },
        }
    }

    /// Holds messages back after an event; lets them go when most leases have ended, or slots are
    /// few.
    fn hold(&mut self, event: Event) {
        if self.driver.cell.slots.room() < SLOTS as u32 / 2 {
            self.held = 0;
        }
        let tick = |host: u8| self.driver.cell.hosts.get(usize::from(host))?.last_tick;
        let slots = match event {
            Event::AdvanceAll { .. } | Event::AdvanceOne { .. } => return self.let_go_of_held(),
            _ if !self.random.chance(self.temper.hold) => return,
            Event::Start { host, .. } | Event::Release { host } => self.taken(|message| {
                message.ballot.host == host && tick(host) == Some(message.ballot.tick)
            }),
            Event::Restart { host } => self.taken(|message| message.target == host),
            _ => return,
        };
        self.held = slots.iter().fold(self.held, |held, slot| held | 1 << slot);
    }

    fn let_go_of_held(&mut self) {
        let keepers = self.hosts(|host| host.accepted.is_some()).len();
        if self.held != 0 && keepers * 2 < self.driver.cell.hosts.len() {
            self.held = 0;
            self.switch_focus();
        }
    }

    fn taken(&self, wanted: impl Fn(&Message) -> bool) -> Vec<u8> {
        let mut slots = self.driver.slots_with(wanted);
        slots.retain(|slot| self.held >> slot & 1 == 0);
        slots
    }

    fn any_taken(&mut self) -> Option<u8> {
        let taken = self.taken(|_| true);
        self.random.pick(&taken).copied()
    }

    /// A slot of the round that is being carried through, or of what its host has to tell.
    fn focused(&mut self) -> Option<u8> {
        if !self.random.chance(self.temper.focus) {
            return None;
        }
        if self.random.chance(self.temper.redraw) {
            self.draw_reach();
        }
        if self.random.chance(self.temper.switch) {
            self.switch_focus();
        }
        let (focus, reach) = (self.focus?, self.reach);
        let last = self.driver.cell.hosts.get(usize::from(focus))?.last_tick?;
        let taken = self.taken(|message| {
            let of_round = message.ballot.host == focus && message.ballot.tick == last;
            let other = if message.target == focus { message.sender } else { message.target };
            of_round && reach.has(other)
        });
        if taken.is_empty() {
            self.focus = None;
        }
        self.random.pick(&taken).copied()
    }

    /// To another round that is not done yet, or to a new one.
    fn switch_focus(&mut self) {
        let busy = self.hosts(|host| !matches!(host.round, Round::Idle));
        self.focus = match self.random.chance(300) {
            true => None,
            false => self.random.pick(&busy).copied(),
        };
        self.draw_reach();
    }

    /// All hosts, or just a majority.
    fn draw_reach(&mut self) {
        let rules = self.driver.cell.rules;
        self.reach = Hosts::all(rules.n);
        if self.random.chance(300) {
            return;
        }
        while self.reach.size() > rules.majority() {
            self.reach = self.reach.without(self.any_host());
        }
    }

    fn any_host(&mut self) -> u8 {
        self.random.below(u64::from(self.driver.cell.rules.n)) as u8
    }

    fn hosts(&self, wanted: impl Fn(&Host) -> bool) -> Vec<u8> {
        let hosts = self.driver.cell.hosts.iter();
        hosts.filter(|host| wanted(host)).map(|host| host.number).collect()
    }

    /// Mostly one that has promised and not accepted, or is in the middle of a round.
    fn host_to_restart(&mut self) -> u8 {
        let between = self.hosts(|host| {
            let promised = host.promised.is_some() && host.accepted.is_none();
            promised || !matches!(host.round, Round::Idle)
        });
        match self.random.pick(&between) {
            Some(&host) if self.random.chance(700) => host,
            _ => self.any_host(),
        }
    }

    fn able_to_start(&self) -> Vec<u8> {
        self.hosts(|host| !host.waits() && host.last_tick.map_or(true, |last| host.clock > last))
    }

    fn able_to_let_go(&mut self) -> Option<u8> {
        if self.temper.release == 0 {
            return None;
        }
        let able = self.able_to_start();
        let holders = self.hosts(|host| host.names_itself() && able.contains(&host.number));
        self.random.pick(&holders).copied()
    }

    /// Its release requests are delivered next, or as any others.
    fn release(&mut self, host: u8) -> Event {
        self.focus = Some(host).filter(|_| self.random.chance(500));
        self.draw_reach();
        Event::Release { host }
    }

    fn duration(&mut self) -> u32 {
        let most = self.driver.cell.rules.longest - self.driver.cell.rules.spread;
        let duration = match self.random.below(5) {
            0 => 1,
            1 | 2 => most,
            _ => self.random.between(1, most),
        };
        duration as u32
    }

    /// A host that can start: the holder, to renew, or one that is idle, or any.
    fn starter(&mut self) -> Option<u8> {
        let able = self.able_to_start();
        let owners = self.driver.cell.owners();
        let idle = self.hosts(|host| matches!(host.round, Round::Idle));
        let mut preferred = able.clone();
        match self.random.below(10) {
            0..=2 => preferred.retain(|&host| owners.has(host)),
            3..=7 => preferred.retain(|host| idle.contains(host)),
            _ => {}
        }
        self.random.pick(&preferred).or_else(|| able.first()).copied()
    }

    fn start_or_advance(&mut self) -> Event {
        match self.starter() {
            Some(host) => {
                self.focus = Some(host);
                self.draw_reach();
                Event::Start { host, duration: self.duration() }
            }
            None => self.advance(),
        }
    }

    /// Ticks until something of a host ends: its wait, its accepted lease, its named holder, or the
    /// lease of its round; one less or more now and then.
    fn ticks_to_moment(&mut self, host: u8) -> Option<u64> {
        let host = self.driver.cell.hosts.get(usize::from(host))?;
        let mut ends = vec![host.wait_end];
        ends.extend(host.accepted.map(|lease| lease.end.0));
        ends.extend(host.named.map(|holder| holder.end.0));
        match host.round {
            Round::Idle => {}
            Round::Asking { own_end: end, .. } | Round::Proposing { end, .. } => {
                ends.push(end.0);
                ends.push(end.0.saturating_sub(self.driver.cell.rules.spread));
            }
        }
        let clock = host.clock;
        ends.retain(|&end| end > clock);
        let ticks = self.random.pick(&ends)? - clock;
        Some(match self.random.below(4) {
            0 => ticks + 1,
            1 => (ticks - 1).max(1),
            _ => ticks,
        })
    }

    fn advance(&mut self) -> Event {
        let host = self.any_host();
        if self.random.chance(self.temper.stray) {
            return self.stray(host);
        }
        let waiting = self.hosts(Host::waits).len() * 2 > self.driver.cell.hosts.len();
        let hasty = self.random.chance(if waiting { 600 } else { self.temper.hasty });
        let longest = self.driver.cell.rules.longest;
        let ticks = match self.random.below(8) {
            _ if !hasty => self.random.between(1, 3),
            0 | 1 if !waiting => self.random.between(1, longest / 4 + 1),
            2 if !waiting => self.random.between(1, longest),
            _ => self.ticks_to_moment(host).unwrap_or(1),
        };
        Event::AdvanceAll { ticks: ticks.min(self.ticks_left()).min(u64::from(u32::MAX)) as u32 }
    }

    /// How far all clocks can go, or 1 where they cannot.
    fn ticks_left(&self) -> u64 {
        let clocks = self.driver.cell.hosts.iter().map(|host| host.clock);
        (LAST_TICK - clocks.max().unwrap_or(0)).max(1)
    }

    /// One clock as far ahead of the last as it may go, or less; or the last one after the others.
    fn stray(&mut self, host: u8) -> Event {
        let rules = self.driver.cell.rules;
        let clocks: Vec<u64> = self.driver.cell.hosts.iter().map(|host| host.clock).collect();
        let clock = clocks[usize::from(host)];
        let others = clocks.iter().enumerate().filter(|(at, _)| *at != usize::from(host));
        let last = others.map(|(_, clock)| *clock).min().unwrap_or(clock);
        let most = (last + rules.spread).min(LAST_TICK).saturating_sub(clock);
        if most == 0 {
            let behind = clocks.iter().position(|&clock| clock == last).unwrap_or(0) as u8;
            return Event::AdvanceOne { host: behind, ticks: 1 + rules.spread as u32 / 2 };
        }
        let ticks = match self.random.below(4) {
            0 => self.random.between(1, most),
            1 => self.ticks_to_moment(host).unwrap_or(most).min(most),
            _ => most,
        };
        Event::AdvanceOne { host, ticks: ticks as u32 }
    }

    /// Repeats until no slot is empty, then what has no room there.
    fn filled(&mut self) -> Event {
        self.filling = true;
        let slot = match self.any_taken() {
            Some(slot) => slot,
            None => return self.start_or_advance(),
        };
        let room = SLOTS as u32 - self.driver.cell.slots.taken();
        if room > u32::from(self.driver.cell.rules.n) {
            return Event::Repeat { slot };
        }
        match self.random.below(20) {
            0 => {
                self.filling = false;
                Event::Lose { slot }
            }
            1..=4 => Event::Repeat { slot },
            5 | 6 => self.start_or_advance(),
            7 | 8 => match self.able_to_let_go() {
                Some(host) => self.release(host),
                None => Event::Repeat { slot },
            },
            _ => Event::Deliver { slot: self.focused().unwrap_or(slot) },
        }
    }

    /// An event that is refused, or at the edge of it.
    fn refused(&mut self) -> Event {
        let rules = self.driver.cell.rules;
        let host = self.any_host();
        let no_host = self.random.between(u64::from(rules.n), 255) as u8;
        let duration = self.duration();
        match self.random.below(19) {
            0 => Event::Start { host: no_host, duration },
            1 => Event::AdvanceOne { host: no_host, ticks: 1 },
            2 => Event::Restart { host: no_host },
            3 => Event::Start { host, duration: 0 },
            4 => Event::Start { host, duration: (rules.longest - rules.spread) as u32 + 1 },
            5 | 6 => self.start_of_one_unable(duration),
            7 => Event::AdvanceAll { ticks: 0 },
            8 => Event::AdvanceOne { host, ticks: 0 },
            9 => Event::AdvanceAll { ticks: self.past_the_last_tick(host) },
            10 => Event::AdvanceOne { host, ticks: self.past_the_last_tick(host) },
            11 | 12 => self.past_the_spread(host),
            13 => Event::Deliver { slot: self.empty_slot() },
            14 => Event::Lose { slot: self.empty_slot() },
            15 => Event::Release { host: no_host },
            16 => self.release_of_one_unable(no_host),
            17 if self.temper.release > 0 => Event::Release { host },
            _ => Event::Repeat { slot: self.empty_slot() },
        }
    }

    fn start_of_one_unable(&mut self, duration: u32) -> Event {
        let able = self.able_to_start();
        let unable = self.hosts(|host| !able.contains(&host.number));
        match self.random.pick(&unable) {
            Some(&host) => Event::Start { host, duration },
            None => Event::Start { host: self.any_host(), duration },
        }
    }

    /// A holder that took its last ballot in this tick, or a waiting host; where there is neither,
    /// no host.
    fn release_of_one_unable(&mut self, no_host: u8) -> Event {
        let able = self.able_to_start();
        let unable = self
            .hosts(|host| (host.waits() || host.names_itself()) && !able.contains(&host.number));
        Event::Release { host: self.random.pick(&unable).copied().unwrap_or(no_host) }
    }

    /// So many ticks, or one less, that a clock would pass 2^48, where a record can say so many.
    fn past_the_last_tick(&mut self, host: u8) -> u32 {
        let left = LAST_TICK - self.driver.cell.hosts[usize::from(host)].clock;
        match u32::try_from(left + 1) {
            Ok(ticks) if self.random.chance(990) => ticks,
            Ok(ticks) => ticks.saturating_sub(1),
            Err(_) => 0,
        }
    }

    /// One tick more than the spread allows, where a record can say so many.
    fn past_the_spread(&mut self, host: u8) -> Event {
        let rules = self.driver.cell.rules;
        let clock = self.driver.cell.hosts[usize::from(host)].clock;
        let others = self.driver.cell.hosts.iter().filter(|other| other.number != host);
        let last = others.map(|other| other.clock).min().unwrap_or(clock);
        let ticks = last + rules.spread + 1 - clock;
        Event::AdvanceOne { host, ticks: ticks as u32 }
    }

    fn empty_slot(&mut self) -> u8 {
        let slots = SLOTS as u64;
        let past = self.random.between(slots, 255) as u8;
        let slot = self.random.below(slots) as u8;
        let edge = SLOTS as u8 - self.random.below(2) as u8;
        match self.random.below(4) {
            0 => past,
            1 => edge,
            _ if self.driver.cell.slots.get(slot).is_none() => slot,
            _ => past,
        }
    }
}
