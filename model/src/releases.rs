//! Runs that meet releases in all their turns, one after the other, each from a quiet cell. What
//! differs from seed to seed is their order, the settings, and which host has which part.

use crate::builds::Build;
use crate::cell::{Event, Settings, LAST_TICK};
use crate::driver::{Driver, Phase, PHASES};
use crate::message::Body;
use crate::random::Random;

/// Every turn, as a way to go from a quiet cell.
const WAYS: [fn(&mut Releases); 11] = [
    Releases::while_renewing,
    Releases::overtaken,
    Releases::to_waiting,
    Releases::refused,
    Releases::with_no_room,
    Releases::after_own_learn,
    Releases::delivered_twice,
    Releases::after_the_next_holder,
    Releases::beside_anothers_lease,
    Releases::beside_anothers_holder,
    Releases::after_two_rounds_of_others,
];

/// The run of a seed, as the cell of a build goes through it.
pub fn run(seed: u64, build: Build) -> Vec<u8> {
    let mut random = Random::new(seed);
    let settings = settings(&mut random);
    run_in(settings, random, build)
}

/// The same in a cell of these settings, from numbers that go on as they come. With fewer than
/// three hosts, one has several parts.
pub fn run_in(settings: Settings, random: Random, build: Build) -> Vec<u8> {
    let driver = match Driver::open(settings, build) {
        Some(driver) => driver,
        None => return Vec::new(),
    };
    let parts = [0, 1, 2];
    let duration = u64::from(settings.longest - settings.spread);
    let mut releases = Releases { random, driver, parts, duration };
    let mut ways = WAYS.to_vec();
    while !ways.is_empty() {
        let way = ways.swap_remove(releases.random.below(ways.len() as u64) as usize);
        releases.quiet();
        way(&mut releases);
        releases.let_fly();
    }
    releases.driver.bytes
}

/// Three hosts or more, and leases long enough for a few ticks to pass in them.
fn settings(random: &mut Random) -> Settings {
    let n = random.between(3, 9) as u8;
    let longest = random.between(20, 2_000) as u32;
    let spread = random.below(u64::from(longest) - 10) as u32;
    let clock = random.below(LAST_TICK / 2) * random.below(2);
    Settings { n, longest, spread, clock }
}

struct Releases {
    random: Random,
    driver: Driver,
    /// The host that lets go, and two others.
    parts: [u8; 3],
    duration: u64,
}

impl Releases {
    fn n(&self) -> u8 {
        self.driver.cell.rules.n
    }

    /// All hosts but one.
    fn all_but(&self, one: u8) -> Vec<u8> {
        (0..self.n()).filter(|&host| host != one).collect()
    }

    /// Nothing is under way, nobody waits, every lease has ended, and the parts are cast anew.
    fn quiet(&mut self) {
        for slot in self.driver.slots_with(|_| true) {
            self.driver.apply(Event::Lose { slot });
        }
        let rules = self.driver.cell.rules;
        self.driver.advance_all(rules.longest + rules.spread);
        let first = self.random.below(u64::from(rules.n)) as u8;
        let step = if self.random.chance(500) { 1 } else { rules.n - 1 };
        for (place, part) in (0..).zip(&mut self.parts) {
            *part = (first + place * step) % rules.n;
        }
    }

    /// Most of what is under way is delivered, as it comes.
    fn let_fly(&mut self) {
        let mut left = self.driver.slots_with(|_| true);
        while !left.is_empty() {
            let slot = left.swap_remove(self.random.below(left.len() as u64) as usize);
            match self.random.below(5) {
                0 => self.driver.apply(Event::Lose { slot }),
                _ => self.driver.apply(Event::Deliver { slot }),
            };
        }
    }

    /// The first host takes the lease with all, and a tick passes, so that it can let go.
    fn taken(&mut self) {
        self.driver.round(self.parts[0], self.duration, 0..self.n());
        self.driver.advance_all(1);
    }

    /// It has let go for everybody else, and another takes the next lease at once.
    fn pass_on(&mut self) {
        let [from, to, _] = self.parts;
        let others = self.all_but(from);
        self.driver.let_go(from, others.clone());
        self.driver.advance_all(1);
        self.driver.round(to, self.duration, others);
    }

    /// It asks, or proposes, to renew the lease, when it lets go.
    fn while_renewing(&mut self) {
        self.taken();
        let (of, n) = (self.parts[0], self.n());
        self.driver.start(of, self.duration);
        if self.random.chance(500) {
            self.driver.request(of, Phase::Prepare, 0..n);
            self.driver.respond(of, Phase::Prepare, 0..n);
            self.driver.request(of, Phase::Propose, 0..n);
        }
        self.driver.advance_all(1);
        self.driver.release(of);
        self.pass_on();
    }

    /// Another has asked before the release requests come.
    fn overtaken(&mut self) {
        self.taken();
        let [of, other, third] = self.parts;
        self.driver.release(of);
        self.driver.advance_all(1);
        self.driver.start(other, self.duration);
        self.driver.request(other, Phase::Prepare, [other, third]);
        self.driver.let_go(of, [other, third]);
        for phase in PHASES {
            self.driver.request(other, phase, 0..self.n());
            self.driver.respond(other, phase, 0..self.n());
        }
    }

    /// Two receivers have restarted, and now and then whoever let go.
    fn to_waiting(&mut self) {
        self.taken();
        let [of, other, third] = self.parts;
        self.driver.release(of);
        self.driver.apply(Event::Restart { host: other });
        let also = if self.random.chance(500) { of } else { third };
        self.driver.apply(Event::Restart { host: also });
        self.driver.let_go(of, 0..self.n());
    }

    /// 18 for whoever does not name itself, whomever it names; 9 for a waiting one, which names
    /// nobody; 10 in the tick of the round that took the lease, and of a renewal; 5.
    fn refused(&mut self) {
        let [of, other, third] = self.parts;
        self.driver.release(of);
        self.driver.round(of, self.duration, 0..self.n());
        self.driver.learn(of, [other]);
        for host in [of, other, third, self.n()] {
            self.driver.release(host);
        }
        self.driver.advance_all(1);
        self.driver.start(of, self.duration);
        self.driver.release(of);
        self.driver.advance_all(1);
        self.driver.apply(Event::Restart { host: third });
        for host in [third, of, of] {
            self.driver.release(host);
        }
    }

    /// One slot too few is empty, and then just enough.
    fn with_no_room(&mut self) {
        self.taken();
        let (of, n) = (self.parts[0], u32::from(self.n()));
        for _ in n..=self.driver.cell.slots.room() {
            self.driver.repeat(|_| true);
        }
        self.driver.release(of);
        self.driver.advance_one(of, 1);
        self.driver.release(of);
        if let Some(&slot) = self.driver.slots_with(|_| true).first() {
            self.driver.apply(Event::Lose { slot });
        }
        self.driver.release(of);
    }

    /// Another finds the lease and proposes it, and its learn comes to the owner before it lets go
    /// or afterwards.
    fn after_own_learn(&mut self) {
        self.taken();
        let [of, other, _] = self.parts;
        self.driver.round(other, self.duration, 0..self.n());
        self.driver
            .repeat(|message| matches!(message.body, Body::Learn { .. }) && message.target == of);
        self.driver.advance_all(1);
        self.driver.learn(other, [of]);
        self.driver.release(of);
        self.pass_on();
        self.driver.learn(other, [of]);
    }

    /// A learn of the lease comes between two deliveries of a release request.
    fn delivered_twice(&mut self) {
        self.taken();
        let [of, other, _] = self.parts;
        self.driver.release(of);
        for _ in 0..2 {
            self.driver
                .repeat(|message| message.body == Body::ReleaseRequest && message.target == other);
        }
        self.driver.let_go(of, [other]);
        self.driver.learn(of, [other]);
        self.driver.let_go(of, [other, other]);
    }

    /// It has let go and taken the lease again when its release request comes to one that has
    /// learnt of the second.
    fn after_the_next_holder(&mut self) {
        self.taken();
        let [of, other, _] = self.parts;
        let with = self.all_but(other);
        for slot in self.driver.slots_with(|message| message.target == other) {
            self.driver.apply(Event::Lose { slot });
        }
        self.driver.release(of);
        self.driver.let_go(of, with.clone());
        self.driver.advance_all(1);
        self.driver.round(of, self.duration, with);
        self.driver.learn(of, [other]);
        self.driver.let_go(of, [other]);
    }

    /// A lease that a third host has no part in is taken and let go, and the third is told of that.
    fn let_go_beside_the_third(&mut self) {
        let [of, _, third] = self.parts;
        self.driver.advance_all(1);
        self.driver.round(of, self.duration, self.all_but(third));
        self.driver.advance_all(1);
        self.driver.release(of);
        self.driver.let_go(of, [third]);
    }

    /// A third host has accepted another's lease, which no majority has, and is told of the release
    /// of the lease that a majority had.
    fn beside_anothers_lease(&mut self) {
        let [_, other, third] = self.parts;
        self.driver.start(other, self.duration);
        self.driver.request(other, Phase::Prepare, 0..self.n());
        self.driver.respond(other, Phase::Prepare, 0..self.n());
        self.driver.request(other, Phase::Propose, [third]);
        self.let_go_beside_the_third();
    }

    /// A third host still names one that has let go, of which it was not told, when it is told of
    /// the next release.
    fn beside_anothers_holder(&mut self) {
        let [_, other, third] = self.parts;
        self.driver.round(other, self.duration, 0..self.n());
        self.driver.learn(other, [third]);
        self.driver.advance_all(1);
        self.driver.release(other);
        self.driver.let_go(other, self.all_but(third));
        self.let_go_beside_the_third();
    }

    /// Two others have found the lease and proposed it: the first counts its votes when it has
    /// learnt of the second. Then it is let go.
    fn after_two_rounds_of_others(&mut self) {
        self.taken();
        let [of, other, third] = self.parts;
        self.driver.start(other, self.duration);
        self.driver.request(other, Phase::Prepare, 0..self.n());
        self.driver.respond(other, Phase::Prepare, 0..self.n());
        self.driver.request(other, Phase::Propose, 0..self.n());
        self.driver.advance_all(1);
        self.driver.round(third, self.duration, 0..self.n());
        self.driver.learn(third, [other]);
        self.driver.respond(other, Phase::Propose, 0..self.n());
        self.driver.release(of);
        self.pass_on();
    }
}
