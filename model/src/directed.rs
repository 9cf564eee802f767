//! One run for each build that breaks a rule of the cell, in which it breaks agreement, or is
//! listed otherwise than the right one; what differs from seed to seed is the settings. In the
//! right build each is a run like any other.

use crate::builds::Build;
use crate::cell::{Event, Settings, LAST_TICK};
use crate::driver::{is_response, Driver, Phase, PHASES};
use crate::random::Random;

/// The run for the wrong build at that place of `WRONG`, as the cell of a build goes through it.
pub fn run(seed: u64, of: usize, build: Build) -> Vec<u8> {
    run_in(settings(&mut Random::new(seed)), of, build)
}

/// The same in a cell of these settings.
pub fn run_in(settings: Settings, of: usize, build: Build) -> Vec<u8> {
    let duration = u64::from(settings.longest - settings.spread);
    let mut driver = match Driver::open(settings, build) {
        Some(driver) => driver,
        None => return Vec::new(),
    };
    driver.advance_all(u64::from(settings.longest) + u64::from(settings.spread));
    match of {
        0 => accepted_over(&mut driver, duration),
        1 => answered_by_itself(&mut driver, duration),
        2 => named_behind_the_others(&mut driver, duration),
        3 => answered_before_a_restart(&mut driver, duration),
        4 => told_of_its_own_lease(&mut driver, duration),
        5 => let_go_in_a_round(&mut driver, duration),
        6 => let_go_by_the_others(&mut driver, duration),
        7 => let_go_after_the_next(&mut driver, duration),
        8 => told_of_an_ended_lease_last(&mut driver, duration),
        9 | 10 => told_after_a_release(&mut driver, duration),
        11 => told_of_a_higher_ended_lease(&mut driver, duration),
        _ => asked_ahead(&mut driver, duration),
    }
    driver.bytes
}

/// An odd number of hosts, 3 to 9, and leases long enough for a few ticks to pass in them.
fn settings(random: &mut Random) -> Settings {
    let n = 2 * random.between(1, 4) as u8 + 1;
    let longest = random.between(20, 2_000) as u32;
    let spread = random.between(1, u64::from(longest) - 10) as u32;
    let clock = match random.below(3) {
        0 => 0,
        1 => random.below(LAST_TICK / 2),
        _ => LAST_TICK - 10 * u64::from(longest),
    };
    Settings { n, longest, spread, clock }
}

/// Host 0 is accepted by hosts that have not seen its ballot before, and have promised a lower one
/// of another host. That one is accepted over it there, and then finds its own lease with a
/// majority that has nothing of host 0's.
fn accepted_over(driver: &mut Driver, duration: u64) {
    let n = driver.cell.rules.n;
    let other = n / 2 + 1;
    let with_other = || (other..n).chain([1]);
    let with_first = || (other..n).chain([0]);
    driver.start(other, duration);
    driver.request(other, Phase::Prepare, with_other());
    driver.respond(other, Phase::Prepare, with_other());
    driver.advance_all(1);
    driver.start(0, duration);
    driver.request(0, Phase::Prepare, 0..other);
    driver.respond(0, Phase::Prepare, 0..other);
    driver.request(0, Phase::Propose, with_first());
    driver.respond(0, Phase::Propose, with_first());
    driver.request(other, Phase::Propose, other..n);
    driver.advance_all(1);
    driver.round(other, duration, with_other());
}

/// Host 0 takes a lease by its own responses, repeated, and so does host 1.
fn answered_by_itself(driver: &mut Driver, duration: u64) {
    let majority = driver.cell.rules.majority();
    for host in [0, 1] {
        driver.start(host, duration);
        for phase in PHASES {
            driver.request(host, phase, [host]);
            for _ in 1..majority {
                driver.repeat(|message| is_response(message, phase, host, host));
            }
            for _ in 0..majority {
                driver.respond(host, phase, [host]);
            }
        }
        driver.advance_all(1);
    }
}

/// Host 0's clock is behind by the whole spread when its lease ends for the others, which give the
/// next one to host 1.
fn named_behind_the_others(driver: &mut Driver, duration: u64) {
    let n = driver.cell.rules.n;
    let spread = driver.cell.rules.spread;
    driver.round(0, duration, 0..n);
    driver.advance_all(duration);
    for host in 1..n {
        driver.advance_one(host, spread);
    }
    driver.round(1, duration, 1..n);
}

/// The responses of all others to host 0 are under way when it restarts, and answer it once more
/// when it is back and host 1 holds the lease.
fn answered_before_a_restart(driver: &mut Driver, duration: u64) {
    let rules = driver.cell.rules;
    let others = 1..rules.n;
    driver.start(0, duration);
    driver.request(0, Phase::Prepare, others.clone());
    for host in others.clone() {
        driver.repeat(|message| is_response(message, Phase::Prepare, host, 0));
    }
    driver.respond(0, Phase::Prepare, others.clone());
    driver.request(0, Phase::Propose, others.clone());
    driver.apply(Event::Restart { host: 0 });
    driver.advance_all(rules.longest + rules.spread);
    driver.round(1, duration, others.clone());
    driver.start(0, duration);
    driver.respond(0, Phase::Prepare, others.clone());
    driver.respond(0, Phase::Propose, others);
}

/// Host 1 finds host 0's lease and proposes it, and its learn to host 0 is held back until host 0
/// has let go and host 2 holds the next one.
fn told_of_its_own_lease(driver: &mut Driver, duration: u64) {
    let n = driver.cell.rules.n;
    driver.round(0, duration, 0..n);
    driver.advance_all(1);
    driver.round(1, duration, 0..n);
    driver.advance_all(1);
    driver.release(0);
    driver.let_go(0, 0..n);
    driver.round(2, duration, 1..n);
    driver.learn(1, [0]);
}

/// Host 0 lets go while all have accepted its renewal, and counts their responses when host 2 holds
/// the next lease.
fn let_go_in_a_round(driver: &mut Driver, duration: u64) {
    let n = driver.cell.rules.n;
    driver.round(0, duration, 0..n);
    driver.advance_all(1);
    driver.start(0, duration);
    driver.request(0, Phase::Prepare, 0..n);
    driver.respond(0, Phase::Prepare, 0..n);
    driver.request(0, Phase::Propose, 0..n);
    driver.advance_all(1);
    driver.release(0);
    driver.let_go(0, 1..n);
    driver.round(2, duration, 1..n);
    for sender in 0..n {
        driver.deliver(|message| is_response(message, Phase::Propose, sender, 0));
    }
}

/// Host 0 lets go, and its own release request is held back; host 2 takes the next lease.
fn let_go_by_the_others(driver: &mut Driver, duration: u64) {
    let n = driver.cell.rules.n;
    driver.round(0, duration, 0..n);
    driver.advance_all(1);
    driver.release(0);
    driver.let_go(0, 1..n);
    driver.round(2, duration, 1..n);
}

/// Host 1, its clock behind by the whole spread, asks before host 0 lets go, and is answered when
/// host 0's lease has ended for the others: its lease has a ballot below the release's, which comes
/// to them only then. Host 0 asks once more.
fn let_go_after_the_next(driver: &mut Driver, duration: u64) {
    let rules = driver.cell.rules;
    let others = || (0..rules.n).filter(|&host| host != 1);
    driver.round(0, 2, 0..rules.n);
    driver.start(1, duration);
    driver.advance_all(1);
    driver.release(0);
    driver.advance_all(1);
    for host in others() {
        driver.advance_one(host, rules.spread);
    }
    for phase in PHASES {
        driver.request(1, phase, others());
        driver.respond(1, phase, others());
    }
    driver.let_go(0, others());
    driver.round(0, duration, others());
}

/// The lease of the last host has ended for all others, whose clocks are ahead by the whole spread,
/// and which give the next one to host 0. Host 1 is told of that one first, and last, by the host
/// behind, of the one that has ended.
fn told_of_an_ended_lease_last(driver: &mut Driver, duration: u64) {
    let rules = driver.cell.rules;
    let behind = rules.n - 1;
    driver.round(behind, 2, 0..rules.n);
    driver.advance_all(2);
    for host in 0..behind {
        driver.advance_one(host, rules.spread);
    }
    driver.round(0, duration, 0..behind);
    driver.round(1, duration, (1..rules.majority() as u8).chain([behind]));
}

/// Host 0 lets go, and host 1 takes the next lease, of which it tells all others. When that has
/// ended everywhere, host 2 takes one.
fn told_after_a_release(driver: &mut Driver, duration: u64) {
    let rules = driver.cell.rules;
    driver.round(0, duration, 0..rules.n);
    driver.advance_all(1);
    driver.release(0);
    driver.let_go(0, 0..rules.n);
    driver.round(1, duration, 0..rules.n);
    driver.learn(1, (0..rules.n).filter(|&host| host != 1));
    driver.advance_all(duration + rules.spread);
    driver.round(2, duration, 0..rules.n);
}

/// The last host alone has accepted a lease of host 0, and host 0 alone a shorter one of host 1
/// with a higher ballot. Host 1, ahead by the whole spread, is told of the first and then of the
/// second, which has ended for it alone.
fn told_of_a_higher_ended_lease(driver: &mut Driver, duration: u64) {
    let rules = driver.cell.rules;
    let last = rules.n - 1;
    let asked = |driver: &mut Driver, host, duration| {
        driver.start(host, duration);
        driver.request(host, Phase::Prepare, 0..last);
        driver.respond(host, Phase::Prepare, 0..last);
    };
    asked(driver, 0, duration);
    driver.request(0, Phase::Propose, [last]);
    driver.advance_all(1);
    asked(driver, 1, 2);
    driver.request(1, Phase::Propose, [0]);
    driver.advance_all(2);
    driver.advance_one(1, rules.spread);
    driver.round(1, duration, [last].into_iter().chain(0..last));
}

/// Host 0's lease ends for host 1 alone, ahead by the whole spread, which asks as many hosts as are
/// a majority.
fn asked_ahead(driver: &mut Driver, duration: u64) {
    let rules = driver.cell.rules;
    driver.round(0, duration, 0..rules.n);
    driver.advance_all(duration);
    driver.advance_one(1, rules.spread);
    driver.round(1, duration, 0..rules.majority() as u8);
}
