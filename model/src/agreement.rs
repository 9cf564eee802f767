//! Agreement, looked for after every event: document 01's as long as nobody has let go of a lease,
//! and as document 02 narrows it.

use crate::breach::Breach;
use crate::cell::{Cell, Event};
use crate::host::Host;
use crate::message::{Holder, Hosts};
use crate::past::Past;
use crate::record::RELEASE;
use crate::refusal::DONE;

/// Looks at a cell before and after each event.
#[derive(Default)]
pub struct Agreement {
    past: Past,
    /// The hosts that name nobody in the line of a release.
    shown_free: Hosts,
    /// The first breach of each kind, with the place of its event.
    pub breaches: Vec<(u64, Breach)>,
}

impl Agreement {
    pub fn before(&mut self, event: Event, cell: &Cell) {
        self.past.before(event, cell);
    }

    pub fn after(&mut self, place: u64, kind: u16, answer: u8, cell: &Cell) {
        self.past.after(answer, cell);
        for breach in Breach::ALL {
            let is_known = self.breaches.iter().any(|(_, known)| *known == breach);
            if !is_known && self.is_met(breach, cell) {
                self.breaches.push((place, breach));
            }
        }
        if kind == RELEASE && answer == DONE {
            let free = cell.hosts.iter().filter(|host| host.named.is_none());
            self.shown_free = free.fold(self.shown_free, |free, host| free.with(host.number));
        }
    }

    fn is_met(&self, breach: Breach, cell: &Cell) -> bool {
        match breach {
            Breach::TwoHolders => cell.hosts.iter().filter(|host| host.names_itself()).count() > 1,
            Breach::TwoNames => !self.past.has_release() && cell.owners().size() > 1,
            Breach::PastItsEnd => cell.hosts.iter().any(names_past_its_end),
            Breach::NotLetGo => cell.owners().size() > 1 && self.has_two_apart(cell),
            Breach::NotWon => {
                names(cell).any(|holder| !self.past.was_won(holder.lease(cell.rules.spread)))
            }
            Breach::NotAccepted => names(cell).any(|holder| {
                let acceptors = self.past.acceptors(holder.lease(cell.rules.spread));
                acceptors.size() < cell.rules.majority()
            }),
            Breach::NoEarlierLine => {
                cell.owners().filter(|&owner| !self.shown_free.has(owner)).count() > 1
            }
        }
    }

    fn has_two_apart(&self, cell: &Cell) -> bool {
        names(cell).any(|one| names(cell).any(|other| !self.may_both_be_named(one, other)))
    }

    fn may_both_be_named(&self, one: Holder, other: Holder) -> bool {
        let let_go = |low: Holder, high: Holder| {
            low.ballot < high.ballot && self.past.has_let_go(low.owner, low.ballot)
        };
        one.owner == other.owner || let_go(one, other) || let_go(other, one)
    }
}

fn names(cell: &Cell) -> impl Iterator<Item = Holder> + '_ {
    cell.hosts.iter().filter_map(|host| host.named)
}

fn names_past_its_end(host: &Host) -> bool {
    host.named.map_or(false, |holder| holder.end.has_come(host.clock))
}

#[cfg(test)]
mod tests {
    use super::*;
    use crate::builds::RIGHT;
    use crate::cell::Settings;
    use crate::driver::Driver;
    use crate::listing::{list, Watch};
    use crate::message::{Ballot, HoldersEnd};
    use crate::record::LOSE;
    use crate::refusal::SLOT;
    use Breach::*;

    /// Looks on, and keeps the last cell.
    #[derive(Default)]
    struct Looking {
        agreement: Agreement,
        last: Option<Cell>,
    }

    impl Watch for Looking {
        fn before(&mut self, event: Event, cell: &Cell) {
            self.agreement.before(event, cell);
        }

        fn event(&mut self, place: u64, kind: u16, answer: u8, cell: &Cell) {
            self.agreement.after(place, kind, answer, cell);
            self.last = Some(cell.clone());
        }
    }

    /// Host 0 has taken a lease by (105,0) up to 155, and now it is 106.
    fn taken() -> Driver {
        let settings = Settings { n: 3, longest: 100, spread: 5, clock: 0 };
        let mut driver = Driver::open(settings, RIGHT).unwrap();
        driver.advance_all(105);
        driver.round(0, 50, 0..3);
        driver.advance_all(1);
        driver
    }

    /// It has let go with (106,0), and host 1 has taken the next one by (106,1) up to 156.
    fn passed_on(mut driver: Driver) -> Driver {
        driver.release(0);
        driver.let_go(0, 0..3);
        driver.round(1, 50, 0..3);
        driver
    }

    /// The breaches that there are when host 2 is made to name this holder after a run.
    fn met(run: Driver, (tick, host): (u64, u8), owner: u8, end: u64) -> Vec<Breach> {
        let mut looking = Looking::default();
        list(&run.bytes, RIGHT, &mut looking);
        let Looking { mut agreement, last } = looking;
        assert_eq!(agreement.breaches, []);
        let mut cell = last.unwrap();
        let (ballot, end) = (Ballot { tick, host }, HoldersEnd(end));
        cell.hosts[2].named = Some(Holder { ballot, owner, end });
        agreement.after(0, LOSE, SLOT, &cell);
        agreement.breaches.into_iter().map(|(_, breach)| breach).collect()
    }

    #[test]
    fn whoever_is_named_holds_a_lease_that_was_won_and_accepted() {
        assert_eq!(met(taken(), (105, 0), 0, 155), []);
        assert_eq!(met(taken(), (105, 0), 0, 156), [NotWon, NotAccepted]);
        assert_eq!(met(taken(), (105, 0), 0, 154), [NotWon, NotAccepted]);
        assert_eq!(met(taken(), (104, 0), 0, 155), [NotWon, NotAccepted]);
        assert_eq!(met(taken(), (105, 0), 0, 106), [PastItsEnd, NotWon, NotAccepted]);
        let two = [TwoNames, NotLetGo, NotWon, NotAccepted, NoEarlierLine];
        assert_eq!(met(taken(), (105, 0), 1, 155), two);
        assert_eq!(met(taken(), (105, 0), 2, 155), [&[TwoHolders], &two[..]].concat());
    }

    #[test]
    fn beside_the_holder_whoever_is_named_has_let_go() {
        assert_eq!(met(passed_on(taken()), (105, 0), 0, 155), []);
        assert_eq!(met(passed_on(taken()), (106, 1), 1, 156), []);
        for ballot in [(106, 0), (106, 1), (107, 0)] {
            let breaches = met(passed_on(taken()), ballot, 0, 156);
            assert_eq!(breaches, [NotLetGo, NotWon, NotAccepted], "{:?}", ballot);
        }
    }

    #[test]
    fn a_line_with_two_names_comes_after_one_in_which_one_of_them_is_free() {
        let learnt = || {
            let mut driver = taken();
            driver.learn(0, [1, 2]);
            driver
        };
        assert_eq!(met(passed_on(learnt()), (105, 0), 0, 155), []);
        let breaches = met(passed_on(learnt()), (106, 1), 2, 156);
        assert_eq!(breaches, [TwoHolders, NotLetGo, NotWon, NotAccepted, NoEarlierLine]);
    }
}
