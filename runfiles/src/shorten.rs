//! A run made short by dropping events while it still shows what it was kept for. An event about a
//! message goes on to be about that message, in whatever slot it then is; advances are joined.

use model::builds::Build;
use model::cell::{Cell, Event, Settings, SLOTS};
use model::record::{write_event, write_settings};
use model::refusal::DONE;

use crate::reading::Reading;

/// The shortest file found that still shows it.
pub fn shortened(bytes: &[u8], build: Build, shows: impl Fn(&[u8]) -> bool) -> Vec<u8> {
    let reading = Reading::of(bytes);
    let head = reading.settings.map_or(Vec::new(), settings_bytes);
    let whole = |events: &[Event], rest: &[u8]| [&head, &events_bytes(events), rest].concat();
    let mut events = reading.events.clone();
    if let Some(cell) = reading.settings.and_then(|settings| Cell::open(settings, build).ok()) {
        let shown = |steps: &[Step]| {
            let events = events_of(&cell, steps);
            let still = shows(&whole(&events, reading.rest()));
            Some(events).filter(|_| still).map(|events| steps_of(&cell, &events))
        };
        let steps = least(steps_of(&cell, &events), shown);
        events = steps.iter().map(|step| step.event).collect();
    }
    let shown = |rest: &[u8]| Some(rest.to_vec()).filter(|rest| shows(&whole(&events, rest)));
    let rest = dropped(reading.rest().to_vec(), &shown);
    whole(&events, &rest)
}

fn settings_bytes(settings: Settings) -> Vec<u8> {
    let mut bytes = Vec::new();
    write_settings(&mut bytes, settings);
    bytes
}

fn events_bytes(events: &[Event]) -> Vec<u8> {
    let mut bytes = Vec::new();
    for &event in events {
        write_event(&mut bytes, event);
    }
    bytes
}

/// What is left when no item can be dropped any more: halves first, then less and less at a time.
/// `shown` is handed what would be left and gives it back, or less, if that still shows.
fn dropped<T: Clone>(mut items: Vec<T>, shown: &impl Fn(&[T]) -> Option<Vec<T>>) -> Vec<T> {
    let mut at_once = items.len();
    while at_once > 0 {
        let length = items.len();
        items = passed(items, at_once, shown);
        if at_once > 1 || items.len() == length {
            at_once /= 2;
        }
    }
    items
}

/// One pass over all items, so many at once, from the last to the first: what comes late is needed
/// least.
fn passed<T: Clone>(
    mut items: Vec<T>,
    at_once: usize,
    shown: &impl Fn(&[T]) -> Option<Vec<T>>,
) -> Vec<T> {
    let mut end = items.len();
    while end > 0 {
        let start = end.saturating_sub(at_once);
        let left = [&items[..start], &items[end..]].concat();
        if let Some(left) = shown(&left) {
            items = left;
        }
        end = start.min(items.len());
    }
    items
}

/// Pairs are tried up to so many items; beyond that they are too many.
const FEW: usize = 64;

/// What is left when neither one nor two items can be dropped.
fn without_pairs<T: Clone>(mut items: Vec<T>, shown: &impl Fn(&[T]) -> Option<Vec<T>>) -> Vec<T> {
    let mut first = 0;
    while items.len() <= FEW && first < items.len() {
        let without = |second: usize| {
            let parts = [&items[..first], &items[first + 1..second], &items[second + 1..]];
            shown(&parts.concat())
        };
        match (first + 1..items.len()).find_map(without) {
            Some(left) => items = left,
            None => first += 1,
        }
    }
    items
}

/// What is left when no advances can be joined either: dropping and joining help one another.
fn least(mut steps: Vec<Step>, shown: impl Fn(&[Step]) -> Option<Vec<Step>>) -> Vec<Step> {
    loop {
        let length = steps.len();
        steps = dropped(steps, &shown);
        steps = joined(of_all(steps, &shown), &shown);
        steps = without_pairs(steps, &shown);
        if steps.len() == length {
            return steps;
        }
    }
}

/// Each advance of one clock made one of all, where it still shows: those can be joined.
fn of_all(mut steps: Vec<Step>, shown: &impl Fn(&[Step]) -> Option<Vec<Step>>) -> Vec<Step> {
    for at in 0..steps.len() {
        if let Some(Step { event: Event::AdvanceOne { ticks, .. }, .. }) = steps.get(at).copied() {
            let mut other = steps.clone();
            other[at].event = Event::AdvanceAll { ticks };
            steps = shown(&other).unwrap_or(steps);
        }
    }
    steps
}

/// Each advance put off to the next one of the same clocks, where it still shows.
fn joined(mut steps: Vec<Step>, shown: &impl Fn(&[Step]) -> Option<Vec<Step>>) -> Vec<Step> {
    let mut at = 0;
    while at < steps.len() {
        match joined_at(&steps, at).and_then(|left| shown(&left)) {
            Some(left) => steps = left,
            None => at += 1,
        }
    }
    steps
}

fn joined_at(steps: &[Step], at: usize) -> Option<Vec<Step>> {
    let later = |&next: &usize| sum(steps[at].event, steps[next].event).is_some();
    let next = (at + 1..steps.len()).find(later)?;
    let mut left = steps.to_vec();
    left[next].event = sum(steps[at].event, steps[next].event)?;
    left.remove(at);
    Some(left)
}

/// Two advances of the same clocks as one.
fn sum(first: Event, second: Event) -> Option<Event> {
    match (first, second) {
        (Event::AdvanceAll { ticks }, Event::AdvanceAll { ticks: more }) => {
            Some(Event::AdvanceAll { ticks: ticks.checked_add(more)? })
        }
        (Event::AdvanceOne { host, ticks }, Event::AdvanceOne { host: other, ticks: more })
            if host == other =>
        {
            Some(Event::AdvanceOne { host, ticks: ticks.checked_add(more)? })
        }
        _ => None,
    }
}

/// Where a message comes from: the event that sent it, by its number, and its receiver.
type Origin = (usize, u8);

/// An event with its number; one about a message with where that comes from.
#[derive(Clone, Copy)]
struct Step {
    number: usize,
    event: Event,
    origin: Option<Origin>,
}

/// A cell that knows where its messages come from.
struct Traced {
    cell: Cell,
    origins: [Option<Origin>; SLOTS],
}

impl Traced {
    fn of(cell: &Cell) -> Traced {
        Traced { cell: cell.clone(), origins: [None; SLOTS] }
    }

    fn origin(&self, event: Event) -> Option<Origin> {
        self.origins.get(usize::from(slot_of(event)?)).copied().flatten()
    }

    fn slot_from(&self, origin: Origin) -> Option<u8> {
        let slot = self.origins.iter().position(|&from| from == Some(origin))?;
        u8::try_from(slot).ok()
    }

    fn apply(&mut self, number: usize, event: Event) {
        let answer = self.cell.apply(event);
        if let (DONE, Event::Deliver { slot } | Event::Lose { slot }) = (answer, event) {
            self.origins[usize::from(slot)] = None;
        }
        for (slot, origin) in (0..).zip(&mut self.origins) {
            if let (Some(message), None) = (self.cell.slots.get(slot), *origin) {
                *origin = Some((number, message.target));
            }
        }
    }
}

fn slot_of(event: Event) -> Option<u8> {
    match event {
        Event::Deliver { slot } | Event::Lose { slot } | Event::Repeat { slot } => Some(slot),
        _ => None,
    }
}

fn with_slot(event: Event, slot: u8) -> Event {
    match event {
        Event::Deliver { .. } => Event::Deliver { slot },
        Event::Lose { .. } => Event::Lose { slot },
        Event::Repeat { .. } => Event::Repeat { slot },
        other => other,
    }
}

fn steps_of(cell: &Cell, events: &[Event]) -> Vec<Step> {
    let mut traced = Traced::of(cell);
    let step = |(number, &event): (usize, &Event)| {
        let origin = traced.origin(event);
        traced.apply(number, event);
        Step { number, event, origin }
    };
    events.iter().enumerate().map(step).collect()
}

/// The events of steps of which some were dropped; those go too whose message is no longer sent.
fn events_of(cell: &Cell, steps: &[Step]) -> Vec<Event> {
    let mut traced = Traced::of(cell);
    let mut events = Vec::new();
    for step in steps {
        let event = match step.origin {
            Some(origin) => match traced.slot_from(origin) {
                Some(slot) => with_slot(step.event, slot),
                None => continue,
            },
            None => step.event,
        };
        traced.apply(step.number, event);
        events.push(event);
    }
    events
}

#[cfg(test)]
mod tests {
    use super::*;
    use model::builds::RIGHT;

    #[test]
    fn what_does_not_matter_is_dropped() {
        let shown = |left: &[i32]| {
            Some(left.to_vec()).filter(|left| left.contains(&3) && left.contains(&97))
        };
        assert_eq!(dropped((0..100).collect(), &shown), [3, 97]);
    }

    #[test]
    fn an_event_stays_with_its_message() {
        let settings = Settings { n: 3, longest: 10, spread: 0, clock: 0 };
        let events = [
            Event::AdvanceAll { ticks: 10 },
            Event::Start { host: 0, duration: 5 },
            Event::Start { host: 1, duration: 5 },
            Event::Lose { slot: 4 },
            Event::Deliver { slot: 5 },
        ];
        let bytes = [settings_bytes(settings), events_bytes(&events)].concat();
        let delivers_to_2 = |bytes: &[u8]| {
            let reading = Reading::of(bytes);
            let slot = reading.events.last().copied().and_then(slot_of);
            let before = &reading.events[..reading.events.len().saturating_sub(1)];
            let mut traced = Cell::open(settings, RIGHT).map(|cell| Traced::of(&cell));
            if let Ok(traced) = &mut traced {
                before.iter().for_each(|&event| traced.apply(0, event));
            }
            let cell = traced.map(|traced| traced.cell);
            slot.and_then(|slot| cell.ok()?.slots.get(slot).map(|message| message.target))
                == Some(2)
        };
        let short = Reading::of(&shortened(&bytes, RIGHT, delivers_to_2)).events;
        let expected = [
            Event::AdvanceAll { ticks: 10 },
            Event::Start { host: 1, duration: 5 },
            Event::Deliver { slot: 2 },
        ];
        assert_eq!(short, expected);
    }
}
