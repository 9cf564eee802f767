//! The lines of a listing, as a bench has written them.

use model::record::RELEASE;
use model::refusal::DONE;

/// An event's line, taken apart.
pub struct EventLine<'a> {
    pub place: &'a str,
    pub kind: &'a str,
    pub answer: &'a str,
    pub names: Vec<&'a str>,
}

impl EventLine<'_> {
    /// None where a line is no event's.
    pub fn of(line: &str) -> Option<EventLine<'_>> {
        let fields: Vec<&str> = line.split(' ').collect();
        match fields.as_slice() {
            [place, kind, answer, names @ ..] if !names.is_empty() && is_number(place) => {
                Some(EventLine { place, kind, answer, names: names.to_vec() })
            }
            _ => None,
        }
    }

    /// Whether two hosts name different holders.
    fn has_two_names(&self) -> bool {
        let mut named = self.names.iter().filter(|&&name| name != "-");
        let first = named.next();
        named.any(|name| Some(name) != first)
    }

    /// Whether two hosts name themselves.
    fn has_two_holders(&self) -> bool {
        let names_itself = |(host, name): &(usize, &&str)| host.to_string() == **name;
        self.names.iter().enumerate().filter(names_itself).count() > 1
    }

    /// Whether a host has let go.
    fn is_release(&self) -> bool {
        self.kind == RELEASE.to_string() && self.answer == DONE.to_string()
    }
}

fn is_number(field: &str) -> bool {
    !field.is_empty() && field.bytes().all(|digit| digit.is_ascii_digit())
}

/// The lines of a listing. Listings that differ in any byte differ in a line.
pub fn of(listing: &[u8]) -> Vec<String> {
    let text = String::from_utf8_lossy(listing);
    let line = |line: &str| match line.strip_suffix('\n') {
        Some(whole) => whole.to_string(),
        None => format!("{} (no line end)", line),
    };
    text.split_inclusive('\n').map(line).collect()
}

/// The event after which there first are two holders; the first line is the settings'. They are two
/// hosts that name themselves and, as long as nobody has let go, any two that are named.
pub fn two_holders(lines: &[String]) -> Option<usize> {
    let mut released = false;
    let mut has_two = |line: &String| {
        let line = EventLine::of(line)?;
        released |= line.is_release();
        Some(line.has_two_holders() || !released && line.has_two_names())
    };
    let lines = lines.iter().skip(1);
    lines.map(|line| has_two(line) == Some(true)).position(|two| two).map(|before| before + 1)
}

/// The first place at which two listings differ, the settings' line being 0.
pub fn difference(ours: &[String], theirs: &[String]) -> Option<usize> {
    (0..ours.len().max(theirs.len())).find(|&at| ours.get(at) != theirs.get(at))
}

#[cfg(test)]
mod tests {
    use super::*;

    fn lines_of(text: &str) -> Vec<String> {
        of(text.as_bytes())
    }

    #[test]
    fn two_holders_are_two_names_in_one_line() {
        let listing = "3 100 5 0\n1 104 0 0 - 0\n2 104 0 0 - 2\napplied 2 refused 0\n";
        assert_eq!(two_holders(&lines_of(listing)), Some(2));
        assert_eq!(two_holders(&lines_of("3 100 5 0\n1 104 0 1 1 -\n2 104 0 - - 0\n")), None);
    }

    #[test]
    fn after_a_release_they_are_two_hosts_that_name_themselves() {
        let listing = "3 100 5 0\n1 108 0 - 0 0\n2 104 0 - 1 0\n3 104 0 2 1 2\n";
        assert_eq!(two_holders(&lines_of(listing)), Some(3));
        assert_eq!(two_holders(&lines_of("3 100 5 0\n1 108 10 0 0 0\n2 104 0 - 0 1\n")), Some(2));
    }

    #[test]
    fn a_listing_that_ends_early_differs_there() {
        let ours = lines_of("1\n2\n3\n");
        assert_eq!(difference(&ours, &lines_of("1\n2\n")), Some(2));
        assert_eq!(difference(&ours, &lines_of("1\n2\n3")), Some(2));
        assert_eq!(difference(&ours, &ours), None);
    }
}
