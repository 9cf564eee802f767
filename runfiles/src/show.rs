//! `runfile show`: a run file becomes its text, with where and why a damaged one stops.

use crate::reading::{Reading, Stop};
use crate::source;

pub const HELP: &str = "\
A run file becomes its text, one event a line.

usage: runfile show [RUNFILE] [-o TEXT]

  RUNFILE  the run file; standard input where it is left out
  -o TEXT  the text; standard output where it is left out

`make` gives of that text the same run file, byte for byte. Where the bench stops, a comment
says at which byte, by which number and why, and (at 2) is the byte of a field in its record;
what it does not read follows as `bytes`.
";

/// So many bytes stand in one line.
const BYTES_A_LINE: usize = 16;

/// The text of any bytes.
pub fn text_of(bytes: &[u8]) -> String {
    let reading = Reading::of(bytes);
    let unopened = reading.unopened();
    let unread = match unopened {
        Some(_) => "No record can be read",
        None => "The bench stops",
    };
    let mut lines = Vec::new();
    lines.extend(unopened.map(|stop| comment("The bench stops", &stop)));
    lines.extend(reading.settings.map(source::settings_line));
    lines.extend(reading.events.iter().map(|&event| source::event_line(event)));
    lines.extend(reading.fault().map(|fault| comment(unread, &fault)));
    lines.extend(reading.rest().chunks(BYTES_A_LINE).map(source::bytes_line));
    lines.iter().map(|line| format!("{}\n", line)).collect()
}

fn comment(what: &str, stop: &Stop) -> String {
    format!("# {} {}.", what, stop.place_and_reason())
}

#[cfg(test)]
mod tests {
    use super::*;
    use crate::make::run_file_of;
    use model::builds::RIGHT;
    use model::{compare, damage};

    fn remade(bytes: &[u8]) -> Result<Vec<u8>, String> {
        run_file_of(text_of(bytes).as_bytes(), "shown")
    }

    #[test]
    fn making_what_is_shown_gives_the_same_bytes() {
        for seed in 0..300 {
            let bytes = compare::file_of(seed, RIGHT);
            assert_eq!(remade(&bytes), Ok(bytes), "seed {}", seed);
        }
    }

    #[test]
    fn so_it_does_of_damaged_files() {
        for seed in 0..20 * damage::DAMAGES {
            let bytes = damage::run(seed);
            assert_eq!(remade(&bytes), Ok(bytes), "damage of seed {}", seed);
        }
    }

    #[test]
    fn showing_what_was_made_gives_the_canonical_text() {
        let text = "\n cell  3 100 5 0 # a comment\n\n advance\t104\nbytes 05 00 68 00 01";
        let bytes = run_file_of(text.as_bytes(), "text").unwrap_or_default();
        assert_eq!(text_of(&bytes), "cell 3 100 5 0\nadvance 104\ndeliver 1\n");
    }
}
