//! `runfile make`: a text of one event a line becomes a run file.

use model::record::{write_event, write_settings};

use crate::arguments::Given;
use crate::source::{self, Line};
use crate::{files, Done, Outcome};

pub const HELP: &str = "\
A text of one event a line becomes a run file.

usage: runfile make [TEXT] [-o RUNFILE]

  TEXT        the text; standard input where it is left out
  -o RUNFILE  the run file; standard output where it is left out

  cell 3 100 5 0    first: hosts, T (the longest lease), S (the spread of clocks), clock
  advance 104       all clocks go up by 104 ticks
  advance 2 by 5    the clock of host 2 goes up by 5
  start 0 for 50    host 0 starts a round for a lease of 50 ticks
  deliver 1         the message in slot 1 is delivered
  lose 1            it is lost
  repeat 1          it is repeated
  restart 2         host 2 restarts
  release 0         host 0 gives its lease back
  bytes 05 00 68    these bytes, in hexadecimal, whatever record they make

Blank lines are left out, and so is `#` with what follows it. A number has to fit its field of
the run file; whether the cell takes it is for the run to show, so host 9 of 3 can be tried.
";

pub fn run(given: &Given) -> Outcome {
    let input = files::read(given.at_most_one()?)?;
    let output = run_file_of(&input.bytes, &input.name)?;
    Ok(Done { output, found: false })
}

/// The bytes of a text's run file; or all its faults, each with its line.
pub fn run_file_of(text: &[u8], name: &str) -> Result<Vec<u8>, String> {
    let mut making = Making::default();
    let mut faults = Vec::new();
    for (number, line) in (1..).zip(text.split(|&byte| byte == b'\n')) {
        if let Err(fault) = making.line(line) {
            faults.push(format!("{}:{}: {}", name, number, fault));
        }
    }
    match faults.is_empty() {
        true => Ok(making.bytes),
        false => Err(faults.join("\n")),
    }
}

#[derive(Default)]
struct Making {
    bytes: Vec<u8>,
    /// Whether a line has said something already, even if it was at fault.
    begun: bool,
}

impl Making {
    fn line(&mut self, line: &[u8]) -> Result<(), String> {
        let line = std::str::from_utf8(line)
            .map_err(|_| "expected text, found other bytes; is it a run file? Then `show` it")?;
        let told = match source::without_comment(line) {
            Some(told) => told,
            None => return Ok(()),
        };
        let first = !self.begun;
        self.begun = true;
        match source::line(told)? {
            Line::Settings(_) if !first => {
                return Err(format!("expected `cell` in the first line only, found `{}`", told));
            }
            Line::Event(_) if first => {
                return Err(format!("expected `cell HOSTS T S CLOCK` first, found `{}`", told));
            }
            Line::Settings(settings) => write_settings(&mut self.bytes, settings),
            Line::Event(event) => write_event(&mut self.bytes, event),
            Line::Bytes(bytes) => self.bytes.extend(bytes),
        }
        Ok(())
    }
}
