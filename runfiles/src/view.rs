//! `runfile view`: a run as a page (one HTML file), the drawing with a cursor over the events, and
//! beside it what every host has and what is under way there. The page loads nothing; the fixed
//! parts of it stand in `page/`.

mod data;

use crate::draw;
use crate::trace::Trace;

pub const HELP: &str = "\
A run as one HTML file, to step through in any browser; it loads nothing.

usage: runfile view [RUNFILE] [-o HTML]

  RUNFILE  the run file; standard input where it is left out
  -o HTML  the page; standard output where it is left out

The page has the drawing with a cursor over its events, and beside it, at the cursor, what the
event was and its answer, every host's clock, wait, promise, accepted lease, round and named
holder, and the slots that are filled with their messages.

  Left and Right  the event before, and the next; so do a click and the slider
  Home and End    the opening, and the last event
  r and R         the next refusal, and the one before
  n and N         the next change of a name, and the one before
";

const PAGE: &str = include_str!("page/page.html");
const STYLE: &str = include_str!("page/style.css");
const SCRIPT: &str = include_str!("page/script.js");

/// The page of a run file of that name, or why there is none.
pub fn run(bytes: &[u8], name: &str) -> Result<String, String> {
    let trace = Trace::of(bytes, name)?;
    let page = PAGE
        .replace("{{last}}", &trace.events().to_string())
        .replace("{{settings}}", &draw::settings_words(&trace))
        .replace("{{counts}}", &draw::escaped(&draw::counts_words(&trace)))
        .replace("{{style}}", STYLE)
        .replace("{{script}}", SCRIPT)
        .replace("{{data}}", &data::json(&trace))
        .replace("{{drawing}}", &draw::undivided(&trace));
    // The name comes last, so that nothing is looked for in it.
    Ok(page.replace("{{name}}", &draw::escaped(name)))
}
