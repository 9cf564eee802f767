//! `runfile draw`: a run as a drawing (SVG), with a lane for each host over the events, what hosts
//! do as spans, and messages as arrows. It needs no script, and no colour: owners differ by
//! hatching too, and arrows by kind.

mod arrows;
mod canvas;
mod head;
mod layout;
mod legend;
mod marks;
mod paths;
mod short;
mod spans;
mod style;

use model::cell::Settings;

use crate::account::who_names_whom;
use crate::trace::Trace;
use crate::words;
use canvas::Canvas;
use layout::Layout;
use paths::Way;
use spans::Span;

pub use canvas::escaped;

pub const HELP: &str = "\
A run as a drawing (SVG), for any browser and for print.

usage: runfile draw [RUNFILE] [-o SVG]

  RUNFILE  the run file; standard input where it is left out
  -o SVG   the drawing; standard output where it is left out

Each host has a lane over the events. Above its line stand its wait and its rounds, beneath it
the holder that it names, in the owner's colour and hatching. Messages are arrows from their
sending to their delivery, and lost ones are cut. A refused event has its number. Of a damaged
file, what comes before the stop is drawn.
";

/// Above so many events the drawing goes without what shows only under a pointer.
const MOST_WITH_TITLES: usize = 2_000;

/// The drawing of a run file of that name, or why there is none.
pub fn run(bytes: &[u8], name: &str) -> Result<String, String> {
    let trace = Trace::of(bytes, name)?;
    Ok(svg(&trace, &layout::strips(&trace)))
}

/// The drawing of a run in one strip, for a page that puts a cursor over it.
pub fn undivided(trace: &Trace) -> String {
    svg(trace, &[layout::whole(trace)])
}

fn svg(trace: &Trace, strips: &[Layout]) -> String {
    let mut canvas = Canvas::new(trace.events() <= MOST_WITH_TITLES);
    let bottom = strips.iter().map(|strip| strip.down() + strip.bottom()).max().unwrap_or(0);
    let width = strips.iter().map(Layout::right).max().unwrap_or(0);
    canvas.add(&opening_tag(width, bottom));
    canvas.add(&described(trace));
    canvas.add(&style::definitions(trace.settings.n));
    head::titles(&mut canvas, trace);
    let (spans, ways) = (spans::all(trace), paths::ways(trace));
    for layout in strips {
        strip(&mut canvas, trace, layout, &spans, &ways);
    }
    legend::draw(&mut canvas, trace.settings.n, bottom);
    canvas.add("</svg>\n");
    canvas.text
}

/// A strip; what crosses into the next one is cut at its edges.
fn strip(canvas: &mut Canvas, trace: &Trace, layout: &Layout, spans: &[Span], ways: &[Way]) {
    let (left, start, width) = layout.window();
    let height = layout.bottom() - layout::HEAD + 1;
    canvas.add(&format!("<g transform=\"translate(0 {})\">\n", layout.down()));
    canvas.add(&format!(
        "<svg x=\"{}\" y=\"{top}\" width=\"{w}\" height=\"{h}\" \
         viewBox=\"{} {top} {w} {h}\">\n",
        left,
        start,
        top = layout::HEAD,
        w = width,
        h = height,
    ));
    head::draw(canvas, trace, layout);
    spans::draw(canvas, spans, layout);
    arrows::draw(canvas, trace, layout, ways);
    marks::draw(canvas, trace, layout);
    spans::label(canvas, spans, layout);
    canvas.add("</svg>\n");
    head::lane_names(canvas, trace, layout);
    canvas.close();
}

/// The opening tag also says where events stand that are in one strip, for the page's cursor.
fn opening_tag(width: usize, bottom: usize) -> String {
    format!(
        "<svg xmlns=\"http://www.w3.org/2000/svg\" class=\"run\" width=\"{w}\" height=\"{h}\" \
         viewBox=\"0 0 {w} {h}\" role=\"img\" aria-labelledby=\"run-title\" \
         aria-describedby=\"run-desc\" \
         data-left=\"{left}\" data-step=\"{step}\" data-top=\"{top}\" data-bottom=\"{bottom}\">\n",
        w = width,
        h = bottom + layout::LEGEND,
        left = layout::LEFT,
        step = layout::STEP,
        top = layout::HEAD,
        bottom = bottom,
    )
}

/// What stands over the drawing: the settings, as the listing's first line has them.
pub fn settings_words(trace: &Trace) -> String {
    let Settings { n, longest, spread, clock } = trace.settings;
    let hosts = words::counted(u64::from(n), "host");
    format!("{}, T {}, S {}, opening clock {}", hosts, longest, spread, clock)
}

/// What a run came to.
pub fn counts_words(trace: &Trace) -> String {
    let (all, refused) = (trace.events(), trace.refused());
    let events = words::counted(all as u64, "event");
    let counts = format!("{}: {} applied, {} refused", events, all - refused, refused);
    match &trace.stop {
        None => counts,
        Some(stop) => format!("{}; the bench stops {}", counts, stop.place_and_reason()),
    }
}

/// The drawing in words, for those who do not see it.
fn described(trace: &Trace) -> String {
    let last = trace.moments.last().map_or(&[][..], |moment| &moment.hosts[..]);
    format!(
        "<title id=\"run-title\">A run of {}</title>\n<desc id=\"run-desc\">{}. A lane for each \
         host over the events, from the left; in each lane what the host does and whom it names, \
         as spans, and between the lanes the messages, as arrows. At the end {}.</desc>\n",
        settings_words(trace),
        escaped(&counts_words(trace)),
        who_names_whom(last)
    )
}
