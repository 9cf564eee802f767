//! What the signs of a drawing mean, beneath it.

use super::canvas::Canvas;
use super::head::refusal;
use super::layout::BAR;
use super::short::KINDS;

/// Where the columns of the legend begin.
const OWNERS: usize = 8;
const SPANS: usize = 150;
const MESSAGES: usize = 400;
const ENDS: usize = 650;
const LINE: usize = 22;

const SPAN_KINDS: [(&str, usize, usize, &str); 4] = [
    ("waits", BAR - 4, 0, "waits until a tick of its clock"),
    ("asks", BAR, 9, "asks with a ballot (tick,host)"),
    ("proposes", BAR, 0, "proposes an owner's lease"),
    ("names", BAR, 0, "names a holder, beneath the line"),
];

const END_KINDS: [(&str, &str); 6] = [
    ("did", "delivered, and the host acted"),
    ("idle", "delivered, and nothing came of it"),
    ("lost", "lost"),
    ("open", "still under way at the end"),
    ("copy did", "a copy, made by a repeat"),
    ("gap-end", "long, and broken: to a host, at an event"),
];

/// Beneath the lanes, which end there, for so many hosts.
pub fn draw(canvas: &mut Canvas, n: u8, bottom: usize) {
    let top = bottom + 28;
    canvas.open("legend");
    owners(canvas, n, top);
    spans(canvas, top);
    messages(canvas, top);
    ends(canvas, top);
    canvas.close();
}

fn title(canvas: &mut Canvas, x: usize, y: usize, words: &str) {
    canvas.add(&format!("<text class=\"place\" x=\"{}\" y=\"{}\">{}</text>\n", x, y, words));
}

/// The owners in two rows, so that nine fit.
fn owners(canvas: &mut Canvas, n: u8, top: usize) {
    title(canvas, OWNERS, top, "Owners");
    for host in 0..n {
        let place = usize::from(host);
        let (x, y) = (OWNERS + 62 * (place / 5), top + 14 + LINE * (place % 5));
        canvas.add(&format!(
            "<rect class=\"o{}\" x=\"{}\" y=\"{}\" width=\"22\" height=\"14\"/>\n",
            host, x, y
        ));
        canvas.words(x + 27, y + 11, &format!("{}", host));
    }
}

fn spans(canvas: &mut Canvas, top: usize) {
    title(canvas, SPANS, top, "Spans, in the owner's colour");
    for (number, (class, height, round, words)) in SPAN_KINDS.iter().enumerate() {
        let y = top + 21 + LINE * number;
        canvas.add(&format!(
            "<rect class=\"o0 {}\" x=\"{}\" y=\"{}\" width=\"40\" height=\"{}\" rx=\"{}\"/>\n",
            class,
            SPANS,
            y - height / 2,
            height,
            round
        ));
        canvas.words(SPANS + 50, y + 4, words);
    }
    let mut y = top + 21 + LINE * SPAN_KINDS.len();
    for (class, words) in [("restart", "restarts"), ("release", "lets go of its lease")] {
        canvas.add(&format!(
            "<rect class=\"{}\" x=\"{}\" y=\"{}\" width=\"5\" height=\"18\"/>\n",
            class,
            SPANS + 17,
            y - 9
        ));
        canvas.words(SPANS + 50, y + 4, words);
        y += LINE;
    }
    canvas.words(SPANS, y + 4, "small numbers: a clock, where it moves");
}

fn messages(canvas: &mut Canvas, top: usize) {
    title(canvas, MESSAGES, top, "Messages, the ballot's host's colour");
    for (kind, (short, whole)) in KINDS.iter().enumerate() {
        let y = top + 21 + LINE * kind;
        arrow(canvas, MESSAGES, y, &format!("k{} did", kind));
        canvas.words(MESSAGES + 62, y + 4, &format!("{}  {}", short, whole));
    }
}

fn ends(canvas: &mut Canvas, top: usize) {
    title(canvas, ENDS, top, "What became of them");
    for (number, (class, words)) in END_KINDS.iter().enumerate() {
        let y = top + 21 + LINE * number;
        arrow(canvas, ENDS, y, &format!("k0 {}", class));
        canvas.words(ENDS + 62, y + 4, words);
    }
    let y = top + 25 + LINE * END_KINDS.len();
    refusal(canvas, ENDS + 20, y, 9);
    canvas.words(ENDS + 62, y, "refused, by that number");
}

fn arrow(canvas: &mut Canvas, x: usize, y: usize, class: &str) {
    canvas.open("arrows");
    let (from, to) = (x + 5, x + 52);
    canvas.add(&format!("<path class=\"b0 {}\" d=\"M{} {}H{}\"/>\n", class, from, y, to));
    canvas.close();
}
