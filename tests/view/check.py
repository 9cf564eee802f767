"""Drawings and pages of runs, held to the listings of the bench; the pages in a real browser.

check.py CHROMIUM FOLDER NAME...: for each name FOLDER has NAME.listing and NAME.txt, which are the
bench's and that of `runfile show`, NAME.svg and NAME.html.
Prints what is wrong, and fails if anything is.
"""

import pathlib
import sys
import tempfile

import drawing
import page
from browser import Browser


class Listing:
    """A listing of the bench with its run's text, by events; the opening is event 0, and names
    nobody."""

    def __init__(self, listing, text):
        lines = listing.splitlines()
        events = [line for line in lines[1:] if line[0].isdigit()]
        self.lines = lines[:1] + events
        self.hosts = int(lines[0].split()[0])
        self.names = [["-"] * self.hosts] + [line.split()[3:] for line in events]
        self.kinds = [100] + [int(line.split()[1]) for line in events]
        self.answers = [0] + [int(line.split()[2]) for line in events]
        self.last = len(events)
        self.texts = ["opening"] + text.splitlines()[1:self.last + 1]
        places = range(1, self.last + 1)
        self.refused = [place for place in places if self.answers[place] != 0]
        self.renamed = [at for at in places if self.names[at] != self.names[at - 1]]


def complaints(browser, path):
    """What is wrong with the drawing and the page of a run."""
    texts = (path.with_suffix(suffix).read_text() for suffix in (".listing", ".txt"))
    listing = Listing(*texts)
    drawn = drawing.complaints(path.with_suffix(".svg"), listing)
    shown = page.complaints(browser, path.with_suffix(".html"), listing)
    return [f"the drawing {it}" for it in drawn] + [f"the page {it}" for it in shown]


def main(chromium, folder, names):
    """Whether anything is wrong."""
    found = []
    with tempfile.TemporaryDirectory() as profile:
        browser = Browser(chromium, profile)
        try:
            for name in names:
                told = complaints(browser, pathlib.Path(folder) / name)
                found += [f"{name}: {complaint}" for complaint in told]
        finally:
            browser.close()
    for complaint in found:
        print(complaint)
    return bool(found)


if __name__ == "__main__":
    sys.exit(main(sys.argv[1], sys.argv[2], sys.argv[3:]))
