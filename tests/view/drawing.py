"""A drawing held to the listing of its run: who is named when, which events were refused, where
messages were delivered, lost and repeated, and where hosts restarted and let go."""

import re
import xml.etree.ElementTree as tree

SVG = "{http://www.w3.org/2000/svg}"

# Where the lanes stand (runfiles/src/draw/layout.rs), and what a span stays away from its event.
# Each strip is an inner svg, and in each the places are as if it were the only one.
LANES, LANE = 112, 78
ASIDE = 2


def numbers(element, *names):
    return [int(element.get(name)) for name in names]


def named(root, listing):
    """For each event the names that the spans of naming show."""
    left, step = numbers(root, "data-left", "data-step")
    names = [["-"] * listing.hosts for _ in listing.lines]
    for span in root.iter(SVG + "rect"):
        owner, _, kind = span.get("class", "").partition(" ")
        x, y, width = numbers(span, "x", "y", "width")
        host = (y - LANES) // LANE
        if kind != "names" or host >= listing.hosts:
            continue
        first = (x - ASIDE - left) // step
        for place in range(first, first + (width + 2 * ASIDE) // step):
            names[place][host] = owner[1:]
    return names


def refusals(root):
    """The numbers of refusals in the heads of the columns, by their events."""
    left, step, top = numbers(root, "data-left", "data-step", "data-top")
    found = {}
    for mark in root.iter(SVG + "g"):
        if mark.get("class") == "no":
            x, y = numbers(mark[1], "x", "y")
            if top < y < LANES:
                found[(x - left) // step] = int(mark[1].text)
    return found


def arrows(root):
    """The events at which messages are delivered, lost and copied, by the ends of the arrows."""
    left, step = numbers(root, "data-left", "data-step")
    found = {"delivered": [], "lost": [], "copied": []}
    paths = root.findall(f".//{SVG}svg/{SVG}g[@class='arrows']/{SVG}path")
    # What crosses from strip to strip is drawn in each.
    for kinds, shape in {(path.get("class"), path.get("d")) for path in paths}:
        places = [float(x) for x, _ in re.findall(r"(-?[\d.]+) (-?[\d.]+)", shape)]
        first, last = (int(x - left) // step for x in (places[0], places[-1]))
        kinds = kinds.split()
        if "did" in kinds or "idle" in kinds:
            found["delivered"].append(last)
        if "lost" in kinds:
            found["lost"].append(last)
        if "copy" in kinds:
            found["copied"].append(first)
    return {what: sorted(places) for what, places in found.items()}


def bars(root, kind):
    """The events at which bars of a kind stand, which are the middle of the bar."""
    left, step = numbers(root, "data-left", "data-step")
    found = root.findall(f".//{SVG}svg//{SVG}rect[@class='{kind}']")
    return [(int(bar.get("x")) + 2 - left) // step for bar in found]


def done(listing, kind):
    """The events of a kind that were done."""
    return [at for at in range(1, listing.last + 1)
            if listing.kinds[at] == kind and listing.answers[at] == 0]


def complaints(path, listing):
    """What is wrong with a drawing."""
    try:
        root = tree.parse(path).getroot()
    except tree.ParseError as fault:
        return [f"is not well-formed: {fault}"]
    found = []
    if named(root, listing) != listing.names:
        found.append("names others than the listing")
    if refusals(root) != {place: listing.answers[place] for place in listing.refused}:
        found.append("marks other refusals than the listing")
    want = {"delivered": done(listing, 104), "lost": done(listing, 105)}
    if arrows(root) != {**want, "copied": done(listing, 106)}:
        found.append("has arrows that end or begin at other events than the listing's")
    for mark, kind in [("restart", 107), ("release", 108)]:
        if bars(root, mark) != done(listing, kind):
            found.append(f"marks a {mark} at other events than the listing's")
    for kind in ["title", "desc"]:
        if not (root.findtext(SVG + kind) or "").strip():
            found.append(f"has no {kind}")
    if root.find(f".//{SVG}script") is not None:
        found.append("has a script")
    return found
