"""A page in a browser held to the listing of its run: moved by keys, slider, clicks and buttons."""

import pathlib
import re

WIDE, NARROW = (1400, 900), (400, 800)
CODES = {"ArrowLeft": 37, "ArrowRight": 39, "Home": 36, "End": 35, "Tab": 9, "Enter": 13}

# What the page shows, and whether the cursor's column is in sight.
SHOWN = """(() => {
    const text = (id) => document.getElementById(id).textContent;
    const rows = (id) => [...document.getElementById(id).tBodies[0].rows];
    const cells = (row) => [...row.cells].map((cell) => cell.textContent);
    const paper = document.getElementById("paper").getBoundingClientRect();
    const column = document.querySelector(".cursor-column").getBoundingClientRect();
    return {
        place: Number(document.getElementById("slider").value),
        event: text("event"), answer: text("answer"), words: text("words"),
        line: text("line"), said: text("said"),
        hosts: rows("hosts").map(cells), slots: rows("slots").map(cells),
        cursor: Math.round(column.left - paper.left),
        seen: column.left >= paper.left && column.right <= paper.right,
    };
})()"""

# The middle of a thing on the screen, brought into sight.
MIDDLE = """(() => {
    const found = %s;
    found.scrollIntoView({ block: "center" });
    const { left, top, width, height } = found.getBoundingClientRect();
    return [left + width / 2, top + height / 2];
})()"""

# The middle of an event's column, beneath its head.
COLUMN = """(() => {
    const paper = document.getElementById("paper");
    const svg = paper.querySelector("svg");
    const { left, step, top } = svg.dataset;
    paper.scrollIntoView({ block: "center" });
    paper.scrollLeft = step * %d - 100;
    const at = svg.getBoundingClientRect();
    return [at.left + Number(left) + step * (%d + 0.5), at.top + Number(top) + 80];
})()"""

# Texts whose contrast with what is behind them is under 4.5.
PALE = """(() => {
    const parts = (colour) => colour.match(/[\\d.]+/g).map(Number);
    const light = (colour) => parts(colour).slice(0, 3)
        .map((part) => part / 255)
        .map((part) => (part <= 0.04045 ? part / 12.92 : ((part + 0.055) / 1.055) ** 2.4))
        .reduce((sum, part, at) => sum + part * [0.2126, 0.7152, 0.0722][at], 0);
    const opaque = (node) => (parts(getComputedStyle(node).backgroundColor)[3] ?? 1) > 0;
    const behind = (node) => {
        while (node && !opaque(node)) node = node.parentElement;
        return node ? getComputedStyle(node).backgroundColor : "rgb(255, 255, 255)";
    };
    const own = (node) => [...node.childNodes].some((it) => it.nodeType === 3 && it.data.trim());
    const pale = (node) => {
        const both = [light(getComputedStyle(node).color), light(behind(node))];
        return (Math.max(...both) + 0.05) / (Math.min(...both) + 0.05) < 4.5;
    };
    return [...document.querySelectorAll("body *:not(svg *, script, style, noscript)")]
        .filter((node) => own(node) && pale(node)).map((node) => node.outerHTML.slice(0, 80));
})()"""

FOCUSED = """(() => {
    const { id, dataset, className, tagName } = document.activeElement;
    const { outlineStyle, outlineWidth } = getComputedStyle(document.activeElement);
    const ring = outlineStyle !== "none" && parseFloat(outlineWidth) >= 2;
    return [id || dataset.go || className || tagName, ring];
})()"""

GO = ["first", "back", "on", "last", "refusalBack", "refusalOn", "nameBack", "nameOn"]
STOPS = ["skip", "slider", *GO, "letters", "paper", "table", "table"]


class Wrong(Exception):
    """What is wrong with a page."""


class Page:
    def __init__(self, browser, path, listing):
        self.browser, self.path, self.listing = browser, path, listing

    def open(self, size):
        self.browser.size(*size)
        self.browser.open(self.path)

    def press(self, *keys):
        for key in keys:
            code = CODES.get(key) or ord(key.upper())
            self.browser.key(key, code, shift=len(key) == 1 and key.isupper())

    def click(self, place):
        self.browser.click(*self.browser.value(place))

    def shown(self):
        return self.browser.value(SHOWN)

    def expect(self, place, how):
        """That the page shows this event as the listing has it."""
        shown, listing = self.shown(), self.listing
        if shown["place"] != place:
            raise Wrong(f"after {how} is at event {shown['place']}, not {place}")
        holders = [re.match(r"host (\d)|nobody", row[-1]) for row in shown["hosts"]]
        names = [holder.group(1) or "-" for holder in holders]
        answer = re.match(r"Answer (\d+), ", shown["answer"])
        told = (names, int(answer.group(1)) if answer else 0, shown["line"])
        want = (listing.names[place], listing.answers[place], listing.lines[place])
        if told != want:
            raise Wrong(f"shows {told} at event {place}, and not {want}")
        if shown["event"] != f"Event {place}: {listing.texts[place]}":
            raise Wrong(f"says '{shown['event']}' at event {place}")
        if shown["words"].startswith("Refused: ") != (listing.answers[place] != 0):
            raise Wrong(f"says '{shown['words']}' at event {place}")
        if not shown["seen"]:
            raise Wrong(f"hides the cursor at event {place}, after {how}")
        return shown

    def press_and_expect(self, key, place):
        self.press(key)
        return self.expect(place, key)


def walks(page):
    """Arrow keys, event by event to the end, and Home and End."""
    page.expect(0, "opening")
    last = page.listing.last
    for place in range(1, last + 1):
        page.press_and_expect("ArrowRight", place)
    page.press_and_expect("ArrowRight", last)
    page.press_and_expect("Home", 0)
    page.press_and_expect("ArrowLeft", 0)
    page.press_and_expect("End", last)
    page.press_and_expect("ArrowLeft", max(last - 1, 0))


def slides(page):
    """The slider, by its own keys."""
    page.browser.value("document.getElementById('slider').focus()")
    page.press_and_expect("Home", 0)
    page.press_and_expect("ArrowRight", 1)
    page.press_and_expect("End", page.listing.last)
    page.press_and_expect("ArrowLeft", page.listing.last - 1)
    page.browser.value("document.activeElement.blur()")


def is_clicked(page):
    """Clicks on the columns of the drawing."""
    last = page.listing.last
    for place in [last // 2, 0, last, 1, 2 * last // 3]:
        page.click(COLUMN % (place, place))
        page.expect(place, "a click")


def jumps(page):
    """The jumps, by letters from each end; and that they say when there is no more."""
    for on, back, places in [
        ("r", "R", page.listing.refused),
        ("n", "N", page.listing.renamed),
    ]:
        for edge, key, way in [("Home", on, places), ("End", back, places[::-1])]:
            page.press(edge)
            at = page.shown()["place"]
            for place in way:
                if place != at:
                    page.press_and_expect(key, place)
                at = place
            said = page.press_and_expect(key, at)["said"]
            if not re.match("No (later|earlier) (refusal|change of a name)", said):
                raise Wrong(f"says '{said}' where there is no more to jump to")
    page.press("Home")
    page.click(MIDDLE % "document.getElementById('letters')")
    page.press("n", "r")
    page.expect(0, "letters that were switched off")
    page.click(MIDDLE % "document.getElementById('letters')")


def has_buttons(page):
    """The buttons, by clicks and by the keyboard."""
    listing = page.listing
    for go, places in [("refusalOn", listing.refused), ("nameOn", listing.renamed)]:
        button = f"document.querySelector('[data-go={go}]')"
        page.press("Home")
        page.click(MIDDLE % button)
        page.expect((places + [0])[0], f"a click on {go}")
        page.browser.value(f"{button}.focus()")
        page.press_and_expect("Enter", (places[1:] + places + [0])[0])
    for go, place in [("last", listing.last), ("back", listing.last - 1), ("first", 0), ("on", 1)]:
        page.click(MIDDLE % f"document.querySelector('[data-go={go}]')")
        page.expect(place, f"a click on {go}")


def is_tabbed(page):
    """Tab comes to everything in order, shows where it is, and leaves again."""
    page.open(WIDE)
    stops = []
    for _ in STOPS:
        page.press("Tab")
        stop, ring = page.browser.value(FOCUSED)
        stops.append(stop)
        if not ring:
            raise Wrong(f"does not show that {stop} has the focus")
    if stops != STOPS:
        raise Wrong(f"has the stops {stops} for Tab, and not {STOPS}")
    page.press("Tab")
    if page.browser.value(FOCUSED)[0] == "table":
        raise Wrong("does not let go of the last table")


def is_read(page):
    """What a screen reader finds: landmarks, names, heads of tables, and the part that speaks."""
    nodes = page.browser.call("Accessibility.getFullAXTree")["nodes"]
    nodes = [node for node in nodes if not node["ignored"]]
    found = [tuple(node.get(key, {}).get("value", "").strip() for key in ("role", "name"))
             for node in nodes]
    hosts = page.listing.hosts
    want = [("main", ""), ("banner", ""), ("slider", "Event")]
    want += [("region", "Move the cursor"), ("region", "Drawing"), ("region", "At the cursor")]
    want += [("table", "Every host after this event"), ("checkbox", "Letter keys")]
    want += [("columnheader", name) for name in ["Host", "Clock", "Promise", "Names", "Message"]]
    want += [("rowheader", str(host)) for host in range(hosts)]
    want += [("button", name) for name in ["Next refusal", "Previous change of a name"]]
    lacks = [it for it in want if it not in found]
    if lacks:
        raise Wrong(f"has no {lacks} for a screen reader")
    unnamed = [role for role, name in found if role in ("button", "img", "image") and not name]
    images = [name for role, name in found if role in ("img", "image")]
    if unnamed or not any(name.startswith("A run of ") for name in images):
        raise Wrong("has a button or a drawing without a name")
    live = "document.querySelector('#now').getAttribute('aria-live')"
    if page.browser.value(live) != "polite":
        raise Wrong("does not say aloud what changed")
    if page.browser.value("document.documentElement.lang") != "en":
        raise Wrong("does not say its language")


def has_contrast(page):
    """Texts stand out from their ground, light and dark."""
    grounds = set()
    for scheme in ["light", "dark"]:
        page.browser.media(prefers_color_scheme=scheme)
        page.press("End")
        pale = page.browser.value(PALE)
        if pale:
            raise Wrong(f"is pale ({scheme}): {pale[:3]}")
        grounds.add(page.browser.value("getComputedStyle(document.body).backgroundColor"))
    page.browser.media()
    if len(grounds) != 2:
        raise Wrong("is not dark where that is preferred")


def is_narrow(page):
    """On a narrow screen nothing sticks out, and what is at the cursor stands below the drawing."""
    page.open(NARROW)
    if page.browser.value("document.documentElement.scrollWidth") > NARROW[0]:
        raise Wrong("sticks out on a narrow screen")
    top = "document.querySelector('.%s').getBoundingClientRect().%s"
    if page.browser.value(top % ("now", "top")) < page.browser.value(top % ("drawing", "bottom")):
        raise Wrong("has two columns on a narrow screen")
    page.press_and_expect("ArrowRight", 1)
    page.press_and_expect("End", page.listing.last)


def is_alone(page):
    """It loads nothing, and its script meets no fault."""
    page.open(WIDE)
    page.press("End", "Home", "n", "r")
    url = pathlib.Path(page.path).resolve().as_uri()
    if page.browser.requests() != [url]:
        raise Wrong(f"loads {page.browser.requests()}")
    if page.browser.complaints():
        raise Wrong(f"has the browser complain: {page.browser.complaints()}")
    text = pathlib.Path(page.path).read_text().replace("http://www.w3.org/2000/svg", "")
    if re.search(r"https?:|\bsrc=|@import|url\((?!#)|\bhref=\"(?!#)", text):
        raise Wrong("names something to load")


def shows_the_example(page):
    """Document 01's example: what its hosts have and what is under way, at two of its events."""
    promise = "(105,0)"
    accepted = "host 0's lease by (105,0), keepers' end 160"
    named = "host 0 until 155, by (105,0)"
    idle = "idle; last ballot at 105"
    asked = "asking with (105,0), own end 160; no reply yet; no lease kept"
    prepares = [[f"prepare request (105,0) from host 0 to host {to}", "4"] for to in range(3)]
    proposal = "propose request (105,0) from host 0 to host 2, for host 0, keepers' end 160"
    learn = "learn (105,0) from host 0 to host 2, that host 0 holds until 155"
    host_1 = ["105", "ended at 105", promise, accepted, "idle", named]
    rest = ["105", "ended at 105", "none", "none", "idle", "nobody"]
    want = {
        4: ([["105", "ended at 105", "none", "none", asked, "nobody"], rest, rest], prepares),
        13: ([["105", "ended at 105", promise, accepted, idle, named], host_1, rest],
             [[learn, "12"], prepares[2], [proposal, "8"]]),
    }
    for place, (hosts, messages) in want.items():
        page.press("Home", *["ArrowRight"] * place)
        shown = page.expect(place, "the arrow keys")
        told = [row[1:] for row in shown["hosts"]], [row[1:] for row in shown["slots"]]
        if told != (hosts, messages):
            raise Wrong(f"shows {told} at event {place} of the example, not {hosts, messages}")


def shows_a_release(page):
    """The release in a renewal: what is said of it, what it leaves of its host, what it sends."""
    place, promise = 24, "(110,0)"
    accepted = "host 0's lease by (110,0), keepers' end 165"
    page.press("Home", *["ArrowRight"] * place)
    shown = page.expect(place, "the arrow keys")
    if not shown["words"].startswith("Host 0 lets go of its lease with ballot (111,0): "):
        raise Wrong(f"says '{shown['words']}' of a release")
    host = ["111", "ended at 105", promise, accepted, "idle; last ballot at 111", "nobody"]
    if shown["hosts"][0][1:] != host:
        raise Wrong(f"shows {shown['hosts'][0]} after a release, not {host}")
    sent = [[f"release request (111,0) from host 0 to host {to}", "24"] for to in range(3)]
    if [row[1:] for row in shown["slots"][-3:]] != sent:
        raise Wrong(f"shows {shown['slots']} after a release, and not {sent}")


# A run of more events is not walked through.
MOST_EVENTS = 500

BRIEF = [slides, is_clicked]
CHECKS = [walks, slides, is_clicked, jumps, has_buttons, is_alone]

# What is the same in every page is looked at in some.
FORM = [is_tabbed, is_read, has_contrast, is_narrow]
SPECIAL = {
    "example": [shows_the_example, *FORM],
    "answers": FORM,
    "release_in_a_renewal": [shows_a_release],
}


def complaints(browser, path, listing):
    """What is wrong with a page: the first thing that each check finds."""
    page, found = Page(browser, path, listing), []
    page.open(WIDE)
    checks = CHECKS if listing.last <= MOST_EVENTS else BRIEF
    for check in checks + SPECIAL.get(path.stem, []):
        try:
            check(page)
        except Wrong as wrong:
            found.append(str(wrong))
    return found
