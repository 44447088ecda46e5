"""Draws a history for tools/explain.py: a row for each transaction, a box for each event, and an arrow for each edge.

Boxes of different rows may lie above one another. Their left edges are in the order of the events, and a transaction's
first box lies to the right of all transactions that ended before it. The transactions of a cycle stand one under the
other in the order of the cycle. The page of a longer history also has a second picture, of all events, which page.js
draws: it can be scrolled, and filtered by transactions and keys.
"""
import html
import json
import os
import re

import reference
from arrows import Arrow, Filled, choose_labels, choose_ports, choose_ways

MOST_TXNS, MOST_EVENTS = 12, 60  # a history with more isn't drawn whole
MOST_SCROLLED = 3000  # events of the picture that can be scrolled
MOST_LETTERS = 26  # of a line in a box
FONT, LETTER, LINE = 14, 8.43, 18  # the height of the letters, the width of each, and from line to line, in pixels
HIGH, PAD, GAP, STEP = 42, 6, 7, 24  # a box's height and its edges; between boxes of a row; between left edges
ROW, NEAR_ROW, SCROLLED_ROW, MARGIN = 124, 60, 104, 8  # from row to row, and if no arrow runs there; around all rows
COLOURS = {"c": "#1b5e9e", "a": "#777", "u": "#9a6700"}
ENDS = {"c": "committed", "a": "aborted", "u": "unfinished"}
RED, FAULTY, NAMED, PLAIN = "#b3261e", "#ffe1a6", "#fff6e0", "#fff"
FACE = "DejaVu Sans Mono, Menlo, Consolas, monospace"
STYLE = """body { font: 16px/1.5 sans-serif; margin: 2em; color: #222; background: #fff }
figure { margin: 0; overflow-x: auto }
li { margin: .3em 0 }
#whole { overflow: auto; max-height: 80vh; border: 1px solid #ccc }
#whole svg { display: block; font: %dpx %s }
#line { font: %dpx %s; min-height: 1.5em; overflow-wrap: anywhere }
label { margin-right: 1.5em }""" % (FONT, FACE, FONT, FACE)
KEY = """Each row is a transaction: blue if it committed, grey and dashed if it aborted, brown and dashed if it is
unfinished. The left edges of the boxes are in the order of the events. Dark yellow boxes are the two events of a
sentence, light yellow boxes the other events that it mentions. Hold the pointer over a box to see its line."""
FILTERS = """<h2>All events</h2><p>A row may have several transactions, one after the other.
<label>Only transactions <input id="txns" placeholder="12 13" size="16"/></label>
<label>and keys <input id="keys" placeholder="x, k1*" size="16"/></label> <span id="count"></span></p>
<p id="line">Hold the pointer over a box to see its line.</p><div id="whole"></div>"""


def words(event):
    """The one or two lines in the box of an event."""
    if event.kind in "ca":
        return [{"c": "commit", "a": "abort"}[event.kind]]
    if event.kind == "s":
        listed = [version[0] + (" deleted" if value is None else "=" + value) for version, value in event.seen]
        return ["scan %s..%s" % event.span, ", ".join(listed) or "nothing"]
    version, value = event.write or event.seen[0]
    does = "%s %s" % ({"w": "write", "d": "delete", "r": "read"}.get(event.kind, event.kind), version[0])
    return [does] if value is None else [does, value]


def short(text):
    return text if len(text) <= MOST_LETTERS else text[:MOST_LETTERS - 1] + "…"


def code(text):
    """A sentence as HTML, with its keys as code."""
    return re.sub("`([^`]*)`", r"<code>\1</code>", html.escape(text))


def keys_of(event):
    """The keys that the event writes, reads or lists."""
    return [version[0] for version, _ in event.seen + ([event.write] if event.write else [])]


class Choice:
    """Which transactions and events of a history are drawn: those that were asked for, or all of a small history, or
    those of the answer, with the whole of its cycle. Of a transaction that the answer only mentions, the mentioned
    events and the end are drawn. `every` has all transactions, in the order of their first events."""

    def __init__(self, every, events, found, asked):
        is_small = len(every) <= MOST_TXNS and events <= MOST_EVENTS
        self.partly, self.named = set(), {at for one in found.told for at in one.others}
        if asked or is_small:
            self.txns = set(asked or every)
        else:
            of_edges = [at for one in found.told for at in (one.first, one.second)]
            wholly = [found.events[at].txn for at in list(found.faulty) + of_edges] + list(found.order)[:MOST_TXNS]
            partly = [found.events[at].txn for at in sorted(self.named)]
            chosen = list(dict.fromkeys(wholly + partly)) or every[:MOST_TXNS]
            self.txns, self.partly = set(chosen), (set(chosen) - set(wholly)) & set(partly)
        self.is_scrolled = not asked and not is_small and events <= MOST_SCROLLED
        self.left_out = ""
        if len(self.txns) < len(every):
            self.left_out = "%d of %d transactions are drawn%s; --transactions N,N,.. chooses others" % (
                len(self.txns), len(every), ", some in part" if self.partly else "")

    def drawn(self, events):
        """Those of the events of these transactions, given by their lines, that are drawn."""
        return {at: e for at, e in events.items() if e.txn not in self.partly or at in self.named or e.ends}


class Box:
    """Where an event is drawn, and what stands there."""

    def __init__(self, event, left, top):
        self.event, self.left, self.top = event, left, top
        self.lines = [short(text) for text in words(event)]
        self.width = LETTER * max(map(len, self.lines)) + 2 * PAD

    @property
    def right(self):
        return self.left + self.width

    @property
    def bottom(self):
        return self.top + HIGH

    @property
    def middle(self):
        return self.left + self.width / 2


def hover(at, event):
    return getattr(event, "text", None) or "line %d: %s" % (at, reference.event_text(event))


class Page:
    """The picture of these events of a history, by their lines, and the explanation. `whole` has all events for the
    picture that can be scrolled; it is empty if there is none."""

    def __init__(self, events, found, left_out, whole=()):
        self.found, self.events, self.left_out, self.whole = found, events, left_out, dict(whole)
        self.rows = self.ordered()
        self.ends = {event.txn: event.kind if event.ends else "u" for event in events.values()}
        self.boxes = self.placed()
        self.mine = {txn: [box for box in self.boxes.values() if box.event.txn == txn] for txn in self.rows}
        self.faulty = set(found.faulty) | {at for one in found.told for at in (one.first, one.second)}
        self.named = {at for one in found.told for at in one.others}
        self.arrows = [Arrow(one.label, self.boxes[one.first], self.boxes[one.second]) for one in found.told
                       if one.first in self.boxes and one.second in self.boxes]
        self.route()
        xs = [self.title_left(txn) for txn in self.rows] + [box.right for box in self.boxes.values()]
        xs += [x for arrow in self.arrows for x, _ in arrow.points(ROW - HIGH)]
        xs += [arrow.label_at[0] + way * LETTER * len(arrow.label) / 2 for arrow in self.arrows for way in (-1, 1)]
        self.left = min(xs, default=0) - MARGIN
        self.width = max(xs, default=0) + MARGIN - self.left
        self.height = max([box.bottom for box in self.boxes.values()], default=HIGH) + MARGIN

    def ordered(self):
        """The transactions from top to bottom: in the order of their first events, and then those of a cycle."""
        rows = list(dict.fromkeys(event.txn for event in self.events.values()))
        cycle = [self.found.events[one.first].txn for one in self.found.told]
        cycle = [txn for txn in cycle if txn in rows] if len(cycle) > 1 else []
        first = min(map(rows.index, cycle), default=0)
        start = cycle.index(rows[first]) if cycle else 0
        return [txn for txn in rows if txn not in set(cycle)] + cycle[start:] + cycle[:start]

    def tops(self):
        """The upper edge of each row. Rows between which no arrow runs stand near one another."""
        ends = [self.rows.index(self.events[at].txn) for one in self.found.told for at in (one.first, one.second)
                if at in self.events]
        tops, top = {}, MARGIN
        for number, txn in enumerate(self.rows):
            tops[txn] = top
            top += ROW if ends and min(ends) <= number < max(ends) else NEAR_ROW
        return tops

    def placed(self):
        """The boxes of the events, by their lines."""
        boxes, row_right, left, ended, tops = {}, {}, -STEP, -GAP, self.tops()
        for at, event in self.events.items():
            left = max(left + STEP, row_right.get(event.txn, ended) + GAP)
            box = boxes[at] = Box(event, left, tops[event.txn])
            row_right[event.txn] = box.right
            ended = max(ended, box.right) if event.ends else ended
        return boxes

    def title_left(self, txn):
        return self.mine[txn][0].left - LETTER * max(len("T%d" % txn), len(ENDS[self.ends[txn]])) - PAD

    def route(self):
        """Says where arrows run and where labels stand."""
        titles = [(self.title_left(txn), self.mine[txn][0].left, self.mine[txn][0].top) for txn in self.rows]
        choose_ways(self.arrows, list(self.boxes.values()), titles)
        choose_ports(self.arrows)
        filled = Filled()
        for box in self.boxes.values() if self.arrows else ():
            filled.add_box(box.left, box.top, box.right, box.bottom, box)
        for left, right, top in titles if self.arrows else ():
            filled.add_box(left, top, right, top + HIGH, None)
        choose_labels(self.arrows, filled, ROW - HIGH, LETTER)

    def dashes(self, txn):
        return "" if self.ends[txn] == "c" else ' stroke-dasharray="4 4"'

    def row(self, txn):
        """The number of the transaction, how it ended, and a line along its row."""
        first, last = self.mine[txn][0], self.mine[txn][-1]
        middle, colour = first.top + HIGH / 2, COLOURS[self.ends[txn]]
        for text, down, weight in ("T%d" % txn, -4, "bold"), (ENDS[self.ends[txn]], LINE - 4, "normal"):
            yield '<text x="%.1f" y="%.1f" fill="%s" font-weight="%s" text-anchor="end">%s</text>' % (
                first.left - PAD, middle + down, colour, weight, text)
        yield '<line x1="%.1f" y1="%.1f" x2="%.1f" y2="%.1f" stroke="%s"%s/>' % (
            first.left, middle, last.right, middle, colour, self.dashes(txn))

    def fill(self, at):
        return FAULTY if at in self.faulty else NAMED if at in self.named else PLAIN

    def box(self, at):
        box = self.boxes[at]
        yield '<g><title>%s</title>' % html.escape(hover(at, box.event))
        yield '<rect x="%.1f" y="%d" width="%.1f" height="%d" rx="4" fill="%s" stroke="%s"%s/>' % (
            box.left, box.top, box.width, HIGH, self.fill(at), COLOURS[self.ends[box.event.txn]],
            self.dashes(box.event.txn))
        down = box.top + HIGH / 2 + 5 - LINE / 2 * (len(box.lines) - 1)
        for number, text in enumerate(box.lines):
            yield '<text x="%.1f" y="%.1f">%s</text>' % (box.left + PAD, down + LINE * number, html.escape(text))
        yield "</g>"

    def arrow(self, arrow):
        """From the event of the transaction that comes first to that of the other one."""
        curves = arrow.curves(ROW - HIGH)
        path = "M %.1f %.1f" % curves[0][0] + "".join(" C %.1f %.1f %.1f %.1f %.1f %.1f" % (b + c + d)
                                                      for _, b, c, d in curves)
        yield '<path d="%s" fill="none" stroke="%s" stroke-width="2" marker-end="url(#head)"/>' % (path, RED)

    def label(self, arrow):
        """The kind and key of the edge, on its arrow."""
        (x, y), wide = arrow.label_at, LETTER * len(arrow.label) + 6
        yield '<rect x="%.1f" y="%.1f" width="%.1f" height="%d" fill="#fff"/>' % (x - wide / 2, y - 9, wide, LINE)
        yield '<text x="%.1f" y="%.1f" fill="%s" text-anchor="middle">%s</text>' % (
            x, y + 5, RED, html.escape(arrow.label))

    def svg(self):
        yield '<svg xmlns="http://www.w3.org/2000/svg" viewBox="%.0f 0 %.0f %.0f" width="%.0f" height="%.0f" ' \
            'font-family="%s" font-size="%d">' % (
                self.left, self.width, self.height, self.width, self.height, FACE, FONT)
        yield '<defs><marker id="head" viewBox="0 0 10 10" refX="9" refY="5" markerWidth="7" markerHeight="7" ' \
            'orient="auto"><path d="M 0 0 L 10 5 L 0 10 z" fill="%s"/></marker></defs>' % RED
        yield '<rect x="%.0f" width="%.0f" height="%.0f" fill="#fff"/>' % (self.left, self.width, self.height)
        for parts, one_by_one in (self.row, self.rows), (self.box, self.boxes), (self.arrow, self.arrows), (
                self.label, self.arrows):
            for one in one_by_one:
                yield from parts(one)
        yield "</svg>"

    def data(self):
        """What page.js draws, as JSON that may stand in a page."""
        events = [[at, e.txn, hover(at, e), list(map(short, words(e))), keys_of(e), e.span or (), self.fill(at)]
                  for at, e in self.whole.items()]
        ends = {e.txn: e.kind if e.ends else "u" for e in self.whole.values()}
        colours = {txn: [COLOURS[end], ENDS[end]] for txn, end in ends.items()}
        arrows = [[one.first, one.second, one.label] for one in self.found.told]
        sizes = {"letter": LETTER, "line": LINE, "high": HIGH, "pad": PAD, "gap": GAP, "step": STEP}
        sizes.update(row=SCROLLED_ROW, red=RED)
        text = json.dumps({"events": events, "ends": colours, "arrows": arrows, **sizes})
        return re.sub("[<>&]", lambda found: "\\u%04x" % ord(found[0]), text)

    def scrolled(self):
        """The part of the page with all events."""
        with open(os.path.join(os.path.dirname(os.path.abspath(__file__)), "page.js"), encoding="utf-8") as file:
            script = file.read()
        yield FILTERS
        yield '<script id="data" type="application/json">%s</script>' % self.data()
        yield "<script>//<![CDATA[\n%s//]]></script>" % script

    def page(self, name):
        """The lines of the page, for the history with this name."""
        title = html.escape(name)
        yield '<!DOCTYPE html>\n<html lang="en"><head><meta charset="utf-8"/><title>%s</title>' % title
        yield "<style>%s</style></head><body><h1>%s</h1>" % (STYLE, title)
        yield "<p>%s</p><figure>" % code(self.found.said)
        yield from self.svg()
        yield "</figure>"
        if self.found.told:
            yield "<ul>%s</ul>" % "".join("<li>%s</li>" % code(one.text) for one in self.found.told)
        yield "<p>%s</p>" % code(self.found.which) if self.found.which else ""
        yield "<p>%s%s</p>" % (KEY, " %s." % html.escape(self.left_out) if self.left_out else "")
        if self.whole:
            yield from self.scrolled()
        yield "</body></html>"
