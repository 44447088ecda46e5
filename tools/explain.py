#!/usr/bin/env python3
"""Explains in sentences what the program `ssi` finds in a history, and draws it.

    tools/explain.py [--picture FILE] [--transactions N,N,..] [--shortest] [--program PROGRAM] HISTORY
    tools/explain.py --store COMMANDS REPLIES
    tools/explain.py --lists [--picture FILE] [--program PROGRAM] HISTORY

It runs `PROGRAM order HISTORY` (by default crates/ssi/out/ssi) and prints why there is no serial order: each edge of
the cycle, or the fault, in a sentence with the lines of the history that make it, or at which byte of a line the text is
no history and what was wanted there. If there is a serial order, it prints that.

If the cycle has more than two transactions, it looks for a shortest one, and says which it shows. In a history with
more than 20,000 transactions it does so only with --shortest, since this takes more time and memory than all the rest.

With --picture it also draws the history: a row for each transaction, its events from left to right, and the edges as
arrows. A file whose name ends with `.svg` is the drawing alone, any other one an HTML page with the sentences under it.
Of a history with more than 12 transactions or 60 events only the transactions of the answer are drawn: those of the
cycle, all of them, and those that its sentences name, or the first 12 of the serial order. --transactions chooses
others. Without it the page then has a second picture, of all events if there are at most 3,000, which can be scrolled,
and filtered by transactions and keys. The line of an event is shown while the pointer is over it.

Beside the program's own time it takes about a second for each 100,000 transactions of eight operations, and a few
megabytes: it goes over the file, and reads only the lines of the transactions that it explains or draws.

The second form is for a script of the store and its replies. It says why each transaction was aborted that the store
refused: for `unsafe` the pivot and its two conflicts, for `conflict` who installed the version. Lines are those of the
commands.

The third form is for a list-append history with one operation a line, as `lists` reads it. It says what `lists --json` says
(by default crates/lists/out/lists). With --picture it draws the cycle that decides, all of it: the steps of each
transaction from left to right, and the links as arrows. There is no picture if no cycle decides.

If the program `ssi` isn't built, scripts/reference.py answers in its place. It is slow and isn't proved, and a line on
standard error says so. Exit status: 0 if there is an answer, whatever it is; 2 if an argument or a file is wrong; that
of the program if it fails.
"""
import argparse
import os
import subprocess
import sys

TOP = os.path.dirname(os.path.dirname(os.path.abspath(__file__)))
sys.path.insert(0, os.path.join(TOP, "scripts"))
import drawing  # noqa: E402  (beside this file)
import list_picture  # noqa: E402
import reference  # noqa: E402  (in scripts/)
import store_run  # noqa: E402
import syntax  # noqa: E402
from cycles import Graph, shorter  # noqa: E402  (and the others beside this file)
from dependencies import Order  # noqa: E402
from faults import Malformed, line  # noqa: E402
from history_file import HistoryFile  # noqa: E402

MOST_SEARCHED = 20000  # transactions of a history in which a shortest cycle is looked for unasked


class Told:
    """A sentence about two events, the first of which comes first in a serial order. It has the kind and key of the
    edge, the lines of the two, and the lines of other events that it mentions."""

    def __init__(self, text, label, first, second, others=()):
        self.text, self.label, self.first, self.second, self.others = text, label, first, second, others


class Explanation:
    """The first sentence, the sentences about edges or reads, the transactions of a serial order, and the lines of
    events that are at fault by themselves. `events` has the events that the sentences mention, by their lines; it is
    None if the text is no history. `which` says which cycle is shown, if there may be a shorter one."""

    def __init__(self, said, told=(), order=(), faulty=(), events=None, which=""):
        self.said, self.told, self.order, self.faulty, self.events = said, told, order, faulty, events
        self.which = which


class Explainer:
    """Finds the events that make an edge or a faulty read. `events` has those that may be needed, by their lines."""

    def __init__(self, events):
        self.events = dict(sorted(events.items()))
        self.last_writes = {(e.txn, e.write[0][0]): at for at, e in self.events.items() if e.write}
        self.of_txn = {}
        for at, e in self.events.items():
            self.of_txn.setdefault(e.txn, []).append((at, e))
        self.orders = {}

    @classmethod
    def of_edges(cls, file, edges):
        """That of these edges, which all belong to the history in the file."""
        txns, keys = {txn for start, _, _, end in edges for txn in (start, end)}, {key for _, _, key, _ in edges}
        events, orders = file.events_of(txns), file.orders(keys)
        shown = {seen[0][1] for e in events.values() for seen in e.seen if seen[0][0] in keys}
        before = {a for txns_of in orders.values() for a, b in zip(txns_of, txns_of[1:]) if b in txns}
        explainer = cls({**events, **file.writes(txns | shown | before, keys)})
        explainer.orders = {key: Order(key, found, explainer.is_dead(key)) for key, found in orders.items()}
        return explainer

    def write_of(self, txn, key):
        """The line of the transaction's last write of the key."""
        return self.last_writes[txn, key]

    def is_dead(self, key):
        return lambda txn: self.is_delete(self.write_of(txn, key))

    def is_delete(self, at):
        return self.events[at].write[1] is None

    def writes(self, at):
        return "deletes" if self.is_delete(at) else "writes"

    def overwrites(self, at):
        return "deletes" if self.is_delete(at) else "overwrites"

    def line_that_gives(self, edge):
        """The line of the first event that makes the edge, and that of the write which it reads or selects: None if
        that is the unborn version."""
        start, kind, key, end = edge
        order = self.orders[key]
        for at, e in self.of_txn[start if kind == "rw" else end]:
            if order.precedes(e, end) if kind == "rw" else order.follows(e, start):
                shown = order.installer(order.selected(e))
                return at, shown and self.write_of(shown, key)
        raise ValueError("no event makes %s" % reference.told(edge))

    def seen(self, at, key, shown):
        """What the event sees of the key, in words."""
        e = self.events[at]
        writer = None if shown is None else self.events[shown].txn
        if not e.span:
            return "reads the version of `%s` by %d" % (key, writer)
        scans = "scans `%s` to `%s` and finds" % e.span
        if shown is None:
            return "%s no `%s`" % (scans, key)
        if self.is_delete(shown):
            return "%s `%s` deleted by %d" % (scans, key, writer)
        return "%s the version of `%s` by %d" % (scans, key, writer)

    def finds(self, at, first, shown):
        """What the reader of a read dependency does, whose first event is this write."""
        e = self.events[at]
        if not e.span:
            return "reads that version"
        scans = "scans `%s` to `%s` and finds" % e.span
        if shown == first:
            return scans + (" it deleted" if self.is_delete(first) else " that version")
        later = "it deleted later by %d" if self.is_delete(shown) else "the later version by %d"
        return "%s %s" % (scans, later % self.events[shown].txn)

    def of_edge(self, edge):
        start, kind, key, end = edge
        label = "%s %s" % (kind, key)
        others = []
        if kind == "ww":
            first, second = self.write_of(start, key), self.write_of(end, key)
            does, then = "%s `%s`" % (self.writes(first), key), self.overwrites(second) + " that version"
        elif kind == "wr":
            first = self.write_of(start, key)
            second, shown = self.line_that_gives(edge)
            does, then, others = "%s `%s`" % (self.writes(first), key), self.finds(second, first, shown), [shown]
        else:
            first, shown = self.line_that_gives(edge)
            second = self.write_of(end, key)
            is_visible = shown is not None and not self.is_delete(shown)
            does = self.seen(first, key, shown)
            then = (self.overwrites(second) if is_visible else self.writes(second)) + " it"
            others = [] if shown is None else [shown]
        text = "%s: %d %s; %s: %d %s: %d comes before %d" % (
            line(first), start, does, line(second), end, then, start, end)
        return Told(text, label, first, second, others)

    def of_bad_read(self, at, version, kind, unfinished):
        """The sentence for an event that reads a version of an aborted or unfinished transaction, or one that its
        writer replaced. The line that names the writer as unfinished is given, if there is one."""
        key, txn, _ = reference.version(version)
        first = next(n for n, e in self.events.items() if e.write and e.write[0] == reference.version(version))
        reader = self.events[at]
        reads = "scans `%s` to `%s` and finds" % reader.span if reader.span else "reads"
        text = "%s: %d %s `%s`; %s: %d %s that version, and commits; " % (
            line(first), txn, self.writes(first), key, line(at), reader.txn, reads)
        others = []
        if kind == "intermediate-read":
            others = [self.write_of(txn, key)]
            text += "%s: %d %s it" % (line(others[0]), txn, self.overwrites(others[0]))
        elif unfinished:
            text += "%s: %d is unfinished" % (line(unfinished), txn)
        else:
            others = [n for n, e in self.events.items() if e.kind == "a" and e.txn == txn]
            text += "%s: %d aborts" % (line(others[0]), txn)
        return Told(text, "%s %s" % (kind, key), first, at, others)


def shown_cycle(file, edges, is_asked):
    """The edges of the cycle that is shown, given those of the reported one, and which of the two it is, in words."""
    if len(edges) == 2:
        return edges, ""
    if not is_asked and len(file.size()[0]) > MOST_SEARCHED:
        return edges, "This is the cycle that `order` reports. --shortest looks for a shortest one."
    found = shorter(Graph(file.events(rb"[wdrsca][0-9]").values(), file.orders().items()), len(edges))
    if found:
        return found, "This is a shortest cycle. The one that `order` reports has %d dependencies." % len(edges)
    return edges, "This is the cycle that `order` reports. No cycle is shorter."


def of_cycle(file, lines, is_asked):
    edges = []
    for words in lines:
        kind, key, start, end = words.split()
        edges.append((int(start), kind, key, int(end)))
    edges, which = shown_cycle(file, edges, is_asked)
    chain = ", ".join("%d before %d" % (edge[0], edge[3]) for edge in edges)
    said = "No serial order: %s." % chain.replace(" before", " comes before", 1)
    explainer = Explainer.of_edges(file, edges)
    return Explanation(said, [explainer.of_edge(edge) for edge in edges], events=explainer.events, which=which)


def of_bad_read(file, at, version, kind):
    said = "A committed transaction read what an aborted or unfinished one wrote."
    if kind == "intermediate-read":
        said = "A committed transaction read what its writer replaced later."
    txn = reference.version(version)[1]
    explainer = Explainer({**file.events_of([txn]), at: file.event(at)})
    told = explainer.of_bad_read(at, version, kind, file.unfinished(txn))
    return Explanation(said, [told], events=explainer.events)


def of_broken_rule(file, at, rule):
    said = "The history contradicts itself at line %d (rule %s): %s." % (at, rule, Malformed(file).of(at, rule))
    event = file.event(at)
    return Explanation(said, faulty=[at] if event else [], events={at: event} if event else {})


def of_syntax(file, number):
    return Explanation("The text is no history: %s." % syntax.fault(file, number))


def explanation(file, answer, is_asked=False):
    """The explanation of the answer to the history in the file. `is_asked` is whether --shortest was given."""
    words, lines = answer.split("\n", 1)[0].split(), answer.split("\n")[1:-1]
    if words[:2] == ["no", "1"]:
        return of_syntax(file, int(words[4]))
    if words[0] == "serial":
        order = lines[:-1]
        said = "A serial order: %s." % (", ".join(order) or "no transaction has committed")
        return Explanation(said, order=[int(txn) for txn in order], events={})
    if words[:2] == ["no", "2"]:
        return of_broken_rule(file, int(words[3]), words[4])
    if words[0] == "cycle":
        return of_cycle(file, lines, is_asked)
    return of_bad_read(file, int(words[3]), words[4], words[2])


def fail(text):
    print("explain.py: " + text, file=sys.stderr)
    sys.exit(2)


def answer_of(program, path):
    """What `order` says of the history."""
    if not os.path.exists(program):
        print("(%s isn't built; scripts/reference.py, which isn't proved, answers)" % program, file=sys.stderr)
        with open(path, "rb") as file:
            return reference.order(file.read())
    ran = subprocess.run([program, "order", "--", path], stdout=subprocess.PIPE)
    if ran.returncode not in (0, 1):
        sys.exit(ran.returncode)
    return ran.stdout.decode()


def numbers(text):
    return [int(number) for number in text.split(",")]


def draw(options, file, found):
    """Writes the picture. Says on standard error what isn't drawn."""
    if found.events is None:
        fail("no picture: the text is no history")
    every, events = file.size()
    unknown = set(options.transactions or []) - set(every)
    if unknown:
        fail("no picture: there is no transaction %d" % min(unknown))
    choice = drawing.Choice(every, events, found, options.transactions)
    is_page = not options.picture.endswith(".svg")
    whole = file.events_of(every) if is_page and choice.is_scrolled else {}
    page = drawing.Page(choice.drawn(file.events_of(choice.txns)), found, choice.left_out, whole)
    if page.left_out:
        print("(%s)" % page.left_out, file=sys.stderr)
    write_picture(options, page)


def write_picture(options, page):
    """Writes the picture to the file that the name is of: the drawing alone, or a page."""
    lines = page.svg() if options.picture.endswith(".svg") else page.page(options.history)
    try:
        with open(options.picture, "w", encoding="utf-8") as out:
            out.writelines(line + "\n" for line in lines)
    except OSError as error:
        fail("can't write %s: %s" % (options.picture, error.strerror))


def of_store(commands, replies):
    try:
        print("\n".join(store_run.explained(commands, replies)))
    except OSError as error:
        fail("can't read %s: %s" % (error.filename, error.strerror))
    except store_run.Mismatch as error:
        fail("these are no replies to these commands: %s" % error)


def of_lists(options):
    program = options.program or os.path.join(TOP, "crates", "lists", "out", "lists")
    if not os.path.exists(program):
        fail("%s isn't built" % program)
    try:
        answer = list_picture.answer_of(program, options.history)
    except list_picture.Failed as failed:
        sys.exit(failed.args[0])
    which = list_picture.which(answer)
    print("\n".join([list_picture.said_of(answer), *list_picture.sentences(answer)] + ([which] if which else [])))
    if not options.picture:
        return
    if "cycle" not in answer:
        fail("no picture: no cycle decides")
    events, told = list_picture.drawn(answer, options.history, Told)
    found = Explanation(list_picture.said_of(answer), told, events=events, which=which)
    write_picture(options, drawing.Page(events, found, ""))


def main():
    usage = ("\n" + " " * 7).join(line.strip() for line in __doc__.split("\n")[2:5])
    parser = argparse.ArgumentParser(usage=usage, description=__doc__,
                                     formatter_class=argparse.RawDescriptionHelpFormatter)
    parser.add_argument("--picture", metavar="FILE")
    parser.add_argument("--transactions", metavar="N,N,..", type=numbers)
    parser.add_argument("--shortest", action="store_true")
    parser.add_argument("--program")
    parser.add_argument("--store", action="store_true")
    parser.add_argument("--lists", action="store_true")
    parser.add_argument("files", metavar="HISTORY", nargs="+")
    options = parser.parse_args()
    if len(options.files) != (2 if options.store else 1) or options.store and options.picture:
        parser.error("HISTORY, or --store COMMANDS REPLIES, is wanted")
    if options.store:
        return of_store(*options.files)
    options.history = options.files[0]
    if options.lists:
        return of_lists(options)
    options.program = options.program or os.path.join(TOP, "crates", "ssi", "out", "ssi")
    try:
        file = HistoryFile(options.history)
    except OSError as error:
        fail("can't read %s: %s" % (options.history, error.strerror))
    found = explanation(file, answer_of(options.program, options.history), options.shortest)
    print("\n".join([found.said] + [told.text for told in found.told] + ([found.which] if found.which else [])))
    if options.picture:
        draw(options, file, found)


if __name__ == "__main__":
    main()
