#!/usr/bin/env python3
"""The expected replies, history and certificate of the store: a second implementation of docs/store.md.

    scripts/store_reference.py script H C < COMMANDS
    scripts/store_reference.py --worked FOLDER

The first form writes the replies; at the end of the commands it writes the history to H and its certificate to C. The
second checks each test case of a folder, such as crates/ssi_store_tests/data, and ends with `N passed, M failed`.

It was written from the definitions alone and shares nothing with the proved code. It keeps only the list of what was
done, and computes everything else anew from that list for each command, so it is for short lists of commands. Texts and
certificates are those of scripts/reference.py.
"""
import functools
import math
import os
import re
import sys

import reference
from reference import KEY, VALUE, Event, holds

SESSION = r"[A-Za-z0-9_]{1,16}"
COMMANDS = ["(collect|stat|dump|stop)", f"(begin|commit|abort) ({SESSION})", f"(get|del) ({SESSION}) ({KEY})"]
COMMANDS += [f"(put) ({SESSION}) ({KEY}) ({VALUE})", f"(scan) ({SESSION}) ({KEY}) ({KEY})(?: ([1-9][0-9]*))?"]
LONGEST_LINE, MOST_OPERATIONS, MOST_ROWS, LAST_TXN = 4096, 2**16 - 1, 2**16 - 1, 2**32 - 1


def words_of(line):
    """The words of a command line without its LF, or None if it is no command."""
    found = next((m.groups() for m in (re.fullmatch(form, line) for form in COMMANDS) if m), None)
    is_limited = found and found[0] == "scan" and found[4]
    return None if is_limited and int(found[4]) > MOST_ROWS else found


class Act:
    """Something that was done: a begin, read, write, commit, abort or collection.

    `event` is what the history has of it. `span` is the range whose keys a read meets: writes of these keys by others
    conflict with it.
    """

    def __init__(self, kind, txn=None, session=None, event=None, span=None):
        self.kind, self.txn, self.session, self.event, self.span = kind, txn, session, event, span


class Course:
    """A list of acts, and what the definitions make of it."""

    def __init__(self, acts=()):
        self.acts = tuple(acts)

    def then(self, act):
        return Course(self.acts + (act,))

    def of(self, kind):
        return [act for act in self.acts if act.kind == kind]

    # Snapshots.

    @functools.cached_property
    def stamps(self):
        """The committed transactions: the first has the stamp 1, the next one 2."""
        return {act.txn: stamp for stamp, act in enumerate(self.of("commit"), 1)}

    @functools.cached_property
    def snapshots(self):
        """Of each transaction the number of commits before its begin."""
        places = [(at, act) for at, act in enumerate(self.acts) if act.kind == "begin"]
        return {act.txn: sum(before.kind == "commit" for before in self.acts[:at]) for at, act in places}

    @functools.cached_property
    def ends(self):
        """The place of the commit or abort of each transaction that has one."""
        return {act.txn: at for at, act in enumerate(self.acts) if act.kind in ("commit", "abort")}

    @property
    def open(self):
        return [txn for txn in self.snapshots if txn not in self.ends]

    @functools.cached_property
    def writes(self):
        """Of each transaction its last write of each key that it wrote."""
        found = {txn: {} for txn in self.snapshots}
        for act in self.of("write"):
            found[act.txn][act.event.write[0][0]] = act.event.write
        return found

    def contents(self, count):
        """The last write of each key that the first `count` commits installed."""
        found = {}
        for txn in list(self.stamps)[:count]:
            found.update(self.writes[txn])
        return found

    def sees(self, txn):
        return {**self.contents(self.snapshots[txn]), **self.writes[txn]}

    def are_concurrent(self, t, u):
        def is_before(a, b):
            return a in self.stamps and self.stamps[a] <= self.snapshots[b]

        return t != u and not is_before(t, u) and not is_before(u, t)

    # Conflicts.

    def is_pair(self, reader, writer):
        """Whether the reader met a key that the writer wrote, so that it may have to precede the writer."""
        if writer not in self.stamps or not self.are_concurrent(reader, writer):
            return False
        if reader not in self.stamps and self.ends.get(reader, math.inf) < self.ends[writer]:
            return False
        spans = [act.span for act in self.of("read") if act.txn == reader and act.span]
        return any(holds(span, key) for span in spans for key in self.writes[writer])

    @functools.cached_property
    def pivots(self):
        """The pivots of the commit-order rule: a reader that hasn't committed counts as later than all."""
        pairs = [(a, u) for a in self.snapshots for u in self.stamps if self.is_pair(a, u)]
        steps = [(a, t, b) for a, t in pairs for reader, b in pairs if reader == t]
        stamps = self.stamps
        return [t for a, t, b in steps if stamps[b] < stamps[t] and stamps[b] <= stamps.get(a, math.inf)]

    # What is kept.

    def needed(self):
        """What a collection leaves: the last version of each key, and those that open transactions see."""
        counts = [len(self.stamps)] + [self.snapshots[txn] for txn in self.open]
        return {write[0] for count in counts for write in self.contents(count).values()}

    def held(self):
        """The installed versions that every collection since their commit has left."""
        found = set()
        for at, act in enumerate(self.acts):
            if act.kind == "commit":
                found |= {write[0] for write in self.writes[act.txn].values()}
            elif act.kind == "collect":
                found &= Course(self.acts[:at]).needed()
        return found

    def kept(self):
        """The open transactions, and those that committed after the snapshot of an open one."""
        seen = [self.snapshots[txn] for txn in self.open]
        return self.open + [txn for txn, stamp in self.stamps.items() if any(stamp > s for s in seen)]

    # The history.

    def history(self):
        h = reference.History()
        h.events = [act.event for act in self.acts if act.event]
        for key in sorted({key for txn in self.stamps for key in self.writes[txn]}):
            h.orders.append((key, [txn for txn in self.stamps if key in self.writes[txn]]))
        last = sorted(self.contents(len(self.stamps)).items())
        h.finals = [(key, write[1]) for key, write in last if write[1] is not None]
        return h

    def finished(self):
        """The history and its certificate after the end of the commands, when all that was open is aborted."""
        h = self.history()
        h.events += [Event("a", txn) for txn in sorted(self.open)]
        return with_certificate(h)

    def dumped(self):
        """The history so far and its certificate; it names what is open."""
        h = self.history()
        h.is_second, h.unfinished = True, sorted(self.open)
        return with_certificate(h)


def with_certificate(h):
    text = reference.history_text(h)
    return text, reference.order(text.encode())


class Refused(Exception):
    """A command changes nothing, for the reason given."""


class Store:
    """`take` gives the reply to each command line, LFs included; `course` is what was done so far."""

    def __init__(self, first=1):
        self.course, self.first, self.is_stopped = Course(), first, False

    def take(self, line):
        if len(line) > LONGEST_LINE:
            return "? long\n"
        words = words_of(line)
        if not words:
            return "? syntax\n"
        try:
            return getattr(self, "do_" + words[0])(*words[1:])
        except Refused as reason:
            return "! %s\n" % reason

    def take_all(self, lines):
        """The replies to the lines, up to the first `stop`."""
        replies = []
        for line in lines:
            if not self.is_stopped:
                replies.append(self.take(line))
        return replies

    # What the commands share.

    def begun(self, session):
        """The open transaction of the session, if it has one."""
        txns = [act.txn for act in self.course.of("begin") if act.session == session]
        return txns[-1] if txns and txns[-1] in self.course.open else None

    def running(self, session):
        if not self.begun(session):
            raise Refused("2 idle")
        return self.begun(session)

    def operating(self, session):
        """The transaction of a session that may go on to read and write."""
        txn = self.running(session)
        if sum(act.txn == txn and act.kind in ("read", "write") for act in self.course.acts) >= MOST_OPERATIONS:
            raise Refused("4 long")
        return txn

    def done(self, act, reply):
        self.course = self.course.then(act)
        return reply + "\n"

    def done_if_safe(self, act, reply):
        pivots = self.course.then(act).pivots
        return self.aborted(act.txn, "unsafe %d" % min(pivots)) if pivots else self.done(act, reply)

    def aborted(self, txn, reply):
        return self.done(Act("abort", txn, event=Event("a", txn)), reply)

    def written(self, kind, session, key, value):
        txn = self.operating(session)
        count = sum(act.txn == txn and act.event.write[0][0] == key for act in self.course.of("write"))
        version = key, txn, count + 1
        return self.done(Act("write", txn, event=Event(kind, txn, write=(version, value))), "done")

    # The commands.

    def do_begin(self, session):
        if self.begun(session):
            raise Refused("1 busy")
        txn = self.first + len(self.course.of("begin"))
        if txn > LAST_TXN:
            raise Refused("5 spent")
        return self.done(Act("begin", txn, session), "begun %d" % txn)

    def do_get(self, session, key):
        txn = self.operating(session)
        seen = self.course.sees(txn).get(key)
        span = None if key in self.course.writes[txn] else (key, key)
        if seen and seen[1] is not None:
            event, reply = Event("r", txn, seen=[seen]), "value " + seen[1]
        else:
            event, reply = Event("s", txn, seen=[seen] if seen else [], span=(key, key)), "absent"
        return self.done_if_safe(Act("read", txn, event=event, span=span), reply)

    def do_put(self, session, key, value):
        return self.written("w", session, key, value)

    def do_del(self, session, key):
        return self.written("d", session, key, None)

    def do_scan(self, session, lo, hi, limit):
        self.running(session)
        if lo > hi:
            raise Refused("3 range")
        txn = self.operating(session)
        seen = [write for key, write in sorted(self.course.sees(txn).items()) if holds((lo, hi), key)]
        rows = [(version[0], value) for version, value in seen if value is not None]
        if limit and len(rows) >= int(limit):
            rows = rows[: int(limit)]
            hi = rows[-1][0]
            seen = [write for write in seen if write[0][0] <= hi]
        act = Act("read", txn, event=Event("s", txn, seen=seen, span=(lo, hi)), span=(lo, hi))
        return self.done_if_safe(act, " ".join(["rows %d" % len(rows)] + ["%s,%s" % row for row in rows]))

    def do_commit(self, session):
        txn, course = self.running(session), self.course
        installed = course.contents(len(course.stamps))
        others = {key: installed[key][0][1] for key in sorted(course.writes[txn]) if key in installed}
        for key, writer in others.items():
            if course.stamps[writer] > course.snapshots[txn]:
                return self.aborted(txn, "conflict %s %d" % (key, writer))
        return self.done_if_safe(Act("commit", txn, event=Event("c", txn)), "committed")

    def do_abort(self, session):
        return self.aborted(self.running(session), "aborted")

    def do_collect(self):
        self.done(Act("collect"), "")
        return "kept %d\n" % len(self.course.held())

    def do_stat(self):
        held = self.course.held()
        counts = len(self.course.open), len(self.course.kept()), len(held), len({key for key, _, _ in held})
        return "stat open %d kept %d versions %d keys %d\n" % counts

    def do_dump(self):
        return "".join(self.course.dumped())

    def do_stop(self):
        self.is_stopped = True
        return "stopped\n"


# Lists of commands.


def lines_of(text):
    """The lines of the input; a rest without its LF is no line."""
    return text.decode("latin-1").split("\n")[:-1]


def content(folder, name):
    path = os.path.join(folder, name)
    return open(path, "rb").read() if os.path.exists(path) else None


def faults(folder):
    """The names of the files of the test case that say something else than the store here."""
    store = Store()
    replies = "".join(store.take_all(lines_of(content(folder, "commands"))))
    found = (replies, *store.course.finished())
    named = zip(("replies", "history", "certificate"), found)
    wrong = [name for name, text in named if content(folder, name) not in (text.encode(), None)]
    return wrong + ([] if reference.audit(*(text.encode() for text in found[1:])) == "yes\n" else ["verdict"])


def worked(top):
    folders = [os.path.join(top, name) for name in sorted(os.listdir(top))]
    folders = [folder for folder in folders if os.path.isdir(folder)]
    failed = [folder for folder in folders if faults(folder)]
    for folder in failed:
        print("%s: %s" % (folder, ", ".join(faults(folder))))
    print("%d passed, %d failed" % (len(folders) - len(failed), len(failed)))
    sys.exit(1 if failed else 0)


def script(history, certificate):
    store = Store()
    sys.stdout.write("".join(store.take_all(lines_of(sys.stdin.buffer.read()))))
    for name, text in zip((history, certificate), store.course.finished()):
        with open(name, "w") as out:
            out.write(text)


def main():
    words = sys.argv[1:]
    if words[:1] == ["--worked"] and len(words) == 2:
        worked(words[1])
    elif words[:1] == ["script"] and len(words) == 3:
        script(*words[1:])
    else:
        sys.exit(__doc__)


if __name__ == "__main__":
    main()
