"""Says for tools/explain.py why a run of the store aborted transactions, given its commands and replies.

What pairs and pivots are is in docs/store.md. Lines are those of the commands.
"""
import bisect
import itertools
import math

from reference import holds
from store_reference import words_of


class Mismatch(Exception):
    """The replies aren't those to the commands."""


class Transaction:
    """A transaction: the number of commits before its begin, its own place among the commits if it has committed, its
    reads with their ranges, its last write of each key, and the lines of its begin and end."""

    def __init__(self, number, line, saw):
        self.number, self.begun, self.saw, self.stamp, self.ended = number, line, saw, math.inf, None
        self.reads, self.writes = [], {}

    def meeting(self, other):
        """The first read of a key that the other one wrote, and this key."""
        for line, span, text in self.reads:
            for key in sorted(other.writes):
                if holds(span, key):
                    return line, key, text

    def has_pair_to(self, other):
        """Whether this one may have to precede the other one, which has committed."""
        is_concurrent = self.saw < other.stamp and other.saw < self.stamp
        has_left = self.stamp == math.inf and self.ended is not None and self.ended < other.ended
        return self is not other and is_concurrent and not has_left and self.meeting(other) is not None


def does(writer, key):
    """The line of the writer's last write of the key, and what it does there."""
    line, is_delete = writer.writes[key]
    return line, "deletes" if is_delete else "writes"


class Run:
    """What was done up to some command, and the sentences about what was aborted."""

    def __init__(self):
        self.open, self.committed, self.versions, self.keys, self.said = {}, [], {}, [], []
        self.by_number = {}

    def take(self, line, words, reply):
        """Adds a command that was carried out, and its reply."""
        kind, session = words[0], words[1] if len(words) > 1 else None
        if kind == "begin":
            txn = self.open[session] = Transaction(int(reply[1]), line, len(self.committed))
            self.by_number[txn.number] = txn
        elif session is None:
            return
        elif session not in self.open:
            raise Mismatch("line %d: the session has no transaction" % line)
        elif reply[0] == "conflict":
            self.conflict(line, session, *reply[1:])
        else:
            getattr(self, "take_" + kind)(line, self.open[session], words)
            if reply[0] == "unsafe":
                self.unsafe(line, session, words, int(reply[1]))
            elif kind in ("commit", "abort"):
                self.end(line, session, kind)

    def end(self, line, session, kind):
        txn = self.open.pop(session)
        txn.ended = line
        if kind == "commit":
            self.committed.append(txn)
            for key, (_, is_delete) in txn.writes.items():
                if key not in self.versions:
                    bisect.insort(self.keys, key)
                self.versions.setdefault(key, []).append((txn.stamp, is_delete))

    def take_get(self, line, txn, words):
        if words[2] not in txn.writes:
            txn.reads.append((line, (words[2], words[2]), "reads `%s`" % words[2]))

    def take_scan(self, line, txn, words):
        low, high, limit = words[2:]
        if limit:
            high = self.last_row(txn, low, high, int(limit))
        txn.reads.append((line, (low, high), "scans `%s` to `%s`" % (low, high)))

    def last_row(self, txn, low, high, limit):
        """The end of the range that a limited scan reads: its last row, if it has as many as are wanted."""
        within = self.keys[bisect.bisect_left(self.keys, low):bisect.bisect_right(self.keys, high)]
        within = sorted(set(within) | {key for key in txn.writes if holds((low, high), key)})
        rows = list(itertools.islice((key for key in within if self.is_visible(txn, key)), limit))
        return rows[-1] if len(rows) == limit else high

    def is_visible(self, txn, key):
        if key in txn.writes:
            return not txn.writes[key][1]
        seen = [is_delete for stamp, is_delete in self.versions.get(key, ()) if stamp <= txn.saw]
        return bool(seen) and not seen[-1]

    def take_put(self, line, txn, words):
        txn.writes[words[2]] = line, False

    def take_del(self, line, txn, words):
        txn.writes[words[2]] = line, True

    def take_commit(self, line, txn, _):
        txn.stamp, txn.ended = len(self.committed) + 1, line

    def take_abort(self, line, txn, _):
        pass

    def conflict(self, line, session, key, number):
        txn = self.open.pop(session)
        txn.ended = line
        other = self.by_number.get(int(number))
        if other is None or key not in other.writes or key not in txn.writes or other.stamp == math.inf:
            raise Mismatch("line %d: %s didn't write `%s`" % (line, number, key))
        (theirs, they), (mine, we) = does(other, key), does(txn, key)
        self.said += [
            "line %d: the commit of %d is refused, because %d has installed a version of `%s` since %d began" % (
                line, txn.number, other.number, key, txn.number),
            "    line %d: %d begins; line %d: %d %s `%s`, and commits at line %d; line %d: %d %s it" % (
                txn.begun, txn.number, theirs, other.number, they, key, other.ended, mine, txn.number, we)]

    def dangerous(self, number):
        """The dangerous structure with this pivot: its three transactions."""
        pivot = self.by_number.get(number)
        if pivot is None or pivot.stamp == math.inf:
            return None
        earlier = itertools.islice(self.committed, pivot.saw, pivot.stamp - 1)
        first = next((one for one in earlier if pivot.has_pair_to(one)), None)
        if first is None:
            return None
        others = list(self.open.values()) + self.committed[first.stamp - 1:]
        before = next((one for one in others if one.has_pair_to(pivot)), None)
        return before and (before, pivot, first)

    def unsafe(self, line, session, words, number):
        found, txn = self.dangerous(number), self.open.pop(session)
        if found is None:
            raise Mismatch("line %d: %d would be no pivot" % (line, number))
        before, pivot, first = found
        refused = "read" if words[0] in ("get", "scan") else "commit"
        order = "%d comes before %d, %d before %d" % (before.number, number, number, first.number)
        self.said.append("line %d: the %s of %d is refused, because it would make %d a pivot: %s, and %d is the first "
                         "of them to commit" % (line, refused, txn.number, number, order, first.number))
        self.said += [self.of_pair(line, *pair) for pair in ((before, pivot), (pivot, first))]
        txn.stamp, txn.ended = math.inf, line

    def of_pair(self, now, reader, writer):
        at, key, text = reader.meeting(writer)
        line, writes = does(writer, key)
        it = "it" if text == "reads `%s`" % key else "`%s`" % key
        commits = "would commit" if writer.ended == now else "commits"
        return "    line %d: %d %s; line %d: %d %s %s, and %s at line %d: %d comes before %d" % (
            at, reader.number, text, line, writer.number, writes, it, commits, writer.ended, reader.number,
            writer.number)


def replies_to(lines, replies):
    """The number, words and reply of each command that was carried out. A dump has many lines of reply."""
    replies = iter(replies)
    for number, line in enumerate(lines, 1):
        reply = next(replies, None)
        if reply is None:
            raise Mismatch("there is no reply to line %d" % number)
        if reply.startswith("adya "):
            for _ in range(2):
                next((one for one in replies if one == "end"), None)
        elif reply[:1] not in "!?":
            words = words_of(line)
            if words is None:
                raise Mismatch("line %d is no command" % number)
            yield number, words, reply.split()
        if reply == "stopped":
            return
    if next(replies, None) is not None:
        raise Mismatch("there are more replies than commands")


def lines_of(path):
    """The lines of a file without their line feeds; a rest without one is no line."""
    with open(path, encoding="latin-1", newline="\n") as file:
        for line in file:
            if line.endswith("\n"):
                yield line[:-1]


def explained(commands, replies):
    """The sentences about a run, given the paths of its commands and replies."""
    run, number = Run(), 1
    try:
        for number, words, reply in replies_to(lines_of(commands), lines_of(replies)):
            run.take(number, words, reply)
    except (IndexError, ValueError):
        raise Mismatch("line %d has another reply" % number)
    return run.said or ["The store has aborted no transaction."]
