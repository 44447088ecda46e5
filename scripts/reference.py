#!/usr/bin/env python3
"""The expected answers of the program `ssi`: a second implementation of docs/histories.md and docs/formats.md.

    scripts/reference.py audit H C
    scripts/reference.py order H

It was written from the definitions alone and shares nothing with the proved code. It looks at every pair of events, so
it is for small histories. Exit status: 0 for yes and a certificate, 1 else.
"""
import re
import sys

KEY = r"[a-z0-9_]{1,32}"
VALUE = r"[A-Za-z0-9_.+\-]{1,64}"


# Texts. A reader returns the value, or the line of the fault.


def number(text, most):
    return int(text) if re.fullmatch("[1-9][0-9]*", text) and int(text) <= most else None


def transaction(text):
    return number(text, 2**32 - 1)


def version(text):
    """A key, the transaction that wrote it, and which of its writes of the key it was."""
    m = re.fullmatch(r"(%s)\.([0-9]+):([0-9]+)" % KEY, text)
    parts = m and (m[1], transaction(m[2]), number(m[3], 2**16 - 1))
    return parts if parts and None not in parts else None


def entry(text, may_be_dead):
    """A version and its value, or None if it is dead."""
    parts = text.split(",")
    if len(parts) != 2 or not version(parts[0]):
        return None
    if parts[1] == "!" and may_be_dead:
        return (version(parts[0]), None)
    return (version(parts[0]), parts[1]) if re.fullmatch(VALUE, parts[1]) else None


class Event:
    """A step of a transaction: what it writes, what it reads or lists, and the range of a scan."""

    def __init__(self, kind, txn, write=None, seen=(), span=None):
        self.kind, self.txn, self.write, self.seen, self.span = kind, txn, write, list(seen), span

    @property
    def ends(self):
        return self.kind in "ca"


def event(line):
    if re.fullmatch("[ca][0-9]+", line):
        txn = transaction(line[1:])
        return txn and Event(line[0], txn)
    m = re.fullmatch(r"([wdrs])([0-9]+)\((.*)\)", line)
    if not m or not transaction(m[2]):
        return None
    kind, txn, inside = m[1], transaction(m[2]), m[3]
    if kind == "d":
        written = version(inside)
        return Event(kind, txn, write=(written, None)) if written and written[1] == txn else None
    if kind in "wr":
        one = entry(inside, False)
        if not one or kind == "w" and one[0][1] != txn:
            return None
        return Event(kind, txn, write=one) if kind == "w" else Event(kind, txn, seen=[one])
    span, *listed = inside.split(";")
    span, listed = span.split(","), [entry(part, True) for part in listed]
    if len(span) != 2 or not all(re.fullmatch(KEY, key) for key in span) or None in listed:
        return None
    return Event(kind, txn, seen=listed, span=tuple(span))


class History:
    def __init__(self):
        self.is_second, self.events, self.unfinished, self.orders, self.finals = False, [], [], [], []

    def take(self, line):
        """Adds what the line holds; returns whether the line may come here."""
        one = event(line)
        if one:
            self.events.append(one)
            return not (self.unfinished or self.orders or self.finals)
        if re.fullmatch("u[0-9]+", line):
            self.unfinished.append(transaction(line[1:]))
            rises = self.unfinished[-1] and self.unfinished[-2:] == sorted(set(self.unfinished[-2:]))
            return self.is_second and rises and not (self.orders or self.finals)
        m = re.fullmatch(r"\[(%s):([0-9<]+)\]" % KEY, line)
        if m:
            self.orders.append((m[1], [transaction(txn) for txn in m[2].split("<<")]))
            return None not in self.orders[-1][1] and not self.finals and rise(self.orders[-2:])
        m = re.fullmatch(r"\{(%s),(%s)\}" % (KEY, VALUE), line)
        if m:
            self.finals.append((m[1], m[2]))
            return rise(self.finals[-2:])
        return False


def rise(pairs):
    return len(pairs) < 2 or pairs[0][0] < pairs[1][0]


def read(text, heads, value, take):
    """The value, after `take` was given each line except the head and the tail; or the line of the fault."""
    *lines, rest = text.decode("latin-1").split("\n")
    for at, line in enumerate(lines, 1):
        if at > 1 and lines[at - 2] == "end":
            return at
        if not (line in heads if at == 1 else line == "end" or take(line)):
            return at
        if at == 1:
            value.is_second = line == "adya 2"
    return value if lines[-1:] == ["end"] and len(lines) > 1 and not rest else len(lines) + 1


def read_history(text):
    history = History()
    return read(text, ("adya 1", "adya 2"), history, history.take)


class Certificate:
    def __init__(self):
        self.txns = []

    def take(self, line):
        self.txns.append(transaction(line))
        return self.txns[-1]


def read_certificate(text):
    certificate = Certificate()
    return read(text, ("serial 1",), certificate, certificate.take)


def version_text(version):
    return "%s.%d:%d" % version


def entry_text(entry):
    return "%s,%s" % (version_text(entry[0]), "!" if entry[1] is None else entry[1])


def event_text(e):
    if e.ends:
        return "%s%d" % (e.kind, e.txn)
    if e.kind == "d":
        inside = version_text(e.write[0])
    elif e.kind == "s":
        inside = ";".join([",".join(e.span)] + [entry_text(seen) for seen in e.seen])
    else:
        inside = entry_text(e.write or e.seen[0])
    return "%s%d(%s)" % (e.kind, e.txn, inside)


def history_text(h):
    lines = ["adya 2" if h.is_second else "adya 1"] + [event_text(e) for e in h.events]
    lines += ["u%d" % txn for txn in h.unfinished]
    lines += ["[%s:%s]" % (key, "<<".join(map(str, txns))) for key, txns in h.orders]
    lines += ["{%s,%s}" % final for final in h.finals]
    return "".join(line + "\n" for line in lines + ["end"])


# Histories.


def last_write(events, txn, key):
    writes = [e.write for e in events if e.write and e.txn == txn and e.write[0][0] == key]
    return writes[-1] if writes else None


def committed(history):
    return [e.txn for e in history.events if e.kind == "c"]


def holds(span, key):
    return span[0] <= key <= span[1]


def broken_rule(before, e):
    """The first of the rules M1 to M5 that the event breaks, given those before it."""
    if any(b.ends and b.txn == e.txn for b in before):
        return 1
    writes = [b.write for b in before if b.write]
    if e.write and e.write[0][2] != 1 + sum(w[0][:2] == e.write[0][:2] for w in writes):
        return 2
    if any(seen not in writes for seen in e.seen):
        return 3
    for key in {w[0][0] for w in writes if w[0][1] == e.txn}:
        listed = [seen for seen in e.seen if seen[0][0] == key]
        if e.span and holds(e.span, key) and not listed:
            return 4
        if (not e.span or holds(e.span, key)) and any(seen != last_write(before, e.txn, key) for seen in listed):
            return 4
    keys = [seen[0][0] for seen in e.seen]
    if e.span and (e.span[0] > e.span[1] or keys != sorted(set(keys)) or not all(holds(e.span, key) for key in keys)):
        return 5
    return None


def malformed(h):
    """The first broken rule and its line."""
    for at, e in enumerate(h.events):
        rule = broken_rule(h.events[:at], e)
        if rule:
            return at + 2, rule
    line, ended = len(h.events) + 2, {e.txn for e in h.events if e.ends}
    for at, txn in enumerate(h.unfinished):
        if txn in ended:
            return line + at, 6
    line += len(h.unfinished)
    if any(e.txn not in ended and e.txn not in h.unfinished for e in h.events):
        return line, 6
    installed = {(e.write[0][0], e.txn) for e in h.events if e.write and e.txn in committed(h)}
    for at, (key, txns) in enumerate(h.orders):
        if sorted(txns) != sorted(txn for k, txn in installed if k == key):
            return line + at, 7
    line += len(h.orders)
    if {key for key, _ in installed} - {key for key, _ in h.orders}:
        return line, 7
    last = {key: last_write(h.events, txns[-1], key)[1] for key, txns in h.orders}
    for at, (key, value) in enumerate(h.finals):
        if last.get(key) != value:
            return line + at, 8
    if {key for key, value in last.items() if value is not None} - {key for key, _ in h.finals}:
        return line + len(h.finals), 8
    return None


def bad_read(h, is_bad):
    for at, e in enumerate(h.events):
        if e.txn in committed(h):
            for seen in e.seen:
                if is_bad(e, seen):
                    return "%d %s.%d:%d" % ((at + 2,) + seen[0])
    return None


def fault(h):
    """The line of the verdict if the history has a fault of its own, whatever the certificate."""
    found = malformed(h)
    if found:
        return "no 2 malformed %d M%d" % found
    found = bad_read(h, lambda e, seen: seen[0][1] not in committed(h))
    if found:
        return "no 3 aborted-read " + found
    found = bad_read(h, lambda e, seen: seen[0][1] != e.txn and seen != last_write(h.events, seen[0][1], seen[0][0]))
    if found:
        return "no 4 intermediate-read " + found
    return None


# Dependencies: (from, kind, key, to), in their order.


def selections(h, e):
    """What the event reads or selects of other transactions: each key that has an order, and the place there."""
    for key, txns in h.orders:
        listed = [seen[0][1] for seen in e.seen if seen[0][0] == key]
        if listed and listed[0] != e.txn:
            yield key, txns, txns.index(listed[0]) + 1
        elif not listed and e.span and holds(e.span, key):
            yield key, txns, 0


def event_edges(h, e):
    for key, txns, place in selections(h, e):

        def is_visible(at):
            return at > 0 and last_write(h.events, txns[at - 1], key)[1] is not None

        def changes(at):
            return is_visible(at) != is_visible(at - 1)

        for at in range(1, place + 1):
            if at == place or e.span and changes(at):
                yield txns[at - 1], "wr", key, e.txn
        for at in range(place + 1, len(txns) + 1):
            is_next = at == place + 1 and (not e.span or is_visible(place))
            if is_next or e.span and changes(at):
                yield e.txn, "rw", key, txns[at - 1]


def edges(h):
    every = [(a, "ww", key, b) for key, txns in h.orders for a, b in zip(txns, txns[1:])]
    for e in h.events:
        if e.txn in committed(h):
            every += event_edges(h, e)
    return list(dict.fromkeys(edge for edge in every if edge[0] != edge[3]))


def told(edge):
    return "%s %s %d %d" % (edge[1], edge[2], edge[0], edge[3])


# Answers.


def audit(history_text, certificate_text):
    h, c = read_history(history_text), read_certificate(certificate_text)
    if isinstance(h, int):
        return "no 1 syntax history %d\n" % h
    if isinstance(c, int):
        return "no 1 syntax serial %d\n" % c
    if fault(h):
        return fault(h) + "\n"
    if sorted(c.txns) != sorted(committed(h)):
        return "no 5 not-the-committed\n"
    for edge in edges(h):
        if c.txns.index(edge[0]) >= c.txns.index(edge[3]):
            return "no 6 backward %s\n" % told(edge)
    return "yes\n"


def order(history_text):
    h = read_history(history_text)
    if isinstance(h, int):
        return "no 1 syntax history %d\n" % h
    if fault(h):
        return fault(h) + "\n"
    every, left, placed = edges(h), set(committed(h)), []

    def before(txn):
        return {edge[0] for edge in every if edge[3] == txn} & left

    while any(not before(txn) for txn in left):
        placed.append(min(txn for txn in left if not before(txn)))
        left.remove(placed[-1])
    if not left:
        return "serial 1\n" + "".join("%d\n" % txn for txn in placed) + "end\n"
    met, at = [], min(left)
    while at not in met:
        met.append(at)
        at = min(before(at))
    cycle = met[met.index(at) :][::-1]
    first = cycle.index(min(cycle))
    cycle = cycle[first:] + cycle[:first]
    steps = zip(cycle, cycle[1:] + cycle[:1])
    lines = [told(next(e for e in every if (e[0], e[3]) == step)) for step in steps]
    return "cycle %d\n" % len(lines) + "".join(line + "\n" for line in lines)


def status(answer):
    return 0 if answer.startswith(("yes", "serial")) else 1


def main():
    words = sys.argv[1:]
    if len(words) != {"audit": 3, "order": 2}.get(words[0] if words else None):
        sys.exit(__doc__)
    texts = [open(name, "rb").read() for name in words[1:]]
    answer = audit(*texts) if words[0] == "audit" else order(*texts)
    sys.stdout.write(answer)
    sys.exit(status(answer))


if __name__ == "__main__":
    main()
