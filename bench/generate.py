#!/usr/bin/env python3
"""Writes an accepted history and its certificate: transactions of a given number of operations, interleaved.

Sessions take turns. A transaction reads the last committed versions, writes privately, and commits only where all that
it read and scanned is still the last (backward validation); else it aborts. So the order of the commits is a
certificate. With --skews some pairs of transactions commit without validation, each after it read what the other one
then overwrote: each pair is a cycle of two anti-dependencies (a write skew), and no certificate is accepted.

The output depends on the options alone: the same ones give the same bytes.
"""
import argparse
import random
import sys

LONGEST_SCAN = 10  # keys in the range of a scan, at most, without --whole-scans
SCANS = 0.25  # of the reads, with --scans
DELETES = 0.25  # of the writes, with --deletes


def count(text):
    number = int(text)
    if number < 1:
        raise argparse.ArgumentTypeError("1 or more is wanted")
    return number


def options():
    p = argparse.ArgumentParser(description=__doc__, formatter_class=argparse.RawDescriptionHelpFormatter)
    p.add_argument("--transactions", type=count, default=1000, help="how many, aborted ones too (default %(default)s)")
    p.add_argument("--operations", type=count, default=8, help="operations of a transaction (default %(default)s)")
    p.add_argument("--keys", type=count, default=20000, help="default %(default)s")
    p.add_argument("--sessions", type=count, default=8, help="transactions open at a time; 1: serial (default 8)")
    p.add_argument("--scans", action="store_true", help="one read in four is a range scan, of at most ten keys")
    p.add_argument("--whole-scans", action="store_true", help="one read in four is a scan of all keys")
    p.add_argument("--deletes", action="store_true", help="one write in four is a delete")
    p.add_argument("--hot", action="store_true", help="half of the operations meet the first twentieth of the keys")
    p.add_argument("--skews", type=int, default=0, help="write skews, evenly spread, of two transactions each")
    p.add_argument("--seed", type=int, default=1)
    p.add_argument("history", help="the file to write the history to")
    p.add_argument("certificate", help="the file to write the order of the commits to")
    o = p.parse_args()
    if not 0 <= 2 * o.skews <= o.transactions or o.skews and o.keys < 2:
        p.error("a write skew wants two transactions and two keys")
    if o.operations > 65535 or o.transactions > 4294967295:
        p.error("beyond the numbers of the format")
    return o


class Transaction:
    def __init__(self, number, operations):
        self.number = number
        self.left = operations
        self.reads = {}  # key -> the committed version that was found first
        self.ranges = []  # (first key, key behind the last, what stood there)
        self.writes = {}  # key -> its own last version


class Generator:
    """A version is a triple: its writer, the number of the write, its value or None where it is dead."""

    def __init__(self, o):
        self.o = o
        self.random = random.Random(o.seed).random  # Python keeps its values from version to version
        self.names = ["k%0*d" % (len(str(o.keys)), i) for i in range(o.keys)]  # they rise as the indexes do
        self.last = [None] * o.keys  # the last committed version of each key
        self.orders = [[] for _ in range(o.keys)]
        self.lines = []
        self.certificate = []
        self.begun = 0

    def below(self, n):
        return int(self.random() * n)

    def pick(self):
        if self.o.hot and self.random() < 0.5:
            return self.below(max(1, self.o.keys // 20))
        return self.below(self.o.keys)

    def value(self):
        return "v%d" % self.below(1000000)

    def begin(self):
        self.begun += 1
        return Transaction(self.begun, self.o.operations)

    def put(self, t, k, value):
        m = t.writes[k][1] + 1 if k in t.writes else 1
        t.writes[k] = (t.number, m, value)
        if value is None:
            self.lines.append("d%d(%s.%d:%d)" % (t.number, self.names[k], t.number, m))
        else:
            self.lines.append("w%d(%s.%d:%d,%s)" % (t.number, self.names[k], t.number, m, value))

    def get(self, t, k, version):
        self.lines.append("r%d(%s.%d:%d,%s)" % ((t.number, self.names[k]) + version))

    def write(self, t):
        dead = self.o.deletes and self.random() < DELETES
        self.put(t, self.pick(), None if dead else self.value())

    def read(self, t):
        k = self.pick()
        version = t.writes.get(k) or self.last[k]
        if version is None or version[2] is None:
            return self.write(t)  # nothing is visible there
        if version[0] != t.number:
            t.reads.setdefault(k, version)
        self.get(t, k, version)

    def scan(self, t):
        if self.o.whole_scans:
            a, b = 0, self.o.keys
        else:
            a = self.pick()
            b = min(self.o.keys, a + 1 + self.below(LONGEST_SCAN))
        found = self.last[a:b]
        t.ranges.append((a, b, found))
        parts = ["s%d(%s,%s" % (t.number, self.names[a], self.names[b - 1])]
        for k, version in enumerate(found, a):
            version = t.writes.get(k, version)
            if version is not None:
                writer, m, value = version
                parts.append("%s.%d:%d,%s" % (self.names[k], writer, m, "!" if value is None else value))
        self.lines.append(";".join(parts) + ")")

    def operation(self, t):
        t.left -= 1
        if self.random() < 0.5:
            self.write(t)
        elif (self.o.scans or self.o.whole_scans) and self.random() < SCANS:
            self.scan(t)
        else:
            self.read(t)

    def still_last(self, t):
        last = self.last
        return all(last[k] == v for k, v in t.reads.items()) and all(last[a:b] == found for a, b, found in t.ranges)

    def commit(self, t):
        for k, version in t.writes.items():
            self.last[k] = version
            self.orders[k].append(t.number)
        self.certificate.append(t.number)
        self.lines.append("c%d" % t.number)

    def end(self, t):
        if self.still_last(t):
            self.commit(t)
        else:
            self.lines.append("a%d" % t.number)

    def two_visible(self):
        """Two keys with a visible last version, or None where none was met."""
        met = set()
        for _ in range(1000):
            k = self.pick()
            if self.last[k] is not None and self.last[k][2] is not None:
                met.add(k)
            if len(met) == 2:
                return sorted(met)
        return None

    def skew(self):
        """Two transactions, each of which reads what the other one overwrites. Says whether there were keys for it."""
        keys = self.two_visible()
        if keys is None:
            return False
        one, other = self.begin(), self.begin()
        for t, k in zip((one, other), keys):
            self.get(t, k, self.last[k])
        for t, k in zip((other, one), keys):
            self.put(t, k, self.value())
        self.commit(one)
        self.commit(other)
        return True

    def run(self):
        o, sessions, planted = self.o, [], 0
        plain = o.transactions - 2 * o.skews  # without the skews
        while self.begun < plain + 2 * planted or sessions:
            while len(sessions) < o.sessions and self.begun < plain + 2 * planted:
                sessions.append(self.begin())
            place = self.below(len(sessions))
            t = sessions[place]
            if t.left > 0:
                self.operation(t)
                continue
            self.end(t)
            del sessions[place]
            done = self.begun - 2 * planted - len(sessions)
            while planted < o.skews and done * o.skews >= (planted + 1) * plain - plain // 2 and self.skew():
                planted += 1
        return planted

    def history(self):
        yield "adya 1\n"
        yield from (line + "\n" for line in self.lines)
        for name, writers in zip(self.names, self.orders):
            if writers:
                yield "[%s:%s]\n" % (name, "<<".join(map(str, writers)))
        for name, version in zip(self.names, self.last):
            if version is not None and version[2] is not None:
                yield "{%s,%s}\n" % (name, version[2])
        yield "end\n"


def main():
    o = options()
    g = Generator(o)
    planted = g.run()
    if planted < o.skews:
        sys.exit("generate.py: only %d of %d write skews found two visible keys" % (planted, o.skews))
    with open(o.history, "w", newline="\n") as out:
        out.writelines(g.history())
    with open(o.certificate, "w", newline="\n") as out:
        out.write("serial 1\n")
        out.writelines("%d\n" % t for t in g.certificate)
        out.write("end\n")
    numbers = (len(g.lines), g.begun, len(g.certificate))
    print("%d events, %d transactions, %d of them committed" % numbers, file=sys.stderr)


if __name__ == "__main__":
    main()
