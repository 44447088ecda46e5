#!/usr/bin/env python3
"""Writes commands for `ssi script`: transactions of a given number of operations, interleaved.

Sessions take turns at random. A transaction is a `begin`, its operations, and a `commit`; half of the operations write,
half read. The commands don't depend on the replies: if the store aborts a transaction, it refuses what is left of it
(`! 2 idle`) until its session begins the next one. After each tenth of the transactions comes a `collect`.

The output depends on the options alone: the same ones give the same bytes.
"""
import argparse
import random
import sys

from generate import LONGEST_SCAN, count

SCANS, LIMITED, DELETES = 0.25, 0.5, 0.25  # of the reads, of the scans, of the writes, with --scans


def options():
    p = argparse.ArgumentParser(description=__doc__, formatter_class=argparse.RawDescriptionHelpFormatter)
    p.add_argument("--transactions", type=count, default=1000, help="how many (default %(default)s)")
    p.add_argument("--operations", type=count, default=6, help="operations of a transaction (default %(default)s)")
    p.add_argument("--keys", type=count, default=20000, help="default %(default)s")
    p.add_argument("--sessions", type=count, default=8, help="transactions open at a time (default %(default)s)")
    p.add_argument("--scans", action="store_true", help="one read in four is a scan, and one write in four a delete")
    p.add_argument("--seed", type=int, default=1)
    return p.parse_args()


class Generator:
    def __init__(self, o):
        self.o = o
        self.random = random.Random(o.seed).random  # Python keeps its values from version to version
        self.names = ["k%0*d" % (len(str(o.keys)), i) for i in range(o.keys)]

    def below(self, n):
        return int(self.random() * n)

    def happens(self, chance):
        return self.o.scans and self.random() < chance

    def operation(self, session):
        at = self.below(self.o.keys)
        key = self.names[at]
        if self.random() < 0.5:
            if self.happens(DELETES):
                return "del %s %s" % (session, key)
            return "put %s %s v%d" % (session, key, self.below(1000000))
        if self.happens(SCANS):
            last = self.names[min(self.o.keys - 1, at + self.below(LONGEST_SCAN))]
            limit = " %d" % (1 + self.below(LONGEST_SCAN)) if self.happens(LIMITED) else ""
            return "scan %s %s %s%s" % (session, key, last, limit)
        return "get %s %s" % (session, key)

    def commands(self):
        o, begun, sessions = self.o, 0, []  # each session that has a transaction, with the operations that are left
        names = ["s%d" % i for i in range(min(o.sessions, o.transactions))]
        while begun < o.transactions or sessions:
            if names and begun < o.transactions:
                sessions.append([names.pop(), o.operations])
                begun += 1
                yield "begin " + sessions[-1][0]
                if begun % max(1, o.transactions // 10) == 0:
                    yield "collect"
                continue
            turn = self.below(len(sessions))
            session, left = sessions[turn]
            if left > 0:
                sessions[turn][1] -= 1
                yield self.operation(session)
                continue
            yield "commit " + session
            names.append(session)
            del sessions[turn]


def main():
    sys.stdout.writelines(line + "\n" for line in Generator(options()).commands())


main()
