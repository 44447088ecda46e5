#!/usr/bin/env python3
"""Compares the built program with scripts/reference.py on random small histories and certificates.

    scripts/compare.py [--cases 2000] [--seed 1] [PROGRAM]

Some histories break a rule, some texts are damaged. Build the program first: cd crates/ssi && rt run < stdin. The last
line is `N passed, 0 failed`. If an answer differs, the texts are printed, and it ends with status 1.
"""
import argparse
import collections
import os
import random
import subprocess
import sys
import tempfile

import reference
from reference import Event, history_text, last_write

TOP = os.path.dirname(os.path.dirname(os.path.abspath(__file__)))
KEYS = [["a"], ["a", "b"], ["a", "ab", "b"], ["a", "b", "c", "d"]]
KINDS = ["wr", "wrs", "wrsd", "wdss", "wwdrs"]
VALUES = ["1", "2", "x", "12"]  # one begins with another
SPLINTERS = ["0", "\n", ",", ";", ":", "<<", " ", "1", "a", "end\n", "c1\n", "\r", "\xff", "99999999999", "-", "A"]
SPLINTERS += ["[a:1]\n", "{a,1}\n", "u1\n", "adya 2\n"]


class Maker:
    """Makes histories: transactions take steps in turn, and now and then something goes wrong."""

    def __init__(self, seed):
        self.random = random.Random(seed)

    def happens(self, chance):
        return self.random.random() < chance

    def history(self):
        self.keys, self.events = self.random.choice(KEYS), []
        self.slip = self.random.choice([0, 0, 0, 0.02])  # how likely a step is wrong
        self.is_tame = self.happens(0.6)  # whether it reads only what is committed, and the newest of that
        kinds, running = self.random.choice(KINDS), list(range(1, self.random.randint(1, 6) + 1))
        steps = {txn: self.random.randint(1, 5) for txn in running}
        while running:
            txn = self.random.choice(running if self.happens(0.7) else running[:1])
            if steps[txn]:
                steps[txn] -= 1
                self.step(txn, self.random.choice(kinds))
            else:
                running.remove(txn)
                self.events.append(Event("a" if self.happens(0.2) else "c", txn))
                if self.happens(self.slip):
                    self.events.append(Event("c", txn))
        return self.closed(sorted(steps))

    def step(self, txn, kind):
        key = self.random.choice(self.keys)
        if kind in "wd":
            count = 1 + sum(1 for e in self.events if e.write and e.write[0][:2] == (key, txn))
            if self.happens(self.slip):
                count = max(1, count + self.random.choice([1, -1]))
            value = self.random.choice(VALUES) if kind == "w" else None
            self.events.append(Event(kind, txn, write=((key, txn, count), value)))
        elif kind == "r":
            seen = self.seen(txn, key)
            if seen and seen[1] is not None:
                self.events.append(Event(kind, txn, seen=[seen]))
        else:
            self.scan(txn)

    def scan(self, txn):
        lo, hi = sorted(self.random.choice(self.keys + ["0", "zz"]) for _ in "lh")
        if self.happens(self.slip):
            lo, hi = hi, lo
        within = [key for key in self.keys if lo <= key <= hi]
        listed = [self.seen(txn, key) for key in within if self.happens(0.75) or last_write(self.events, txn, key)]
        listed = [seen for seen in listed if seen]
        if self.happens(self.slip):
            self.random.shuffle(listed)
        if self.happens(self.slip):
            listed = listed[:-1]
        self.events.append(Event("s", txn, seen=listed, span=(lo, hi)))

    def seen(self, txn, key):
        """A version of the key that the transaction may see, with its value."""
        own = last_write(self.events, txn, key)
        if own and not self.happens(self.slip):
            return own
        writes = [e.write for e in self.events if e.write and e.write[0][0] == key]
        if self.is_tame:
            done = {e.txn for e in self.events if e.kind == "c"}
            writes = [w for w in writes if w[0][1] in done and last_write(self.events, w[0][1], key) == w][-2:]
        if not writes:
            return None
        version, value = self.random.choice(writes)
        return version, self.random.choice(VALUES + [None]) if self.happens(self.slip) else value

    def closed(self, txns):
        """The history of the events: its unfinished transactions, orders and finals."""
        h = reference.History()
        h.is_second = self.happens(0.3)
        if h.is_second:
            h.unfinished = [txn for txn in txns if self.happens(0.2)]
            if not self.happens(0.05):
                self.events = [e for e in self.events if not (e.ends and e.txn in h.unfinished)]
        elif self.happens(self.slip):
            self.events = [e for e in self.events if not (e.ends and e.txn == 1)]
        h.events = self.events
        for key in self.keys:
            self.close(h, key)
        return h

    def close(self, h, key):
        done = [e.txn for e in h.events if e.kind == "c"]
        if self.happens(0.3):
            self.random.shuffle(done)
        writers = [txn for txn in dict.fromkeys(done) if last_write(h.events, txn, key)]
        if writers and self.happens(self.slip):
            writers.append(self.random.choice(writers + [1]))
        if writers and self.happens(self.slip):
            writers.pop()
        if not writers or self.happens(self.slip):
            return
        h.orders.append((key, writers))
        last = last_write(h.events, writers[-1], key)
        value = self.random.choice(VALUES + [None]) if self.happens(self.slip) else last and last[1]
        if value is not None:
            h.finals.append((key, value))

    def certificate(self, h, history_text):
        found = reference.order(history_text)
        if self.happens(0.45) and found.startswith("serial"):
            return found
        txns = reference.committed(h)
        if self.happens(0.5):
            self.random.shuffle(txns)
        if self.happens(0.05):
            txns.append(self.random.choice(txns + [7]))
        if self.happens(0.05):
            txns = txns[:-1]
        return "serial 1\n" + "".join("%d\n" % txn for txn in txns) + "end\n"

    def damaged(self, text):
        for _ in range(self.random.randint(1, 2)):
            at, splinter = self.random.randrange(len(text) + 1), self.random.choice(SPLINTERS)
            front, rest, behind = text[:at], text[at:], text[at + 1 :]
            text = self.random.choice([front, front + splinter + rest, front + behind, front + splinter + behind])
        return text


def written(folder, name, text):
    path = os.path.join(folder, name)
    with open(path, "wb") as out:
        out.write(text)
    return path


def differs(words, wanted):
    ran = subprocess.run(words, capture_output=True)
    return (ran.stdout.decode("latin-1"), ran.returncode) != (wanted, reference.status(wanted))


def kind(answer):
    return " ".join(answer.split("\n")[0].split()[:3]) if answer.startswith("no") else answer.split()[0]


def options():
    p = argparse.ArgumentParser(description=__doc__, formatter_class=argparse.RawDescriptionHelpFormatter)
    built = os.path.join(TOP, "crates/ssi/out/ssi")
    p.add_argument("program", nargs="?", default=built, help="default: crates/ssi/out/ssi")
    p.add_argument("--cases", type=int, default=2000, help="how many histories (default %(default)s)")
    p.add_argument("--seed", type=int, default=1, help="the same seed gives the same histories (default %(default)s)")
    return p.parse_args()


def main():
    o = options()
    if not os.access(o.program, os.X_OK):
        sys.exit("compare.py: there is no %s; build it: cd crates/ssi && rt run < stdin" % o.program)
    maker, program, kinds, failed = Maker(o.seed), os.path.abspath(o.program), collections.Counter(), 0
    with tempfile.TemporaryDirectory(prefix="compare-") as folder:
        for _ in range(o.cases):
            h = maker.history()
            history = history_text(h)
            certificate = maker.certificate(h, history.encode())
            if maker.happens(0.1):
                history = maker.damaged(history)
            if maker.happens(0.05):
                certificate = maker.damaged(certificate)
            texts = history.encode("latin-1"), certificate.encode("latin-1")
            files = written(folder, "history", texts[0]), written(folder, "certificate", texts[1])
            audit, order = reference.audit(*texts), reference.order(texts[0])
            kinds.update([kind(audit), kind(order)])
            if differs([program, "audit", *files], audit) or differs([program, "order", files[0]], order):
                failed += 1
                print("an answer differs; wanted:", audit + order, "of", history + certificate, sep="\n")
    for name, count in sorted(kinds.items()):
        print("%7d %s" % (count, name))
    print("%d passed, %d failed" % (o.cases - failed, failed))
    sys.exit(1 if failed else 0)


if __name__ == "__main__":
    main()
