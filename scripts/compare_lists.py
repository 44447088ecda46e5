#!/usr/bin/env python3
"""Compares the built program `lists` with scripts/lists_reference.py on random histories.

    scripts/compare_lists.py [--cases 2000] [--seed 1] [PROGRAM]

Most histories come from a run of a few transactions on lists, in which something goes wrong now and then: a read that is
stale or sees what isn't committed yet, a write that is lost, an outcome that nobody knows. Build the program first:
(cd crates/lists && rt run < stdin). The answer has to be the reference's, and an order that the program writes has to
explain the history. The kind of a no has to be the worst one that the history has, and a cycle the shortest of its kind:
the reference looks for both by its own definitions, breadth-first. If a read is wrong by itself, it gives the program no
links between transactions; then only the kinds of the reads are compared.

One history of 40 has a ring of four to eight transactions, each of which has to come before the next one, among others that
may shorten it. A search through all orders would take too long for these: if the reference finds no fault of a read and no
cycle, the order that the program writes has to explain the history. On the small histories, of which it tries all orders, it
has to find one or the other if and only if no order explains the history.

Last come two histories in which the program's search for cycles is cut off before it comes to the shortest one of the worst
kind. It has to say so. Small ones of the same form are compared with the reference.

It says how often each answer came, and how many links the shortest cycles had that were compared. The last line is
`N passed, 0 failed`. If an answer differs, the history is printed, and it ends with status 1.
"""
import argparse
import collections
import json
import os
import random
import subprocess
import sys

import lists_reference
from list_witness import CUT_OFF
from lists_reference import RANKS, edn_of, explains, lists_the_right_ones

TOP = os.path.dirname(os.path.dirname(os.path.abspath(__file__)))
CYCLES = ["G0", "G1c", "G-single", "G2-item"]
CUT_OFF_WIDTH = 2200  # a way through a line meets three times as many links: from all transactions, some thirty million


class Maker(random.Random):
    """Makes histories of a store of lists that makes mistakes."""

    def happens(self, chance):
        return self.random() < chance

    def history(self):
        count, keys = self.randint(1, 6), self.randint(1, 3)
        self.slip = self.choice([0, 0, 0.05, 0.3])
        self.isolated = self.happens(0.3)
        self.outcomes = self.choice([[8, 1, 1], [5, 1, 4]])
        self.next = 0
        states, made = [{}], []
        for _ in range(count):
            made.append(self.transaction(states, keys))
        self.shuffle(made)
        return made

    def transaction(self, states, keys):
        """A transaction on the newest lists, or on those that an earlier one left."""
        old = self.choice(states) if self.isolated or self.happens(self.slip) else states[-1]
        lists, mine, operations = {key: list(some) for key, some in old.items()}, {}, []
        most = 24 if self.happens(0.05) else 4  # the program goes through long transactions in another way
        for _ in range(self.randint(1, most)):
            key = self.randrange(keys)
            here = lists.setdefault(key, [])
            if self.happens(0.5):
                self.next += 1
                element = self.next if not self.happens(self.slip / 10) else max(1, self.next - 1)
                here.append(element)
                mine.setdefault(key, []).append(element)
                operations.append(("append", key, element))
            else:
                operations.append(("r", key, self.spoiled(list(here))))
        outcome = self.choices(["ok", "fail", "info"], self.outcomes)[0]
        happened = outcome == "ok" or outcome == "info" and self.happens(0.5) or self.happens(self.slip)
        if happened and not self.happens(self.slip / 3):
            newest = {key: list(some) for key, some in states[-1].items()}
            for key, some in mine.items():
                newest.setdefault(key, []).extend(some)
            states.append(newest)
        if outcome != "ok":
            operations = [(name, key, value if name == "append" else None) for name, key, value in operations]
        return outcome, operations

    def spoiled(self, elements):
        """What a read returns: now and then something is lost, doubled, turned round or made up."""
        if not self.happens(self.slip / 2):
            return elements
        kind = self.randrange(4)
        if kind == 0 and elements:
            elements.pop(self.randrange(len(elements)))
        elif kind == 1 and elements:
            elements.append(self.choice(elements))
        elif kind == 2:
            self.shuffle(elements)
        else:
            elements.append(self.randint(1, self.next + 2))
        return elements


class RingMaker(random.Random):
    """Makes histories with a ring of transactions, each of which has to come before the next one and the last before the first,
    among others. Each link is of a key of its own, which some transactions append to, in an order, and others read."""

    def happens(self, chance):
        return self.random() < chance

    def history(self):
        self.steps, self.next, self.keys = [], 0, 0
        ring = [self.transaction() for _ in range(self.randint(4, 8))]
        kinds = self.kinds(len(ring))
        for one, other, kind in zip(ring, ring[1:] + ring[:1], kinds):
            self.link(one, other, kind)
        for _ in range(self.choice([0, 0, 1, 2])):  # they may shorten it
            one, other = sorted(self.sample(range(len(ring)), 2))
            self.link(ring[one], ring[other], self.choice(["ww", "wr", "rw"]))
        for _ in range(self.randint(0, 6)):  # on the way from one to the other, or beside the ring
            between = self.transaction()
            one, other = sorted(self.sample(range(len(ring)), 2))
            self.link(ring[one], between, self.choice(["ww", "wr", "rw"]))
            if self.happens(0.5):
                self.link(between, ring[other], self.choice(["ww", "wr", "rw"]))
        made = [self.ended(groups) for groups in self.steps]
        self.shuffle(made)
        return made

    def kinds(self, count):
        """Those of the links of a ring, which is then a cycle of one of the four kinds."""
        some = [self.choice(["ww", "wr"]) for _ in range(count)]
        kind = self.choice(CYCLES)
        if kind == "G0":
            return ["ww"] * count
        for place in self.sample(range(count), {"G1c": 0, "G-single": 1, "G2-item": self.randint(2, count)}[kind]):
            some[place] = "rw"
        return some

    def transaction(self):
        self.steps.append([])
        return len(self.steps) - 1

    def link(self, one, other, kind):
        """Lets one of the two come first, by such a dependency; another transaction may read the whole list of the key."""
        writers = {"ww": [one, other], "wr": [one], "rw": [other]}[kind]
        readers = {"ww": [], "wr": [(other, 1)], "rw": [(one, 0)]}[kind]
        if kind == "ww" or self.happens(0.2):
            readers.append((self.transaction(), len(writers)))
        self.key(writers, readers)

    def key(self, writers, readers):
        """A key to which these transactions append in this order; each reader finds what so many of them appended."""
        self.keys += 1
        blocks = []
        for writer in writers:
            size = self.choice([1, 1, 1, 2])
            blocks.append(list(range(self.next + 1, self.next + 1 + size)))
            self.next += size
            self.steps[writer].append([("append", self.keys, element) for element in blocks[-1]])
        for reader, count in readers:
            self.steps[reader].append([("r", self.keys, sum(blocks[:count], []))])

    def ended(self, groups):
        self.shuffle(groups)
        operations = sum(groups, [])
        if self.happens(0.95):
            return "ok", operations
        return "info", [(name, key, value if name == "append" else None) for name, key, value in operations]


def lines_history(width, has_other):
    """Two lines of transactions, each of which appends to the list of its line. All of a line miss what the first one of the
    other line appended to a list of its own, so there are cycles with two anti-dependencies. The last transaction of the
    second line misses another append by the first one, so there is a cycle of two links with one anti-dependency. A search
    that begins at each transaction comes to it last, after a way through a whole line from each of the others. `has_other`
    is whether the first transaction is in another cycle with one anti-dependency, of four links."""
    line = [[[("r", 1 - side, []), ("append", 2 + side, number)] for number in range(width)] for side in (0, 1)]
    line[0][0].append(("append", 0, 1))
    line[1][0] += [("append", 1, 1), ("append", 4, 1)]
    line[1][-1].append(("r", 4, []))
    seen = [[("r", 2 + side, list(range(width))) for side in (0, 1)]]
    ring = []
    if has_other:
        line[0][0] += [("r", 5, []), ("r", 8, [1])]
        ring = [[("append", 5, 1), ("append", 6, 1)], [("r", 6, [1]), ("append", 7, 1)], [("r", 7, [1]), ("append", 8, 1)]]
    return [("ok", operations) for operations in line[0] + line[1] + seen + ring]


def cut_off_differs(program, has_other):
    """What is wrong with the answers to a small history of two lines, and to one in which the search is cut off."""
    small, large = lines_history(5, has_other), lines_history(CUT_OFF_WIDTH, has_other)
    said, status = answer(program, edn_of(small))
    if lists_reference.worst_cycle(small) != ("G-single", 2) or differs(small, said, status):
        return "%r, to %s" % (said, edn_of(small))
    said, status = answer(program, edn_of(large))
    got = status, said.get("kind"), len(said.get("cycle", [])), said.get("shortest")
    if got != (1, "G-single" if has_other else "G2-item", 4 if has_other else 2, False):
        return "%r, to %d transactions" % (got, len(large))
    ran = subprocess.run([program], input=edn_of(large), capture_output=True, text=True, timeout=60)
    lines = ran.stdout.splitlines()
    return None if lines[1:] == said["explanation"] + [CUT_OFF] else "%r" % lines


def history_of(seed, number):
    """The history of the case with this number."""
    maker = RingMaker if number % 40 == 39 else Maker
    return maker(seed * 1000003 + number).history()


STATUSES = {"serializable": 0, "not serializable": 1, "nothing to check": 4, "appended twice": 5}
BROKEN = set(RANKS[:8]) | {"unrepeatable"}  # of a read by itself, or of two reads of one key


def answer(program, text):
    """The object that the program writes for the text, and its status."""
    ran = subprocess.run([program, "--json"], input=text, capture_output=True, text=True, timeout=60)
    return json.loads(ran.stdout) if ran.stdout else {"answer": ran.stderr}, ran.returncode


def kind_differs(history, said):
    """What is wrong with the kinds of a no, if anything is."""
    named = [fault["kind"] for fault in [said, *said["also"]]]
    if named != sorted(named, key=RANKS.index):
        return "the worst kind isn't first: %s" % named
    wanted = lists_reference.kinds_of_reads(history)
    cycle, length = lists_reference.worst_cycle(history)
    if wanted & BROKEN:
        # a read that is wrong gives no links; so cycles and lost updates may stay unseen
        found = BROKEN.intersection(named)
        if lists_reference.have_no_order(history):
            found.discard("incompatible order")  # of reads that are wrong by themselves it may find one or none
            wanted.discard("incompatible order")
        return None if found == wanted & BROKEN else "wanted the kinds %s" % sorted(wanted & BROKEN)
    wanted |= {cycle} - {None}
    cycles = [name for name in named if name in CYCLES]
    if cycles[:1] != [cycle] or set(named) - set(cycles) != wanted - {cycle}:
        return "wanted the kinds %s" % sorted(wanted)
    shown = next(fault for fault in [said, *said["also"]] if fault["kind"] == cycle)
    if len(shown["cycle"]) != length or not shown["shortest"]:
        return "wanted a cycle of %d" % length
    return None


def differs(history, said, status, are_kinds_wanted=True):
    """What is wrong with an answer, if anything is."""
    wanted = lists_reference.verdict(history)
    if said["answer"] != wanted:
        return "wanted %s" % wanted
    if wanted in ("serializable", "not serializable") and lists_reference.has_reason(history) != (wanted != "serializable"):
        return "the reference has a reason for %s" % wanted
    if status != STATUSES[wanted]:
        return "status %d" % status
    if wanted == "not serializable" and are_kinds_wanted:
        return kind_differs(history, said)
    if wanted == "serializable":
        places = [index // 2 for index in said["order"]]
        if not lists_the_right_ones(history, places):
            return "the order lists others: %s" % places
        if not explains(history, places):
            return "the order explains nothing: %s" % places
    return None


def compared_cycle(said):
    """The cycle that was compared: the first that is shown, if no read is wrong by itself."""
    faults = [said, *said.get("also", [])]
    if any(fault.get("kind") in BROKEN for fault in faults):
        return []
    return next((fault["cycle"] for fault in faults if "cycle" in fault), [])


def name_of(said):
    return ": ".join(said[name] for name in ("answer", "kind") if name in said)


def main():
    parser = argparse.ArgumentParser()
    parser.add_argument("--cases", type=int, default=2000)
    parser.add_argument("--seed", type=int, default=1)
    parser.add_argument("program", nargs="?", default=os.path.join(TOP, "crates", "lists", "out", "lists"))
    options = parser.parse_args()
    passed = failed = 0
    kinds, lengths = collections.Counter(), collections.Counter()
    for number in range(options.cases):
        history = history_of(options.seed, number)
        text = edn_of(history)
        said, status = answer(options.program, text)
        wrong = differs(history, said, status)
        kinds[name_of(said)] += 1
        lengths[len(compared_cycle(said))] += 1
        if wrong:
            failed += 1
            print("case %d: %s, got %r\n%s" % (number, wrong, said, text))
        else:
            passed += 1
    for has_other in (False, True):
        try:
            wrong = cut_off_differs(options.program, has_other)
        except subprocess.TimeoutExpired:
            wrong = "no answer in time"
        failed, passed = failed + bool(wrong), passed + (not wrong)
        if wrong:
            print("two lines: got %s" % wrong)
    for kind, count in sorted(kinds.items()):
        print("%7d %s" % (count, kind))
    for length, count in sorted(lengths.items()):
        if length:
            print("%7d shortest cycles of %d links" % (count, length))
    print("%d passed, %d failed" % (passed, failed))
    sys.exit(1 if failed else 0)


if __name__ == "__main__":
    main()
