#!/usr/bin/env python3
"""Compares the proved store with scripts/store_reference.py on random lists of commands.

    scripts/compare_store.py [--cases 1000] [--seed 1] [--bad-lines] [PROGRAM]

PROGRAM runs the store. By default it is the program of the store's tests, which `rt run < /dev/null` builds in
crates/ssi_store_tests. It is called as `PROGRAM FILE`. The file has the lists one after the other; after the commands
of a list comes the line `end`. For each list the program writes the reply to each command (the reply to `dump` is two
texts), then the history at the end, its certificate, the line of the verdict on both, and the line `end of list`. If it
runs several stores and they don't agree, it writes something else, such as `differ`.

With --bad-lines the lists also have lines that are no commands. These only the line protocol knows, so PROGRAM is then
the built program, by default crates/ssi/out/ssi: each list is given to its `script`, and its `audit` says the verdict.

It counts the kinds of replies. The last line is `N passed, 0 failed`. If an output differs, it ends with status 1; the
first lists that differ are printed, each without the commands that the difference doesn't need, with what differs.
"""
import argparse
import collections
import functools
import itertools
import os
import random
import subprocess
import sys
import tempfile

import reference
from store_reference import LONGEST_LINE, Store

KEYS = [["a"], ["a", "b"], ["a", "ab", "b"], ["a", "b", "c"], ["a", "b", "c", "d"], ["a", "aa", "b", "c", "d"]]
VALUES = ["1", "2", "x", "-0.5"]
SESSIONS = ["A", "B", "C", "D", "E"]
LIMITS = [1, 1, 1, 2, 2, 3, 5, 65535]
LENGTHS = [10, 40, 120, 120]
LAST_LINE, MOST_SHOWN = "end of list\n", 3
# How likely each command is in an open transaction, for sessions of several kinds.
STYLES = [
    {"get": 4, "put": 3, "del": 1, "scan": 1, "first": 1, "commit": 3, "abort": 0.3},
    {"get": 4, "put": 1.5, "commit": 1.5},
    {"scan": 2, "first": 2, "put": 1.5, "del": 0.5, "commit": 1.5},
    {"get": 2, "first": 3, "put": 2, "del": 0.5, "commit": 1.5, "abort": 0.2},
    {"get": 1, "put": 3, "del": 2, "commit": 3, "abort": 1},
    {"get": 3, "scan": 1, "first": 1, "put": 0.2, "commit": 0.5},
]
BAD_LINES = ["", "end of list", "begin", "begin A ", "begin A\r", "begin  A", "begin ABCDEFGHIJKLMNOPQ", "begin A-B"]
BAD_LINES += ["get A X", "get A", "put A a", "put A a !", "del A a 1", "scan A a", "scan A a b 0", "scan A a b 65536"]
BAD_LINES += ["scan A a b 01", "scan A a b 1 ", "stop now", "stat A", "Begin A", "\xff", "get A " + "a" * 33]
BAD_LINES += ["put A a " + "1" * 65, "x" * LONGEST_LINE, "x" * (LONGEST_LINE + 1)]


class Maker:
    """Makes lists of commands: sessions take turns, and some of the commands will be refused."""

    def __init__(self, seed, has_bad_lines):
        self.random, self.has_bad_lines = random.Random(seed), has_bad_lines

    def happens(self, chance):
        return self.random.random() < chance

    def commands(self):
        self.keys, self.plan, self.running = self.random.choice(KEYS), [], set()
        self.slip = self.random.choice([0, 0.02, 0.05])  # how likely a command is one that is refused
        self.notes = self.random.choice([0, 0.05, 0.15])  # how likely a command is about the store itself
        self.homing = self.random.choice([0.2, 0.9, 0.9])  # how likely a session writes its own key
        self.sessions = SESSIONS[: self.random.choice([1, 2, 3, 3, 4, 5, 5])]
        self.styles = [self.random.choice(STYLES) for _ in self.sessions]
        self.homes = self.random.sample(self.keys * len(SESSIONS), len(self.sessions))
        paces = [self.random.choice([1, 2, 5]) for _ in self.sessions]
        most = self.random.choice(LENGTHS)
        count = self.random.randint(most // 2, most)
        return [self.command(self.random.choices(range(len(paces)), paces)[0]) for _ in range(count)]

    def command(self, at):
        """The next command of a plan, of no session, or of the session at this place."""
        if self.has_bad_lines and self.happens(0.05):
            return self.random.choice(BAD_LINES if self.happens(0.95) else ["stop"])
        if self.happens(self.notes):
            return self.random.choice(["collect", "collect", "stat", "stat", "dump"])
        if not self.plan and len(self.sessions) > 2 and self.happens(0.04):
            self.plan = self.trap()
        line = self.plan.pop(0) if self.plan and self.happens(0.8) else self.step(self.sessions[at], at)
        kind, *words = line.split(" ")
        if kind == "begin":
            self.running |= set(words)
        elif kind in ("commit", "abort"):
            self.running -= set(words)
        return line

    def step(self, session, at):
        if (session in self.running) == self.happens(self.slip):
            return "begin " + session
        kind = self.random.choices(list(self.styles[at]), self.styles[at].values())[0]
        if kind in ("commit", "abort"):
            return "%s %s" % (kind, session)
        if kind in ("scan", "first"):
            lo, hi = sorted(self.random.choice(self.keys + ["0", "zz"]) for _ in "lh")
            return self.scan(session, *((hi, lo) if self.happens(self.slip) else (lo, hi)), kind == "first")
        is_home = kind != "get" and self.happens(self.homing)
        key = self.homes[at] if is_home else self.random.choice(self.keys)
        return "%s %s %s" % (kind, session, key) + (" " + self.random.choice(VALUES) if kind == "put" else "")

    def scan(self, session, lo, hi, is_limited):
        return "scan %s %s %s" % (session, lo, hi) + (" %d" % self.random.choice(LIMITS) if is_limited else "")

    def trap(self):
        """An early reader comes to what others wrote that have to precede earlier commits."""
        early, other, first = self.random.sample(self.sessions, 3)
        plan = ["commit " + session for session in (early, other, first) if session in self.running]
        plan.append("begin " + early)
        for key in self.random.choices(self.keys, k=self.random.randint(1, 2)):
            met = self.random.choice(self.keys)
            plan += ["begin " + other, self.look(other, met), "begin " + first, self.write(first, met)]
            plan += ["commit " + first, self.write(other, key), "commit " + other]
        if self.happens(0.3):
            plan += ["begin " + other, self.write(other, key), "commit " + other, "collect"]
        return plan + [self.look(early, key)]

    def write(self, session, key):
        return "del %s %s" % (session, key) if self.happens(0.3) else "put %s %s 1" % (session, key)

    def look(self, session, key):
        if self.happens(0.3):
            return "get %s %s" % (session, key)
        lo, hi = self.random.choice([(key, key), ("0", key), (key, "zz"), ("0", "zz")])
        return self.scan(session, lo, hi, self.happens(0.4))


# What the program should write.


class Wanted:
    """What the definitions say of a list of commands, in parts that each have a name."""

    def __init__(self, lines):
        store = Store()
        self.lines, self.replies = lines, store.take_all(lines)
        texts = store.course.finished()
        numbered = enumerate(zip(lines, self.replies), 1)
        replies = [("the reply to command %d, `%s`" % (at, line), reply) for at, (line, reply) in numbered]
        self.parts = replies + list(zip(("the history", "the certificate", "the verdict"), (*texts, "yes\n")))
        self.text = "".join(part for _, part in self.parts)
        dumps = [cut(reply) for line, reply in zip(lines, self.replies) if line == "dump"]
        self.is_accepted = all(verdict(*pair) == "yes\n" for pair in [texts] + dumps)

    def difference(self, got):
        """The first part that differs."""
        for name, part in self.parts:
            if not got.startswith(part):
                lines = max(1, part.count("\n"))
                return "%s: wanted\n%sgot\n%s" % (name, part, "".join(got.splitlines(keepends=True)[:lines]))
            got = got[len(part) :]
        return "after the verdict:\n" + got


def cut(dump):
    """The history and the certificate of a dump."""
    return dump.split("serial 1\n")[0], "serial 1\n" + dump.split("serial 1\n")[1]


def verdict(history, certificate):
    return reference.audit(history.encode(), certificate.encode())


def kind(line, reply):
    """The kind of the reply, to be counted."""
    words, first = line.split(" "), reply.split()[0]
    is_limited = words[0] == "scan" and len(words) == 5
    if first in ("!", "?"):
        return reply.strip()
    if first == "unsafe":
        return "unsafe at a " + ("limited scan" if is_limited else words[0])
    if first == "rows" and is_limited:
        return "rows, limit reached" if words[4] == reply.split()[1] else "rows, limit not reached"
    return "dump" if first == "adya" else first


# Running it.


def scripted(program, lists):
    """What `script` and `audit` of the program write for each list."""
    found = []
    with tempfile.TemporaryDirectory(prefix="compare-") as folder:
        texts = [os.path.join(folder, name) for name in ("history", "certificate")]
        for lines in lists:
            given = "".join(line + "\n" for line in lines).encode("latin-1")
            parts = [subprocess.run([program, "script", *texts], input=given, capture_output=True).stdout]
            for path in texts:
                with open(path, "rb") as text:
                    parts.append(text.read())
            parts.append(subprocess.run([program, "audit", *texts], capture_output=True).stdout)
            found.append(b"".join(parts).decode("latin-1"))
    return found


def outputs(program, lists):
    """What the program writes for each list. If it ends early or badly, the last output says so."""
    with tempfile.TemporaryDirectory(prefix="compare-") as folder:
        path = os.path.join(folder, "lists")
        with open(path, "w", encoding="latin-1", newline="") as out:
            out.write("".join(line + "\n" for lines in lists for line in lines + ["end"]))
        ran = subprocess.run([program, path], capture_output=True)
    *found, rest = ran.stdout.decode("latin-1").split(LAST_LINE)
    if ran.returncode or rest or len(found) < len(lists):
        found.append("%s(status %d) %s\n" % (rest, ran.returncode, ran.stderr.decode("latin-1")))
    found += [""] * (len(lists) - len(found))
    return found[: len(lists) - 1] + ["".join(found[len(lists) - 1 :])]


def is_passed(run, lines):
    wanted = Wanted(lines)
    return wanted.is_accepted and run([lines]) == [wanted.text]


def shrunk(run, lines):
    """Leaves commands out, many at once at first, for as long as it isn't passed."""
    size = len(lines)
    while size:
        at = 0
        while at < len(lines):
            shorter = lines[:at] + lines[at + size :]
            if is_passed(run, shorter):
                at += size
            else:
                lines = shorter
        size //= 2
    return lines


def show(run, case, lines):
    wanted, (got,) = Wanted(lines), run([lines])
    print("list %d, made smaller:" % case, *lines, sep="\n")
    print(wanted.difference(got) if wanted.text != got else "the audit refuses a text that the definitions give")


def show_first(run, lists, failed):
    """The first of the lists that failed, as long as they fail without the others too."""
    alone = (case for case in failed if not is_passed(run, lists[case - 1]))
    shown = list(itertools.islice(alone, MOST_SHOWN))
    for case in shown:
        show(run, case, shrunk(run, lists[case - 1]))
    if failed and not shown:
        print("each list passes alone; list %d is the first that failed after others" % failed[0])


def options():
    p = argparse.ArgumentParser(description=__doc__, formatter_class=argparse.RawDescriptionHelpFormatter)
    p.add_argument("program", nargs="?", help="default: crates/ssi_store_tests/out/ssi_store_tests")
    p.add_argument("--cases", type=int, default=1000, help="how many lists (default %(default)s)")
    p.add_argument("--seed", type=int, default=1, help="the same seed gives the same lists (default %(default)s)")
    p.add_argument("--bad-lines", action="store_true", help="also lines that are no commands")
    return p.parse_args()


def runner(o):
    """What gives the outputs for lists."""
    name = "ssi" if o.bad_lines else "ssi_store_tests"
    built = os.path.join(os.path.dirname(os.path.abspath(__file__)), "..", "crates", name, "out", name)
    program = os.path.abspath(o.program or built)
    if not os.access(program, os.X_OK):
        sys.exit("compare_store.py: there is no program %s" % program)
    return functools.partial(scripted if o.bad_lines else outputs, program)


def main():
    o = options()
    run = runner(o)
    maker = Maker(o.seed, o.bad_lines)
    lists = [maker.commands() for _ in range(o.cases)]
    failed, counts = [], collections.Counter()
    for case, (lines, got) in enumerate(zip(lists, run(lists)), 1):
        wanted = Wanted(lines)
        counts.update(kind(*pair) for pair in zip(lines, wanted.replies))
        if got != wanted.text or not wanted.is_accepted:
            failed.append(case)
    show_first(run, lists, failed)
    for name, count in sorted(counts.items()):
        print("%7d %s" % (count, name))
    print("%d passed, %d failed" % (o.cases - len(failed), len(failed)))
    sys.exit(1 if failed else 0)


if __name__ == "__main__":
    main()
