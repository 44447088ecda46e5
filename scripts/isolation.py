#!/usr/bin/env python3
"""Checks the table of examples/isolation/README.md against the files of its folders.

    scripts/isolation.py

A row says which sessions the store and PostgreSQL abort, and at which command. The files `replies` and `postgres` of
its folder must say the same, and the page must count right how often the two agree. The last line is
`N passed, M failed`.
"""
import os
import re
import sys

HERE = os.path.join(os.path.dirname(os.path.dirname(os.path.abspath(__file__))), "examples", "isolation")
CASES = ["no", "one", "two", "three", "four", "five", "six", "seven", "eight", "nine", "ten", "eleven", "twelve"]
TIMES = ["never", "once", "twice", "three times", "four times"]


def read(*path):
    with open(os.path.join(HERE, *path), encoding="utf-8") as file:
        return file.read()


def aborted(case, replies, words):
    """The sessions whose command got a reply of these words, with the command and the first word of the reply."""
    commands = [line.split() for line in read(case, "commands").splitlines()]
    answers = [line.split()[0] for line in read(case, replies).splitlines()]
    return {(command[1], command[0], answer) for command, answer in zip(commands, answers) if answer in words}


def told(cell, other):
    """What a cell of the table says in the same form, but for the reply; `other` if it says `the same`."""
    if cell.startswith("the same"):
        return other
    sessions, command = re.fullmatch(r"(.*) at (?:its|their) `([a-z]+)`.*", cell).groups()
    return {(session, command) for session in re.findall(r"\bs[0-9]\b", sessions)}


def main():
    page = read("README.md")
    rows = re.findall(r"^\| \[(.*?)\]\((.*?)\) \|.*?\| (.*?) \| (.*?) \|$", page, re.M)
    folders = sorted(name for name in os.listdir(HERE) if os.path.isdir(os.path.join(HERE, name)) and name[0] != "_")
    passed, failures, same, moved = 0, [], 0, 0
    for case, link, store, postgres in rows:
        ours, theirs = aborted(case, "replies", ("unsafe", "conflict")), aborted(case, "postgres", ("refused",))
        here, there = {one[:2] for one in ours}, {one[:2] for one in theirs}
        by_conflict = any(one[2] == "conflict" for one in ours)
        checks = [case == link, told(store, None) == here, told(postgres, here) == there,
                  ("`conflict`" in store) == by_conflict]
        passed += sum(checks)
        failures += ["%s: the row says %r and %r; the store aborts %s, PostgreSQL %s" % (
            case, store, postgres, sorted(ours), sorted(theirs))] * (not all(checks))
        if {session for session, _ in here} == {session for session, _ in there}:
            same, moved = same + 1, moved + (here != there)
    sentence = "In %s cases both abort the same transaction, %s at a different statement." % (CASES[same], TIMES[moved])
    for is_right, said in (sorted(row[0] for row in rows) == folders, "the rows aren't the folders"), \
            (sentence in page, "the page doesn't say: " + sentence), \
            ("Here are %s of them" % CASES[len(folders)] in page, "the page doesn't say how many cases there are"):
        passed += is_right
        failures += [] if is_right else [said]
    print("\n".join(failures + ["%d passed, %d failed" % (passed, len(failures))]))
    return 1 if failures else 0


if __name__ == "__main__":
    sys.exit(main())
