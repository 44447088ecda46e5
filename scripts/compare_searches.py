#!/usr/bin/env python3
"""Compares each of the two searches of the list-append check by itself with scripts/lists_reference.py.

    scripts/compare_searches.py [--cases 40] [--seed 1]

The plain search answers only if what the fast one found doesn't pass the last look at it, so the program `lists` doesn't
show what it would answer. This copies the crates twice. In one copy what the fast search found is never taken. In the
other one the plain search is never asked: a history that needs it ends there as if memory had run out. `rt try` builds
and runs both copies, with no proof, on the random histories of scripts/compare_lists.py; a history takes about half a second.
The answers have to be the reference's, and each order that is given has to explain the history; what the fast search
finds has to be the worst kind too, and a shortest cycle. Nothing has to be built
before. The last line is `N passed, 0 failed`. If an answer differs, the history is printed, and it ends with status 1.
"""
import argparse
import collections
import json
import os
import re
import shutil
import subprocess
import sys
import tempfile

from compare_lists import STATUSES, differs, history_of, name_of
from lists_reference import edn_of

TOP = os.path.dirname(os.path.dirname(os.path.abspath(__file__)))
CHECKER = os.path.join("crates", "append_check", "src", "checker.rt")
# what each copy changes, in the text of which file
NO_FAST = [
    (CHECKER, "if explains(alloc, transactions, order.as_slice())? {", "if explains(alloc, transactions, order.as_slice())? && false {"),
    (CHECKER, "Some(findings) => return Ok(findings),", "Some(_) => {}"),
]
NO_PLAIN = [
    (CHECKER, "    let verdict = decide(alloc, transactions)?;\n    Ok(alone(alloc, verdict))\n", "    Err(AllocError)\n"),
    (CHECKER, "use crate::plain::decide;\n", ""),
]


def copied(folder, changes):
    """Copies the crates into the folder, and changes these texts."""
    shutil.copytree(os.path.join(TOP, "crates"), os.path.join(folder, "crates"), ignore=shutil.ignore_patterns("out"))
    for name in ["crates.txt", "HANDLES"]:
        shutil.copy(os.path.join(TOP, name), folder)
    for name, old, new in changes:
        path = os.path.join(folder, name)
        with open(path, encoding="utf-8") as file:
            text = file.read()
        if text.count(old) != 1:
            sys.exit("%s has %d times %r" % (name, text.count(old), old))
        with open(path, "w", encoding="utf-8") as file:
            file.write(text.replace(old, new))


def answers(folder, cases):
    """What the copy answers for each of the texts: an object of JSON, or nothing."""
    texts = os.path.join(folder, "cases")
    os.mkdir(texts)
    for case, text in cases.items():
        for name, words in [(case, text), (case + ".args", "--json")]:
            with open(os.path.join(texts, name), "w", encoding="ascii") as file:
                file.write(words)
    call = ["rt", "try", "--steps", "1", "--cases", texts]
    ran = subprocess.run(call, cwd=os.path.join(folder, "crates", "lists"), capture_output=True, text=True)
    parts = re.split(r"^== (\S+).*\n", ran.stdout, flags=re.M)
    if len(parts) < 1 + 2 * len(cases):
        print(ran.stdout + ran.stderr)
    firsts = ((case, part.split("\n")[0]) for case, part in zip(parts[1::2], parts[2::2]))
    return {case: json.loads(line) for case, line in firsts if line.startswith("{")}


def compared(name, histories, changes):
    """How many answers of a copy are the reference's, and how many aren't."""
    cases = {"history-%05d" % number: edn_of(history) for number, history in enumerate(histories)}
    kinds = collections.Counter()
    with tempfile.TemporaryDirectory() as folder:
        copied(folder, changes)
        found = answers(folder, cases)
    failed = 0
    for (case, text), history in zip(cases.items(), histories):
        said = found.get(case, {"answer": ""})
        wrong = differs(history, said, STATUSES.get(said["answer"]), name == "fast")
        kinds[name_of(said)] += 1
        if wrong:
            failed += 1
            print("%s, %s: %s, got %r\n%s" % (name, case, wrong, said, text))
    for kind, count in sorted(kinds.items()):
        print("%s: %7d %s" % (name, count, kind))
    return len(histories) - failed, failed


def main():
    parser = argparse.ArgumentParser()
    parser.add_argument("--cases", type=int, default=40)
    parser.add_argument("--seed", type=int, default=1)
    options = parser.parse_args()
    histories = [history_of(options.seed, number) for number in range(options.cases)]
    counts = [compared("plain", histories, NO_FAST), compared("fast", histories, NO_PLAIN)]
    passed, failed = (sum(column) for column in zip(*counts))
    print("%d passed, %d failed" % (passed, failed))
    sys.exit(1 if failed else 0)


if __name__ == "__main__":
    main()
