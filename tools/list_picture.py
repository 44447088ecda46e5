"""What tools/explain.py says of a list-append history, and what it draws.

`lists --json` answers; its sentences are those that are told. For the picture each step of a transaction is an event, and
the cycle that decides is drawn whole.
"""
import json
import os
import re
import subprocess
import sys

TOP = os.path.dirname(os.path.dirname(os.path.abspath(__file__)))
sys.path.insert(0, os.path.join(TOP, "scripts"))
import list_witness  # noqa: E402  (in scripts/)

ENDS = {"ok": "c", "fail": "a"}


class Step:
    """A step of a transaction, or its end, as the picture has events."""

    span, ends = None, False

    def __init__(self, txn, kind, key, value, index):
        self.txn, self.kind, self.key, self.value = txn, kind, key, value
        shown = ((key, txn, 0), value)
        self.seen, self.write = ([shown], None) if kind == "r" else ([], shown)
        self.text = "index %d: %s %s %s" % (index, "read" if kind == "r" else "append", key, value)


class End:
    """How a transaction ended."""

    span, ends, seen, write = None, True, [], None

    def __init__(self, txn, kind, index):
        self.txn, self.kind = txn, kind
        self.text = "index %d: %s" % (index, {"c": "ok", "a": "fail"}[kind])


class Failed(Exception):
    """The program has no answer: its status."""


def answer_of(program, path):
    """What `lists --json` says of the history."""
    ran = subprocess.run([program, "--json", "--", path], stdout=subprocess.PIPE, check=False)
    if ran.returncode in (2, 3):
        raise Failed(ran.returncode)
    return json.loads(ran.stdout)


def events_of(transactions, numbers):
    """The steps of these transactions, one after the other, with a number for each. The rows have the numbers that the
    sentences give the transactions."""
    events = {}
    for index, (outcome, steps) in transactions.items():
        for name, key, value in steps:
            found = "[%s]" % " ".join(value) if outcome == "ok" else "nil"  # nobody knows what the others read
            text = found if name == "r" else value
            events[len(events)] = Step(numbers[index], "r" if name == "r" else "append", key, text, index)
        if outcome in ENDS:
            events[len(events)] = End(numbers[index], ENDS[outcome], index)
    return events


def step_of(events, txn, kind, key):
    """The number of the first step of a transaction that reads the key, or appends to it."""
    for at, event in events.items():
        if event.txn == txn and event.kind == kind and event.key == key:
            return at
    raise ValueError("no step of %d is one of key %s" % (txn, key))


def steps_of_link(events, numbers, link, sentence):
    """The label of the link's arrow, and the steps that it leads from and to."""
    key = re.search(r'(?:read|to) key ("(?:[^"\\]|\\.)*"|\S+?)(?= as |[,:] |: T)', sentence)[1]
    first, second = {"ww": ("append", "append"), "wr": ("append", "r"), "rw": ("r", "append")}[link["kind"]]
    return ("%s %s" % (link["kind"], key), step_of(events, numbers[link["from"]], first, key),
            step_of(events, numbers[link["to"]], second, key))


def said_of(answer):
    """The first line of the answer."""
    return ": ".join(answer[name] for name in ("answer", "kind") if name in answer)


def sentences(answer):
    """All sentences of the answer, those of other kinds after their names."""
    lines = list(answer.get("explanation", []))
    for other in answer.get("also", []):
        lines += ["%s: %s" % (other["kind"], line) for line in other["explanation"]]
    return lines


def which(answer):
    """What is said if the search for cycles was cut off."""
    is_searched = all(fault.get("shortest", True) for fault in [answer, *answer.get("also", [])])
    return "" if is_searched else "The search for cycles was cut off: there may be a shorter one, or one of a worse kind."


def drawn(answer, path, told):
    """The steps of the cycle that decides, and what is told of each link. `told` makes it of a sentence, a label and two
    steps. The history has one operation a line."""
    transactions = list_witness.read_history(path)
    links = answer["cycle"]
    chosen = {link["from"]: transactions[link["from"]] for link in links}
    numbers = {int(index): int(number) for sentence in answer["explanation"]
               for number, index in re.findall(r"T(\d+) \(index (\d+)\)", sentence)}
    events = events_of({index: chosen[index] for index in transactions if index in chosen}, numbers)
    told_of = zip(links, answer["explanation"])
    return events, [told(text, *steps_of_link(events, numbers, link, text)) for link, text in told_of]
