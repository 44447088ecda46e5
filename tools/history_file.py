"""Finds lines of a history in a file for tools/explain.py, without holding the whole text or parsing all of it.

A line is named by its number: the head is line 1. The text has to be that of a history, except for `count` and `line`.
"""
import itertools
import os
import re
import sys

sys.path.insert(0, os.path.join(os.path.dirname(os.path.dirname(os.path.abspath(__file__))), "scripts"))
import reference  # noqa: E402  (in scripts/)

PIECE = 2**20  # bytes that are read at a time
REST = rb"[^\n]*"


def one_of(words):
    """An expression for these words, given as texts of letters, digits and `_`. Words that begin alike share a branch,
    so that it takes no longer if there are many of them."""
    rests = {}
    for word in words:
        rests.setdefault(word[:1], []).append(word[1:])
    branches = [first + one_of(rest) if first else "" for first, rest in sorted(rests.items(), reverse=True)]
    return branches[0] if len(branches) == 1 else "(?:%s)" % "|".join(branches)


def numbers(txns):
    return one_of(map(str, set(txns))).encode() if txns else rb"(?!)"


def names(keys):
    return one_of(set(keys)).encode() if keys else rb"(?!)"


class HistoryFile:
    """The history in a file."""

    def __init__(self, path):
        self.path = path
        with open(path, "rb"):
            pass

    def pieces(self):
        """The text as pieces that begin with the line feed before a line, and end before one."""
        rest = b"\n"
        with open(self.path, "rb") as file:
            while read := file.read(PIECE):
                end = read.rfind(b"\n")
                if end >= 0:
                    yield rest + read[:end]
                rest = read[end:] if end >= 0 else rest + read
        yield rest

    def matches(self, form):
        """The lines that begin with this expression: the number of each, and the match after the line feed."""
        form, number = re.compile(rb"\n(?:%s)" % form), 0
        for piece in self.pieces():
            start = 0
            for match in form.finditer(piece):
                number += piece.count(b"\n", start, match.start() + 1)
                start = match.start() + 1
                yield number, match
            number += piece.count(b"\n", start)

    def groups(self, form):
        """The groups of the lines that begin with this expression: a quick way to go over many lines."""
        return itertools.chain.from_iterable(map(re.compile(rb"\n" + form).findall, self.pieces()))

    def count(self):
        """How many line feeds the text has."""
        return sum(piece.count(b"\n") for piece in self.pieces()) - 1

    def line(self, number):
        """The line with this number, without its line feed; empty if there is none."""
        with open(self.path, "rb") as file:
            return next(itertools.islice(file, number - 1, None), b"").rstrip(b"\n").decode("latin-1")

    def lines(self, form):
        """The numbers and texts of the lines that begin with this expression."""
        for number, match in self.matches(form + REST):
            yield number, match[0][1:].decode("latin-1")

    def event(self, number):
        return reference.event(self.line(number))

    def events(self, form):
        return {number: reference.event(text) for number, text in self.lines(form)}

    def events_of(self, txns):
        """All events of these transactions, by their lines."""
        return self.events(rb"[wdrsca]%s\b" % numbers(txns))

    def writes(self, txns, keys):
        """The writes and deletes of these keys by these transactions, by their lines."""
        return self.events(rb"[wd]%s\(%s\." % (numbers(txns), names(keys)))

    def orders(self, keys=None):
        """The version orders of these keys, or of all."""
        found = {}
        for _, text in self.lines(rb"\[" if keys is None else rb"\[%s:" % names(keys)):
            key, txns = text[1:-1].split(":")
            found[key] = [int(txn) for txn in txns.split("<<")]
        return found

    def unfinished(self, txn):
        """The line that names the transaction as unfinished, or None."""
        return next((number for number, _ in self.lines(rb"u%d\b" % txn)), None)

    def size(self):
        """The transactions, in the order of their first events, and the number of all events."""
        events = itertools.count()
        txns = {txn: None for txn, _ in zip(self.groups(rb"[wdrsca]([0-9]+)"), events)}
        return list(map(int, txns)), next(events)
