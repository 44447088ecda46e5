"""Says for tools/explain.py why a line may not stand in the text of a history: at which byte, and what was wanted there.
docs/formats.md has the grammar."""
import re

KEY = "a key is 1 to 32 bytes of a-z, 0-9 and _"
VALUE = "a value is 1 to 64 bytes of A-Z, a-z, 0-9 and _.+-"
TXN = "a transaction is a number from 1 to 4294967295, without leading zeros"
COUNT = "the number of a write is one from 1 to 65535, without leading zeros"
HEAD = re.compile("(?:adya [12])?")
BEGINNINGS = "a line begins with w, d, r, s, c, a, u, [ or {, or is `end`"
# the parts of a history in their order, by how their lines begin
PARTS = [("w", "d", "r", "s", "c", "a"), ("u",), ("[",), ("{",), ("end",)]
UNFINISHED, TAIL = 1, 4
ORDER = "events come first, then unfinished transactions, then orders, then finals"
RISING = "unfinished transactions, orders and finals rise, and none comes twice"


class Misfit(Exception):
    """The line fits the grammar up to this place, and what was wanted there."""

    def __init__(self, at, wanted):
        super().__init__(wanted)
        self.at, self.wanted = at, wanted


class Scanner:
    """Goes over a line from left to right."""

    def __init__(self, text):
        self.text, self.at = text, 0

    def has(self, mark):
        """Whether the mark comes next, and then goes over it."""
        found = self.text.startswith(mark, self.at)
        self.at += len(mark) * found
        return found

    def mark(self, *marks):
        """Goes over one of the marks, and returns it."""
        for mark in marks:
            if self.has(mark):
                return mark
        raise Misfit(self.at, "%s is wanted" % " or ".join("`%s`" % mark for mark in marks))

    def word(self, letters, most, wanted):
        found = re.compile("[%s]*" % letters).match(self.text, self.at)[0]
        if not 0 < len(found) <= most:
            raise Misfit(self.at + min(len(found), most), wanted)
        self.at += len(found)
        return found

    def number(self, most, wanted):
        start = self.at
        found = re.compile("[0-9]*").match(self.text, self.at)[0]
        if not re.fullmatch("[1-9][0-9]*", found) or int(found) > most:
            raise Misfit(start, wanted)
        self.at += len(found)
        return int(found)

    def key(self):
        return self.word("a-z0-9_", 32, KEY)

    def value(self):
        return self.word("A-Za-z0-9_.+-", 64, VALUE)

    def txn(self):
        return self.number(4294967295, TXN)

    def version(self, of=None):
        """A key, a transaction, which is the given one if there is one, and the number of its write."""
        self.key()
        self.mark(".")
        start = self.at
        if self.txn() != (of or int(self.text[start:self.at])):
            raise Misfit(start, "the version is the transaction's own")
        self.mark(":")
        self.number(65535, COUNT)

    def end(self):
        if self.at < len(self.text):
            raise Misfit(self.at, "the line ends before this")


def scan_list(scanner):
    scanner.mark("(")
    scanner.key()
    scanner.mark(",")
    scanner.key()
    while scanner.mark(";", ")") == ";":
        scanner.version()
        scanner.mark(",")
        if not scanner.has("!"):
            scanner.value()


def part_of(text):
    """Which part of a history the line belongs to. Raises Misfit."""
    scanner = Scanner(text)
    part = next((at for at, marks in enumerate(PARTS) if text.startswith(marks)), None)
    if part is None:
        raise Misfit(0, BEGINNINGS)
    kind = scanner.mark(*PARTS[part])
    if kind in ("w", "d", "r"):
        txn = scanner.txn()
        scanner.mark("(")
        scanner.version(None if kind == "r" else txn)
        if kind != "d":
            scanner.mark(",")
            scanner.value()
        scanner.mark(")")
    elif kind == "s":
        scanner.txn()
        scan_list(scanner)
    elif kind in ("c", "a", "u"):
        scanner.txn()
    elif kind == "[":
        scanner.key()
        scanner.mark(":")
        scanner.txn()
        while scanner.mark("<<", "]") == "<<":
            scanner.txn()
    elif kind == "{":
        scanner.key()
        scanner.mark(",")
        scanner.value()
        scanner.mark("}")
    scanner.end()
    return part


def out_of_place(head, before, text):
    """Why a line of a history may not follow this one."""
    part = part_of(text)
    part_before = part_of(before) if before != head else 0
    if part_before == TAIL:
        return "nothing follows the line `end`"
    if part == UNFINISHED and head == "adya 1":
        return "a history with unfinished transactions begins with `adya 2`"
    return ORDER if part < part_before else RISING


def missing(number, rest):
    """Why a text that ends with this rest has no such line."""
    if rest:
        return "it has no line feed at its end"
    return "the text is empty" if number == 1 else "the text ends before the line `end`"


def fault(file, number):
    """Why the text in the file is no history, if its fault is at this line."""
    if number > file.count():
        return "line %d: %s" % (number, missing(number, file.line(number)))
    text = file.line(number)
    try:
        if number == 1:
            raise Misfit(len(HEAD.match(text)[0]), "the first line is `adya 1` or `adya 2`")
        return "line %d: %s" % (number, out_of_place(file.line(1), file.line(number - 1), text))
    except Misfit as misfit:
        wanted = misfit.wanted
        if text[misfit.at:] == "\r":
            wanted = "a carriage return (CRLF); lines end with a line feed alone"
        return "line %d, byte %d: %s" % (number, misfit.at + 1, wanted)
