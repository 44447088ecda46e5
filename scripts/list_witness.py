#!/usr/bin/env python3
"""Looks an answer of the program `lists` up in the history: each read and append that it names has to be there.

    scripts/list_witness.py HISTORY ANSWER [ORDER]

ANSWER is what the program printed for the history, and ORDER the file that it wrote with --order. The order of a yes
has to list the right transactions, and running them one after the other has to give what each read returned. The
sentences after a no have to say what the history says, and to exclude every order: a cycle, for instance, has to lead
from each transaction to the next and back to the first, each time by a read that tells which of the two ran first. This
script reads the history and the sentences by itself, and shares no code with `lists`.

It takes EDN with one operation a line, or JSON with one operation a line. It prints `holds` and ends with status 0, or
it prints what is wrong and ends with status 1.
"""
import json
import os
import re
import sys

from lists_reference import explains, lists_the_right_ones

WHO = r"T(\d+) \(index (\d+)\)"
NAME = r'("(?:[^"\\]|\\.)*"|\S+)'
LIST = r"\[([^\]]*)\]"
BLOCK = r"(\[[^\]]*\]|\S+)"
READ = WHO + r" read key " + NAME + " as " + LIST
APPENDED = WHO + " appended " + BLOCK + " to key " + NAME
LEFT = READ + r"(?: and appended " + LIST + " afterwards)?"
DIFFERS = r"(?:; element (\d+) is (\S+) in the first and (\S+) in the second)?"  # of lists that aren't shown whole
CUT_OFF = "the search for cycles was cut off: there may be a shorter one, or one of a worse kind"
APART = LEFT + ", and " + LEFT + ": neither list begins with the other" + DIFFERS


class Wrong(Exception):
    """Something in the answer that the history doesn't say."""


def require(holds, what):
    if not holds:
        raise Wrong(what)


def words(text):
    return text.strip("[]").split()


def edn_operation(line):
    """Kind, `:f`, process, index, if it has one, and steps of an operation in EDN."""
    fields = (":type", ":f", ":process", ":index")
    found = [re.search(field + r" :?([^\s,}]+)", line) for field in fields]
    kind, f, process, index = (word[1] if word else "" for word in found)
    steps = []
    for name, key, value in re.findall(r"\[:(append|r) " + NAME + r" (\[[^\]]*\]|[^\s\]]+)\]", line):
        steps.append((name, key, value if name == "append" else [] if value == "nil" else words(value)))
    return kind, f, process, int(index) if index else None, steps


def json_name(value):
    """A key or an element of JSON, as the sentences have it."""
    return json.dumps(value, ensure_ascii=False) if isinstance(value, str) else str(value)


def json_operation(line):
    """The same of one in JSON."""
    data = {name.removeprefix(":"): value for name, value in json.loads(line).items()}
    kind, f = (str(data.get(name, "")).removeprefix(":") for name in ("type", "f"))
    steps = []
    for name, key, value in data["value"] if isinstance(data.get("value"), list) and f == "txn" else []:
        shown_as = json_name(value) if name.endswith("append") else list(map(json_name, value or []))
        steps.append((name.removeprefix(":"), json_name(key), shown_as))
    return kind, f, str(data.get("process", "")), data.get("index"), steps


def read_history(path):
    """Each transaction's outcome and steps, by its index. What isn't completed is unknown."""
    transactions, open_at = {}, {}
    with open(path, encoding="utf-8") as file:
        lines = [line for line in file if line.startswith("{")]
    for place, line in enumerate(lines):
        kind, f, process, index, steps = json_operation(line) if line.startswith('{"') else edn_operation(line)
        if f != "txn" or not process.isdigit():
            continue
        index = place if index is None else index
        if kind == "invoke":
            open_at[process] = index
            transactions[index] = ("info", steps)
        else:
            _, asked = transactions.pop(open_at.pop(process)) if process in open_at else (None, steps)
            transactions[index] = (kind, steps if kind == "ok" else asked)
    return transactions


def own(steps, key):
    """What these steps append to the key."""
    return [value for name, to, value in steps if name == "append" and to == key]


def shown(elements):
    """A list as the sentences have it: of a long one both ends."""
    return elements if len(elements) <= 16 else [*elements[:8], "..", *elements[-8:]]


def ends_with(elements, some):
    return len(some) <= len(elements) and elements[len(elements) - len(some):] == some


def has_part(elements, some):
    """Whether some elements stand together in the list."""
    return any(elements[at:at + len(some)] == some for at in range(len(elements)))


def is_first(some, others, elements):
    """Whether a list has one of some elements, and before it not all of the others."""
    places = [elements.index(element) for element in some if element in elements]
    return bool(places) and not set(others) <= set(elements[:min(places)])


def differ_so(one, other, place, mine, theirs):
    """Whether two lists differ first where the sentence says, if it says so."""
    if place is None:
        return True
    at = int(place) - 1
    return one[:at] == other[:at] and one[at:at + 1] == [mine] != other[at:at + 1] == [theirs]


class Witness:
    """The sentences of one answer, and the history."""

    def __init__(self, transactions):
        self.transactions = transactions
        self.cast = {}  # T1, T2, .. -> index

    def who(self, number, index):
        """The outcome and the steps of a transaction of the sentence."""
        require(self.cast.setdefault(number, index) == index, "T%s is two transactions" % number)
        require(int(index) in self.transactions, "nothing has the index " + index)
        return self.transactions[int(index)]

    def reads(self, number, index, key, elements):
        """Where among its steps a committed transaction read such a list, with the whole list; and its steps."""
        outcome, steps = self.who(number, index)
        found = [(place, value) for place, (name, of, value) in enumerate(steps)
                 if name == "r" and of == key and shown(value) == words(elements)]
        require(outcome == "ok" and found, "T%s didn't read this" % number)
        return found, steps

    def lists(self, *read):
        """The lists alone: one, unless several look the same without their middles."""
        return [value for _, value in self.reads(*read)[0]]

    def appends(self, number, index, block, key):
        """What the transaction appends to the key, which has to be what the sentence says."""
        outcome, steps = self.who(number, index)
        mine = own(steps, key)
        require(outcome != "fail" and mine and shown(mine) == words(block), "T%s didn't append this" % number)
        return mine

    def link(self, sentence):
        """The kind of a link of a cycle, and the transactions that it leads from and to."""
        if found := re.fullmatch(READ + ", and " + APPENDED + r": T(\d+) before T(\d+)", sentence):
            reader, at, key, elements, writer, of, block, to, *ends = found.groups()
            mine = self.appends(writer, of, block, key)
            require(any(set(mine) - set(listed) for listed in self.lists(reader, at, key, elements)), "it was seen")
            require(key == to and [reader, writer] == ends, "it tells something else")
            return "rw", *ends
        if found := re.fullmatch(APPENDED + ", and " + READ + r": T(\d+) before T(\d+)", sentence):
            writer, of, block, to, reader, at, key, elements, *ends = found.groups()
            mine = self.appends(writer, of, block, key)
            require(any(set(mine) & set(listed) for listed in self.lists(reader, at, key, elements)), "it wasn't seen")
            require(key == to and [writer, reader] == ends, "it tells something else")
            return "wr", *ends
        found = re.fullmatch(APPENDED + ", " + APPENDED + ", and " + READ + r": T(\d+) before T(\d+)", sentence)
        require(found, "not understood")
        writer, of, block, to, later, later_of, later_block, later_to, reader, at, key, elements, *ends = found.groups()
        one, other = self.appends(writer, of, block, key), self.appends(later, later_of, later_block, key)
        require(any(is_first(one, other, listed) for listed in self.lists(reader, at, key, elements)), "it isn't first")
        require(key == to == later_to and [writer, later] == ends, "it tells something else")
        return "ww", *ends

    def cycle(self, name, sentences):
        links = [self.link(sentence) for sentence in sentences]
        for (_, start, end), (_, following, _) in zip(links, links[1:] + links[:1]):
            require(start != end and end == following, "the links don't follow one another")
        starts = [start for _, start, _ in links]
        require(len(set(starts)) == len(starts), "a transaction is in the cycle twice")
        kinds = [kind for kind, _, _ in links]
        names = {0: "G1c" if "wr" in kinds else "G0", 1: "G-single"}
        require(name == names.get(kinds.count("rw"), "G2-item"), "the cycle has another name")

    def internal(self, *read):
        found, steps = self.reads(*read)
        require(not all(ends_with(value, own(steps[:place], read[2])) for place, value in found), "it ends so")

    def unrepeatable(self, number, index, key, elements, later, *differs):
        found, steps = self.reads(number, index, key, elements)
        others, _ = self.reads(number, index, key, later)
        wrong = [place for place, value in found for other, second in others
                 if place < other and value + own(steps[place:other], key) != second and differ_so(value, second, *differs)]
        require(wrong, "it found what it had to")

    def twice(self, number, index, key, elements, element):
        require(any(value.count(element) > 1 for value in self.lists(number, index, key, elements)), "it is there once")

    def writers(self, key, element):
        """The outcomes of those who appended the element."""
        return [outcome for outcome, steps in self.transactions.values() if element in own(steps, key)]

    def unwritten(self, number, index, key, elements, element):
        require(any(element in value for value in self.lists(number, index, key, elements)), "it isn't there")
        require(not self.writers(key, element), "somebody did")

    def aborted(self, number, index, key, elements, element, writer, of):
        outcome, steps = self.who(writer, of)
        require(outcome == "fail" and element in own(steps, key), "T%s didn't append this and fail" % writer)
        require(any(element in value for value in self.lists(number, index, key, elements)), "it isn't there")
        require(set(self.writers(key, element)) == {"fail"}, "somebody else did")

    def dirty(self, number, index, key, elements, element, writer, of, later, committed, at):
        self.aborted(number, index, key, elements, element, writer, of)
        outcome, steps = self.who(committed, at)
        require(outcome == "ok" and later in own(steps, key), "T%s didn't append this and commit" % committed)
        require(any(element in value and later in value[value.index(element):]
                    for value in self.lists(number, index, key, elements)), "it comes sooner")

    def future(self, number, index, key, elements, element):
        found, steps = self.reads(number, index, key, elements)
        early = any(element in value and element in own(steps[place:], key) for place, value in found)
        require(early, "T%s didn't append it later" % number)

    def intermediate(self, number, index, key, elements, writer, of, block):
        some = self.appends(writer, of, block, key)
        partly = any(set(some) & set(value) and not has_part(value, some)
                     for value in self.lists(number, index, key, elements))
        require(partly and writer != number, "it is whole, or not there")

    def left(self, number, index, key, elements, afterwards):
        """The lists that a reader may have left."""
        found, steps = self.reads(number, index, key, elements)
        mine = words(afterwards or "")
        lists = [value + own(steps[place:], key) for place, value in found if shown(own(steps[place:], key)) == mine]
        require(lists, "T%s appended something else" % number)
        return lists

    def incompatible(self, *lists):
        ones, others = self.left(*lists[:5]), self.left(*lists[5:10])
        apart = any(x != y for one in ones for other in others if differ_so(one, other, *lists[10:])
                    for x, y in zip(one, other))
        require(lists[0] != lists[5], "they are the lists of one transaction")
        require(lists[2] == lists[7] and apart, "one begins with the other")

    def lost_update(self, *lists):
        self.incompatible(*lists)
        require(lists[3] == lists[8] and lists[4] and lists[9], "they didn't find the same list and append to it")

    def all(self, name, sentences):
        """A no of this name, what else there is, and one of each other kind."""
        begins = next((at for at, line in enumerate(sentences) if line.startswith("also: ")), len(sentences))
        first = [line for line in sentences[:begins] if line != CUT_OFF]
        self.no(name, first)
        others = {}
        for line in sentences[begins + 1:]:
            kind, _, sentence = line.partition(": ")
            others.setdefault(kind, []).append(sentence)
        for kind, some in others.items():
            self.no(kind, some)
        told = sentences[begins].removeprefix("also: ").split(", ") if begins < len(sentences) else []
        kinds = [found[1] or found[2] for found in (re.fullmatch(r"\d+ (?:more )?(?:.* \((.*)\)|(.*?)s?)", part) for part in told)]
        require(kinds in (list(others), [name, *others]), "the others aren't shown: %s" % kinds)

    def no(self, name, sentences):
        """A no of this name."""
        if name in ("G0", "G1c", "G-single", "G2-item"):
            return self.cycle(name, sentences)
        forms = {
            "internal": (READ + ", which doesn't end with what it had appended itself", self.internal),
            "unrepeatable": (READ + ", and later as " + LIST + DIFFERS, self.unrepeatable),
            "duplicate elements": (READ + r", with (\S+) twice", self.twice),
            "unwritten": (READ + r", and nobody appended (\S+)", self.unwritten),
            "G1a": (READ + r", and (\S+) was appended by " + WHO + ", which failed", self.aborted),
            "future": (READ + r", before it appended (\S+) itself", self.future),
            "G1b": (READ + ", and " + WHO + " appended " + BLOCK, self.intermediate),
            "incompatible order": (APART, self.incompatible),
            "lost update": (APART, self.lost_update),
            "dirty update": (READ + r", and (\S+) was appended by " + WHO + r", which failed, and (\S+) after it by " + WHO, self.dirty),
        }
        require(name in forms and len(sentences) == 1, "not understood")
        form, judge_it = forms[name]
        found = re.fullmatch(form, sentences[0])
        require(found, "not understood")
        return judge_it(*found.groups())


def yes(transactions, order):
    """Whether the transactions run in this order give what each read returned."""
    indexes = list(transactions)
    history = list(transactions.values())
    require(set(order) <= set(indexes), "the order lists what is no transaction")
    places = [indexes.index(index) for index in order]
    require(lists_the_right_ones(history, places), "the order lists other transactions")
    require(explains(history, places), "the order explains nothing")


def appended_twice(transactions, sentences):
    """Whether the two transactions of the sentence, or the one twice, append the element."""
    require(len(sentences) == 1, "not understood")
    if found := re.fullmatch(WHO + r" appended (\S+) to key (\S+) twice", sentences[0]):
        _, index, element, key = found.groups()
        indexes = [index, index]
    else:
        found = re.fullmatch(WHO + r" appended (\S+) to key (\S+), and so did " + WHO, sentences[0])
        require(found, "not understood")
        _, first, element, key, _, second = found.groups()
        indexes = [first, second]
    appends = [index for index, (outcome, steps) in transactions.items() for value in own(steps, key)
               if value == element and outcome != "fail"]
    require(all(appends.count(int(index)) >= indexes.count(index) for index in indexes), "they didn't")


def judge(history, answer, order=None):
    transactions = read_history(history)
    with open(answer, encoding="utf-8") as file:
        first, *sentences = file.read().splitlines() or [""]
    if first == "serializable":
        require(order is not None and os.path.exists(order), "there is no order")
        with open(order, encoding="ascii") as file:
            yes(transactions, [int(line) for line in file])
    elif first == "nothing to check":
        require(not any(outcome == "ok" and steps for outcome, steps in transactions.values()), "there is something")
    elif first == "appended twice":
        appended_twice(transactions, sentences)
    else:
        require(first.startswith("not serializable: "), "not understood")
        Witness(transactions).all(first.partition(": ")[2], sentences)


def main():
    if len(sys.argv) not in (3, 4):
        sys.exit(__doc__)
    try:
        judge(*sys.argv[1:])
    except Wrong as wrong:
        print(wrong)
        sys.exit(1)
    print("holds")


if __name__ == "__main__":
    main()
