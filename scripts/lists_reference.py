#!/usr/bin/env python3
"""A second implementation of what it means that an order explains a list-append history: it tries all of them, if there are
few transactions.

    scripts/lists_reference.py < history.edn

A history is a list of transactions, each with an outcome ("ok", "fail" or "info") and operations: ("append", key,
element) or ("r", key, elements), where elements is None if nobody knows what was read. An order lists each transaction
that is ok once, some of those with the outcome info once, and none that failed. It explains the history if these, run
one after the other from empty lists, give each read of a transaction that is ok what it returned.

Of more than eight transactions it doesn't try the orders. Then the reads and the precedences decide, by the definitions
below: a read that is wrong by itself or beside another one excludes every order, and so does a cycle of precedences. Of few
transactions `scripts/compare_lists.py` compares this with the search.

As a program it reads a history, one EDN operation a line as `edn_of` writes them, and prints whether an order explains it.
"""
import itertools
import re
import sys


MOST_TRIED = 8  # transactions of a history of which all orders are tried


def explains(history, order):
    """Whether the transactions, run in this order, give each read of those that are ok."""
    lists = {}
    for place in order:
        outcome, operations = history[place]
        for name, key, value in operations:
            here = lists.setdefault(key, [])
            if name == "append":
                here.append(value)
            elif outcome == "ok" and here != value:
                return False
    return True


def lists_the_right_ones(history, order):
    """Whether the order lists each transaction that is ok once, the unknown ones at most once, and no other."""
    ok = {place for place, (outcome, _) in enumerate(history) if outcome == "ok"}
    failed = {place for place, (outcome, _) in enumerate(history) if outcome == "fail"}
    return len(set(order)) == len(order) and ok <= set(order) and not failed & set(order)


def orders(history):
    """All orders that list the right transactions."""
    certain = [place for place, (outcome, _) in enumerate(history) if outcome == "ok"]
    unknown = [place for place, (outcome, _) in enumerate(history) if outcome == "info"]
    for size in range(len(unknown) + 1):
        for some in itertools.combinations(unknown, size):
            yield from itertools.permutations(certain + list(some))


def own(history, place, key, step=None):
    """What a transaction appends to the key, or what it appends before this step; nothing if it failed."""
    outcome, operations = history[place]
    if outcome == "fail":
        return []
    return [value for name, to, value in operations[:step] if name == "append" and to == key]


def appended_twice(history):
    """Whether an element is appended twice to one key, by transactions that may have committed."""
    seen = set()
    for outcome, operations in history:
        for name, key, value in operations:
            if name == "append" and outcome != "fail":
                if (key, value) in seen:
                    return True
                seen.add((key, value))
    return False


def verdict(history):
    if appended_twice(history):
        return "appended twice"
    if not any(outcome == "ok" and operations for outcome, operations in history):
        return "nothing to check"
    if len(history) > MOST_TRIED:
        return "not serializable" if has_reason(history) else "serializable"
    return "serializable" if any(explains(history, order) for order in orders(history)) else "not serializable"


# The kinds of faults, the worst one first.
RANKS = ["internal", "duplicate elements", "unwritten", "future", "G1a", "dirty update", "G1b", "incompatible order",
         "G0", "G1c", "unrepeatable", "lost update", "G-single", "G2-item"]


def reads(history):
    """Each read of a transaction that is ok: the transaction, the step, the key and the elements."""
    for place, (outcome, operations) in enumerate(history):
        for step, (name, key, value) in enumerate(operations):
            if outcome == "ok" and name == "r":
                yield place, step, key, value


def has_part(elements, part):
    return any(elements[at:at + len(part)] == part for at in range(len(elements) - len(part) + 1))


def kinds_of_read(history, place, step, key, elements):
    """The kinds of faults that a read has by itself."""
    mine, found = own(history, place, key, step), set()
    if elements[len(elements) - len(mine):] != mine:
        found.add("internal")
    if len(set(elements)) < len(elements):
        found.add("duplicate elements")
    owners = {x: [w for w in range(len(history)) if x in own(history, w, key)] for x in elements}
    aborted = {x for outcome, operations in history if outcome == "fail"
               for name, to, x in operations if name == "append" and to == key}
    for at, x in enumerate(elements):
        if not owners[x]:
            found.add("G1a" if x in aborted else "unwritten")
        elif owners[x] == [place]:
            if x not in mine:
                found.add("future")
        else:
            writer = owners[x][0]
            if history[writer][0] == "ok" and any(not owners[y] and y in aborted for y in elements[:at]):
                found.add("dirty update")
            if "duplicate elements" not in found and not has_part(elements, own(history, writer, key)):
                found.add("G1b")
    return found


def begins(one, other):
    return other[:len(one)] == one


def are_apart(some):
    """Whether two of these reads, by two transactions, found lists of a key of which neither begins with the other."""
    return any(one != other and key == to and not begins(elements, others) and not begins(others, elements)
               for (one, _, key, elements), (other, _, to, others) in itertools.combinations(some, 2))


def have_no_order(history):
    """Whether two reads of a key are apart, one of which is wrong by itself."""
    every = list(reads(history))
    return are_apart(every) and any(kinds_of_read(history, *read) for read in every)


def kinds_of_reads(history):
    """The kinds of faults of reads, by themselves and two by two; cycles are none of them."""
    found, fine, firsts = set(), [], {}
    for place, step, key, elements in reads(history):
        kinds = kinds_of_read(history, place, step, key, elements)
        found |= kinds
        if "internal" in kinds:
            continue
        base = elements[:len(elements) - len(own(history, place, key, step))]
        if firsts.setdefault((place, key), base) != base:
            found.add("unrepeatable")
        elif not kinds:
            fine.append((place, step, key, elements))
    if are_apart(fine):
        found.add("incompatible order")
    updates = [(key, elements) for place, step, key, elements in fine
               if not own(history, place, key, step) and own(history, place, key)
               and all(name != "r" or to != key for name, to, _ in history[place][1][:step])]
    if any(one == other for one, other in itertools.combinations(updates, 2)):
        found.add("lost update")
    return found


def precedences(history):
    """Which transaction has to come before which other one, by dependencies of which kinds."""
    edges = {}
    kept = [place for place, (outcome, _) in enumerate(history) if outcome != "fail"]

    def add(one, other, kind):
        if one != other:
            edges.setdefault((one, other), set()).add(kind)

    for reader, _, key, elements in reads(history):
        appends = {place: own(history, place, key) for place in kept if own(history, place, key)}
        for writer, some in appends.items():
            if set(some) - set(elements):
                add(reader, writer, "rw")
            places = [at for at, x in enumerate(elements) if x in some]
            if places:
                add(writer, reader, "wr")
                for later, others in appends.items():
                    if set(others) - set(elements[:places[0] + 1]):
                        add(writer, later, "ww")
    return edges


def shortest(edges, first, later):
    """How many links a shortest cycle has, whose first link has one of some kinds and all others one of others."""
    best = None
    for start, entered in [edge for edge, kinds in edges.items() if kinds & first]:
        depths, queue = {entered: 1}, [entered]
        for node in queue:
            for (one, other), kinds in edges.items():
                if one == node and other not in depths and kinds & later:
                    depths[other] = depths[node] + 1
                    queue.append(other)
        if start in depths and (best is None or depths[start] < best):
            best = depths[start]
    return best


def worst_cycle(history):
    """The worst kind of a cycle of precedences, and how many links the shortest one of this kind has."""
    edges, flow, every = precedences(history), {"ww", "wr"}, {"ww", "wr", "rw"}
    for name, first, later in [("G0", {"ww"}, {"ww"}), ("G1c", flow, flow), ("G-single", {"rw"}, flow), ("G2-item", every, every)]:
        length = shortest(edges, first, later)
        if length:
            return name, length
    return None, 0


def has_reason(history):
    """Whether a read is wrong, or transactions have to come before one another in a cycle."""
    return bool(kinds_of_reads(history)) or worst_cycle(history)[1] > 0


def operation_edn(operation):
    name, key, value = operation
    if name == "append":
        return "[:append %d %d]" % (key, value)
    return "[:r %d %s]" % (key, "nil" if value is None else "[%s]" % " ".join(map(str, value)))


def line_edn(index, kind, process, operations):
    value = "[%s]" % " ".join(map(operation_edn, operations))
    return "{:type :%s, :f :txn, :value %s, :process %d, :time %d, :index %d}\n" % (kind, value, process, index * 10, index)


def edn_of(history):
    """The history as a text: each transaction is invoked and completed by a process of its own, one after the other."""
    lines = []
    for place, (outcome, operations) in enumerate(history):
        asked = [(name, key, value if name == "append" else None) for name, key, value in operations]
        lines.append(line_edn(2 * place, "invoke", place, asked))
        lines.append(line_edn(2 * place + 1, outcome, place, operations if outcome == "ok" else asked))
    return "".join(lines)


def read_edn(text):
    """The history of a text as `edn_of` writes it."""
    history = []
    for line in text.splitlines():
        kind = re.search(r":type :(\w+)", line)[1]
        if kind == "invoke":
            continue
        operations = []
        for name, key, value in re.findall(r"\[:(append|r) (\d+) (\d+|nil|\[[\d ]*\])\]", line):
            if name == "append":
                operations.append((name, int(key), int(value)))
            elif value == "nil":
                operations.append((name, int(key), [] if kind == "ok" else None))
            else:
                operations.append((name, int(key), [int(x) for x in value[1:-1].split()]))
        history.append((kind, operations))
    return history


if __name__ == "__main__":
    print(verdict(read_edn(sys.stdin.read())))
