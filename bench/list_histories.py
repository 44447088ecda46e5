#!/usr/bin/env python3
"""Writes a serializable list-append history in EDN, as Jepsen has it: a line for each invocation and each completion.

    bench/list_histories.py TRANSACTIONS [--seed 1]

Eight clients have one transaction of four operations at a time. Half of the operations read, half append. A transaction
is carried out when it completes, one at a time. 65 keys are in use; 64 of them get 16 elements each and one, the hot key,
gets 1,000. After its last element a new key takes the place of a key.

The same arguments give the same bytes.
"""
import argparse
import random
import sys

CLIENTS = 8
OPERATIONS = 4  # of a transaction
COMMON = 16  # elements of a key
HOT = 1000  # elements of a hot key
KEYS = 64  # in use, beside the hot one


class Keys:
    """The keys in use, the last of them the hot one, and the lists of all keys."""

    def __init__(self):
        self.lists, self.asked, self.used = [], [], []
        for _ in range(KEYS + 1):
            self.used.append(self.new())

    def new(self):
        self.lists.append([])
        self.asked.append(0)
        return len(self.lists) - 1

    def next_element(self, place):
        """The next element for the key in this place. After its last one a new key takes the place."""
        key = self.used[place]
        self.asked[key] += 1
        if self.asked[key] == (HOT if place == KEYS else COMMON):
            self.used[place] = self.new()
        return key, self.asked[key]


def steps(keys, rng):
    """The operations of a transaction: keys, and the element for each append."""
    found = []
    for _ in range(OPERATIONS):
        place = rng.randrange(KEYS + 1)
        found.append(keys.next_element(place) if rng.random() < 0.5 else (keys.used[place], None))
    return found


def carried_out(keys, operations):
    """The operations as they complete."""
    for key, element in operations:
        if element is None:
            yield "[:r %d [%s]]" % (key, " ".join(map(str, keys.lists[key])))
        else:
            keys.lists[key].append(element)
            yield "[:append %d %d]" % (key, element)


def invoked(operations):
    return ["[:r %d nil]" % key if element is None else "[:append %d %d]" % (key, element) for key, element in operations]


def lines(transactions, rng):
    """For each line its type, its operations as text and its process."""
    keys, running, begun = Keys(), {}, 0
    while begun < transactions or running:
        process = rng.randrange(CLIENTS) if begun < transactions else min(running)
        if process in running:
            yield "ok", carried_out(keys, running.pop(process)), process
        else:
            running[process] = steps(keys, rng)
            begun += 1
            yield "invoke", invoked(running[process]), process


def main():
    parser = argparse.ArgumentParser(description=__doc__, formatter_class=argparse.RawDescriptionHelpFormatter)
    parser.add_argument("transactions", type=int)
    parser.add_argument("--seed", type=int, default=1)
    options = parser.parse_args()
    for index, (kind, operations, process) in enumerate(lines(options.transactions, random.Random(options.seed))):
        sys.stdout.write("{:type :%s, :f :txn, :value [%s], :process %d, :time %d, :index %d}\n" % (
            kind, " ".join(operations), process, 250000 * index, index))


main()
