#!/usr/bin/python3
"""Records concurrent transactions of a real server that append to lists and read them, as Jepsen writes its histories.

    examples/lists/recorder/record.py mariadb repeatable-read > history.edn

It starts a server of its own in a new folder, on a Unix socket there, and removes both at the end. It needs the
server's programs and a client library. On Debian, and with Debian's Python (/usr/bin/python3):

    apt-get install postgresql python3-psycopg2
    apt-get install mariadb-server python3-pymysql

SQLite needs neither. If root runs this, the servers run as the users `postgres` and `mysql`.

How the record comes to be exact:
- A list is one row, with its elements in a text such as `1,2,3`, and an append is one statement that adds to the text.
- An element is appended to its key once. So a read names the appends that it saw.
- `:invoke` is noted before BEGIN is sent, and the completion when the server has answered.
- `:ok` is noted only when the server has acknowledged COMMIT.
- `:fail` is noted only if the transaction can't have committed: the server refused a statement or COMMIT, or the client
  sent ROLLBACK in the place of COMMIT.
- `:info` is noted if the connection broke. With `--cuts N` the recorder itself breaks it at N commits, so that either
  COMMIT doesn't reach the server, or the answer to it doesn't reach the client, who sees no difference. It goes on with
  a new connection and a new process number, as Jepsen's clients do.
- The last transaction reads every key. It is repeated until it commits.
"""
import argparse
import collections
import concurrent.futures
import contextlib
import importlib
import json
import random
import socket
import sys
import threading
import time

from common import Aborted, Lost

SERVERS = ["postgres", "mariadb", "sqlite"]

LONGEST_PAUSE = 0.003  # seconds, after each step of a transaction
ROLLBACKS = 0.05  # the share of transactions that the client itself rolls back


def options():
    p = argparse.ArgumentParser(description=__doc__.split("\n")[0])
    p.add_argument("server", choices=SERVERS)
    p.add_argument("level", help="the isolation level; one that the server lacks gives a list of those that it has")
    p.add_argument("--format", choices=["edn", "json"], default="edn")
    p.add_argument("--transactions", type=int, default=160, help="shared out among the clients")
    p.add_argument("--clients", type=int, default=8, help="each with one transaction at a time")
    p.add_argument("--keys", type=int, default=5, help="how many keys are in use at a time")
    p.add_argument("--appends", type=int, default=8, help="after so many, a new key takes the place of a key")
    p.add_argument("--cuts", type=int, default=0, help="how many commits lose their connection")
    p.add_argument("--seed", type=int, default=1, help="of what is asked for; the timing differs from run to run")
    return p.parse_args()


class Keys:
    """Gives the clients keys and new elements."""

    def __init__(self, in_use, appends):
        self.lock = threading.Lock()
        self.in_use = list(range(in_use))
        self.most = appends
        self.appended = collections.Counter()  # key -> its last element
        self.count = in_use

    def steps(self, rng):
        """The steps of a new transaction."""
        with self.lock:
            return [self.step(rng) for _ in range(rng.randint(1, 4))]

    def step(self, rng):
        place = rng.randrange(len(self.in_use))
        key = self.in_use[place]
        if rng.random() < 0.5:
            return "r", key, None
        self.appended[key] += 1
        if self.appended[key] == self.most:
            self.in_use[place] = self.count
            self.count += 1
        return "append", key, self.appended[key]

    def reads(self):
        return [("r", key, None) for key in range(self.count)]


class History:
    """The operations of all clients in one list, in the order of their times."""

    def __init__(self, line):
        self.lock = threading.Lock()
        self.line = line
        self.lines = []
        self.ended = []  # the kinds of the completions, with their steps
        self.start = time.monotonic_ns()

    def add(self, kind, process, steps, error=None):
        with self.lock:
            if kind != "invoke":
                self.ended.append((kind, steps))
            operation = {"type": kind, "f": "txn", "value": steps, "process": process,
                         "time": time.monotonic_ns() - self.start, "index": len(self.lines)}
            if error is not None:
                operation["error"] = error
            self.lines.append(self.line(operation))


def edn(value):
    """A value in EDN, with keywords for strings."""
    if isinstance(value, dict):
        return "{%s}" % ", ".join("%s %s" % (edn(key), edn(field)) for key, field in value.items())
    if isinstance(value, (list, tuple)):
        return "[%s]" % " ".join(map(edn, value))
    if isinstance(value, str):
        return ":" + value
    return "nil" if value is None else str(value)


def compact_json(value):
    return json.dumps(value, separators=(",", ":"))


class Session:
    """A client's share of the transactions, one after the other."""

    def __init__(self, connect, history, o, number):
        self.connect, self.history, self.clients = connect, history, o.clients
        self.rng = random.Random("%d.%d" % (o.seed, number))
        self.process = number
        self.client = connect()

    def transact(self, steps, with_cut=False):
        """One transaction, from its invocation to its completion."""
        self.history.add("invoke", self.process, steps)
        kind, found, error = self.outcome(steps, with_cut)
        self.history.add(kind, self.process, found, error)
        if kind == "info":
            self.process += self.clients
        if with_cut or kind == "info":
            self.client.close()
            self.client = self.connect()
        return kind, found

    def outcome(self, steps, with_cut):
        """Runs a transaction. Returns how it ended, the steps with what they read if it committed, and else why not."""
        try:
            self.client.begin()
            found = [self.step(step) for step in steps]
            if self.rng.random() < ROLLBACKS:
                raise Aborted("rolled-back")
            if with_cut:
                self.client.cut(self.rng.choice([socket.SHUT_RD, socket.SHUT_RDWR]))
            self.client.commit()
        except Aborted as reason:
            with contextlib.suppress(Lost):
                self.client.rollback()
            return "fail", steps, str(reason)
        except Lost:
            return "info", steps, "connection-lost"
        return "ok", found, None

    def step(self, step):
        name, key, element = step
        if name == "append":
            self.client.append(key, element)
        else:
            element = self.client.read(key)
        time.sleep(self.rng.uniform(0, LONGEST_PAUSE))
        return name, key, element


def share(connect, keys, history, o, number, cuts):
    """One client's transactions. Returns its last process number."""
    session = Session(connect, history, o, number)
    for place in range(o.transactions // o.clients):
        session.transact(keys.steps(session.rng), (number, place) in cuts)
    session.client.close()
    return session.process


def chosen_cuts(o):
    """Which transactions of which clients are to lose their connections."""
    places = [(number, place) for number in range(o.clients) for place in range(o.transactions // o.clients)]
    return set(random.Random(o.seed).sample(places, o.cuts))


def summary(history, steps):
    """How many transactions ended how. The steps are those of the last read of every key."""
    there = {(key, element) for _, key, elements in steps for element in elements or []}
    unknown = [asked for kind, asked in history.ended if kind == "info"]
    happened = sum(any((key, element) in there for _, key, element in asked) for asked in unknown)
    count = collections.Counter(kind for kind, _ in history.ended)
    return ("%d committed, %d aborted, %d unknown (elements of %d of these are there at the end)"
            % (count["ok"], count["fail"], count["info"], happened))


def main():
    o = options()
    module = importlib.import_module(o.server)
    if o.level not in module.LEVELS:
        sys.exit("record.py: %s has the levels %s" % (module.NAME, ", ".join(module.LEVELS)))
    if o.cuts and not hasattr(module.Client, "cut"):
        sys.exit("record.py: %s has no connections that could be cut" % module.NAME)
    keys, cuts = Keys(o.keys, o.appends), chosen_cuts(o)
    with module.server(o.level) as (connect, version):
        history = History(edn if o.format == "edn" else compact_json)
        with concurrent.futures.ThreadPoolExecutor(o.clients) as pool:
            runs = [pool.submit(share, connect, keys, history, o, number, cuts) for number in range(o.clients)]
        processes = [run.result() for run in runs]
        last = Session(connect, history, o, processes[0])
        kind = None
        while kind != "ok":
            kind, steps = last.transact(keys.reads())
        last.client.close()
    print("\n".join(history.lines))
    print("%s %s, %s: %s" % (module.NAME, version, o.level, summary(history, steps)), file=sys.stderr)


if __name__ == "__main__":
    main()
