#!/usr/bin/env python3
"""What a hub of many connections answers: a second implementation, over that of the store in store_reference.py.

    scripts/hub_reference.py < CALLS
    scripts/hub_reference.py --schedules N [--seed N]
    scripts/hub_reference.py --check
    scripts/hub_reference.py --compare N [--seed N]

The first form writes the calls again with their answers, as the program of crates/ssi_store_tests does; its src/hub_calls.rt
says what the calls are. The second prints N lists of random calls, each after a `new`: pieces of lines of any size, connections
that are read from late or end in the middle of a line, and often a `stop`. The third compares the answers to the calls in
its data/hub_calls with those that stand at the end of its stdout, the fourth those that the program gives to N lists of
random calls; both print `N passed, M failed`.
"""
import argparse
import os
import random
import subprocess
import sys
import tempfile

import store_reference

TESTS = os.path.join(os.path.dirname(os.path.dirname(os.path.abspath(__file__))), "crates/ssi_store_tests")
MOST_UNSENT = 65536


class Connection:
    def __init__(self):
        self.lines, self.rest, self.unsent = [], "", ""

    def receive(self, text):
        *lines, self.rest = (self.rest + text).split("\n")
        self.lines += lines


class Hub:
    def __init__(self):
        self.store, self.connections, self.opened = store_reference.Store(), {}, 0

    def may_run(self, connection):
        return bool(connection.lines) and len(connection.unsent) <= MOST_UNSENT and not self.store.is_stopped

    def answer(self, call):
        """What the program writes behind the call."""
        words = call.split(" ", 2)
        if words[0] == "open":
            self.connections[self.opened] = Connection()
            self.opened += 1
            return ": %d" % (self.opened - 1)
        if call.startswith("#") or len(words) < 2:
            return ""
        connection = self.connections.get(int(words[1]), Connection())
        return getattr(self, "do_" + words[0])(connection, *words[1:])

    def do_send(self, connection, token, text):
        connection.receive(text.replace("/", "\n"))
        return ""

    def do_fill(self, connection, token, count):
        return self.do_send(connection, token, "x" * int(count))

    def do_many(self, connection, token, count):
        return self.do_send(connection, token, "x/" * int(count))

    def do_run(self, connection, token, most):
        for _ in range(int(most)):
            if self.may_run(connection):
                connection.unsent += self.store.take(connection.lines.pop(0))
        return ""

    def do_next(self, connection, token):
        return ": " + ("".join(connection.lines[:1])[:4097] or "nothing")

    def do_show(self, connection, token):
        return ": " + (connection.unsent.replace("\n", "/") or "nothing")

    def do_count(self, connection, token):
        return ": %d" % len(connection.unsent)

    def do_wrote(self, connection, token, count):
        connection.unsent = connection.unsent[int(count) :]
        return ""

    def do_close(self, connection, token):
        self.connections.pop(int(token), None)
        return ""

    def do_wants(self, connection, token):
        if int(token) not in self.connections:
            return ": gone"
        is_stopped, is_full = self.store.is_stopped, len(connection.unsent) > MOST_UNSENT
        wants = {
            "read": not (is_stopped or is_full or connection.lines),
            "run": self.may_run(connection),
            "write": bool(connection.unsent),
            "stopped": is_stopped,
        }
        return ":" + "".join(" " + name for name, is_wanted in wants.items() if is_wanted)


def dialogue(calls):
    """The calls with their answers."""
    hub, written = Hub(), []
    for call in calls:
        if call == "new":
            hub = Hub()
        written.append(call + hub.answer(call) + "\n")
    return "".join(written)


def lines_for(session):
    """The lines of a random transaction, now and then with others between them."""
    lines = ["begin " + session]
    for _ in range(random.randint(1, 4)):
        key, other = random.choice("klm"), random.choice("klm")
        lines += random.choices(
            [
                "get %s %s" % (session, key),
                "put %s %s %d" % (session, key, random.randint(0, 9)),
                "del %s %s" % (session, key),
                "scan %s %s %s" % (session, min(key, other), max(key, other)),
                random.choice(["collect", "stat", "nonsense", ""]),
            ],
            [4, 4, 1, 2, 1],
        )
    return lines + [random.choice(["commit ", "commit ", "commit ", "abort "]) + session]


def schedule():
    """Random calls of one hub."""
    ends_by_stop = random.random() < 0.5
    calls, opened, rest, lines = ["new", "open", "open"], 2, {}, {}
    for at in range(random.randint(40, 80)):
        kind = random.choice(["open"] + ["send", "run"] * 5 + ["show", "wants", "wrote", "wrote", "close", "fill"])
        token = random.randint(0, opened - 1 + (random.random() < 0.1))  # now and then one that isn't there
        if kind == "open" and opened < 5:
            calls.append("open")
            opened += 1
        elif kind == "send":
            if ends_by_stop and at > 30 and random.random() < 0.1:
                rest[token] = rest.get(token, "") + "/stop/"
            own = lines.setdefault(token, [])
            if len(own) < 4:
                own += lines_for(random.choice(["A", "S%d" % token, "S%d" % token]))
            some = random.randint(1, 4)
            text = rest.pop(token, "") + "/".join(own[:some]) + "/"
            del own[:some]
            cut = random.randint(1, len(text))
            rest[token] = text[cut:]
            calls.append("send %d %s" % (token, text[:cut]))
        elif kind == "run":
            calls.append("run %d %d" % (token, random.choice([0, 1, 2, 100, 100])))
        elif kind == "wrote":
            calls.append("wrote %d %d" % (token, random.choice([0, 1, 7, 1000])))
        elif kind == "fill" and random.random() < 0.5:
            calls += ["fill %d %d" % (token, random.choice([4090, 4096, 4097, 9000])), "send %d /" % token]
        elif kind == "close" and random.random() < 0.7:
            rest.pop(token, None)
        elif kind in ("show", "wants", "close"):
            calls.append("%s %d" % (kind, token))
        if calls[-1].split()[0] in ("run", "send", "wrote"):
            calls.append("%s %d" % (random.choice(["show", "wants", "count", "next"]), token))
    return calls + [call for token in range(opened) for call in ("show %d" % token, "wants %d" % token)]


def check():
    with open(os.path.join(TESTS, "data/hub_calls")) as calls, open(os.path.join(TESTS, "stdout")) as answers:
        got = dialogue(calls.read().splitlines()).splitlines()
        wanted = answers.read().splitlines()[-len(got) :]
    wrong = sum(a != b for a, b in zip(wanted, got)) + abs(len(wanted) - len(got))
    print("%d passed, %d failed" % (len(wanted) - wrong, wrong))
    sys.exit(1 if wrong else 0)


def compare(count):
    """Compares the answers of the program, which the gate leaves, list by list."""
    wrong = 0
    for _ in range(count):
        calls = schedule()
        text = "\n".join(calls) + "\n"
        with tempfile.NamedTemporaryFile("w") as file:
            file.write(text)
            file.flush()
            words = [os.path.join(TESTS, "out/ssi_store_tests"), file.name, "hub"]
            ran = subprocess.run(words, stdin=subprocess.DEVNULL, capture_output=True, text=True)
        if ran.stdout != dialogue(calls):
            wrong += 1
            print("other answers, or status %d, to these calls:\n%s" % (ran.returncode, text))
    print("%d passed, %d failed" % (count - wrong, wrong))
    sys.exit(1 if wrong else 0)


def main():
    parser = argparse.ArgumentParser(usage=__doc__)
    parser.add_argument("--schedules", type=int)
    parser.add_argument("--seed", type=int, default=1)
    parser.add_argument("--check", action="store_true")
    parser.add_argument("--compare", type=int)
    options = parser.parse_args()
    random.seed(options.seed)
    if options.check:
        check()
    if options.compare:
        compare(options.compare)
    if options.schedules is None:
        sys.stdout.write(dialogue(sys.stdin.read().splitlines()))
        return
    for _ in range(options.schedules):
        print("\n".join(schedule()))


if __name__ == "__main__":
    main()
