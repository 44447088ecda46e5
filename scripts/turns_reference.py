#!/usr/bin/env python3
"""What turns of connections do: a second implementation, over that of a hub in hub_reference.py.

    scripts/turns_reference.py < CALLS
    scripts/turns_reference.py --schedules N [--seed N]
    scripts/turns_reference.py --check
    scripts/turns_reference.py --compare N [--seed N]

The first form writes the calls again with their answers, as the program of crates/ssi_store_tests does; its src/turn_calls.rt
says what the calls are. The second prints N lists of random calls, each after a `new`: clients whose reads and writes are
pieces of any size, wait, are interrupted or fail, and that use sessions of one another. The third compares the answers to the
calls in its data/turn_calls with those that stand in its stdout, the fourth those that the program gives to N lists of random
calls; both print `N passed, M failed`.

Who has used a session last is looked up in the list of all lines that were carried out.
"""
import argparse
import os
import random
import subprocess
import sys
import tempfile

import hub_reference
import store_reference

TESTS, MOST_LINES, ROOM = hub_reference.TESTS, 256, 16384


class Client:
    def __init__(self, reads, writes, text):
        self.reads, self.writes, self.text, self.count, self.got = reads.split(","), writes.split(","), text, 0, ""
        self.has_ended = self.may_read = False


def most_of(ways):
    """The most bytes of the next call, or how it fails."""
    way = ways.pop(0) if ways else ""
    return way if way in ("w", "i", "x") else int(way) if way else sys.maxsize


class Turns:
    def __init__(self, at_close="keep"):
        self.hub, self.clients, self.used, self.aborts = hub_reference.Hub(), {}, [], at_close == "abort"

    def answer(self, call):
        words = call.split(" ", 3)
        if words[0] == "connect":
            said = self.hub.answer("open")
            self.clients[said[2:]] = Client(words[1], words[2], words[3].replace("/", "\n"))
            return said
        if words[0] not in ("turn", "part", "got", "read") or words[1] not in self.clients:
            return ""
        client = self.clients[words[1]]
        if words[0] == "part":
            return ": " + self.part(words[1], client)
        if words[0] == "turn":
            return ": " + self.turn(words[1], client, min(int(words[2]), ROOM))
        return ": " + (client.got.replace("\n", "/") or "nothing" if words[0] == "got" else str(client.count))

    def turn(self, token, client, room):
        if int(token) not in self.hub.connections:
            return "gone"
        connection = self.hub.connections[int(token)]
        client.may_read = not client.has_ended
        if client.may_read and self.wants_read(token):
            self.read(token, client, connection, room)
        self.carry_out(token, connection)
        if not self.write(client, connection):
            return self.close(token, "broken")
        is_due = self.hub.may_run(connection) or (client.may_read and self.wants_read(token))
        if client.has_ended and not is_due and not connection.unsent:
            return self.close(token, "ended")
        return "again" if is_due else "open"

    def part(self, token, client):
        if int(token) not in self.hub.connections:
            return "gone"
        connection = self.hub.connections[int(token)]
        can_go_on = self.write(client, connection)
        self.hub.answer("close " + token)
        return "broken" if not can_go_on else "stopped" if connection.unsent else "ended"

    def wants_read(self, token):
        return " read" in self.hub.answer("wants " + token)

    def read(self, token, client, connection, room):
        most = most_of(client.reads)
        if most == "i":
            return
        piece = "" if most in ("w", "x") else client.text[client.count :][: min(room, most)]
        client.has_ended = most != "w" and not piece
        client.may_read = len(piece) == room and piece != ""
        client.count += len(piece)
        connection.receive(piece)

    def carry_out(self, token, connection):
        for _ in range(MOST_LINES):
            if self.hub.may_run(connection):
                words = store_reference.words_of(connection.lines[0])
                if words:
                    self.used += [(session, token) for session in words[1:2]]
                self.hub.answer("run %s 1" % token)

    def write(self, client, connection):
        """Whether the client can go on."""
        while connection.unsent:
            most = most_of(client.writes)
            if most in ("x", 0):
                return False
            if most == "w":
                return True
            count = 0 if most == "i" else min(most, len(connection.unsent))
            client.got += connection.unsent[:count]
            connection.unsent = connection.unsent[count:]
        return True

    def close(self, token, why):
        self.hub.answer("close " + token)
        last = dict(self.used)
        if self.aborts:
            for session in [session for session in last if last[session] == token]:
                own = self.hub.answer("open")[2:]
                self.hub.answer("send %s abort %s/" % (own, session))
                self.hub.answer("run %s 1" % own)
                self.hub.answer("close " + own)
                self.used.append((session, own))
        return why


def dialogue(calls):
    """The calls with their answers."""
    turns, written = Turns(), []
    for call in calls:
        if call.startswith("new "):
            turns = Turns(call[4:])
        written.append(call + turns.answer(call) + "\n")
    return "".join(written)


def ways(often, rarely):
    """How the first reads or writes of a client go."""
    pieces = [random.choice(["1", "2", "3", "7", "20", "100", "w", "i"]) for _ in range(random.randint(0, 12))]
    if random.random() < often:
        pieces.insert(random.randint(0, len(pieces)), random.choice(rarely))
    return ",".join(pieces) or "100"


def schedule():
    """Random calls of connections on one store."""
    at_close = random.choice(["keep", "abort", "abort"])
    calls, opened = ["new " + at_close], 0
    # an abort's own connection takes a token too, so the tokens are those that the model gives
    turns, tokens = Turns(at_close), []
    for at in range(random.randint(30, 60)):
        kind = random.choice(["connect"] + ["turn"] * 7 + ["got", "read"])
        if kind == "connect" and opened < 6 or not tokens:
            lines = []
            for _ in range(random.randint(0, 3)):
                lines += hub_reference.lines_for(random.choice(["A", "B", "S%d" % opened]))[: random.randint(1, 9)]
            if at > 20 and random.random() < 0.1:
                lines.append("stop")
            if random.random() < 0.05:
                lines.append("x" * random.choice([4096, 4097, 9000]))
            if random.random() < 0.02:
                lines += ["x"] * random.choice([300, 10000])
            text = "/".join(lines) + random.choice(["", "/", "/", "/", "/begin Z"])
            call = "connect %s %s %s" % (ways(0.25, ["x", "0"]), ways(0.25, ["x", "0"]), text)
            opened += 1
        else:
            token = random.choice(tokens)
            call = "%s %s" % (kind if kind != "connect" else "turn", token)
            call += " %d" % random.choice([1, 5, 16, 100, ROOM, ROOM]) if call.startswith("turn") else ""
        calls.append(call)
        said = turns.answer(call)
        if call.startswith("connect"):
            tokens.append(said[2:])
    rest = [call for token in tokens for call in ["turn %s %d" % (token, ROOM)] * random.choice([0, 2])]
    rest += ["part " + token for token in tokens if random.random() < 0.5]
    return calls + rest + [call for token in tokens for call in ("got " + token, "read " + token)]


def check():
    with open(os.path.join(TESTS, "data/turn_calls")) as calls, open(os.path.join(TESTS, "stdout")) as answers:
        got, said = dialogue(calls.read().splitlines()).splitlines(), answers.read().splitlines()
        wanted = said[said.index(got[0]) :][: len(got)]
    wrong = sum(a != b for a, b in zip(wanted, got)) + abs(len(wanted) - len(got))
    print("%d passed, %d failed" % (len(wanted) - wrong, wrong))
    sys.exit(1 if wrong else 0)


def compare(count):
    """Compares the answers of the program, which the gate leaves, list by list."""
    wrong = 0
    for _ in range(count):
        calls = schedule()
        text = "\n".join(calls) + "\n"
        with tempfile.NamedTemporaryFile("w") as file:
            file.write(text)
            file.flush()
            words = [os.path.join(TESTS, "out/ssi_store_tests"), file.name, "turns"]
            ran = subprocess.run(words, stdin=subprocess.DEVNULL, capture_output=True, text=True)
        if ran.stdout != dialogue(calls):
            wrong += 1
            print("other answers, or status %d, to these calls:\n%s" % (ran.returncode, text))
    print("%d passed, %d failed" % (count - wrong, wrong))
    sys.exit(1 if wrong else 0)


def main():
    parser = argparse.ArgumentParser(usage=__doc__)
    parser.add_argument("--schedules", type=int)
    parser.add_argument("--seed", type=int, default=1)
    parser.add_argument("--check", action="store_true")
    parser.add_argument("--compare", type=int)
    options = parser.parse_args()
    random.seed(options.seed)
    if options.check:
        check()
    if options.compare:
        compare(options.compare)
    if options.schedules is None:
        sys.stdout.write(dialogue(sys.stdin.read().splitlines()))
        return
    for _ in range(options.schedules):
        print("\n".join(schedule()))


if __name__ == "__main__":
    main()
