"""Tries of scripts/data.py with servers that are killed at random moments, while clients move money between accounts.
"""
import bisect
import collections
import contextlib
import random
import re
import threading
import time

from data_server import HEAD, NOTHING, SECONDS, check, home, is_counted, scripted

ACCOUNTS, START = ["account_%d" % n for n in range(10)], 100
FOLDER_KILLS = 10  # of one folder, so that its log stays short


class Gone(Exception):
    """The server has closed the connection."""


class Record:
    """A line that was sent, with its reply if there was one, and when."""

    def __init__(self, line):
        self.line, self.reply, self.sent, self.got = line, None, time.monotonic(), None


class Client(threading.Thread):
    """Transfers by a connection of its own until the server is gone. Either it waits for each reply, or it sends the lines
    of several sessions together: all that need no reply before."""

    def __init__(self, peer, name, sessions, seed):
        super().__init__(daemon=True)
        self.peer, self.name, self.sessions = peer, name, sessions
        self.chance, self.records = random.Random(seed), []

    def run(self):
        with contextlib.suppress(Gone):
            while True:
                if self.chance.random() < 0.05:
                    self.ask([self.chance.choice(["collect", "stat", "nothing"])])
                if self.sessions == 1:
                    self.transfer_slowly([], "%s_0" % self.name)
                else:
                    self.transfer_together(["%s_%d" % (self.name, n) for n in range(self.sessions)])

    def ask(self, lines):
        """The replies to lines that are sent together. All are noted."""
        records = [Record(line) for line in lines]
        self.records += records
        with contextlib.suppress(OSError):  # what was replied before is read all the same
            self.peer.send(*lines)
        for record in records:
            record.reply = self.peer.reply()
            record.got = time.monotonic()
            if record.reply in (None, NOTHING):
                record.reply = None
                raise Gone()
        return [record.reply for record in records]

    def lookups(self, session):
        return ["begin " + session] + ["get %s %s" % (session, it) for it in self.chance.sample(ACCOUNTS, 2)]

    def changes(self, steps):
        """What follows a begin and two gets, given with their replies."""
        session = steps[0][0].split()[1]
        (payer, least), (payee, most) = [(line.split()[2], int(reply.split()[1])) for line, reply in steps[1:3]]
        amount = self.chance.randint(1, 50)
        if len(steps) > 3:
            amount = least - int(steps[3][0].split()[3])  # the first put is there already
        puts = ["put %s %s %d" % (session, *it) for it in ((payer, least - amount), (payee, most + amount))]
        return puts + ["commit " + session]

    def transfer_slowly(self, steps, session):
        """A transfer line by line; of one that others began the steps with their replies."""
        steps, begun = list(steps), self.lookups(session)
        if len(steps) == 2:  # another account than the one that was read
            begun[2] = "get %s %s" % (session, next(it for it in ACCOUNTS if it != steps[1][0].split()[2]))
        while len(steps) < 6:
            line = begun[len(steps)] if len(steps) < 3 else self.changes(steps)[len(steps) - 3]
            steps.append((line, self.ask([line])[0]))
            if steps[-1][1].split()[0] not in ("begun", "value", "done"):
                break

    def transfer_together(self, sessions):
        lines = [line for column in zip(*map(self.lookups, sessions)) for line in column]
        told = list(zip(lines, self.ask(lines)))
        steps = [[pair for pair in told if pair[0].split()[1] == session] for session in sessions]
        going = [some for some in steps if all(reply.startswith(("begun", "value")) for _, reply in some)]
        lines = [line for column in zip(*map(self.changes, going)) for line in column]
        if lines:
            self.ask(lines)


class Bank:
    """The accounts of one folder, over the lives of several servers."""

    def __init__(self, it, chance):
        self.home, self.chance, self.lives = it, chance, 0
        self.log, self.contents, self.open = [], {}, {}
        self.counts = collections.Counter()

    def live(self):
        """A server from its start until it is killed."""
        self.lives += 1
        options = self.options()
        aborts = len(options) > 0
        server = self.home.start(*options)
        check("killed: it says that it listens", True, len(server.said()) > 0)
        first = Client(server.peer(), "first", 1, self.chance.random())
        if self.lives == 1:
            self.open_accounts(first)
        self.look(first)
        self.go_on(first, aborts)
        clients = [
            Client(server.peer(), "c%d_%d" % (self.lives, n), sessions, self.chance.random())
            for n, sessions in enumerate([1, 1, 1, 1, 5, 5, 20])
        ]
        for client in clients:
            client.start()
        time.sleep(self.chance.uniform(0.01, 0.6))
        server.end("kill")
        for client in clients:
            client.join(SECONDS)
        self.forget([first, *clients])
        self.check_life([first, *clients], aborts)
        if self.chance.random() < 0.3:
            self.kill_early()

    def options(self):
        """Of the next server. With them it aborts at its start what is open."""
        return ["--abort-on-close"] * (self.lives > 1 and self.chance.random() < 0.3)

    def forget(self, clients):
        """What clients were told by a server that was killed isn't taken for told, as far as it may be lost: nothing is."""

    def open_accounts(self, client):
        puts = ["put bank %s %d" % (account, START) for account in ACCOUNTS]
        client.ask(["begin bank", *puts, "commit bank"])

    def look(self, client):
        """The accounts are as the log has them."""
        replies = client.ask(["begin look", *["get look " + account for account in ACCOUNTS], "commit look"])
        wanted = [self.contents.get(account, str(START)) for account in ACCOUNTS]
        check("killed: the accounts after a start", wanted, [reply.split()[-1] for reply in replies[1:-1]])
        check("killed: the look at them", "committed", replies[-1])

    def go_on(self, client, aborts):
        """Sessions that were open are open still, and go on where the log has them; or all are aborted."""
        if aborts:
            replies = set(client.ask(["commit " + session for session in self.open]))
            check("killed: sessions that --abort-on-close has left", set(), replies - {"! 2 idle"})
            return
        for session, steps in self.open.items():
            if self.chance.random() < 0.8:
                before = len(client.records)
                client.transfer_slowly(steps, session)
                refused = [record.line for record in client.records[before:] if record.reply.startswith("!")]
                check("killed: a session that goes on", [], refused)
                self.counts["sessions that went on"] += 1

    def check_life(self, clients, aborts):
        old, lines = self.log, self.home.lines()
        check("killed: the log goes on from the old one", [line for line, _ in old], lines[: len(old)])
        replies, history, verdict = scripted(lines)
        check("killed: the verdict", "yes", verdict)
        self.log = list(zip(lines, replies))
        check("killed: it replies as before", old, self.log[: len(old)])
        check("killed: lines that are refused", [], [pair for pair in self.log[len(HEAD) :] if not is_counted(*pair)])
        start = max(len(old), len(HEAD))
        self.check_order(clients, start)
        self.check_sessions(clients, self.log[start:], aborts)
        self.look_through()
        finals = dict(re.findall(r"^\{(\w+),(.+)\}$", history, re.MULTILINE))
        check("killed: what the history ends with", finals, self.contents)
        check("killed: the sum", START * len(ACCOUNTS), sum(map(int, self.contents.values())))
        replied = sum(record.reply == "committed" for client in clients for record in client.records)
        there = sum(reply == "committed" for _, reply in self.log[start:])
        check("killed: no committed transfer is lost", True, replied <= there)
        self.counts.update({"lines": len(lines) - start, "commits that were replied to": replied, "kills": 1})

    def check_order(self, clients, start):
        """What each client was told is in the log, in its order and with the same reply."""
        places = collections.defaultdict(list)
        for at in range(start, len(self.log)):
            places[self.log[at]].append(at)
        lost = []
        for client in clients:
            at = start
            for record in client.records:
                if record.reply is not None and is_counted(record.line, record.reply):
                    there = places[record.line, record.reply]
                    found = bisect.bisect_left(there, at)
                    if found == len(there):
                        lost.append((client.name, record.line, record.reply))
                    else:
                        at = there[found] + 1
        check("killed: replies that the log doesn't explain", [], lost[:10])

    def check_sessions(self, clients, new, aborts):
        """Each session has one client: the log has exactly the lines that it was told of, and then perhaps some of
        those to which it got no reply. A line that was sent when another one had its reply comes after that."""
        sent = collections.defaultdict(list)
        for client in clients:
            for record in client.records:
                if " " in record.line:
                    sent[record.line.split()[1]].append(record)
        found = collections.defaultdict(list)
        for at, (line, reply) in enumerate(new):
            if " " in line:
                found[line.split()[1]].append((line, reply, at))
        wrong, times = [], [None] * len(new)
        for session in {**sent, **found}:
            here, records = found[session], sent[session]
            if aborts and here and here[0][:2] == ("abort " + session, "aborted") and session in self.open:
                here = here[1:]  # at the start
            told = [record for record in records if record.reply is not None and is_counted(record.line, record.reply)]
            if [(record.line, record.reply) for record in told] != [pair[:2] for pair in here[: len(told)]]:
                wrong.append((session, [record.line for record in told], here))
            left = iter(record.line for record in records if record.reply is None)
            if not all(line in left for line, _, _ in here[len(told) :]):
                wrong.append((session, "what nobody sent", here[len(told) :]))
            for record, (_, _, at) in zip(told, here):
                times[at] = record.sent, record.got
        check("killed: sessions that differ from the log", [], wrong[:3])
        early, soonest = [], float("inf")
        for at in range(len(new) - 1, -1, -1):
            if times[at]:
                if times[at][0] > soonest:
                    early.append(new[at])
                soonest = min(soonest, times[at][1])
        check("killed: lines that come before what they followed", [], early[:10])

    def look_through(self):
        """What the log's commits leave, and the steps of the sessions that are open."""
        self.contents, self.open = {}, {}
        for line, reply in self.log[len(HEAD) :]:
            if " " not in line:
                continue
            session, kind = line.split()[1], reply.split()[0]
            if kind in ("committed", "aborted", "conflict", "unsafe"):
                steps = self.open.pop(session)
                if kind == "committed":
                    puts = [step.split() for step, _ in steps if step.startswith("put ")]
                    self.contents.update((words[2], words[3]) for words in puts)
            else:
                self.open.setdefault(session, []).append((line, reply))

    def kill_early(self):
        """A server that is killed while it starts changes no line."""
        before = self.home.lines()
        server = self.home.start(waits=False)
        time.sleep(self.chance.uniform(0, 0.05))
        server.process.kill()
        server.wait()
        check("killed: the log after a start that was killed", before, self.home.lines())
        self.counts["kills of a start"] += 1


class EarlyBank(Bank):
    """The same, with servers of which only `committed` waits for the disk."""

    def options(self):
        return ["--early"]

    def forget(self, clients):
        """What came after the last `committed` to a connection may be lost."""
        for client in clients:
            for record in reversed(client.records):
                if record.reply == "committed":
                    break
                record.reply = None


def try_kills(options, chance, kind=Bank):
    counts, left = collections.Counter(), options.kills
    while left > 0:
        with home() as it:
            bank = kind(it, chance)
            for _ in range(min(left, FOLDER_KILLS)):
                bank.live()
                left -= 1
            it.start().end()
            it.check_end("killed")
            counts += bank.counts
    print(", ".join("%d %s" % (count, name) for name, count in sorted(counts.items())))
    check("killed: commits were replied to", options.kills > 0, counts["commits that were replied to"] > 0)
