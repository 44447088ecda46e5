"""Tries of scripts/data.py with logs that go over many segments, and of `ssi seal` on them."""
import contextlib
import os
import random
import re
import threading
import time

from data_server import SECONDS, Tried, check, home, run, scripted
from reference import read_certificate, read_history

LEAST = 65536  # bytes, the least that `--segment` takes
OPTION = ["--segment", str(LEAST)]
LETTERS = "abcdefghijklmnopqrstuvwxyz0123456789_.+-"


def numbers(it):
    """The numbers of the segments, the least first."""
    return sorted(int(name[:8]) for name in os.listdir(it.data) if name.endswith(".log"))


def text_of(it, number):
    with open(it.path("%08d.log" % number), "rb") as file:
        return file.read().split(b"\0", 1)[0].decode("latin-1")


def lines_of(it, number):
    return text_of(it, number).split("\n")[:-1]


def loads_of(lines):
    """What the first lines of a segment put."""
    first = lines[: lines.index("# loaded")]
    return dict(line.split()[2:] for line in first if line.startswith("put "))


def finals_of(lines):
    """What a store holds at the end of these lines, as its history says, and the verdict on that."""
    _, history, verdict = scripted(lines)
    return dict(re.findall(r"^\{(\w+),(.+)\}$", history, re.MULTILINE)), verdict


def check_segments(name, it):
    """Each segment but the last is a script to whose history the audit says yes, and what it ends with is what the next one
    loads. Each but the last is longer than it has to be, and than twice its loads. No half of a segment is left."""
    there = numbers(it)
    check(name + ": the numbers of the segments", list(range(1, len(there) + 1)), there)
    check(name + ": nothing is left of segments", [], [file for file in os.listdir(it.data) if file.endswith(".new")])
    loads, finals = {}, {}
    for number in there:
        lines = lines_of(it, number)
        check(name + ": the first line", "# ssi log 1 segment %d" % number, lines[0])
        loads = loads_of(lines)
        check(name + ": segment %d loads what the one before ended with" % number, finals, loads)
        finals, verdict = finals_of(lines)
        check(name + ": the verdict on segment %d" % number, "yes", verdict)
        if number < len(there):
            text = text_of(it, number)
            least = max(LEAST, 2 * (text.index("# loaded\n") + len("# loaded\n")))
            check(name + ": segment %d is long enough" % number, True, len(text) > least)
    return finals


class Writer(threading.Thread):
    """Transactions by a connection of its own, on keys and in a session of its own, until the server is gone. What it was told is
    in `contents`. The transaction that it had no reply to may have been committed: that is `perhaps`."""

    def __init__(self, peer, name, contents, seed, length):
        super().__init__(daemon=True)
        self.peer, self.name, self.contents, self.perhaps = peer, name, dict(contents), None
        self.chance, self.length = random.Random(seed), length

    def run(self):
        with contextlib.suppress(OSError):
            self.peer.ask("abort " + self.name)  # one that a server before has begun
            while self.transact():
                pass

    def transact(self):
        puts = {}
        for _ in range(self.chance.randint(1, self.length)):
            key = "%s_%d" % (self.name, self.chance.randrange(12))
            puts[key] = "".join(self.chance.choices(LETTERS, k=self.chance.randint(1, 64)))
            if self.chance.random() < 0.15:
                puts[key] = None
        lines = ["begin " + self.name]
        for key, value in puts.items():
            lines.append("del %s %s" % (self.name, key) if value is None else "put %s %s %s" % (self.name, key, value))
        lines.append("commit " + self.name)
        after = {key: value for key, value in {**self.contents, **puts}.items() if value is not None}
        self.perhaps = after
        if self.chance.random() < 0.5:
            replies = self.peer.ask(*lines)
        else:
            replies = [self.peer.ask(line)[0] for line in lines]
        if None in replies:
            return False
        if replies[-1] == "committed":
            self.contents = after
        else:
            # the next segment was begun meanwhile
            got = {reply.split()[0] if reply.startswith("begun") else reply for reply in replies}
            check("rotations: a transaction that was aborted", set(), got - {"begun", "done", "! 2 idle"})
        self.perhaps = None
        return True


def look(server):
    """What the store holds, by a scan."""
    replies = server.ask("begin look", "scan look a zz", "commit look")
    return dict(pair.split(",") for pair in replies[1].split()[2:])


def try_one_writer(options, chance):
    """One writer, over stops and signals: each reply is as if there were one log for ever."""
    with home() as it:
        contents = {}
        for way in "stop", "kill", "stop", "term", "kill":
            server = it.start(*OPTION, *["--abort-on-close"] * (chance.random() < 0.5))
            writer = Writer(server.peer(), "one", contents, chance.random(), 20)
            writer.peer.ask("abort one")
            begun = len(numbers(it))
            ends = time.monotonic() + SECONDS
            while len(numbers(it)) < begun + 2 and time.monotonic() < ends:
                writer.transact()
            check("rotations: it begins segments", True, len(numbers(it)) >= begun + 2)
            contents = writer.contents
            check("rotations: what it holds", contents, look(server))
            said = [line for line in server.said() if line.endswith("segment %d" % (begun + 1))]
            check("rotations: it says so", ["ssi: %s: segment %d" % (it.data, begun + 1)], said)
            server.end(way)
            check("rotations: what the last segment ends with", contents, check_segments("rotations", it))
        server = it.start(*OPTION)
        check("rotations: what it holds at last", contents, look(server))
        try_seal(it)
        server.end()


def sealed(it):
    """What `ssi seal` prints on the folder, and its status."""
    out, _, status = run(Tried.program, "seal", it.data)
    return out, status


def texts_of(it, number):
    return [it.path("%08d.%s" % (number, ending)) for ending in ("history", "certificate")]


def bytes_of(path):
    with open(path, "rb") as file:
        return file.read()


def is_right(event, contents):
    """Whether a read or a scan finds what the store holds; a write changes that."""
    if event.write:
        (key, _, _), value = event.write
        contents[key] = value
        return True
    seen = {key: value for (key, _, _), value in event.seen if value is not None}
    if event.span:
        low, high = event.span
        return seen == {key: value for key, value in contents.items() if low <= key <= high and value is not None}
    return all(contents.get(key) == value for key, value in seen.items())


def check_serial(it, finished):
    """The certificates one after the other, each without the transactions that load, are an order in which all others may run
    one at a time over all segments."""
    contents, wrong = {}, []
    for number in finished:
        lines = lines_of(it, number)
        loads = lines[: lines.index("# loaded")].count("begin load")
        history, certificate = map(bytes_of, texts_of(it, number))
        events = {}
        for event in read_history(history).events:
            events.setdefault(event.txn, []).append(event)
        own = [txn for txn in read_certificate(certificate).txns if txn > loads]
        wrong += [(number, txn) for txn in own if not all(is_right(event, contents) for event in events[txn])]
    held = {key: value for key, value in contents.items() if value is not None}
    check("seal: one serial history over all segments", [], wrong)
    check("seal: what the last one holds", finals_of(lines_of(it, finished[-1]))[0], held)


def try_seal(it):
    """The segments but the last get texts to which the audit says yes, while a server uses the folder. A segment that doesn't
    begin with what the one before ended with is found."""
    check("seal: the answer", ("yes\n", 0), sealed(it))
    *finished, last = numbers(it)
    for number in finished:
        out, _, status = run(Tried.program, "audit", *texts_of(it, number))
        check("seal: the verdict on segment %d" % number, ("yes\n", 0), (out, status))
        history = scripted(lines_of(it, number))[1]
        with open(texts_of(it, number)[0], encoding="latin-1") as file:
            check("seal: the history of segment %d" % number, history, file.read())
    check("seal: the last segment", [False, False], [os.path.exists(text) for text in texts_of(it, last)])
    check("seal: once more", ("yes\n", 0), sealed(it))
    check_serial(it, finished)
    one = finished[1]
    for text in texts_of(it, one) + texts_of(it, one + 1):
        os.remove(text)
    with open(it.path("%08d.log" % (one + 1)), "r+b") as file:
        begun = file.read(4096)
        at = begun.index(b"\nput load ")
        key = at + len(b"\nput load ")
        file.seek(key)
        file.write(b"z" if begun[key : key + 1] != b"z" else b"y")
    check("seal: a key that was changed", ("no %d\n" % (one + 1), 1), sealed(it))
    check("seal: no texts of it", [False] * 4, [os.path.exists(text) for text in texts_of(it, one) + texts_of(it, one + 1)])
    with open(it.path("%08d.log" % (one + 1)), "r+b") as file:
        file.seek(key)
        file.write(begun[key : key + 1])
    check("seal: the key as it was", ("yes\n", 0), sealed(it))
    hidden = it.path("hidden")
    os.rename(it.path("%08d.log" % one), hidden)
    check("seal: a segment that is missing", ("no %d\n" % (one + 1), 1), sealed(it))
    os.rename(hidden, it.path("%08d.log" % one))
    out, err, status = run(Tried.program, "seal", it.path("nothing"))
    check("seal: no folder", ("", 3), (out, status))
    check("seal: it says so", True, err.startswith("ssi: data fault: %s: " % it.path("nothing")))


def try_open_ones(options, chance):
    """Sessions that are open over a rotation are aborted; connections stay, with what waits of them."""
    with home() as it:
        server = it.start(*OPTION)
        peer, other = server.peer(), server.peer()
        check("open: begun", ["begun 1", "done"], other.ask("begin open", "put open a 1"))
        other.send("get open a")
        check("open: a value", "value 1", other.reply())
        writer = Writer(peer, "w", {}, chance.random(), 20)
        ends = time.monotonic() + SECONDS
        while len(numbers(it)) < 2 and time.monotonic() < ends:
            writer.transact()
        check("open: it was aborted", ["! 2 idle", "! 2 idle"], other.ask("get open a", "commit open"))
        check("open: the abort is in the log", True, "abort open" in lines_of(it, 1))
        check("open: another one", True, other.ask("begin open")[0].startswith("begun "))
        check("open: what it sees", ["absent", "done", "committed"], other.ask("get open a", "put open a 2", "commit open"))
        server.end("kill")
        check("open: what it holds", {**writer.contents, "a": "2"}, check_segments("open", it))


def try_killed(options, chance):
    """Several writers, and servers that are killed at random moments."""
    with home() as it:
        contents = {}
        names, lives = ["w%d" % n for n in range(4)], 0
        while lives < options.kills * 3 or (numbers(it)[-1] < 4 and lives < 50):
            lives += 1
            server = it.start(*OPTION)
            held = look(server)
            for name in names:
                own = {key: value for key, value in held.items() if key.startswith(name + "_")}
                check("killed: what %s was told is there" % name, True, own in contents.get(name, [{}]))
                contents[name] = [own]
            writers = [Writer(server.peer(), name, contents[name][0], chance.random(), 12) for name in names]
            for writer in writers:
                writer.start()
            time.sleep(chance.uniform(0.05, 2))
            server.end("kill")
            for writer in writers:
                writer.join(SECONDS)
                contents[writer.name] = [writer.contents] + ([writer.perhaps] if writer.perhaps is not None else [])
            try_half(it, chance)
        check("killed: segments", True, len(numbers(it)) > 3)
        server = it.start(*OPTION)
        server.end()
        check_segments("killed", it)


def try_half(it, chance):
    """What is left of a segment that was being made is removed at the start."""
    if chance.random() < 0.3:
        with open(it.path("%08d.new" % (numbers(it)[-1] + 1)), "wb") as file:
            file.write(b"# ssi log 1 segment")


def try_rotations(options, chance):
    try_one_writer(options, chance)
    try_open_ones(options, chance)
    try_killed(options, chance)
