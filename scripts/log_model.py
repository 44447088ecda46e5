#!/usr/bin/env python3
"""A model of a store that keeps its lines in a folder (`ssi serve --data`), on a disk that fails: a second
implementation of what its server does with the disk, over the store of store_reference.py.

    scripts/log_model.py [--cases N] [--seed N]
    scripts/log_model.py --fault NAME [--cases N] [--seed N]

In a case several servers use one folder, one after the other, on the disk of disk_model.py. Each is stopped at a random
call of the disk, or by `stop`, and then its process alone is gone, or the power is. Calls fail too, and zeros can't be put
ahead while the disk is full. Some commands are refused as if memory had run out, and some replies are lost. It checks that

- the lines that a server finds are a front of those that were carried out, and has all whose replies were released;
- each reply that was ever released is the one that the lines before it give, when the log is carried out at the end,
  each at its place; also those whose lines are in no log, such as refusals;
- a server that starts finds a log that it can use.

With a planted fault the server does something wrong, and cases are tried until the checks find it. The first form tries
N cases (default 200) and then each fault, in at most 3000 cases; it ends with `N passed, M failed`, where a case is a
check, and so is a fault. The second form prints what it finds in N cases with one fault, and ends with status 0 if it
finds something.
"""
import argparse
import collections
import random
import sys

import compare_store
from disk_model import Disk, Failed, Full, Stop, counts
from store_reference import Store, words_of

FAULTS = {
    "no_sync": "a turn ends without a sync",
    "early_release": "the replies go out before the sync",
    "sync_before_write": "the sync comes before the write",
    "sync_goes_on": "a sync that failed is forgotten by the next one",
    "kept_tail": "a start leaves what is behind the end of the log",
    "kept_torn_line": "a start keeps a torn line",
    "not_written_again": "a start doesn't write again what it read",
    "logged_refusal": "a line that was refused is in the log",
    "lost_reply": "a line isn't in the log if its reply was lost",
    "lost_buffer": "a buffer that is full is emptied without a write",
    "carried_out_when_full": "a line is carried out although there is no room for it",
    "no_end": "the file has no room for the zero that ends its text",
    "folder_not_synced": "a start doesn't sync the folder",
    "folder_not_kept": "a start doesn't sync the folder around it",
    "named_too_early": "a new segment has its name before its bytes are synced",
    "name_not_synced": "a new segment is used before its name is synced",
    "no_aborts": "with --abort-on-close, a start leaves sessions open",
    "unsynced_aborts": "with --abort-on-close, a start serves before its aborts are synced",
}
AHEAD, BUFFER = 96, 64  # bytes: of the zeros that are put ahead at once, and of the lines that wait to be written
LINES, LIVES, MOST_CALLS, MOST_CASES = 110, 7, 60, 3000
LARGEST_TURN = 6
HEADER, LOADED = b"# ssi log 1 segment %d", b"# loaded"


class Wrong(Exception):
    """What a check has found."""


# The server.


def segment_name(number, ending="log"):
    return "%08d.%s" % (number, ending)


def text_of(data):
    return data.split(b"\0")[0]


class Log:
    """The file of a segment that is written to: its text, and zeros behind it."""

    def __init__(self, disk, name, faults):
        self.disk, self.name, self.faults, self.end, self.room = disk, name, faults, 0, 0

    def has_room(self, size):
        """Whether so many bytes may be added. Zeros are on the disk before they are written over."""
        least = size if "no_end" in self.faults else size + 1
        while self.end + least > self.room:
            try:
                self.disk.write(self.name, self.room, bytes(AHEAD))
            except Full:
                return False
            self.disk.sync(self.name)
            self.room += AHEAD
        return True

    def append(self, data):
        self.disk.write(self.name, self.end, data)
        self.end += len(data)

    def sync(self):
        try:
            self.disk.sync(self.name)
        except Failed:
            if "sync_goes_on" not in self.faults:
                raise
            self.disk.sync(self.name)

    def resume(self, text, size):
        """What was read is written again, and zeros behind it, so that all of it is on the disk and nothing else."""
        self.end, self.room = len(text), max(size, len(text) + 1 + AHEAD)
        if "not_written_again" in self.faults:
            self.disk.write(self.name, self.end, bytes(self.room - self.end))
        elif "kept_tail" in self.faults:
            self.disk.write(self.name, 0, text)
            self.disk.write(self.name, size, bytes(self.room - size))
        else:
            self.disk.write(self.name, 0, text + bytes(self.room - self.end))
        self.disk.sync(self.name)


class Server:
    """A process that serves the folder. Its calls of the disk are those of the real one; `witness` is told the rest, and
    checks it. Each segment has a number and lines of its own, so that a server may go on to the next one; and `waits` says
    which replies are held back until the sync, so that it may be some of them only."""

    def __init__(self, disk, witness, faults, aborts):
        self.disk, self.witness, self.faults, self.aborts = disk, witness, faults, aborts
        self.buffer, self.held = b"", []

    def start(self):
        disk = self.disk
        if not disk.has_folder:
            disk.make_folder()
        if "folder_not_kept" not in self.faults:
            disk.keep_folder()
        if "folder_not_synced" not in self.faults:
            disk.sync_folder()
        for name in disk.names():
            if name.endswith(".new"):
                disk.remove(name)
        segments = [int(name.split(".")[0]) for name in disk.names() if name.endswith(".log")]
        if segments:
            self.recover(max(segments))
        else:
            self.make(1)
        if self.aborts and "no_aborts" not in self.faults:
            self.abort_all()
        self.witness.serves(self)

    def make(self, number):
        """A new segment: it gets its name when all of it is on the disk."""
        disk, new, name = self.disk, segment_name(number, "new"), segment_name(number)
        lines = [HEADER % number, LOADED]
        text = b"".join(line + b"\n" for line in lines)
        self.witness.begins(number, lines)
        disk.create(new)
        disk.write(new, 0, text + bytes(1 + AHEAD))
        if "named_too_early" not in self.faults:
            disk.sync(new)
        if "name_not_synced" not in self.faults:
            disk.sync_folder()
        disk.rename(new, name)
        if "name_not_synced" not in self.faults:
            disk.sync_folder()
        self.number, self.store = number, Store()
        self.log = Log(disk, name, self.faults)
        self.log.end, self.log.room = len(text), len(text) + 1 + AHEAD

    def recover(self, number):
        data = self.disk.read(segment_name(number))
        text = text_of(data)
        if len(text) == len(data):
            raise Wrong("no zero ends the log")
        if "kept_torn_line" not in self.faults:
            text = text[: text.rfind(b"\n") + 1]
        lines = text.split(b"\n")[:-1]
        if lines[:1] != [HEADER % number]:
            raise Wrong("the segment has no header")
        self.number, self.store = number, Store()
        for at, line in enumerate(lines, 1):
            if line.startswith(b"#"):
                continue
            if not words_of(line.decode("latin-1")):
                raise Wrong("line %d is no command" % at)
            if self.store.take(line.decode("latin-1")).startswith("!"):
                raise Wrong("line %d is refused" % at)
        self.witness.finds(number, lines)
        self.log = Log(self.disk, segment_name(number), self.faults)
        self.log.resume(text, len(data))

    def abort_all(self):
        """No session has a connection at a start. The aborts are in the log like those of a client, before anybody is
        served."""
        course = self.store.course
        for session in [act.session for act in course.of("begin") if act.txn in course.open]:
            self.carry_out(b"abort " + session.encode())
        self.written()
        if "unsynced_aborts" not in self.faults:
            self.log.sync()
        self.held.clear()

    def waits(self, reply):
        return "early_release" not in self.faults

    def turn(self, lines):
        """Carries out as many of the lines as there is room for, and returns how many. There is one write and one sync,
        and then the replies go out."""
        count = 0
        for line in lines:
            if not self.log.has_room(len(self.buffer) + len(line) + 1):
                if "carried_out_when_full" in self.faults:
                    self.carry_out(line, has_room=False)
                break
            self.take(line)
            count += 1
        try:
            self.settle()
        except Failed:
            if "sync_goes_on" not in self.faults:
                raise
            self.held.clear()
        return count

    def settle(self):
        self.release([told for told in self.held if not self.waits(told[1])])
        if "sync_before_write" in self.faults:
            self.log.sync()
        self.written()
        if not {"no_sync", "sync_before_write"} & self.faults:
            self.log.sync()
        self.release(self.held)

    def take(self, line):
        """Carries out a line of a client. A command may be refused because memory ran out, and a reply may be lost."""
        words = words_of(line.decode("latin-1"))
        if words and words[0] != "abort" and self.disk.chance.random() < 0.03:
            counts["refused memory"] += 1
            if "logged_refusal" in self.faults:
                self.add(line)
            self.held.append((line, "! 6 memory\n", None))
        else:
            self.carry_out(line)

    def carry_out(self, line, has_room=True):
        is_lost = self.disk.chance.random() < 0.03
        counts["replies lost"] += is_lost
        words, reply = words_of(line.decode("latin-1")), self.store.take(line.decode("latin-1"))
        is_counted = reply[0] not in "!?" and words[0] not in ("stat", "dump", "stop")
        if is_counted:
            self.witness.carries_out(line, reply)
            if has_room and not (is_lost and "lost_reply" in self.faults):
                self.add(line)
        elif "logged_refusal" in self.faults and words and words[0] != "stat":
            self.add(line)
        if not is_lost:
            place = self.witness.place()
            self.held.append((line, reply, place - 1 if is_counted else place))

    def add(self, line):
        if len(self.buffer) + len(line) + 1 > BUFFER:
            self.written()
        self.buffer += line + b"\n"

    def written(self):
        """The buffer is written over the zeros."""
        if self.buffer and not ("lost_buffer" in self.faults and len(self.buffer) > BUFFER - 10):
            self.log.append(self.buffer)
        self.buffer = b""

    def release(self, replies):
        for told in replies:
            self.witness.releases(*told)
        self.held = [told for told in self.held if told not in replies]


# The checks.


class Witness:
    """What was carried out in each segment, and what was told to whom."""

    def __init__(self):
        self.segments, self.sure, self.told, self.number = {}, {}, [], None

    def begins(self, number, lines):
        if self.sure.get(number):
            raise Wrong("a segment is begun again that a server had")
        self.number = number
        self.segments[number], self.sure[number] = list(lines), 0

    def place(self):
        return len(self.segments[self.number])

    def carries_out(self, line, reply):
        self.segments[self.number].append(line)

    def releases(self, line, reply, place):
        """A reply goes out. `place` is how many lines of the log come before it; None if no log explains it."""
        if place is not None:
            self.told.append((self.number, place, line, reply))
            is_logged = self.segments[self.number][place : place + 1] == [line] and reply[0] not in "!?"
            self.sure[self.number] = max(self.sure[self.number], place + is_logged)

    def is_sure(self):
        """What there is has to stay: a server has started with it, or ended by `stop`."""
        self.sure[self.number] = self.place()

    def serves(self, server):
        self.is_sure()
        if server.aborts and server.store.course.open:
            raise Wrong("a session is open after a start with --abort-on-close")

    def finds(self, number, lines):
        if set(self.segments) - {number} and max(self.segments) != number:
            raise Wrong("a segment is lost")
        carried = self.segments.get(number)
        if carried is None or lines != carried[: len(lines)]:
            raise Wrong("the log is no front of what was carried out")
        if len(lines) < self.sure[number]:
            raise Wrong("a line is lost whose reply was released")
        self.number, self.segments[number] = number, list(lines)

    def replays(self, number, lines):
        """Each reply that was released is that of the log."""
        store, told = Store(), collections.defaultdict(list)
        for segment, place, line, reply in self.told:
            if segment == number:
                told[place].append((line, reply))
        for place, line in enumerate(lines + [None]):
            before = store.course
            given = store.take(line.decode("latin-1")) if line and not line.startswith(b"#") else None
            after, store.course = store.course, before
            for told_line, reply in told[place]:
                expected = given if told_line == line else store.take(told_line.decode("latin-1"))
                if reply != expected:
                    raise Wrong("%r was told %r, and the log says %r" % (told_line, reply, expected))
            store.course = after


class Case:
    """The lives of one folder."""

    def __init__(self, seed, faults=()):
        self.chance = random.Random(seed)
        self.faults, self.disk, self.witness = set(faults), Disk(self.chance), Witness()
        maker = compare_store.Maker(seed, True)
        self.lines = []
        while len(self.lines) < LINES:
            self.lines += [line.encode("latin-1") for line in maker.commands() if line not in ("dump", "stop")]

    def run(self):
        for _ in range(self.chance.randint(2, LIVES)):
            calls = self.chance.choice([None, self.chance.randint(0, 9), self.chance.randint(0, MOST_CALLS)])
            failures = self.chance.choice([0, 0, 0.05])
            self.live(calls, failures)
            self.disk.crash(is_power_lost=self.chance.random() < 0.7)
        self.disk.is_full = False
        server = self.server(aborts=False)
        server.start()  # nothing fails any more
        text = text_of(self.disk.read(segment_name(server.number)))
        self.witness.replays(server.number, text.split(b"\n")[:-1])

    def server(self, aborts):
        return Server(self.disk, self.witness, self.faults, aborts)

    def live(self, calls, failures):
        """One server, until it is stopped, or ends because a call failed."""
        disk, chance = self.disk, self.chance
        disk.begin(calls, failures)
        try:
            server = self.server(aborts=chance.random() < 0.3)
            server.start()
            for _ in range(chance.randint(1, 12)):
                disk.is_full = chance.random() < 0.1
                count = server.turn(self.lines[: chance.randint(1, LARGEST_TURN)])
                counts["lines"] += count
                del self.lines[:count]
            self.witness.is_sure()
            counts["stopped by stop"] += 1
        except Stop:
            pass
        except (Failed, Full):
            counts["ended because a call failed"] += 1
        disk.is_full = False


def found(seed, faults=()):
    """What the checks find in a case, if it is anything."""
    try:
        Case(seed, faults).run()
    except Wrong as wrong:
        return str(wrong)
    return None


# Running it.


def try_fault(name, seed, cases):
    """In which case the fault was found, and what."""
    for at in range(cases):
        said = found(seed + at, {name})
        if said:
            return at + 1, said
    return None


def main():
    parser = argparse.ArgumentParser(description=__doc__, formatter_class=argparse.RawDescriptionHelpFormatter)
    parser.add_argument("--cases", type=int, default=200, help="how many cases (default %(default)s)")
    parser.add_argument("--seed", type=int, default=1, help="the same seed gives the same cases (default %(default)s)")
    parser.add_argument("--fault", choices=sorted(FAULTS), help="one planted fault")
    options = parser.parse_args()
    if options.fault:
        said = collections.Counter(found(options.seed + at, {options.fault}) for at in range(options.cases))
        for text, count in said.most_common():
            print("%7d %s" % (count, text or "nothing found"))
        sys.exit(0 if set(said) - {None} else 1)
    failed = 0
    for at in range(options.cases):
        said = found(options.seed + at)
        if said:
            failed += 1
            print("case with seed %d: %s" % (options.seed + at, said))
    for name, count in sorted(counts.items()):
        print("%7d %s" % (count, name))
    for name, meaning in FAULTS.items():
        where = try_fault(name, options.seed, MOST_CASES)
        if where:
            print("%s: found in case %d: %s" % (meaning, *where))
        else:
            failed += 1
            print("%s: not found" % meaning)
    print("%d passed, %d failed" % (options.cases + len(FAULTS) - failed, failed))
    sys.exit(1 if failed else 0)


if __name__ == "__main__":
    main()
