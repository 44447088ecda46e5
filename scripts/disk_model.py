"""A disk in memory for scripts/log_model.py: one folder with files, whose calls fail and stop, and which may crash.

What wasn't synced is on the disk after a loss of power or isn't: each byte, in any order, below the length that was
synced last, and a front of what follows; and each name. If only the process is gone, what it wrote stands, and may still
be lost later. After a sync that failed nobody tries again to bring its bytes to the disk.
"""
import collections

counts = collections.Counter()  # of what has happened


class Stop(Exception):
    """The process is gone, in the middle of a call."""


class Failed(Exception):
    """A call of the disk failed: the server ends with status 3."""


class Full(Exception):
    """There is no space for a file that would grow."""


class File:
    """What is on the disk for sure, what processes see, and the places that the next sync is to bring there."""

    def __init__(self):
        self.kept, self.seen, self.unsynced, self.names = bytearray(), bytearray(), set(), [None]

    def put(self, at, data):
        self.seen.extend(bytes(max(0, at + len(data) - len(self.seen))))
        self.seen[at : at + len(data)] = data
        self.unsynced.update(range(at, at + len(data)))

    def synced(self, places):
        """These bytes reach the disk, and nothing more will of what waited for a sync."""
        for place in sorted(places):
            self.kept.extend(bytes(max(0, place + 1 - len(self.kept))))
            self.kept[place] = self.seen[place]
        self.unsynced = set()


class Disk:
    """One folder with its files. Each method but `names` and `read` is a call that may fail, and at which the process may
    be stopped."""

    def __init__(self, chance):
        self.chance = chance
        self.calls_left, self.failures, self.is_full = None, 0, False
        self.has_folder = self.keeps_folder = False
        self.files = {}  # by what processes see
        self.known = []  # all files that may be there after a crash; `names` of each are those since the last sync

    def begin(self, calls, failures):
        """A new process: it stops after so many calls, if it is a number, and calls fail with this probability."""
        self.calls_left, self.failures = calls, failures

    def call(self, name):
        """Whether the call succeeds."""
        if self.calls_left is not None:
            self.calls_left -= 1
            if self.calls_left < 0:
                counts["stopped in " + name] += 1
                raise Stop()
        if self.chance.random() < self.failures:
            counts["failed: " + name] += 1
            return False
        return True

    def does(self, name, effect):
        """A call on names: one that stops or fails has its effect or none."""
        try:
            if self.call(name):
                effect()
                return
        except Stop:
            if self.chance.random() < 0.5:
                effect()
            raise
        if self.chance.random() < 0.5:
            effect()
        raise Failed()

    def make_folder(self):
        self.does("make_folder", lambda: setattr(self, "has_folder", True))

    def keep_folder(self):
        """A sync of the folder around this one."""
        self.does("keep_folder", lambda: setattr(self, "keeps_folder", True))

    def sync_folder(self):
        self.does("sync_folder", self.keep_names)

    def keep_names(self):
        for file in self.known:
            file.names = file.names[-1:]

    def names(self):
        return sorted(self.files)

    def read(self, name):
        return bytes(self.files[name].seen)

    def move(self, file, old, new):
        if old:
            del self.files[old]
        if new:
            self.files[new] = file
        file.names.append(new)

    def create(self, name):
        if name in self.files:
            raise Failed()
        self.does("create", lambda: self.add(name))

    def add(self, name):
        self.known.append(File())
        self.move(self.known[-1], None, name)

    def remove(self, name):
        self.does("remove", lambda: self.move(self.files[name], name, None))

    def rename(self, old, new):
        self.does("rename", lambda: self.move(self.files[old], old, new))

    def write(self, name, at, data):
        file = self.files[name]
        front = data[: self.chance.randint(0, len(data))]
        if self.is_full and at + len(data) > len(file.seen):
            counts["no space"] += 1
            file.put(at, front[: max(0, len(file.seen) - at)])
            raise Full()
        try:
            is_done = self.call("write")
        except Stop:
            file.put(at, front)
            raise
        file.put(at, data if is_done else front)
        if not is_done:
            raise Failed()

    def sync(self, name):
        file = self.files[name]
        try:
            is_done = self.call("sync")
        except Stop:
            file.kept = self.mixed(file)  # and the rest still waits
            raise
        if not is_done:
            file.synced(self.some_of(file.unsynced))
            raise Failed()
        file.synced(file.unsynced)

    def some_of(self, places):
        """The bytes that reach the disk: any, whole blocks, all but the first ones, a front, all or none."""
        places, way = sorted(places), self.chance.randrange(6)
        size = self.chance.choice([1, 4, 16, 64])
        if way == 0:
            return {place for place in places if self.chance.random() < 0.5}
        if way == 1:
            there = collections.defaultdict(lambda: self.chance.random() < 0.5)
            return {place for place in places if there[place // size]}
        if way == 2:
            return set(places[size:])
        if way == 3:
            return set(places[: self.chance.randint(0, len(places))])
        return set(places) if way == 4 else set()

    def mixed(self, file):
        """What may be on the disk now: of each byte that wasn't synced the old one, or a zero, or the new one."""
        found, before = File(), len(file.kept)
        found.kept, found.seen = bytearray(file.kept), bytearray(file.seen)
        found.synced(self.some_of(file.unsynced))
        return found.kept[: self.chance.randint(before, max(before, len(found.kept)))]

    def crash(self, is_power_lost):
        """The process is gone. If the power is too, what isn't on the disk is lost."""
        self.begin(None, 0)
        if not is_power_lost:
            return
        if not self.keeps_folder:
            self.has_folder = self.chance.random() < 0.5
        self.keeps_folder = self.has_folder
        self.files = {}
        for file in self.known:
            file.kept = self.mixed(file)
            file.seen, file.unsynced = bytearray(file.kept), set()
            name = self.chance.choice(file.names) if self.has_folder else None
            if name:
                self.files[name] = file  # a later file of that name replaces an earlier one
        self.known = list(self.files.values())
        for name, file in self.files.items():
            file.names = [name]
