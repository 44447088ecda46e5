"""Tries of scripts/data.py with a disk that is full, slow or broken."""
import collections
import contextlib
import ctypes
import errno
import fcntl
import os
import platform
import resource
import select
import signal
import socket
import struct
import subprocess
import tempfile
import threading

from data_server import HEAD, NOTHING, SECONDS, Home, check, home

AHEAD = 1 << 20  # bytes of zeros that the server puts ahead at once


# A full disk.


def try_full(options, chance):
    """The log can't grow: by the limit on files, and in a small file system where one can be mounted."""
    with home() as it:
        fill_up("limit", it, LimitedFiles())
    with tempfile.TemporaryDirectory(prefix="data-") as top, small_disk(top, 4 * AHEAD) as disk:
        if disk:
            it = Home(top, root=disk.root)
            it.data = os.path.join(disk.folder, "data")
            fill_up("small disk", it, disk)
        else:
            print("not tried: a small file system can't be mounted here")


class LimitedFiles:
    """A limit on the size of each file of a process. It can be raised for a process that runs."""

    def __init__(self):
        self.limit = AHEAD * 3 // 2

    def start(self, it):
        return it.start(prepare=self.prepare)

    def prepare(self):
        signal.signal(signal.SIGXFSZ, signal.SIG_IGN)
        resource.setrlimit(resource.RLIMIT_FSIZE, (self.limit, resource.RLIM_INFINITY))

    def grow(self, server):
        self.limit += AHEAD
        if server:
            resource.prlimit(server.process.pid, resource.RLIMIT_FSIZE, (self.limit, resource.RLIM_INFINITY))


class SmallDisk:
    """A file system that a process has mounted for itself. Files that can be removed leave one and a half times the space
    that the server puts ahead at once."""

    def __init__(self, holder, flags, folder):
        self.folder, self.root = folder, "/proc/%d/root" % holder.pid
        self.wrap = ["nsenter", "-t", str(holder.pid), *flags, "--"]
        self.fillers = [self.root + os.path.join(folder, "filler%d" % n) for n in (1, 2)]
        for path in self.fillers:
            with open(path, "wb") as file:
                file.write(bytes(AHEAD * 5 // 4))

    def start(self, it):
        return it.start(wrap=self.wrap)

    def grow(self, server):
        os.remove(self.fillers.pop())


@contextlib.contextmanager
def small_disk(top, size):
    """A file system in memory at `small` in that folder, which only some processes see; None if that can't be."""
    small = os.path.join(top, "small")
    os.mkdir(small)
    is_root = os.geteuid() == 0
    mount = 'mount -t tmpfs -o size=%d none "$0" && echo mounted && exec sleep 600' % size
    command = ["unshare", "-m" if is_root else "-rm", "sh", "-c", mount, small]
    with subprocess.Popen(command, stdout=subprocess.PIPE, stderr=subprocess.DEVNULL) as holder:
        try:
            is_mounted = holder.stdout.readline() == b"mounted\n"
            flags = ["-m"] if is_root else ["-U", "--preserve-credentials", "-m"]
            yield SmallDisk(holder, flags, small) if is_mounted else None
        finally:
            holder.kill()


class Filler:
    """A client that writes until it gets no reply."""

    SESSION, KEYS = "the_longest_name", 20

    def __init__(self, server):
        self.peer, self.asked, self.replied, self.wrong = server.peer(), [], 0, []

    def ask(self, *lines):
        self.asked += lines
        self.peer.send(*lines)

    def replies(self, seconds):
        """Reads the replies to all that was asked, or until there is none for so long."""
        while self.replied < len(self.asked):
            reply = self.peer.reply(seconds)
            if reply == NOTHING:
                break
            if reply not in ("begun 1", "done"):
                self.wrong.append((self.asked[self.replied], reply))
            self.replied += 1
        return self.replied == len(self.asked)

    def fill(self):
        """Sends the longest lines. They are more than what fits."""
        for _ in range(2 * AHEAD // 119 // 100):
            numbers = range(len(self.asked), len(self.asked) + 100)
            self.ask(*["put %s k%031d %064d" % (self.SESSION, n % self.KEYS, n) for n in numbers])
            if not self.replies(4):
                return True
        return False

    def rows(self):
        """The reply to a scan after the lines that were replied to."""
        puts = [line.split()[2:] for line in self.asked[1 : self.replied]]
        return "rows %d " % self.KEYS + " ".join("%s,%s" % row for row in sorted(dict(puts).items()))


def fill_up(name, it, disk):
    """The log grows until the disk is full. No line is carried out then; when there is room, it goes on. The next time
    `stop` ends the server, and what waited is as if it had not been sent."""
    server = disk.start(it)
    filler = Filler(server)
    filler.ask("begin " + Filler.SESSION)
    for is_last in False, True:
        said = len(server.said())
        check(name + ": it gets full", True, filler.fill())
        check(name + ": what was replied to is in the log", HEAD + filler.asked[: filler.replied], it.lines())
        waiting = server.peer()
        waiting.send("stat")
        check(name + ": another client waits", NOTHING, waiting.reply(2.5))
        check(name + ": it is said once", said + 1, len(server.said()))
        if not is_last:
            disk.grow(server)
            check(name + ": it goes on", True, filler.replies(SECONDS))
            check(name + ": so does the other client", "stat open 1", " ".join((waiting.reply() or "").split()[:3]))
    server.end()
    check(name + ": replies that are wrong", [], filler.wrong)
    check(name + ": the log after stop", HEAD + filler.asked[: filler.replied], it.lines())
    it.check_end(name)
    disk.grow(None)
    server = disk.start(it)
    replies = server.ask("scan %s k l" % filler.SESSION, "commit " + filler.SESSION)
    check(name + ": a start when there is room", [filler.rows(), "committed"], replies)
    server.end()


# Calls of the system that take long or fail. A filter of the system asks this process about each.

CALLS = {"fsync": 74, "fdatasync": 75, "pwrite64": 18, "pwritev": 296}  # of Linux on x86-64
SYNCS = {CALLS["fsync"], CALLS["fdatasync"]}
SECCOMP, SET_FILTER, NEW_LISTENER = 317, 1, 8
ASK, ALLOW = 0x7FC00000, 0x7FFF0000
RECEIVE, ANSWER, GO_ON = 0xC0502100, 0xC0182101, 1


class Watched:
    """Answers what a server asks about its calls: at once, later, or with an error."""

    def __init__(self):
        self.ours, theirs = socket.socketpair()
        self.ours.settimeout(SECONDS)
        self.theirs, self.counts, self.fault = theirs, collections.Counter(), None
        self.may_go_on, self.is_held, self.listener = threading.Event(), threading.Event(), None
        self.may_go_on.set()

    def prepare(self):
        """In the process that becomes the server."""
        load, end, equal = 0x20, 0x06, 0x15
        numbers = list(CALLS.values())
        steps = [(load, 0, 0, 0)]
        steps += [(equal, len(numbers) - at, 0, number) for at, number in enumerate(numbers)]
        steps += [(end, 0, 0, ALLOW), (end, 0, 0, ASK)]
        code = ctypes.create_string_buffer(b"".join(struct.pack("HBBI", *step) for step in steps))
        given = struct.pack("HxxxxxxQ", len(steps), ctypes.addressof(code))
        system = ctypes.CDLL(None, use_errno=True)
        system.prctl(38, 1, 0, 0, 0)  # no new privileges
        listener = system.syscall(SECCOMP, SET_FILTER, NEW_LISTENER, ctypes.create_string_buffer(given))
        if listener < 0:
            self.theirs.send(b"n")
        else:
            socket.send_fds(self.theirs, [b"y"], [listener])
            os.close(listener)

    def begin(self):
        """Whether the server could be given the filter."""
        said, found, _, _ = socket.recv_fds(self.ours, 1, 1)
        if said != b"y":
            return False
        self.listener = found[0]
        threading.Thread(target=self.answer_all, daemon=True).start()
        return True

    def answer_all(self):
        poll = select.poll()
        poll.register(self.listener, select.POLLIN)
        with contextlib.suppress(OSError):  # the server is gone
            while poll.poll()[0][1] & select.POLLIN:
                asked = bytearray(80)
                fcntl.ioctl(self.listener, RECEIVE, asked)
                which, number = struct.unpack_from("QxxxxxxxxI", asked)
                self.counts["sync" if number in SYNCS else "write"] += 1
                if not self.may_go_on.is_set() and number in SYNCS:
                    self.is_held.set()
                    self.may_go_on.wait()
                is_wrong = self.fault == ("sync" if number in SYNCS else "write")
                answer = (which, 0, -errno.EIO, 0) if is_wrong else (which, 0, 0, GO_ON)
                fcntl.ioctl(self.listener, ANSWER, bytearray(struct.pack("QqiI", *answer)))

    def hold(self):
        self.is_held.clear()
        self.may_go_on.clear()


def try_syncs(options, chance):
    """Replies wait for the sync, of which there is one for all lines that have come; and it may fail."""
    for part in syncs_take_long, lambda it: call_fails(it, "sync"), lambda it: call_fails(it, "write"):
        with home() as it:
            if not part(it):
                print("not tried: the calls of the server can't be watched here")
                return


def watched(it, *options):
    """A server and what watches it; None if that can't be."""
    watch = Watched()
    if platform.machine() != "x86_64":
        return None, None
    server = it.start(*options, prepare=watch.prepare, waits=False)
    if not watch.begin():
        server.process.kill()
        return None, None
    server.ask("stat")
    return server, watch


def syncs_take_long(it):
    server, watch = watched(it)
    if not server:
        return False
    first, others = server.peer(), [server.peer() for _ in range(20)]
    check("sync: before", ["begun 1"], first.ask("begin A"))
    for peer in others:
        peer.ask("stat")
    watch.hold()
    first.send("put A x 5")
    check("sync: there is one", True, watch.is_held.wait(SECONDS))
    check("sync: the line is written before it", HEAD + ["begin A", "put A x 5"], it.lines())
    check("sync: no reply before it", NOTHING, first.reply(0.5))
    for at, peer in enumerate(others):
        peer.send("begin s%d" % at, "put s%d k%d 1" % (at, at))
    check("sync: no other reply before it", [NOTHING] * 20, [peer.reply(0.02) for peer in others])
    count = watch.counts["sync"]
    watch.may_go_on.set()
    check("sync: the reply after it", "done", first.reply())
    replies = sorted([peer.reply(), peer.reply()] for peer in others)
    check("sync: the other replies", sorted(["begun %d" % (2 + at), "done"] for at in range(20)), replies)
    check("sync: one for all that came meanwhile", 1, watch.counts["sync"] - count)
    server.end()
    return True


def call_fails(it, what):
    server, watch = watched(it)
    if not server:
        return False
    peer, other = server.peer(), server.peer()
    check("failed %s: before" % what, ["begun 1", "done"], peer.ask("begin A", "put A x 5"))
    watch.fault = what
    peer.send("put A y 6")
    check("failed %s: no reply" % what, (None, None), (peer.reply(), other.reply()))
    check("failed %s: the status" % what, 3, server.wait())
    check("failed %s: it is said" % what, True, server.said()[-1].startswith("ssi: data fault: %s: " % it.data))
    lines = HEAD + ["begin A", "put A x 5", "put A y 6"]
    check("failed %s: the log" % what, True, it.lines() in (lines, lines[:-1]))
    server = it.start()
    check("failed %s: the next start" % what, ["value 5", "committed"], server.ask("get A x", "commit A"))
    server.end()
    return True
