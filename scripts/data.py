#!/usr/bin/env python3
"""Tries `ssi serve --data`, the store that keeps its lines in a folder. Prints what is wrong, and ends with `N passed, M
failed`.

    scripts/data.py [--cases N] [--kills N] [--seed N] [--only PART]... [PROGRAM]

The worked scripts and N random lists of commands (`--cases`, default 20) are sent to servers that end in between, by
`stop` or by a signal, and start again. All replies must be those that `ssi script` gives to the same lines, and the log
must be these lines. Logs and folders that are damaged, used by another server or closed to this user must be refused,
and stay as they are. The disk gets full; a sync takes long, and fails. The log goes over many segments: each loads what the
one before ended with. A server that writes values over drops old ones in time, and one
aborts sessions that had no command for long. Then N servers (`--kills`, default 3) are killed
at random moments, while clients move money between accounts: what each client was told must be what `ssi script` replies
to the lines of the log, no transfer that was told to be committed may be lost, the sum must stay, and sessions that were
open go on. With servers of which only `committed` waits for the disk no such transfer may be lost either. If it can't mount a small file system or watch the calls of a server, it says that it didn't try that.

PART is one of %s.
"""
import argparse
import atexit
import os
import random
import signal
import socket
import sys
import time

import compare_store
from data_early import try_early
from data_faults import try_full, try_syncs
from data_folders import try_arguments, try_damage, try_files, try_folders, try_torn
from data_idle import try_idle
from data_kills import try_kills
from data_rotations import try_rotations
from data_server import HEAD, SECONDS, Server, Tried, check, home, is_counted, scripted
from data_upkeep import try_upkeep

TOP = os.path.dirname(os.path.dirname(os.path.abspath(__file__)))
WORKED = os.path.join(TOP, "crates/ssi_store_tests/data")


def send_all(server, lines, chance):
    """The replies to the lines: sent together, or one by one over several connections."""
    if chance.random() < 0.5:
        return server.ask(*lines)
    peers = [server.peer() for _ in range(3)]
    replies = [chance.choice(peers).ask(line)[0] for line in lines]
    for peer in peers:
        peer.close()
    return replies


def try_lines(name, lines, ends, chance):
    """The lines up to the first `stop`, by so many servers more than one. `dump` is no line of the protocol here."""
    lines = lines[: lines.index("stop") + 1] if "stop" in lines else [*lines, "stop"]
    replies, _, verdict = scripted([line for line in lines if line != "dump"])
    rest = iter(replies)
    wanted = ["? syntax" if line == "dump" else next(rest) for line in lines]
    places = sorted(chance.randint(0, len(lines) - 1) for _ in range(ends))
    with home() as it:
        got = []
        for begin, end in zip([0, *places], [*places, len(lines)]):
            server = it.start()
            got += send_all(server, lines[begin:end], chance)
            if end < len(lines):
                server.end(chance.choice(["stop", "kill", "kill", "term"]))
        check(name + ": the status", 0, server.wait())
        check(name, wanted, got)
        told = [(line, reply) for line, reply in zip(lines, wanted) if is_counted(line, reply)]
        check(name + ": the log", HEAD + [line for line, _ in told], it.lines())
        it.check_end(name)
        replies, _, log_verdict = scripted(it.lines())
        check(name + ": a script of the log", ["? syntax"] * 2 + [reply for _, reply in told], replies)
        check(name + ": the verdicts", ("yes", "yes"), (verdict, log_verdict))


def try_worked(options, chance):
    for case in sorted(os.listdir(WORKED)):
        path = os.path.join(WORKED, case, "commands")
        if os.path.exists(path):
            with open(path, encoding="latin-1") as file:
                lines = file.read().split("\n")[:-1]
            for ends in 0, 2:
                try_lines(case, lines, ends, chance)


def try_random(options, chance):
    maker = compare_store.Maker(options.seed, True)
    for at in range(options.cases):
        try_lines("random list %d" % (at + 1), maker.commands(), chance.randint(0, 4), chance)


def try_restarts(options, chance):
    """Open sessions, with and without --abort-on-close."""
    for way in "stop", "kill", "term":
        with home() as it:
            server = it.start()
            check(way + ": begun", ["begun 1", "done", "done"], server.ask("begin A", "put A x 5", "del A y"))
            server.end(way)
            server = it.start()
            open_one = "stat open 1 kept 1 versions 0 keys 0"
            check(way + ": it is open", [open_one, "! 1 busy"], server.ask("stat", "begin A"))
            check(way + ": it goes on", ["value 5", "absent", "done"], server.ask("get A x", "get A y", "put A y 6"))
            server.end(way)
            server = it.start()
            check(way + ": it commits", ["committed"], server.ask("commit A"))
            server.end(way)
            server = it.start()
            check(way + ": its contents", ["begun 2", "rows 2 x,5 y,6"], server.ask("begin B", "scan B a z"))
            check(way + ": a line without its end", None, half_a_line(server))
            server.end(way)
            server = it.start("--abort-on-close")
            check(way + ": aborted at a start", ["! 2 idle", "begun 3"], server.ask("commit B", "begin B"))
            wait_for_open(way, server, 0)  # the one that it began is aborted too, since it has gone
            server.end(way)
            server = it.start()
            check(way + ": aborts stay", ["! 2 idle", "begun 4"], server.ask("abort B", "begin B"))
            server.end(way)
            lines = HEAD + ["begin A", "put A x 5", "del A y", "get A x", "get A y", "put A y 6", "commit A", "begin B"]
            lines += ["scan B a z", "abort B", "begin B", "abort B", "begin B"]
            check(way + ": the log", lines, it.lines())
            check(way + ": the verdict", "yes", scripted(it.lines())[2])


def half_a_line(server):
    peer = server.peer()
    peer.socket.sendall(b"put B x 7")
    peer.socket.shutdown(socket.SHUT_WR)
    return peer.reply()


def wait_for_open(name, server, count):
    ends, reply = time.monotonic() + SECONDS, ""
    while not reply.startswith("stat open %d " % count) and time.monotonic() < ends:
        reply = server.ask("stat")[0] or "closed"
    check(name + ": open sessions", "stat open %d" % count, " ".join(reply.split()[:3]))


PARTS = {
    "worked": try_worked,
    "random": try_random,
    "restarts": try_restarts,
    "files": try_files,
    "torn": try_torn,
    "damage": try_damage,
    "folders": try_folders,
    "arguments": try_arguments,
    "full": try_full,
    "syncs": try_syncs,
    "rotations": try_rotations,
    "upkeep": try_upkeep,
    "idle": try_idle,
    "kills": try_kills,
    "early": try_early,
}


def main():
    parser = argparse.ArgumentParser(
        description=__doc__ % ", ".join(PARTS), formatter_class=argparse.RawDescriptionHelpFormatter
    )
    parser.add_argument("--cases", type=int, default=20, help="how many random lists (default %(default)s)")
    parser.add_argument("--kills", type=int, default=3, help="how many servers are killed (default %(default)s)")
    parser.add_argument("--seed", type=int, default=1, help="of what is random but the moments (default %(default)s)")
    parser.add_argument("--only", action="append", choices=PARTS, help="this part alone, or several")
    parser.add_argument("program", nargs="?", default=os.path.join(TOP, "crates/ssi/out/ssi"))
    options = parser.parse_args()
    Tried.program = os.path.abspath(options.program)
    if not os.access(Tried.program, os.X_OK):
        sys.exit("data.py: there is no program %s" % Tried.program)
    atexit.register(Server.kill_all)
    signal.signal(signal.SIGTERM, lambda *_: sys.exit(1))
    for name in options.only or PARTS:
        try:
            PARTS[name](options, random.Random(options.seed))
        except Exception as fault:  # so that the other parts are tried too
            Tried.failed += 1
            print("%s: %s: %s" % (name, type(fault).__name__, fault))
    print("%d passed, %d failed" % (Tried.passed, Tried.failed))
    sys.exit(1 if Tried.failed else 0)


if __name__ == "__main__":
    main()
