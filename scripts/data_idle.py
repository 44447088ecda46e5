"""Tries of scripts/data.py with servers that abort sessions which had no command for long."""
import time

from data_server import HEAD, SECONDS, check, home, scripted

LIMIT = 3  # seconds for which a session may have no command
IDLE = ["--idle", str(LIMIT)]
LONG = LIMIT + 5  # seconds after which it is aborted, with room for a slow machine
STEP = 0.2  # seconds between the commands of a session that is in use


def wait_for(it, line):
    """Whether the log has the line in time."""
    ends = time.monotonic() + SECONDS
    while line not in it.lines() and time.monotonic() < ends:
        time.sleep(STEP)
    return line in it.lines()


def try_idle(options, chance):
    with home() as it:
        server = it.start(*IDLE)
        begun = time.monotonic()
        check("idle: begun", ["begun 1", "done"], server.ask("begin A", "put A x 1"))
        # No command comes meanwhile: the server looks by itself.
        check("idle: its abort is in the log", True, wait_for(it, "abort A"))
        check("idle: not before its time", True, time.monotonic() - begun > LIMIT)
        check("idle: it has none any more", ["! 2 idle", "stat open 0 kept 0 versions 0 keys 0"], server.ask("commit A", "stat"))
        # One that is in use stays, also if another is aborted beside it; a refused command is a use too.
        peer, other = server.peer(), server.peer()
        check("idle: two", ["begun 2"], peer.ask("begin B"))
        check("idle: another", ["begun 3"], other.ask("begin C"))
        ends = time.monotonic() + LONG
        while time.monotonic() < ends:
            check("idle: it is used", ["! 1 busy"], peer.ask("begin B"))
            time.sleep(STEP)
        check("idle: it stays", ["done", "committed"], peer.ask("put B y 2", "commit B"))
        check("idle: the other one is gone", ["! 2 idle"], other.ask("commit C"))
        # A session without a transaction has nothing to abort.
        time.sleep(LONG)
        wanted = ["begin A", "put A x 1", "abort A", "begin B", "begin C", "abort C", "put B y 2", "commit B"]
        check("idle: the log", HEAD + wanted, it.lines())
        # It begins anew as ever.
        check("idle: once more", ["begun 4", "value 2"], peer.ask("begin B", "get B y"))
        server.end("kill")
        lines = it.lines()
        check("idle: the verdict", "yes", scripted(lines)[2])
        # Without the option none is aborted.
        server = it.start()
        time.sleep(LONG)
        check("idle: open still", ["value 2", "committed"], server.ask("get B y", "commit B"))
        server.end()
    # With the other option the sessions of a connection that is gone are aborted at once.
    with home() as it:
        server = it.start(*IDLE, "--abort-on-close")
        first, second = server.peer(), server.peer()
        check("idle: of two", ["begun 1", "begun 2"], first.ask("begin A", "begin B"))
        check("idle: one goes to another connection", ["! 1 busy"], second.ask("begin B"))
        first.close()
        check("idle: the other one is aborted", True, wait_for(it, "abort A"))
        check("idle: and then the one", True, wait_for(it, "abort B"))
        check("idle: no other line", HEAD + ["begin A", "begin B", "abort A", "abort B"], it.lines())
        server.end()
