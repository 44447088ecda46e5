"""Tries of scripts/data.py with servers of which only the reply `committed` waits for the disk.
"""
from data_faults import watched
from data_kills import EarlyBank, try_kills
from data_server import HEAD, NOTHING, SECONDS, check, home, scripted


def try_early(options, chance):
    for part in waits_for_commits, commit_fails:
        with home() as it:
            if not part(it):
                print("not tried: the calls of the server can't be watched here")
    with home() as it:
        aborts_at_start(it)
    try_kills(options, chance, EarlyBank)


def waits_for_commits(it):
    """No sync ends, and all is replied to but a commit and what follows it."""
    server, watch = watched(it, "--early")
    if not server:
        return False
    first, second = server.peer(), server.peer()
    count = watch.counts["sync"]
    watch.hold()
    check("early: replies without a sync", ["begun 1", "absent", "done"], first.ask("begin A", "get A x", "put A x 5"))
    check("early: none was asked for", count, watch.counts["sync"])
    first.send("put A y 6", "commit A", "begin A", "get A x")
    check("early: a commit asks for one", True, watch.is_held.wait(SECONDS))
    check("early: the lines are written before it", HEAD + ["begin A", "get A x", "put A x 5", "put A y 6"], it.lines()[:6])
    check("early: what comes before the commit", "done", first.reply())
    check("early: it waits", NOTHING, first.reply(0.5))
    watch.may_go_on.set()
    check("early: after the sync", ["committed", "begun 2", "value 5"], [first.reply() for _ in range(3)])
    check("early: one sync", 1, watch.counts["sync"] - count)
    check("early: another one begins", ["begun 3", "done"], second.ask("begin B", "put B x 7"))
    check("early: the first commits", ["done", "committed"], first.ask("put A x 8", "commit A"))
    count = watch.counts["sync"]
    watch.hold()
    check("early: a conflict doesn't wait", ["conflict x 2"], second.ask("commit B"))
    check("early: nor does a refusal", ["! 2 idle", "? syntax"], second.ask("commit B", "commit"))
    check("early: no sync for these", count, watch.counts["sync"])
    watch.may_go_on.set()
    server.end()
    wanted = ["begin A", "get A x", "put A x 5", "put A y 6", "commit A", "begin A", "get A x", "begin B", "put B x 7"]
    check("early: the log", HEAD + wanted + ["put A x 8", "commit A", "commit B"], it.lines())
    return True


def commit_fails(it):
    """The sync for a commit fails: it isn't replied to, and the server ends."""
    server, watch = watched(it, "--early")
    if not server:
        return False
    peer = server.peer()
    check("early: before the fault", ["begun 1", "done", "committed"], peer.ask("begin A", "put A x 5", "commit A"))
    watch.fault = "sync"
    check("early: no sync, no fault", ["begun 2", "done"], peer.ask("begin A", "put A y 6"))
    peer.send("commit A")
    check("early: no reply after a failed sync", None, peer.reply())
    check("early: the status after it", 3, server.wait())
    server = it.start("--early")
    check("early: what was committed stays", "value 5", server.ask("begin B", "get B x")[1])
    server.end()
    return True


def aborts_at_start(it):
    server = it.start("--early")
    check("early: two", ["begun 1", "done", "begun 2", "committed"], server.ask("begin A", "put A x 1", "begin B", "commit B"))
    server.end("kill")
    check("early: the log of a killed one", HEAD + ["begin A", "put A x 1", "begin B", "commit B"], it.lines())
    server = it.start("--early")
    check("early: what was open is aborted", ["! 2 idle", "begun 3", "absent"], server.ask("get A x", "begin A", "get A x"))
    server.end()
    check("early: by a line in the log", "abort A", it.lines()[6])
    check("early: the verdict", "yes", scripted(it.lines())[2])
