"""Tries of scripts/data.py with servers that drop versions: by `collect`, a line of their own in the log."""
from data_server import HEAD, check, home, scripted

LOOK = 10000  # commits after which versions are counted
LATE = 2000  # commits that may be carried out before a line of its own, which comes after a round
AT_ONCE = 500  # transactions that are sent together


def put_all(server, keys, first, count):
    """So many transactions that put one key each, over and over."""
    peer = server.peer()
    for begin in range(first, first + count, AT_ONCE):
        numbers = range(begin, min(begin + AT_ONCE, first + count))
        lines = [line for n in numbers for line in ("begin u", "put u k%d v%d" % (n % keys, n), "commit u")]
        wanted = {"done", "committed"}
        check("upkeep: replies", wanted, {reply for reply in peer.ask(*lines) if not reply.startswith("begun ")})
    peer.close()


def collections_of(lines):
    """After how many commits each `collect` comes."""
    found, commits = [], 0
    for line in lines:
        commits += line.startswith("commit ")
        if line == "collect":
            found.append(commits)
    return found


def versions_of(server):
    """How many versions and keys there are."""
    words = server.ask("stat")[0].split()
    return int(words[6]), int(words[8])


def kept_by(lines):
    """How many versions each `collect` keeps, as `ssi script` replies."""
    replies, _, verdict = scripted(lines)
    check("upkeep: the verdict", "yes", verdict)
    return [int(reply.split()[1]) for line, reply in zip(lines, replies) if line == "collect"]


def check_places(name, wanted, lines):
    """Each collection comes soon after so many commits."""
    found = collections_of(lines)
    check(name + ": how many collections", len(wanted), len(found))
    early = [(place, commits) for place, commits in zip(wanted, found) if not place <= commits < place + LATE]
    check(name + ": when they come", [], early)


def try_upkeep(options, chance):
    # Each value is written over soon: every look finds twice as many versions as there were.
    with home() as it:
        server = it.start()
        put_all(server, 100, 0, 25 * LOOK // 10)
        versions, keys = versions_of(server)
        check("upkeep: the keys", 100, keys)
        check("upkeep: few versions are held", True, versions < LOOK)
        lines = it.lines()
        check_places("upkeep: writes over", [LOOK, 2 * LOOK], lines)
        check("upkeep: what the collections keep", [100, 100], kept_by(lines))
        server.end("kill")
        server = it.start()
        check("upkeep: as before the crash", (versions, keys), versions_of(server))
        put_all(server, 100, 0, LOOK + LATE)
        more = it.lines()
        check("upkeep: the log goes on", lines, more[: len(lines)])
        check_places("upkeep: after a start", [LOOK], HEAD + more[len(lines) :])
        server.end()
    # Each value is one of a new key: the collections keep all, and come when there are twice as many.
    with home() as it:
        server = it.start()
        put_all(server, 5 * LOOK, 0, 5 * LOOK)
        check("upkeep: nothing is dropped", (5 * LOOK, 5 * LOOK), versions_of(server))
        kept = kept_by(it.lines())
        check("upkeep: some collections, and not many", True, 2 <= len(kept) <= 3)
        check("upkeep: twice as many each time", [], [pair for pair in zip(kept, kept[1:]) if pair[1] < 2 * pair[0]])
        server.end()
