"""Tries of scripts/data.py on folders: their files, logs that are torn or damaged, folders that can't be used."""
import os
import re
import shutil
import stat
import tempfile

import compare_store
from data_server import HEAD, Home, Tried, check, home, is_counted, run, scripted


def mode(path):
    return oct(stat.S_IMODE(os.stat(path).st_mode))


def try_files(options, chance):
    """What is in the folder, and who may use it."""
    for mask, rights in (0o022, "0o755"), (0, "0o777"), (0o077, "0o700"):
        with home() as it:
            server = it.start(prepare=lambda mask=mask: os.umask(mask))
            name = "umask %o" % mask
            check(name + ": the files", ["00000001.log", "lock"], sorted(os.listdir(it.data)))
            check(name + ": rights of the folder", "0o700", mode(it.data))
            check(name + ": rights of the files", ["0o600"] * 2, [mode(it.path(file)) for file in os.listdir(it.data)])
            check(name + ": rights of the socket", rights, mode(it.socket))
            check(name + ": the log", HEAD, it.lines())
            it.check_end(name)
            server.end()
            check(name + ": it says that it listens", True, len(server.said()) > 0)
    with home() as it:
        os.mkdir(it.data, 0o755)
        server = it.start()
        check("an empty folder", ["begun 1"], server.ask("begin A"))
        server.end()
        check("an empty folder: its rights stay", "0o755", mode(it.data))
    with home() as it:
        it.put_lines("begin A", "put A x 5")
        for name in "00000002.new", "00000001.new", "notes", "00000003.log.old":
            shutil.copy(it.path("00000001.log"), it.path(name))
        server = it.start()
        check("a segment that was being made", ["value 5", "committed"], server.ask("get A x", "commit A"))
        names = ["00000001.log", "00000003.log.old", "lock", "notes"]
        check("it is removed, and other files stay", names, sorted(os.listdir(it.data)))
        server.end()
    with home() as it:
        os.mkdir(it.data)
        with open(it.path("00000001.new"), "wb") as file:
            file.write(b"# ssi log 1 seg")
        server = it.start()
        check("a first segment that was being made", ["begun 1"], server.ask("begin A"))
        server.end()
        check("it is made anew", (HEAD + ["begin A"], False), (it.lines(), os.path.exists(it.path("00000001.new"))))


def try_torn(options, chance):
    """Ends without a line feed, and what stands behind the first zero."""
    rest = 100 * b"\0"
    cases = [(b"put A x", rest), (b"commit A", rest), (b"\xff", rest), (b"c", rest), (5000 * b"a", rest)]
    cases += [(b"", b"\0ut A y 6\nput A z 7\n" + rest), (b"put A", b"\0y 6\ncommit A\n" + rest)]
    cases += [(b"", b"\0"), (b"pu", b"\0"), (b"put A x 6 # ssi log 1 segment 1", rest)]
    for torn, behind in cases:
        name = "torn %r before %r" % (torn[:40], behind[:10])
        with home() as it:
            it.put_lines("begin A", "put A x 5", torn=torn, behind=behind)
            server = it.start()
            said = server.said()[0] if server.said() else ""
            numbers = re.findall("[0-9]+", said.replace(it.top, ""))
            check(name + ": how much, in its first line", True, not torn or str(len(torn)) in numbers)
            check(name + ": it is cut", HEAD + ["begin A", "put A x 5"], it.lines())
            it.check_end(name)
            server.end("kill")
            server = it.start()
            replies = server.ask("get A x", "get A y", "commit A")
            check(name + ": the store", ["value 5", "absent", "committed"], replies)
            server.end()
            check(name + ": the log", HEAD + ["begin A", "put A x 5", "get A x", "get A y", "commit A"], it.lines())
            it.check_end(name)


def try_damage(options, chance):
    """Logs that are refused."""
    good = "".join(line + "\n" for line in [*HEAD, "begin A", "put A x 5"])
    heads = ["", "\n", "#\n", "# ssi log 1 segment 1", "# ssi log 2 segment 1\n", "# ssi log 1 segment 2\n"]
    heads += ["# ssi log 1 segment 01\n", "# ssi log 1 segment 1 \n", "begin A\n", "# loaded\n" + good]
    heads += ["# SSI" + good[5:]]
    for text in heads:
        with home() as it:
            it.put(text.encode())
            it.refused("the header %r" % text[:40], "header")
    with home() as it:
        it.put(good.encode(), number=2)
        it.refused("the header of another segment", "header")
    wrong = ["put A x", "", "nothing", "begin A ", "put A x 5\r", " begin B", "dump", "stop", "Begin B", "\xff"]
    wrong += ["begin A", "get B x", "commit B", "abort B", "scan A z a"]  # refused
    for line in wrong:
        for before in 0, 3:
            with home() as it:
                it.put_lines("begin A", *["get A x"] * before, line, "put A x 6")
                it.refused("the line %r" % line, "line %d" % (4 + before))
    maker = compare_store.Maker(options.seed + 1, False)
    for at in range(options.cases):
        lines = [line for line in maker.commands() if line != "dump"]
        counted = [line for line, reply in zip(lines, scripted(lines)[0]) if is_counted(line, reply)]
        try_flip("flipped byte %d" % (at + 1), counted, chance)


def try_flip(name, lines, chance):
    """One byte of the log is another one. Without checksums that is seen if a line is no command or is refused."""
    text = bytearray("".join(line + "\n" for line in [*HEAD, *lines]).encode())
    start = len("".join(line + "\n" for line in HEAD))
    if len(text) == start:
        return
    at = chance.randrange(start, len(text))
    text[at] = chance.choice([text[at] ^ 1 << chance.randrange(8), 0, 10, chance.randrange(256)])
    whole = text.split(b"\0")[0].decode("latin-1").split("\n")[:-1]
    if {"stat", "dump", "stop"} & set(whole):
        return
    replies = scripted(whole)[0]
    bad = [at for at, pair in enumerate(zip(whole, replies), 1) if pair[0][:1] != "#" and not is_counted(*pair)]
    with home() as it:
        it.put(bytes(text))
        if bad:
            it.refused(name, "line %d" % bad[0])
        else:
            server = it.start()
            server.end()
            check(name + ": the lines stay", whole, it.lines())
            it.check_end(name)


def try_folders(options, chance):
    """Folders and sockets that can't be used, or that are used already."""
    with home() as it:
        with open(it.data, "w", encoding="ascii") as file:
            file.write("text")
        it.refused("a file instead of the folder", None)
        with open(it.data, encoding="ascii") as file:
            check("the file stays", "text", file.read())
    with home() as it:
        it.data = os.path.join(it.top, "nowhere", "data")
        it.refused("a folder in no folder", None)
        check("that one isn't made", [], os.listdir(it.top))
    with home() as it:
        server = it.start()
        check("the first of two servers", ["begun 1"], server.ask("begin A"))
        os.symlink(it.data, os.path.join(it.top, "link"))
        for data in it.data, os.path.join(it.top, "link"), it.data + "/":
            other = Home(it.top)
            other.data, other.socket = data, os.path.join(it.top, "other")
            other.refused("the second of two servers, on %s" % os.path.basename(data), "in use")
        second = Home(it.top)
        second.data = os.path.join(it.top, "second")
        said, status = run(Tried.program, "serve", "--data", second.data, it.socket)[1:]
        wanted = "ssi: socket fault: %s: a server listens at it" % it.socket
        check("a socket at which a server listens", (wanted, 3), (said, status))
        check("the first goes on", ["done", "committed"], server.ask("put A x 5", "commit A"))
        server.end("kill")
        check("the socket is left over", True, os.path.exists(it.socket))
        server = it.start()
        check("a server after it", ["begun 2", "value 5"], server.ask("begin A", "get A x"))
        server.end()
    with home() as it:
        for path, said in ("file", "another file is there"), ("nowhere/socket", "there is no such folder"):
            it.socket = os.path.join(it.top, path)
            if path == "file":
                with open(it.socket, "w", encoding="ascii") as file:
                    file.write("text")
            wanted = "ssi: socket fault: %s: %s" % (it.socket, said)
            check("a socket at " + path, (wanted, 3), run(Tried.program, "serve", "--data", it.data, it.socket)[1:])
        with open(os.path.join(it.top, "file"), encoding="ascii") as file:
            check("that file stays", "text", file.read())
        it.socket = os.path.join(it.top, "socket")
        server = it.start()
        check("the folder is free again", ["begun 1"], server.ask("begin A"))
        server.end()
    try_rights()


def try_rights():
    """Folders and files that this user may not use: another user if this is root."""
    with home() as it:
        it.program = os.path.join(it.top, "ssi")
        shutil.copy(Tried.program, it.program)
        os.chmod(it.program, 0o755)
        is_root = os.geteuid() == 0
        wrap = ["setpriv", "--reuid=65534", "--regid=65534", "--clear-groups"] if is_root else []
        it.put_lines("begin A", "put A x 5")
        log = it.path("00000001.log")
        # of the folder around it, the folder, and its files; to whom the last two belong, if it is root
        for rights in (0o777, 0o500, 0o400, False), (0o777, 0o555, 0o444, False), (0o777, 0o755, 0o444, True):
            os.chmod(it.top, rights[0])
            os.chmod(log, rights[2])
            os.chmod(it.data, rights[1])
            if is_root and rights[3]:
                for path in it.data, it.path("lock"):
                    os.chown(path, 65534, 65534)
            it.refused("rights %o of the folder and %o of the log" % rights[1:3], None, wrap)
            os.chmod(it.data, 0o700)
        os.chmod(it.top, 0o555)
        other = Home(it.top)
        other.program, other.data, other.socket = it.program, os.path.join(it.top, "new"), "/nowhere/socket"
        other.refused("a folder that can't be made", None, wrap)
        os.chmod(it.top, 0o755)
        check("it isn't made", ["data", "ssi"], sorted(os.listdir(it.top)))


def try_arguments(options, chance):
    wrong = ["--data", "--data data", "--data data s h", "--data data s h c", "--concurrent --data data s"]
    wrong += ["--early s", "--idle 5 s", "--segment 65536 s", "--data data --nothing s", "--data data --segment s"]
    wrong += ["--data data --segment %s s" % it for it in ("65535", "1099511627777", "x", "6e4", "=65536", "0x10000")]
    wrong += ["--idle", "--data data --idle s", "--data data s --idle", "--data data --idle -1 s"]
    wrong += ["--data data --idle 5 --idle 6 s"]
    wrong += ["--early", "--early s h c", "--data data --early", "--data data --early --early s"]
    wrong += ["--data data --early=1 s", "--data data --early= s"]
    times = ["0", "86401", "18446744073709551617", "x", "5s", "1.5", "1e1", "=5", "0x5", "+", "++5", "+0"]
    unread = ["--data data --idle %s s" % it for it in times] + ["--data data --idle= s", "--data data --idle=-1 s"]
    why = "ssi: --idle takes a number of seconds from 1 to 86400"
    with tempfile.TemporaryDirectory(prefix="data-") as folder:
        for words in wrong + unread:
            ran = run(Tried.program, "serve", *words.split(), cwd=folder)
            check("serve " + words, 2, ran[2])
            if words in unread:
                check("serve %s: why" % words, why, ran[1])
            check("serve %s: nothing is made" % words, [], os.listdir(folder))
        empty = run(Tried.program, "serve", "--data", "data", "--idle", "", "s", cwd=folder)
        check("serve --idle with an empty value", (why, 2), empty[1:])
        check("serve --idle with an empty value: nothing is made", [], os.listdir(folder))
    right = ["--idle 86400", "--idle=+86400", "--segment 65536 --idle 0086400 --abort-on-close"]
    right += ["--early", "--early --abort-on-close --segment 65536 --idle 86400"]
    for words in [*right, "--idle 86400 --segment 65536"]:
        with home() as it:
            server = it.start(*words.split())
            check("serve " + words, ["begun 1"], server.ask("begin A"))
            server.end()
