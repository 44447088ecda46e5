#!/usr/bin/env python3
"""Tries `ssi serve --concurrent` by many clients at once. Prints what is wrong, and ends with `N passed, M failed`.

    scripts/together.py [--clients N] [--seed N] [PROGRAM]

Most clients run transactions on few keys, some of them many commands at a time, some in sessions that two clients share.
Beside them there are clients that send byte by byte, lines that are no commands or too long, that read late or never, and
that are gone in the middle of a line, also with `--abort-on-close`. The history tells in which order the commands were carried out: each command of a
transaction has made one event, and a transaction's first command is sent with its `begin`. In this order they are given to
`ssi script`, which must reply the same and write the same history. For few clients the replies are compared with
scripts/store_reference.py as well. Then come more connections than are served at once, and more than there are descriptors
for.
"""
import argparse
import asyncio
import os
import random
import re
import resource
import subprocess
import sys
import tempfile

import store_reference

TOP = os.path.dirname(os.path.dirname(os.path.abspath(__file__)))
KEYS = ["k%d" % n for n in range(12)]
MOST_MEMORY = 200 << 20  # of the server; what the clients that don't read have sent is more
SECONDS = 120
passed = failed = 0
log = []  # the commands of transactions: the client, the line, the reply


def check(name, wanted, got):
    global passed, failed
    if wanted == got:
        passed += 1
    else:
        failed += 1
        print("%s: wanted %s\ngot %s" % (name, str(wanted)[:2000], str(got)[:2000]))


class Server:
    """A server in a new folder. Leave it by `stop`."""

    def __init__(self, program, folder, descriptors=4096, options=()):
        self.program = program
        self.socket, self.history, self.certificate = (os.path.join(folder, name) for name in "shc")

        def limit():
            resource.setrlimit(resource.RLIMIT_NOFILE, (descriptors, descriptors))

        self.process = subprocess.Popen(
            [program, "serve", "--concurrent", *options, self.socket, self.history, self.certificate], preexec_fn=limit
        )

    async def connect(self):
        for _ in range(1000):  # until the server listens
            try:
                return Client(*await asyncio.open_unix_connection(self.socket))
            except (FileNotFoundError, ConnectionRefusedError, BlockingIOError):
                await asyncio.sleep(0.01)
        raise RuntimeError("nobody listens")

    def most_memory(self):
        with open("/proc/%d/status" % self.process.pid) as file:
            return int(re.search(r"VmHWM:\s*(\d+) kB", file.read())[1]) << 10

    async def stop(self, client):
        check("stop", "stopped", await client.ask("stop"))
        await asyncio.to_thread(self.process.wait)
        check("the status after stop", 0, self.process.returncode)
        check("no socket is left", False, os.path.exists(self.socket))
        audit = subprocess.run([self.program, "audit", self.history, self.certificate], capture_output=True, text=True)
        check("the verdict", "yes\n", audit.stdout)


class Client:
    """A connection."""

    def __init__(self, reader, writer):
        self.reader, self.writer = reader, writer

    def send(self, text):
        self.writer.write(text if isinstance(text, bytes) else text.encode())

    async def reply(self):
        return (await self.reader.readline()).decode().rstrip("\n")

    async def ask(self, *lines):
        """Sends the lines together, and returns the last reply, or that which ended the transaction."""
        self.send("".join(line + "\n" for line in lines))
        return await self.replies(*lines)

    async def replies(self, *lines):
        """Notes the lines with their replies."""
        last = ""
        for line in lines:
            reply = await self.reply()
            if " " in line:
                log.append((self, line, reply))
            last = last if last and is_over(last) else reply
        return last

    def close(self):
        self.writer.close()


def command(session):
    key, other = random.choice(KEYS), random.choice(KEYS)
    return random.choice(
        [
            "get %s %s" % (session, key),
            "put %s %s %d" % (session, key, random.randint(0, 9)),
            "put %s %s %d" % (session, key, random.randint(0, 9)),
            "del %s %s" % (session, key),
            "scan %s %s %s" % (session, min(key, other), max(key, other)),
            "scan %s %s %s 2" % (session, min(key, other), max(key, other)),
        ]
    )


def is_over(reply):
    return reply.split()[0] in ("conflict", "unsafe", "committed", "aborted")


async def run_transactions(client, name, count):
    """Transactions of one session, in steps of one command or several."""
    for _ in range(count):
        reply = await client.ask("begin " + name, "get %s %s" % (name, random.choice(KEYS)))
        left = [command(name) for _ in range(random.randint(0, 5))]
        left.append(random.choice(["commit", "commit", "commit", "abort"]) + " " + name)
        while left and not is_over(reply):
            some = random.choice([1, 1, len(left)])
            # what follows a command that ended the transaction is refused
            reply, left = await client.ask(*left[:some]), left[some:]


async def run_in_one_go(client, name, count):
    """Whole transactions of two sessions, all sent together."""
    lines = []
    for at in range(count):
        session = "%s_%d" % (name, at % 2)
        lines += ["begin " + session, "get %s %s" % (session, random.choice(KEYS))]
        lines += [command(session) for _ in range(3)] + ["commit " + session]
    await client.ask(*lines)


async def run_shared(first, second, name, count):
    """Transactions that one client begins and another ends."""
    for _ in range(count):
        reply = await first.ask("begin " + name, "get %s %s" % (name, random.choice(KEYS)))
        if not is_over(reply):
            reply = await second.ask(command(name))
        if not is_over(reply):
            await first.ask("commit " + name)


async def send_slowly(client, name):
    """A transaction byte by byte, on a key of its own."""
    for line in ["begin " + name, "put %s %s 1" % (name, name), "get %s %s" % (name, name), "commit " + name]:
        for byte in (line + "\n").encode():
            client.send(bytes([byte]))
            await asyncio.sleep(0.001)
        await client.replies(line)


async def send_rubbish(client):
    """Lines that are no commands, of any length."""
    lines = [bytes(random.choices(range(128, 256), k=random.choice([0, 1, 100, 4096, 4097, 5000]))) for _ in range(60)]
    client.send(b"\n".join(lines) + b"\n")
    wanted = ["? long" if len(line) > 4096 else "? syntax" for line in lines]
    check("replies to rubbish", wanted, [await client.reply() for _ in lines])


async def read_late(client, go_on):
    """Sends a megabyte of lines, and reads their replies when all others are done."""
    client.send(b"x\n" * 500_000)
    await go_on.wait()
    wrong = 0
    for _ in range(500_000):
        wrong += await client.reply() != "? syntax"
    check("replies that were read late", 0, wrong)


def read_never(client):
    client.send(b"x\n" * 10_000_000)


async def leave(client, name):
    """Leaves a transaction open, and is gone in the middle of a line."""
    await client.ask("begin " + name, "get %s %s" % (name, random.choice(KEYS)))
    client.send("put %s %s" % (name, random.choice(KEYS)))
    await client.writer.drain()
    client.close()


async def run_and_leave(client, name):
    """Transactions of a client that then closes its connection."""
    await run_transactions(client, name, 1)
    client.close()


async def run_all(server, count):
    go_on = asyncio.Event()
    tasks, late = [], []
    never = [await server.connect() for _ in range(3)]
    for client in never:
        read_never(client)
    for _ in range(3):
        late.append(asyncio.create_task(read_late(await server.connect(), go_on)))
    for at in range(count):
        client, name = await server.connect(), "c%d" % at
        kind = at % 10
        if kind < 4:
            tasks.append(run_transactions(client, name, 5))
        elif kind == 4:
            tasks.append(run_in_one_go(client, name, 6))
        elif kind == 5:
            second = await server.connect()
            tasks.append(run_shared(client, second, name, 5))
        elif kind == 6:
            tasks.append(send_slowly(client, name))
        elif kind == 7:
            tasks.append(send_rubbish(client))
        elif kind == 8:
            tasks.append(leave(client, name))
        else:
            tasks.append(run_and_leave(client, name))
    await asyncio.gather(*tasks)
    go_on.set()
    await asyncio.gather(*late)
    check("memory is bounded", True, server.most_memory() < MOST_MEMORY)


def in_order(history, aborts):
    """All commands of transactions with their replies, in the order in which they were carried out. If the server aborts what
    clients leave, an abort that nobody sent is among them."""
    running, begins, commands = {}, {}, {}
    for client, line, reply in log:
        word, session = line.split()[:2]
        if word == "begin":
            running[session] = int(reply.split()[1])
            begins[running[session]], commands[running[session]] = (client, line, reply), []
        elif reply != "! 2 idle":
            commands[running[session]].append((client, line, reply))
    order, left = [], sorted(begins)
    for line in history.splitlines()[1:]:
        event = re.match(r"[a-z](\d+)", line)
        if not event:
            break  # the version orders follow
        txn = int(event[1])
        while left and left[0] <= txn:
            order.append(begins[left.pop(0)])
        if commands[txn]:
            order.append(commands[txn].pop(0))
        elif aborts:
            order.append((None, "abort " + begins[txn][1].split()[1], "aborted"))
        # otherwise it is aborted at the end of the run
    check("commands without an event", [], [one for some in commands.values() for one in some])
    return order


def check_order(server, folder, by_reference, aborts):
    with open(server.history) as file:
        history = file.read()
    order = in_order(history, aborts)
    for client in {client for client, _, _ in log}:
        sent = [(line, reply) for one, line, reply in log if one is client and reply != "! 2 idle"]
        check("the order of a client", sent, [(line, reply) for one, line, reply in order if one is client])
    lines, replies = ["".join(words[at] + "\n" for words in order) for at in (1, 2)]
    again = [os.path.join(folder, name) for name in ("again_h", "again_c")]
    ran = subprocess.run([server.program, "script", *again], input=lines, capture_output=True, text=True)
    check("the replies of one session after the other", replies, ran.stdout)
    for path, other in zip((server.history, server.certificate), again):
        with open(path) as file, open(other) as other_file:
            check("a text of the same commands in a script", other_file.read(), file.read())
    if by_reference:
        store = store_reference.Store()
        check("the replies of the reference", replies, "".join(store.take(line) for line in lines.splitlines()))


async def try_clients(program, count, aborts=False, by_reference=False):
    log.clear()
    with tempfile.TemporaryDirectory() as folder:
        server = Server(program, folder, options=["--abort-on-close"] if aborts else [])
        await run_all(server, count)
        last = await server.connect()
        if aborts:
            await wait_for_open(last, 0)
        await server.stop(last)
        check_order(server, folder, by_reference, aborts)


async def wait_for_open(client, count):
    """Waits until so many transactions are open."""
    while not (await client.ask("stat")).startswith("stat open %d " % count):
        await asyncio.sleep(0.01)


async def try_leaving(program, aborts):
    """Of two clients one is killed, with a session of its own, one that the other has used since, and one that it has taken
    over from the other."""
    with tempfile.TemporaryDirectory() as folder:
        server = Server(program, folder, options=["--abort-on-close"] if aborts else [])
        going, staying = await server.connect(), await server.connect()
        await going.ask("begin own", "begin given", "put own k 1")
        await staying.ask("begin taken", "begin other", "get given k")
        await going.ask("get taken k", "nonsense", "collect")
        await wait_for_open(staying, 4)
        going.send("get given ")  # not a whole line
        going.writer.transport.abort()
        await wait_for_open(staying, 2 if aborts else 4)
        for name, is_open in ("own", not aborts), ("given", True), ("taken", not aborts), ("other", True):
            wanted = "absent" if is_open else "! 2 idle"
            check("%s of a client that left" % name, wanted, await staying.ask("get %s absent" % name))
        check("a name that is free again", "begun 5" if aborts else "! 1 busy", await staying.ask("begin own"))
        await staying.ask("commit given")
        staying.close()
        last = await server.connect()
        await wait_for_open(last, 0 if aborts else 3)
        await server.stop(last)
        with open(server.history) as file:
            ends = [line for line in file.read().splitlines() if re.fullmatch(r"[ac]\d+", line)]
        at = ends.index("c2")
        wanted = (["a1", "a3"], ["a4", "a5"]) if aborts else ([], ["a1", "a3", "a4"])
        check("what was aborted before the others ended, and after", wanted, (sorted(ends[:at]), sorted(ends[at + 1 :])))


async def try_limit(program, descriptors, count, served, waiting):
    """Connects more clients than are served at once: the first are served, and the last wait until others have left."""
    with tempfile.TemporaryDirectory() as folder:
        server = Server(program, folder, descriptors)
        clients = [await server.connect() for _ in range(count)]
        for client in clients:
            client.send("stat\n")
        await asyncio.gather(*(client.reply() for client in clients[:served]))
        replies = [asyncio.create_task(client.reply()) for client in clients[-waiting:]]
        done, _ = await asyncio.wait(replies, timeout=0.5)
        check("clients that wait", waiting, len(replies) - len(done))
        for client in clients[:-waiting]:
            client.close()
        check("clients that waited", {"stat open 0 kept 0 versions 0 keys 0"}, set(await asyncio.gather(*replies)))
        await server.stop(clients[-1])


async def main():
    parser = argparse.ArgumentParser(usage=__doc__)
    parser.add_argument("--clients", type=int, default=200)
    parser.add_argument("--seed", type=int, default=1)
    parser.add_argument("program", nargs="?", default=os.path.join(TOP, "crates/ssi/out/ssi"))
    options = parser.parse_args()
    random.seed(options.seed)
    resource.setrlimit(resource.RLIMIT_NOFILE, (4096, resource.getrlimit(resource.RLIMIT_NOFILE)[1]))
    program = os.path.abspath(options.program)
    for _ in range(5):
        await asyncio.wait_for(try_clients(program, 20, by_reference=True), SECONDS)
    await asyncio.wait_for(try_clients(program, options.clients), SECONDS)
    await asyncio.wait_for(try_clients(program, options.clients, aborts=True), SECONDS)
    for aborts in (False, True):
        await asyncio.wait_for(try_leaving(program, aborts), SECONDS)
    await asyncio.wait_for(try_limit(program, 4096, 1100, 1024, 76), SECONDS)
    await asyncio.wait_for(try_limit(program, 64, 100, 50, 40), SECONDS)  # without descriptors for all
    print("%d passed, %d failed" % (passed, failed))
    sys.exit(1 if failed else 0)


if __name__ == "__main__":
    asyncio.run(main())
