#!/usr/bin/env python3
"""Moves money between accounts of the store, by several clients at once, and has the store's history audited.

    examples/store/client.py crates/ssi/out/ssi

It starts `ssi serve --concurrent` in a new folder. Each client is a thread with a connection of its own. Exit status: 0 if
no money was lost, nobody is in debt, and the audit says `yes`.
"""
import os
import random
import socket
import subprocess
import sys
import tempfile
import threading
import time

OWNERS, START = ["ann", "bob", "eve"], 100  # each owner has two accounts, such as ann_1 and ann_2
CLIENTS, TRANSFERS = 5, 200


class Aborted(Exception):
    """The store has aborted the transaction, to keep the others serializable: begin again."""


class Store:
    """A connection with one session. Its name must be that of no other client."""

    def __init__(self, path, session):
        self.session = session
        self.socket = socket.socket(socket.AF_UNIX)
        for _ in range(500):  # until the server listens
            if self.socket.connect_ex(path) == 0:
                break
            time.sleep(0.01)
        self.replies = self.socket.makefile()

    def ask(self, command, *words):
        """Sends a command, and returns the words of its reply."""
        self.socket.sendall((" ".join((command, self.session) + words) + "\n").encode())
        reply = self.replies.readline().split()
        if not reply or reply[0] in ("!", "?"):
            raise RuntimeError("the reply to %s is %s" % (command, reply))
        if reply[0] in ("conflict", "unsafe"):
            raise Aborted(reply[0])
        return reply

    def balances(self, owner):
        rows = self.ask("scan", owner + "_1", owner + "_2")[2:]  # of `rows 2 ann_1,100 ann_2,100`
        return {key: int(balance) for key, balance in (row.split(",") for row in rows)}

    def run(self, transaction):
        """Runs the transaction, again and again until it commits, and returns how often it was aborted."""
        aborts = 0
        while True:
            try:
                self.ask("begin")
                transaction(self)
                self.ask("commit")
                return aborts
            except Aborted:
                aborts += 1


def transfer(store, payer, payee, amount):
    """Moves money, if the payer has as much.

    An account may be overdrawn, as long as the payer's two accounts together aren't. A transfer reads both and writes
    one of them. So under snapshot isolation alone two transfers could spend the same money: a write skew.
    """
    own = store.balances(payer)
    source, target = payer + random.choice(["_1", "_2"]), payee + random.choice(["_1", "_2"])
    if sum(own.values()) >= amount:
        balance = int(store.ask("get", target)[1])
        store.ask("put", source, str(own[source] - amount))
        store.ask("put", target, str(balance + amount))


def work(path, session, aborts):
    """The transfers of one client."""
    store = Store(path, session)
    for _ in range(TRANSFERS):
        payer, payee = random.sample(OWNERS, 2)
        amount = random.randint(1, 150)
        aborts.append(store.run(lambda store: transfer(store, payer, payee, amount)))


def open_accounts(store):
    for owner in OWNERS:
        store.ask("put", owner + "_1", str(START))
        store.ask("put", owner + "_2", str(START))


def run(path):
    """Runs the clients, and returns whether all the money is still there and nobody is in debt."""
    store, aborts, owned = Store(path, "main"), [], {}
    store.run(open_accounts)
    clients = [threading.Thread(target=work, args=(path, "client%d" % i, aborts)) for i in range(CLIENTS)]
    for client in clients:
        client.start()
    for client in clients:
        client.join()
    store.run(lambda store: owned.update((owner, sum(store.balances(owner).values())) for owner in OWNERS))
    print("%d transfers, of which some were tried again: %d times" % (len(aborts), sum(aborts)))
    print("%s; together %d" % (owned, sum(owned.values())))
    store.socket.sendall(b"stop\n")
    is_complete = len(aborts) == CLIENTS * TRANSFERS
    return is_complete and sum(owned.values()) == 2 * START * len(OWNERS) and min(owned.values()) >= 0


def main(program):
    with tempfile.TemporaryDirectory() as folder:
        path, history, certificate = [os.path.join(folder, name) for name in ("socket", "history", "certificate")]
        server = subprocess.Popen([program, "serve", "--concurrent", path, history, certificate])
        try:
            is_right = run(path)
            server.wait()  # when it ends, it has written both files
        finally:
            server.kill()
        audit = subprocess.run([program, "audit", history, certificate])
    sys.exit(0 if is_right and server.returncode == 0 and audit.returncode == 0 else 1)


if __name__ == "__main__":
    main(os.path.abspath(sys.argv[1])) if len(sys.argv) == 2 else sys.exit(__doc__)
