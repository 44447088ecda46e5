#!/usr/bin/python3
"""Records what concurrent transactions of a PostgreSQL server read and write, as a history text (docs/formats.md).

    examples/postgres/record.py serializable > history

It starts a server of its own in a new folder, on a Unix socket there, and removes both at the end, also if a signal ends it
early; then it writes no history. It needs the server's programs and the client library psycopg2. On Debian, and with
Debian's Python (/usr/bin/python3):

    apt-get install postgresql python3-psycopg2

Where root runs it, the server runs as the user `postgres`: it refuses to run as root.

How the record comes to be exact:
- Each row carries the version that it holds: the number of the transaction that wrote it, and which of that
  transaction's writes of the key it is. So a read names its version, and nothing is guessed from values.
- A deleted key keeps its row, without a value: a dead version, which scans go on listing.
- Each write counts the row's `seq` up. A row that a transaction has written is locked until that transaction ends,
  so the last `seq` of each committed writer gives the version order of the key.
- A session notes an event when it has the server's answer, and before it sends its next statement. So a write
  stands in the list before its transaction commits, and with that before anyone else can read it.
- A transaction that the server ends by a serialization failure or as a deadlock's victim, at whatever statement, is
  recorded as aborted; a failed statement itself leaves no event.
"""
import argparse
import concurrent.futures
import contextlib
import glob
import os
import pwd
import random
import shutil
import signal
import subprocess
import sys
import tempfile
import threading
import time

try:
    import psycopg2
    from psycopg2.errors import DeadlockDetected, SerializationFailure
except ImportError:
    sys.exit("record.py: no psycopg2: apt-get install python3-psycopg2, and run this by /usr/bin/python3")

LEVELS = ["serializable", "repeatable-read", "read-committed"]

TABLE = 'CREATE TABLE kv (k text COLLATE "C" PRIMARY KEY, v text, txn bigint, m int, seq int)'

ROWS = "SELECT k, v, txn, m FROM kv WHERE k BETWEEN %s AND %s ORDER BY k"

PUT = """INSERT INTO kv VALUES (%s, %s, %s, %s, 1) ON CONFLICT (k) DO UPDATE
SET v = excluded.v, txn = excluded.txn, m = excluded.m, seq = kv.seq + 1 RETURNING seq"""


def options():
    p = argparse.ArgumentParser(description=__doc__.split("\n")[0])
    p.add_argument("level", choices=LEVELS, help="the isolation level")
    p.add_argument("--transactions", type=int, default=96, help="shared out among the sessions")
    p.add_argument("--sessions", type=int, default=6, help="connections, each with one transaction at a time")
    p.add_argument("--keys", type=int, default=12)
    p.add_argument("--seed", type=int, default=1, help="of what is asked for; the timing differs from run to run")
    return p.parse_args()


def programs():
    """The folder of the newest server's programs."""
    folders = glob.glob("/usr/lib/postgresql/*/bin")
    if folders:
        return max(folders, key=lambda folder: float(folder.split("/")[-2]))
    found = shutil.which("initdb")
    if found is None:
        sys.exit("record.py: no PostgreSQL server: apt-get install postgresql")
    return os.path.dirname(found)


def user_of_server():
    """The words before a server's program that have it run as another user than root."""
    if os.geteuid() != 0:
        return []
    try:
        pwd.getpwnam("postgres")
    except KeyError:
        sys.exit("record.py: the server doesn't run as root, and there is no user postgres")
    return ["runuser", "-u", "postgres", "--"]


def ended(command, folder):
    """Runs a command to its end, also if a signal comes, since it would go on in the folder. Returns its status."""
    child = subprocess.Popen(command, stdout=subprocess.DEVNULL, cwd=folder)
    try:
        return child.wait()
    except SystemExit:
        child.wait()
        raise


@contextlib.contextmanager
def server():
    """A new server while the block runs; gives the folder of its socket."""
    folder, as_user = programs(), user_of_server()
    home = tempfile.mkdtemp(prefix="record-")
    data, log = os.path.join(home, "data"), os.path.join(home, "log")

    def run(program, *words):
        command = [*as_user, os.path.join(folder, program), *words]
        if ended(command, home) != 0:
            if os.path.exists(log):
                sys.stderr.write(open(log).read())
            sys.exit("record.py: this failed: " + " ".join(command))

    try:
        if as_user:
            shutil.chown(home, "postgres")
        run("initdb", "-D", data, "-U", "postgres", "-A", "trust", "-E", "UTF8", "--no-locale", "--no-sync")
        try:
            run("pg_ctl", "-D", data, "-l", log, "-o", "-k %s -c listen_addresses='' -c fsync=off" % home, "-w", "start")
            yield home
        finally:
            if os.path.exists(os.path.join(data, "postmaster.pid")):
                run("pg_ctl", "-D", data, "-m", "fast", "-w", "stop")
    finally:
        shutil.rmtree(home)


def connect(home):
    connection = psycopg2.connect(host=home, user="postgres", dbname="postgres")
    connection.autocommit = True  # BEGIN and COMMIT are sent as they stand below
    return connection


class Recording:
    """The events of all sessions in one list, and who installed which version of a key."""

    def __init__(self):
        self.lock = threading.Lock()
        self.lines = []
        self.begun = 0
        self.installed = {}  # key -> [(seq, transaction)]
        self.stopped = False  # by a signal: sessions begin no more transactions

    def begin(self):
        with self.lock:
            self.begun += 1
            return self.begun

    def note(self, line):
        with self.lock:
            self.lines.append(line)

    def install(self, number, writes):
        with self.lock:
            self.lines.append("c%d" % number)
            for key, (_, seq) in writes.items():
                self.installed.setdefault(key, []).append((seq, number))


class Transaction:
    """One transaction of a session: what it asks of the server, and what it notes of the answers."""

    def __init__(self, recording, cursor, level):
        self.recording, self.cursor = recording, cursor
        self.writes = {}  # key -> (how often it was written, seq of the last write)
        self.number = recording.begin()
        cursor.execute("BEGIN ISOLATION LEVEL " + level.replace("-", " ").upper())

    def rows(self, low, high):
        self.cursor.execute(ROWS, (low, high))
        return self.cursor.fetchall()

    def note_scan(self, low, high, rows):
        entries = "".join(";%s.%d:%d,%s" % (k, txn, m, "!" if v is None else v) for k, v, txn, m in rows)
        self.recording.note("s%d(%s,%s%s)" % (self.number, low, high, entries))

    def scan(self, low, high):
        self.note_scan(low, high, self.rows(low, high))

    def get(self, key):
        rows = self.rows(key, key)
        if rows and rows[0][1] is not None:
            _, v, txn, m = rows[0]
            self.recording.note("r%d(%s.%d:%d,%s)" % (self.number, key, txn, m, v))
        else:  # that nothing was found is known of the key alone
            self.note_scan(key, key, rows)

    def put(self, key, value):
        m = self.writes[key][0] + 1 if key in self.writes else 1
        self.cursor.execute(PUT, (key, value, self.number, m))
        self.writes[key] = (m, self.cursor.fetchone()[0])
        if value is None:
            self.recording.note("d%d(%s.%d:%d)" % (self.number, key, self.number, m))
        else:
            self.recording.note("w%d(%s.%d:%d,%s)" % (self.number, key, self.number, m, value))

    def commit(self):
        self.cursor.execute("COMMIT")
        if self.cursor.statusmessage != "COMMIT":
            raise RuntimeError("asked to commit, the server answered " + self.cursor.statusmessage)
        self.recording.install(self.number, self.writes)

    def abort(self):
        self.cursor.execute("ROLLBACK")
        self.recording.note("a%d" % self.number)


def work(transaction, rng, keys):
    """A few operations with pauses; the reads come first, so that others overwrite what was read before it commits."""
    for _ in range(rng.randint(1, 3)):
        if rng.random() < 0.3:
            low = rng.randrange(len(keys))
            transaction.scan(keys[low], keys[min(low + rng.randint(1, 3), len(keys) - 1)])
        else:
            transaction.get(rng.choice(keys))
        time.sleep(rng.uniform(0, 0.004))
    for _ in range(rng.randint(0, 2)):
        key = rng.choice(keys)
        transaction.put(key, None if rng.random() < 0.2 else str(rng.randrange(100)))
        if rng.random() < 0.2:
            transaction.get(key)
        time.sleep(rng.uniform(0, 0.004))


def session(home, recording, o, number):
    """The session's share of the transactions, one after the other."""
    rng = random.Random("%d.%d" % (o.seed, number))
    keys = names(o)
    with contextlib.closing(connect(home)) as connection, connection.cursor() as cursor:
        for _ in range(o.transactions // o.sessions):
            if recording.stopped:
                return
            transaction = Transaction(recording, cursor, o.level)
            try:
                work(transaction, rng, keys)
                if rng.random() < 0.05:
                    transaction.abort()
                else:
                    transaction.commit()
            except (SerializationFailure, DeadlockDetected):
                transaction.abort()


def names(o):
    return ["k%02d" % i for i in range(o.keys)]


def load(home, recording, o):
    """The table, and every second key, written by transaction 1; gives the server's version."""
    with contextlib.closing(connect(home)) as connection, connection.cursor() as cursor:
        version = connection.get_parameter_status("server_version")
        cursor.execute(TABLE)
        transaction = Transaction(recording, cursor, o.level)
        for key in names(o)[::2]:
            transaction.put(key, "0")
        transaction.commit()
    return version


def orders_and_finals(home, recording):
    """The lines behind the events; the server's last versions must be those of the record."""
    orders = {key: [number for _, number in sorted(writers)] for key, writers in sorted(recording.installed.items())}
    with contextlib.closing(connect(home)) as connection, connection.cursor() as cursor:
        cursor.execute("SELECT k, v, txn FROM kv ORDER BY k")
        rows = cursor.fetchall()
    if [(k, txn) for k, _, txn in rows] != [(k, writers[-1]) for k, writers in orders.items()]:
        raise RuntimeError("the table's last versions aren't those that were recorded")
    return (["[%s:%s]" % (k, "<<".join(map(str, writers))) for k, writers in orders.items()]
            + ["{%s,%s}" % (k, v) for k, v, _ in rows if v is not None])


def end_at_signals(recording):
    """A signal that asks for the end goes through the blocks that remove the server."""
    signals = (signal.SIGTERM, signal.SIGINT, signal.SIGHUP)

    def end(number, _):
        for it in signals:
            signal.signal(it, signal.SIG_IGN)
        recording.stopped = True
        sys.exit(128 + number)

    for it in signals:
        signal.signal(it, end)


def main():
    o = options()
    recording = Recording()
    end_at_signals(recording)
    with server() as home:
        version = load(home, recording, o)
        with concurrent.futures.ThreadPoolExecutor(o.sessions) as pool:
            runs = [pool.submit(session, home, recording, o, i) for i in range(o.sessions)]
        for run in runs:
            run.result()
        ending = orders_and_finals(home, recording)
    print("\n".join(["adya 1", *recording.lines, *ending, "end"]))
    committed = sum(line[0] == "c" for line in recording.lines)
    summary = "PostgreSQL %s, %s: %d transactions, %d committed"
    print(summary % (version, o.level, recording.begun, committed), file=sys.stderr)


if __name__ == "__main__":
    main()
