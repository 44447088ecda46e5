#!/usr/bin/python3
"""Gives the commands of the examples in this folder to a PostgreSQL server, at the level serializable.

    examples/isolation/postgres.py

For each folder it writes the server's replies to the file `postgres` there: a line for each command, in the words of the
store's own replies, with `refused` for a statement that ends by a serialization failure or as a deadlock's victim. A
statement that waits for another transaction gets its reply when that one has ended. It needs what
examples/postgres/record.py needs, whose server it uses. The table is read by its index alone: read as a whole it would be
locked as a whole, as PostgreSQL does with tables of a few rows, and more would be refused.
"""
import glob
import os
import queue
import sys
import threading

HERE = os.path.dirname(os.path.abspath(__file__))
sys.path.insert(0, os.path.join(os.path.dirname(HERE), "postgres"))
import record  # noqa: E402  (examples/postgres holds it)

PUT = "INSERT INTO rows VALUES (%s, %s) ON CONFLICT (k) DO UPDATE SET v = excluded.v"
SCAN = "SELECT k, v FROM rows WHERE k BETWEEN %s AND %s ORDER BY k"
WAITS = 0.5  # seconds after which a statement counts as one that waits


class Session:
    """A connection whose statements are run by a thread of its own, one after the other."""

    def __init__(self, home):
        self.cursor = record.connect(home).cursor()
        self.cursor.execute("SET enable_seqscan = off; SET enable_bitmapscan = off")
        self.asked, self.is_open = queue.Queue(), False
        threading.Thread(target=self.work, daemon=True).start()

    def work(self):
        while True:
            words, replies, at, done = self.asked.get()
            try:
                replies[at] = self.reply(words)
            except (record.SerializationFailure, record.DeadlockDetected):
                self.cursor.execute("ROLLBACK")
                replies[at], self.is_open = "refused", False
            done.set()

    def reply(self, words):
        kind = words[0]
        if kind == "begin":
            self.cursor.execute("BEGIN ISOLATION LEVEL SERIALIZABLE")
            self.cursor.execute("SELECT 1")  # takes the snapshot
            self.is_open = True
            return "begun"
        if not self.is_open:
            return "! 2 idle"
        if kind == "commit":
            self.cursor.execute("COMMIT")
            self.is_open = False
            return "committed"
        if kind == "put":
            self.cursor.execute(PUT, words[2:])
            return "done"
        if kind == "del":
            self.cursor.execute("DELETE FROM rows WHERE k = %s", words[2:])
            return "done"
        self.cursor.execute(SCAN, (words[2], words[-1]))
        rows = self.cursor.fetchall()
        if kind == "get":
            return "value " + rows[0][1] if rows else "absent"
        return "rows %d%s" % (len(rows), "".join(" %s,%s" % row for row in rows))


def play(home, lines):
    """The replies to the lines, in a new table."""
    with record.connect(home).cursor() as cursor:
        cursor.execute('DROP TABLE IF EXISTS rows; CREATE TABLE rows (k text COLLATE "C" PRIMARY KEY, v text)')
    sessions, waited, replies = {}, [], [None] * len(lines)
    for at, line in enumerate(lines):
        words, done = line.split(), threading.Event()
        session = sessions.setdefault(words[1], None) or Session(home)
        sessions[words[1]] = session
        session.asked.put((words, replies, at, done))
        done.wait(WAITS)
        waited.append(done)
    for done in waited:
        if not done.wait(30):
            sys.exit("postgres.py: a statement waits for ever")
    return replies


def main():
    with record.server() as home:
        for folder in sorted(glob.glob(os.path.join(HERE, "*", ""))):
            with open(folder + "commands", encoding="ascii") as file:
                lines = file.read().splitlines()
            with open(folder + "postgres", "w", encoding="ascii") as file:
                file.writelines(reply + "\n" for reply in play(home, lines))
            print(os.path.basename(folder[:-1]))


if __name__ == "__main__":
    main()
