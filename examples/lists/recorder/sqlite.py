"""A SQLite database of the recorder's own, and its clients. It has no server: they are threads of this process."""
import contextlib
import os
import sqlite3

from common import Aborted, Connection, new_folder

NAME = "SQLite"
LEVELS = ["serializable", "read-uncommitted"]

REFUSALS = {sqlite3.SQLITE_BUSY: "busy", sqlite3.SQLITE_LOCKED: "locked"}


@contextlib.contextmanager
def server(level):
    """A new database while the block runs. Gives a function that connects a client, and the version."""
    with new_folder() as home:
        path = os.path.join(home, "lists.db")
        with contextlib.closing(Client(path, level)) as client:
            client.execute("PRAGMA journal_mode = WAL")
            client.execute("CREATE TABLE lists (k INTEGER PRIMARY KEY, val TEXT)")
            yield lambda: Client(path, level), sqlite3.sqlite_version


class Client(Connection):
    """A connection. At read-uncommitted all of them share one cache, and see each other's changes there."""

    BEGIN = "BEGIN"
    APPEND = "INSERT INTO lists VALUES (?, ?) ON CONFLICT (k) DO UPDATE SET val = lists.val || ',' || excluded.val"
    READ = "SELECT val FROM lists WHERE k = ?"

    def __init__(self, path, level):
        shared = level == "read-uncommitted"
        name = "file:%s?cache=%s" % (path, "shared" if shared else "private")
        self.connection = sqlite3.connect(name, uri=True, isolation_level=None)
        self.cursor = self.connection.cursor()
        if shared:
            self.execute("PRAGMA read_uncommitted = 1")

    def execute(self, statement, values=()):
        try:
            self.cursor.execute(statement, values)
        except sqlite3.OperationalError as error:
            primary = error.sqlite_errorcode & 0xFF
            if primary not in REFUSALS:
                raise
            raise Aborted(REFUSALS[primary]) from None

    def rollback(self):
        if self.connection.in_transaction:
            super().rollback()

    def close(self):
        self.connection.close()
