"""A PostgreSQL server of the recorder's own, and its clients."""
import contextlib
import glob
import os
import shutil
import socket
import sys

from common import Aborted, Lost, OverSocket, as_user, new_folder, run

try:
    import psycopg2
    from psycopg2.errors import DeadlockDetected, SerializationFailure
except ImportError:
    sys.exit("record.py: no psycopg2: apt-get install python3-psycopg2, and run this by /usr/bin/python3")

NAME = "PostgreSQL"
LEVELS = ["serializable", "repeatable-read", "read-committed"]


def programs():
    """The folder of the newest server's programs."""
    folders = glob.glob("/usr/lib/postgresql/*/bin")
    if folders:
        return max(folders, key=lambda folder: float(folder.split("/")[-2]))
    found = shutil.which("initdb")
    if found is None:
        sys.exit("record.py: no PostgreSQL server: apt-get install postgresql")
    return os.path.dirname(found)


@contextlib.contextmanager
def server(level):
    """A new server while the block runs. Gives a function that connects a client, and the server's version."""
    folder, user = programs(), "postgres"
    as_user(user)  # ends here if there is no such user
    with new_folder(user) as home:
        data, pg_ctl = os.path.join(home, "data"), os.path.join(folder, "pg_ctl")
        initdb = os.path.join(folder, "initdb")
        run([initdb, "-D", data, "-U", user, "-A", "trust", "--no-locale", "--no-sync"], home, user)
        options = "-k %s -c listen_addresses='' -c fsync=off" % home
        run([pg_ctl, "-D", data, "-l", os.path.join(home, "log"), "-o", options, "-w", "start"], home, user)
        try:
            with contextlib.closing(Client(home, level)) as client:
                client.execute("CREATE TABLE lists (k int PRIMARY KEY, val text)")
                version = client.connection.get_parameter_status("server_version").split()[0]
            yield lambda: Client(home, level), version
        finally:
            run([pg_ctl, "-D", data, "-m", "fast", "-w", "stop"], home, user)


class Client(OverSocket):
    """A connection. Its statements are sent as they stand here."""

    APPEND = """INSERT INTO lists VALUES (%s, %s)
    ON CONFLICT (k) DO UPDATE SET val = concat(lists.val, ',', excluded.val)"""

    def __init__(self, home, level):
        self.connection = psycopg2.connect(host=home, user="postgres", dbname="postgres")
        self.connection.autocommit = True
        self.cursor = self.connection.cursor()
        self.socket = socket.socket(fileno=os.dup(self.connection.fileno()))
        self.BEGIN = "BEGIN ISOLATION LEVEL " + level.replace("-", " ").upper()

    def execute(self, statement, values=()):
        try:
            self.cursor.execute(statement, values)
        except SerializationFailure:
            raise Aborted("serialization-failure") from None
        except DeadlockDetected:
            raise Aborted("deadlock") from None
        except (psycopg2.OperationalError, psycopg2.InterfaceError):
            raise Lost() from None

    def commit(self):
        super().commit()
        if self.cursor.statusmessage != "COMMIT":
            raise RuntimeError("asked to commit, the server answered " + self.cursor.statusmessage)

    def close(self):
        self.socket.close()
        self.connection.close()
