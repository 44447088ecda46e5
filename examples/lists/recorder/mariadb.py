"""A MariaDB server of the recorder's own, and its clients."""
import contextlib
import os
import shutil
import socket
import subprocess
import sys
import time

from common import Aborted, Lost, OverSocket, as_user, new_folder, run

try:
    import pymysql
except ImportError:
    sys.exit("record.py: no pymysql: apt-get install python3-pymysql, and run this by /usr/bin/python3")

NAME = "MariaDB"
SNAPSHOT = "snapshot-isolation"  # repeatable-read with innodb_snapshot_isolation, which is off by default in 10.11
LEVELS = ["serializable", SNAPSHOT, "repeatable-read", "read-committed", "read-uncommitted"]

# 1213: a deadlock, and 1020: with snapshot isolation, a write of what changed since; both end the transaction.
# 1205: a statement waited too long for a lock, and the transaction is still there; the client rolls it back.
REFUSALS = {1213: "deadlock", 1020: "record-changed", 1205: "lock-wait-timeout"}


def program(name):
    found = shutil.which(name, path=os.environ.get("PATH", "") + ":/usr/sbin")
    if found is None:
        sys.exit("record.py: no %s: apt-get install mariadb-server" % name)
    return found


@contextlib.contextmanager
def server(level):
    """A new server while the block runs. Gives a function that connects a client, and the server's version."""
    user = "mysql"
    as_user(user)  # ends here if there is no such user
    with new_folder(user) as home:
        data, path, log = (os.path.join(home, name) for name in ("data", "socket", "log"))
        run([program("mariadb-install-db"), "--no-defaults", "--datadir=" + data, "--skip-test-db",
             "--auth-root-authentication-method=normal"], home, user)
        process = subprocess.Popen(
            [program("mariadbd"), "--no-defaults", "--datadir=" + data, "--socket=" + path, "--skip-networking",
             "--pid-file=" + os.path.join(home, "pid"), "--log-error=" + log, "--innodb-flush-log-at-trx-commit=0"],
            cwd=home, stdout=subprocess.DEVNULL, stderr=subprocess.DEVNULL, **as_user(user))
        try:
            wait_for(path, process, log)
            with contextlib.closing(Client(path, level)) as client:
                client.execute("CREATE DATABASE record")
                client.execute("CREATE TABLE record.lists (k INT PRIMARY KEY, val TEXT) ENGINE=InnoDB")
                client.execute("SELECT VERSION()")
                version = client.cursor.fetchone()[0].split("-")[0]
            yield lambda: Client(path, level, "record"), version
        finally:
            process.terminate()
            process.wait()


def wait_for(path, process, log):
    """Waits until the server takes connections."""
    for _ in range(600):
        if process.poll() is not None:
            break
        with contextlib.suppress(OSError), contextlib.closing(socket.socket(socket.AF_UNIX)) as trial:
            trial.connect(path)
            return
        time.sleep(0.1)
    with open(log, encoding="utf-8") as file:
        sys.exit("record.py: the server doesn't start:\n" + file.read())


class Client(OverSocket):
    """A connection. Its statements are sent as they stand here."""

    BEGIN = "START TRANSACTION"
    APPEND = "INSERT INTO lists VALUES (%s, %s) ON DUPLICATE KEY UPDATE val = CONCAT(val, ',', VALUES(val))"

    def __init__(self, path, level, database=None):
        self.connection = pymysql.connect(user="root", database=database, autocommit=True, defer_connect=True)
        self.socket = socket.socket(socket.AF_UNIX)
        self.socket.connect(path)
        self.connection.connect(self.socket)
        self.cursor = self.connection.cursor()
        if level == SNAPSHOT:
            self.execute("SET SESSION innodb_snapshot_isolation = ON")
            level = "repeatable-read"
        self.execute("SET SESSION TRANSACTION ISOLATION LEVEL " + level.replace("-", " ").upper())

    def execute(self, statement, values=()):
        try:
            self.cursor.execute(statement, values)
        except pymysql.MySQLError as error:
            number = error.args[0]
            if number in REFUSALS:
                raise Aborted(REFUSALS[number]) from None
            if number in (0, 2006, 2013):
                raise Lost() from None
            raise

    def close(self):
        with contextlib.suppress(pymysql.MySQLError):
            self.connection.close()
        self.socket.close()
