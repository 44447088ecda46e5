"""What the recorder's servers have in common."""
import contextlib
import os
import pwd
import shutil
import subprocess
import sys
import tempfile


class Aborted(Exception):
    """The transaction has to be rolled back, and its COMMIT hasn't taken effect. The text says why."""


class Lost(Exception):
    """The connection broke, so nobody knows whether the last statement took effect."""


@contextlib.contextmanager
def new_folder(user=None):
    """A folder that is removed at the end. If root runs this, the folder belongs to the user."""
    home = tempfile.mkdtemp(prefix="record-")
    try:
        if user is not None and os.geteuid() == 0:
            shutil.chown(home, user)
        yield home
    finally:
        shutil.rmtree(home)


def as_user(user):
    """What has `subprocess` run a program as this user, if root runs this: servers refuse to run as root."""
    if os.geteuid() != 0:
        return {}
    try:
        group = pwd.getpwnam(user).pw_gid
    except KeyError:
        sys.exit("record.py: the server doesn't run as root, and there is no user " + user)
    return {"user": user, "group": group, "extra_groups": []}


def run(command, home, user):
    """Runs a program to its end."""
    ran = subprocess.run(command, cwd=home, capture_output=True, text=True, **as_user(user))
    if ran.returncode != 0:
        sys.exit("record.py: this failed: %s\n%s%s" % (" ".join(command), ran.stdout, ran.stderr))


def elements_of(text):
    """The elements of a list that is stored as a text, such as `1,2,3`. `None` is no list yet."""
    return [int(element) for element in text.split(",")] if text else []


class Connection:
    """A client of a server: the statements of a transaction, by an `execute` that sends one and a `cursor` with its answer.
    A class below it has `BEGIN`, and in `APPEND` and `READ` the statements with their parameters."""

    def begin(self):
        self.execute(self.BEGIN)

    def append(self, key, element):
        self.execute(self.APPEND, (key, str(element)))

    def read(self, key):
        self.execute(self.READ, (key,))
        rows = self.cursor.fetchall()
        return elements_of(rows[0][0] if rows else None)

    def commit(self):
        self.execute("COMMIT")

    def rollback(self):
        self.execute("ROLLBACK")


class OverSocket(Connection):
    """One over a `socket`, which can break."""

    READ = "SELECT val FROM lists WHERE k = %s"

    def cut(self, way):
        """Breaks the connection: the way back (`SHUT_RD`), or both ways (`SHUT_RDWR`)."""
        self.socket.shutdown(way)
