"""PostgreSQL at the level serializable, to compare with: a server of its own on a Unix socket, a table of keys, and
pgbench with prepared statements. It needs PostgreSQL's server and pgbench. The server doesn't run as root, so if root
starts it, it runs as `postgres`, or as `nobody`.
"""
import contextlib
import glob
import os
import pwd
import re
import shutil
import subprocess
import sys

KEYS = 20000

TABLE = ["CREATE TABLE kv (k int PRIMARY KEY, v text)",
         "INSERT INTO kv SELECT k, '0' FROM generate_series(0, %d) k" % (KEYS - 1), "VACUUM ANALYZE kv"]

TRANSACTION = r"""\set a random(0, %(last)d)
\set b random(0, %(last)d)
\set v random(0, 999999)
BEGIN;
SELECT v FROM kv WHERE k = :a;
UPDATE kv SET v = :v WHERE k = :b;
COMMIT;
""" % {"last": KEYS - 1}

SETTINGS = ["listen_addresses=", "default_transaction_isolation=serializable", "shared_buffers=256MB",
            "max_pred_locks_per_transaction=256"]


def fail(text):
    sys.exit("%s: %s" % (sys.argv[0], text))


class Postgres:
    """A server in a folder, with these settings. `started` has it run for a while; its data stay in between."""

    def __init__(self, home, settings):
        folders = glob.glob("/usr/lib/postgresql/*/bin")
        found = shutil.which("initdb")
        if not folders and not found:
            fail("there is no PostgreSQL server: apt-get install postgresql postgresql-contrib")
        newest = max(folders, key=lambda folder: float(folder.split("/")[-2])) if folders else os.path.dirname(found)
        self.programs, self.settings = newest, [*settings, *SETTINGS]
        self.home, self.data, self.log = home, os.path.join(home, "data"), os.path.join(home, "log")
        self.as_user = self.other_user() if os.geteuid() == 0 else []

    def other_user(self):
        names = {user.pw_name for user in pwd.getpwall()}
        user = next((name for name in ("postgres", "nobody") if name in names), None)
        if user is None:
            fail("the server doesn't run as root, and there is no user `postgres` or `nobody`")
        os.chmod(self.home, 0o755)
        shutil.chown(self.home, user)
        return ["runuser", "-u", user, "--"]

    def run(self, program, *arguments):
        """What a program of PostgreSQL prints."""
        command = [*self.as_user, os.path.join(self.programs, program), *arguments]
        ran = subprocess.run(command, stdout=subprocess.PIPE, stderr=subprocess.STDOUT, text=True, cwd=self.home,
                             stdin=subprocess.DEVNULL)
        if ran.returncode != 0:
            fail("this failed: %s\n%s" % (" ".join(command), ran.stdout))
        return ran.stdout

    def control(self, *arguments):
        """`pg_ctl`, whose server keeps what it is given as output."""
        command = [*self.as_user, os.path.join(self.programs, "pg_ctl"), "-D", self.data, "-w", *arguments]
        if subprocess.run(command, stdout=subprocess.DEVNULL, stderr=subprocess.DEVNULL, cwd=self.home).returncode != 0:
            fail("this failed: " + " ".join(command))

    def create(self):
        """The data of the server, and its table."""
        self.run("initdb", "-D", self.data, "-U", "bench", "-A", "trust", "-E", "UTF8", "--no-locale", "--no-sync")
        with open(os.path.join(self.home, "transaction"), "w", encoding="ascii") as file:
            file.write(TRANSACTION)
        with self.started("fast"):
            statements = [part for statement in TABLE for part in ("-c", statement)]
            self.run("psql", "-h", self.home, "-U", "bench", "-q", *statements, "postgres")

    @contextlib.contextmanager
    def started(self, way):
        """It stops in this way: `fast` writes to the disk what isn't there yet, `immediate` doesn't."""
        settings = " ".join("-c %s" % (one if one[-1] != "=" else one + "''") for one in self.settings)
        self.control("-l", self.log, "-o", "-k %s %s" % (self.home, settings), "start")
        try:
            yield
        finally:
            self.control("-m", way, "stop")

    def measure(self, clients, seconds):
        """How many transactions committed, how many the server aborted, and in how many seconds."""
        said = self.run("pgbench", "-h", self.home, "-U", "bench", "-n", "-M", "prepared", "-c", str(clients),
                        "-j", str(min(clients, os.cpu_count())), "-T", str(seconds),
                        "-f", os.path.join(self.home, "transaction"), "postgres")
        committed = int(re.search(r"transactions actually processed: (\d+)", said)[1])
        aborted = int(re.search(r"failed transactions: (\d+)", said)[1])
        rate = float(re.search(r"tps = ([0-9.]+)", said)[1])
        return committed / rate, committed, aborted

    def version(self):
        return self.run("postgres", "--version").strip() + ", " + ", ".join(self.settings[:3])
