"""For scripts/data.py and what belongs to it: checks that are counted, the program, servers of a folder, and connections
to them."""
import contextlib
import os
import signal
import socket
import subprocess
import tempfile
import time

HEAD = ["# ssi log 1 segment 1", "# loaded"]
SECONDS = 120  # a wait that is longer counts as no reply
NOTHING = "(no reply)"
SIGNALS = {"kill": signal.SIGKILL, "term": signal.SIGTERM}


class Tried:
    """The program that is tried, and how many checks have passed and failed."""

    program, passed, failed = "", 0, 0


def check(name, wanted, got):
    if wanted == got:
        Tried.passed += 1
    else:
        Tried.failed += 1
        print("%s: wanted %s\ngot %s" % (name, str(wanted)[:2000], str(got)[:2000]), flush=True)


def is_counted(line, reply):
    """Whether the log has a line with this reply."""
    return reply[0] not in "!?" and line not in ("stat", "dump", "stop")


def run(*arguments, given=b"", wrap=(), cwd=None):
    """What a program that ends at once writes to standard output, the last line of standard error, and its status."""
    try:
        ran = subprocess.run([*wrap, *arguments], input=given, capture_output=True, timeout=SECONDS, cwd=cwd)
    except subprocess.TimeoutExpired:
        return "", "", "it doesn't end"
    said = ran.stderr.decode("latin-1").splitlines()
    return ran.stdout.decode("latin-1"), said[-1] if said else "", ran.returncode


def scripted(lines):
    """The replies of `ssi script` to the lines, its history, and the verdict on that with its certificate."""
    given = "".join(line + "\n" for line in lines).encode("latin-1")
    with tempfile.TemporaryDirectory(prefix="data-") as folder:
        texts = [os.path.join(folder, name) for name in ("history", "certificate")]
        replies = run(Tried.program, "script", *texts, given=given)[0].splitlines()
        if not all(map(os.path.exists, texts)):
            return replies, "", "no texts"
        with open(texts[0], encoding="latin-1") as history:
            return replies, history.read(), run(Tried.program, "audit", *texts)[0].strip()


class Peer:
    """A connection."""

    def __init__(self, path):
        self.socket, self.rest = socket.socket(socket.AF_UNIX), b""
        self.socket.connect(path)

    def send(self, *lines):
        self.socket.settimeout(SECONDS)
        self.socket.sendall("".join(line + "\n" for line in lines).encode("latin-1"))

    def reply(self, seconds=SECONDS):
        """The next reply; None once the server has closed the connection."""
        self.socket.settimeout(seconds)
        while b"\n" not in self.rest:
            try:
                part = self.socket.recv(1 << 16)
            except TimeoutError:
                return NOTHING
            except ConnectionError:
                part = b""
            if not part:
                return None
            self.rest += part
        line, self.rest = self.rest.split(b"\n", 1)
        return line.decode("latin-1")

    def ask(self, *lines):
        """The replies to lines that are sent together."""
        self.send(*lines)
        return [self.reply() for _ in lines]

    def close(self):
        self.socket.close()


class Server:
    """A server of a home."""

    running = []

    def __init__(self, home, options=(), wrap=(), prepare=None, waits=True):
        self.home = home
        self.said_at = tempfile.TemporaryFile()
        command = [*wrap, home.program, "serve", "--data", home.data, *options, home.socket]
        self.process = subprocess.Popen(
            command, stdin=subprocess.DEVNULL, stdout=self.said_at, stderr=self.said_at, preexec_fn=prepare
        )
        Server.running.append(self.process)
        if waits:
            self.ask("stat")

    def peer(self):
        """A connection, as soon as the server listens."""
        ends = time.monotonic() + SECONDS
        while time.monotonic() < ends and self.process.poll() is None:
            with contextlib.suppress(FileNotFoundError, ConnectionRefusedError, BlockingIOError):
                return Peer(self.home.socket)
            time.sleep(0.005)
        raise RuntimeError("nobody listens: " + " ".join(self.said()))

    def ask(self, *lines):
        peer = self.peer()
        replies = peer.ask(*lines)
        peer.close()
        return replies

    def said(self):
        """The lines on standard error."""
        self.said_at.seek(0)
        return self.said_at.read().decode("latin-1").splitlines()

    def wait(self):
        try:
            return self.process.wait(SECONDS)
        except subprocess.TimeoutExpired:
            self.process.kill()
            self.process.wait()
            return "it doesn't end"

    @staticmethod
    def kill_all():
        """No server outlives this process."""
        for process in Server.running:
            if process.poll() is None:
                process.kill()

    def end(self, way="stop"):
        if way == "stop":
            check("the reply to stop", ["stopped"], self.ask("stop"))
            check("the status after stop", 0, self.wait())
            check("no socket after stop", False, os.path.exists(self.home.socket))
        else:
            self.process.send_signal(SIGNALS[way])
            check("the status after a signal", -SIGNALS[way], self.wait())


class Home:
    """A folder of a server, with a path for its socket beside it. If the server has another view of the files, this one
    sees it under `root`."""

    def __init__(self, top, root=""):
        self.top, self.root, self.program = top, root, Tried.program
        self.data, self.socket = os.path.join(top, "data"), os.path.join(top, "socket")

    def start(self, *options, **how):
        return Server(self, options, **how)

    def path(self, name):
        return self.root + os.path.join(self.data, name)

    def content(self):
        with open(self.path("00000001.log"), "rb") as file:
            return file.read()

    def text(self):
        """The text of the log: what stands before the first zero."""
        return self.content().split(b"\0", 1)[0]

    def lines(self):
        """The whole lines of the log."""
        return self.text().decode("latin-1").split("\n")[:-1]

    def check_end(self, name):
        """The log ends with a line, and zeros follow it."""
        content, text = self.content(), self.text()
        check(name + ": the last line is whole", b"\n", text[-1:])
        check(name + ": zeros follow it", (True, 0), (len(content) > len(text), len(content[len(text) :].strip(b"\0"))))

    def put(self, text, behind=4096 * b"\0", number=1):
        """Makes the folder with a log of this text."""
        os.makedirs(self.data, mode=0o700, exist_ok=True)
        for name, content in ("lock", b""), ("%08d.log" % number, text + behind):
            with open(self.path(name), "wb") as file:
                file.write(content)

    def put_lines(self, *lines, torn=b"", behind=4096 * b"\0"):
        self.put("".join(line + "\n" for line in [*HEAD, *lines]).encode("latin-1") + torn, behind)

    def snapshot(self):
        """All that is in the folder but its lock, each with its rights and its bytes."""
        found = {}
        for name in os.listdir(self.root + self.data):
            with open(self.path(name), "rb") as file:
                found[name] = oct(os.stat(self.path(name)).st_mode), file.read()
        found.pop("lock", None)
        return found

    def refused(self, name, reason, wrap=()):
        """The server ends with status 3 and says this, or anything if it is None, and nothing has changed."""
        before = self.snapshot() if os.path.isdir(self.data) else None
        server = self.start(wrap=wrap, waits=False)
        with contextlib.suppress(RuntimeError):  # it has ended, as it should
            server.peer()
            server.process.kill()
        status, said = server.wait(), (server.said() or [""])[-1]
        fault = "ssi: data fault: %s: " % self.data
        begins = said.startswith(fault) and len(said) > len(fault)
        check(name, (3, True, reason), (status, begins, said[len(fault) :] if reason else None))
        check(name + ": nothing has changed", before, self.snapshot() if os.path.isdir(self.data) else None)
        check(name + ": no socket", False, os.path.lexists(self.socket))


@contextlib.contextmanager
def home():
    with tempfile.TemporaryDirectory(prefix="data-") as top:
        yield Home(top)
