"""What the scripts of this folder share: a command that has run, the least of three, its bounds, and what machine this is."""
import atexit
import os
import shutil
import signal
import statistics
import subprocess
import tempfile
import time

RUNS = 3  # each time is the least of so many


def starter():
    """The program of used.c, in a folder that lasts as long as the measurement."""
    folder = tempfile.mkdtemp(prefix="bench-")
    atexit.register(shutil.rmtree, folder)
    made = os.path.join(folder, "used")
    source = os.path.join(os.path.dirname(os.path.abspath(__file__)), "used.c")
    subprocess.run(["gcc", "-O2", "-o", made, source], check=True)
    return made


class Run:
    """A command that has run: its processor time (user and system), wall time, peak of resident memory, status."""

    starter = None

    def __init__(self, arguments, stdin, stdout, limit):
        Run.starter = Run.starter or starter()
        with open(stdin, "rb") as given, open(stdout, "wb") as out, tempfile.NamedTemporaryFile("r") as report:
            start = time.perf_counter()
            child = subprocess.Popen([Run.starter, report.name] + arguments, stdin=given, stdout=out,
                                     stderr=subprocess.DEVNULL, start_new_session=True)
            signal.signal(signal.SIGALRM, lambda *_: os.killpg(child.pid, signal.SIGKILL))
            signal.alarm(limit)
            child.wait()
            signal.alarm(0)
            self.wall = time.perf_counter() - start
            self.is_late = child.returncode == -signal.SIGKILL
            used, peak, self.status = map(int, report.read().split() or (self.wall * 1e6, 0, 128 + signal.SIGKILL))
        self.time = max(used / 1e6, 0.001)
        self.memory = peak * 1024  # Linux counts in KiB


def least(arguments, stdin, stdout, limit, runs=RUNS):
    """The run with the least processor time of three. One is enough if it ends late or by an unusual status."""
    best = Run(arguments, stdin, stdout, limit)
    for _ in range(runs - 1):
        if best.is_late or best.status not in (0, 1):
            break
        best = min(best, Run(arguments, stdin, stdout, limit), key=lambda run: run.time)
    return best


class Turns:
    """Several commands, each with a file for its answer, and a sort of the lines of a file, run by turns. `best` has the run of
    each command with the least processor time, `sorting` is the least time of the sort, and `times` has for each command the
    median, over the turns, of its time over that of the sort in the same turn: the machine's speed changes from turn to turn."""

    def __init__(self, commands, stdin, answers, sorted_path, limit, runs=2 * RUNS):
        self.best, self.sorting, ratios = [None] * len(commands), None, [[] for _ in commands]
        for _ in range(runs):
            ran = [Run(it, stdin, answer, limit) if self.goes_on(at) else None
                   for at, (it, answer) in enumerate(zip(commands, answers))]
            sorting = sort_time(sorted_path, limit, 1)
            self.sorting = min(sorting, self.sorting or sorting)
            for at, it in enumerate(ran):
                if it:
                    ratios[at].append(it.time / sorting)
                    self.best[at] = min(it, self.best[at] or it, key=lambda run: run.time)
        self.times = [statistics.median(it) for it in ratios]

    def goes_on(self, at):
        """One run is enough if it ends late or with an unusual status."""
        return not self.best[at] or not self.best[at].is_late and self.best[at].status in (0, 1)


def sort_time(path, limit, runs=RUNS):
    """The processor time of sorting the lines of a file."""
    return least(["env", "LC_ALL=C", "sort", "--parallel=1"], path, os.devnull, limit, runs).time


class Bounds:
    """How much a command may take at most: times the sort of what it reads, times what it took for a tenth of the
    transactions, and bytes for each byte that it reads."""

    def __init__(self, time, growth, memory):
        self.time, self.growth, self.memory = time, growth, memory

    def broken(self, ran, times, growth, size_in):
        """The names of those that are broken."""
        broken = ["time"] * (times > self.time)
        broken += ["growth"] * (growth is not None and growth > self.growth)
        return broken + ["memory"] * (ran.memory > self.memory * size_in)

    HEAD = "%8s %8s %7s %8s %6s %7s %8s %7s  bounds" % (
        "time s", "wall s", "MB/s", "peak MB", "B/B", "growth", "sort s", "x sort")

    def row(self, ran, sorting, times, growth, size_in, is_meant):
        """The figures, under HEAD. What is said of the bounds stands in brackets if they aren't meant for this line."""
        broken = self.broken(ran, times, growth, size_in)
        said = "breaks " + ", ".join(broken) if broken else "holds"
        return "%8.3f %8.3f %7.1f %8.1f %6.2f %7s %8.3f %7.2f  %s" % (
            ran.time, ran.wall, size_in / 1e6 / ran.time, ran.memory / 1e6, ran.memory / size_in,
            "%.1f" % growth if growth else "-", sorting, times,
            said if is_meant else "(%s)" % said)


def first_line(arguments):
    try:
        return subprocess.run(arguments, capture_output=True, text=True).stdout.split("\n")[0]
    except OSError:
        return "%s is not here" % arguments[0]


def machine():
    """The lines that begin each measurement."""
    with open("/proc/cpuinfo") as info:
        names = [line.split(":", 1)[1].strip() for line in info if line.startswith("model name")]
    name = names[0] if names else os.uname().machine
    return "machine: %d cores, %s, load %.1f\ntoolchain: %s" % (
        os.cpu_count(), name, os.getloadavg()[0], first_line(["rt", "--version"]))
