"""A server of `ssi serve --data`, for bench/data/memory and bench/data/segments."""
import os
import socket
import subprocess
import time


class Server:
    def __init__(self, program, folder, *words):
        self.socket = os.path.join(folder, "socket")
        self.data = os.path.join(folder, "data")
        begun = time.monotonic()
        self.process = subprocess.Popen(
            [program, "serve", "--data", self.data, *words, self.socket], stderr=subprocess.PIPE, text=True)
        self.said = self.process.stderr.readline()
        self.start = time.monotonic() - begun

    def connection(self):
        peer = socket.socket(socket.AF_UNIX)
        peer.connect(self.socket)
        return peer, peer.makefile("rb")

    def logs(self):
        """The names of the segments, the first one first."""
        return sorted(name for name in os.listdir(self.data) if name.endswith(".log"))

    def segments(self):
        return len(self.logs())

    def last(self):
        """The number of the last segment."""
        return int(self.logs()[-1][:8])

    def remove_finished(self):
        for name in self.logs()[:-1]:
            os.remove(os.path.join(self.data, name))

    def status(self, field):
        with open("/proc/%d/status" % self.process.pid) as status:
            return next(int(line.split()[1]) * 1024 / 1e6 for line in status if line.startswith(field))

    def memory(self):
        """The memory that it has, in megabytes."""
        return self.status("VmRSS")

    def peak(self):
        """The most memory that it had, in megabytes."""
        return self.status("VmHWM")

    def end(self):
        self.process.kill()
        self.process.wait()
