"""The histories that bench/run and bench/rejected measure."""
import os
import shutil
import subprocess
import sys

HERE = os.path.dirname(os.path.abspath(__file__))

SCANS = ["--scans", "--deletes"]
HOT = ["--keys", "20", "--sessions", "2", "--whole-scans", "--deletes"]


class History:
    """A kind of generated history. The bounds of bench/run are meant for accepted ones on 20,000 keys."""

    def __init__(self, name, options, is_meant=True, skews=0):
        self.name, self.options, self.is_meant, self.skews = name, options, is_meant, skews

    def write(self, folder, size):
        """Its files: the history, the certificate, and both in one."""
        files = [os.path.join(folder, "%s-%d.%s" % (self.name, size, part)) for part in ("history", "serial", "both")]
        if not os.path.exists(files[2]):
            skews = ["--skews", str(max(1, size * self.skews // 1000))] if self.skews else []
            arguments = [sys.executable, os.path.join(HERE, "generate.py"), "--transactions", str(size)]
            subprocess.run(arguments + self.options + skews + files[:2], check=True, stderr=subprocess.DEVNULL)
            with open(files[2], "wb") as out:
                for part in files[:2]:
                    with open(part, "rb") as given:
                        shutil.copyfileobj(given, out)
        return files


ACCEPTED = [History("plain", []), History("scans", SCANS), History("hot", HOT, is_meant=False)]
# one write skew for each thousand transactions
SKEWED = History("skewed", ["--sessions", "1"], is_meant=False, skews=1)
