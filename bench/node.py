"""A node in a process of its own, of which the system tells what each asking takes. So bench/queries, again, parse and extremes measure.

Seconds are those of the processor. They are read while the process waits for its next command, so that all of an asking is in them:
reading the query, writing the text of its answer into a pipe, and giving memory back.
"""
import contextlib
import pathlib
import re
import subprocess
import sys
import threading
import time

sys.path.insert(0, str(pathlib.Path(__file__).resolve().parent.parent / "tests"))
import scripts

# Seconds from one look at whether a process waits to the next.
LOOK_SECONDS = 1e-4


def segment(first, last, different=False):
    """The segment of some rows, ten a day, with one of ten shops or a shop of its own in each."""
    shops = (b"shop %d" % (row * 7919 % 1_000_003) if different else b"%c" % (97 + row * 7919 % 10) for row in range(first, last))
    lines = [b"day,shop,amount"]
    lines.extend(b"%d,%s,%d" % (row // 10, shop, row * 104_729 % 1_000) for row, shop in enumerate(shops, first))
    return b"\n".join(lines) + b"\n"


class Node:
    """A node of a program, which takes segments and is asked. Another reply than is wanted ends the benchmark and tells it."""

    def __init__(self, program):
        self.process = subprocess.Popen([program], stdin=subprocess.PIPE, stdout=subprocess.PIPE)
        self.folder = pathlib.Path(f"/proc/{self.process.pid}")

    def __enter__(self):
        return self

    def __exit__(self, failed, *_):
        if failed:
            self.process.kill()
        self.process.communicate()
        if not failed:
            self.has_status(0)

    def take(self, segments):
        """Gives it segments, one after another in time."""
        taken = (scripts.segment(b"east", number, content) for number, content in enumerate(segments, 1))
        self.run(scripts.declaration() + b"".join(taken), [(b"ok",)] + [(b"taken",)] * len(segments))

    def ask(self, query, times=1):
        """Seconds of the processor that a query takes with its answer, the mean of so many times in a row."""
        before = self.spent()
        self.run(scripts.query(query) * times, [(b"answer",)] * times)
        return (self.spent() - before) / times

    def run(self, script, replies):
        """Runs a script of which each reply begins with one of some words, and waits until the process does. The last reply's line."""
        # replies are read while the script is written, since either may fill its pipe
        writer = threading.Thread(target=self.write, args=(script,))
        writer.start()
        for wanted in replies:
            line = self.process.stdout.readline()
            word, _, rest = line.rstrip(b"\n").partition(b" ")
            if word not in wanted:
                sys.exit(f"a node replied {line.decode()!r}, and {b' or '.join(wanted).decode()!r} was wanted")
            if word == b"answer":
                self.process.stdout.read(int(rest))
        writer.join()
        while self.counted()[0] != "S":
            self.has_status(None)
            time.sleep(LOOK_SECONDS)
        return line.decode().rstrip()

    def write(self, script):
        with contextlib.suppress(BrokenPipeError):  # the reply that is missing is told
            self.process.stdin.write(script)
            self.process.stdin.flush()

    def has_status(self, wanted):
        """Ends the benchmark where the process ended with another status, or ended at all and None is wanted."""
        if self.process.poll() != wanted:
            sys.exit(f"{self.process.args[0]} ended with status {self.process.returncode}")

    def counted(self):
        """What the system counts of the process, from its state on: see proc_pid_stat(5)."""
        return (self.folder / "stat").read_text().rpartition(")")[2].split()

    def spent(self):
        """Seconds of the processor so far."""
        return int((self.folder / "schedstat").read_text().split()[0]) / 1e9

    def pages(self):
        """How many pages the system gave so far."""
        return int(self.counted()[7])

    def peak(self):
        """The most bytes so far."""
        return int(re.search(r"VmHWM:\s+(\d+) kB", (self.folder / "status").read_text())[1]) * 1024
