"""The built program, and how it is run."""

import os
import shutil
import signal
import subprocess
import sys
import tempfile
from collections import namedtuple
from pathlib import Path

TOP = Path(__file__).resolve().parent.parent
# Modules of these folders are tested, or used in tests.
sys.path += [str(TOP / room) for room in ("bin", "tools", "bench")]
# NBDCHECK names another program that is to be run, as one that was kept aside.
PROGRAM = os.environ.get("NBDCHECK", str(TOP / "crates/nbdcheck/out/nbdcheck"))

# Runs the words and prints their exit status and their peak memory in KiB.
MEASURE = """
import resource, subprocess, sys
status = subprocess.call(sys.argv[1:])
print(status, resource.getrusage(resource.RUSAGE_CHILDREN).ru_maxrss, file=sys.stderr)
"""

# A run's exit status (below 0: the signal that ended it), standard output and standard error.
Ended = namedtuple("Ended", "status out err")


def build():
    """Builds the program where it is older than its sources."""
    if "NBDCHECK" in os.environ:
        return
    subprocess.run([str(TOP / "nbdcheck"), "--version"], check=True, stdout=subprocess.DEVNULL)


def in_memory():
    """A folder for files in memory, where there is one with much room."""
    folder = "/dev/shm"
    if not os.access(folder, os.W_OK):
        return None
    room = os.statvfs(folder)
    return folder if room.f_bavail * room.f_frsize > 2**30 else None


class Room:
    """A folder of files, in memory where that can be, and runs of the program in it."""

    def __init__(self, seconds=60):
        self.seconds = seconds
        self.folder = tempfile.mkdtemp(prefix="nbdcheck-", dir=in_memory())
        self.out, self.err = self.path("stdout"), self.path("stderr")
        self.pid = 0

    def __enter__(self):
        return self

    def __exit__(self, *_):
        shutil.rmtree(self.folder, ignore_errors=True)

    def path(self, name):
        return f"{self.folder}/{name}"

    def put(self, name, data):
        """Writes a file, and answers its path."""
        with open(self.path(name), "wb") as file:
            file.write(data)
        return self.path(name)

    def _stop(self, *_):
        os.kill(self.pid, signal.SIGKILL)

    def run(self, *words, env=None, stdout=None, program=PROGRAM):
        """Runs the program to its end, or kills it when its time is over."""
        out = stdout or self.out
        flags = os.O_WRONLY | os.O_CREAT | os.O_TRUNC
        actions = [
            (os.POSIX_SPAWN_OPEN, 0, "/dev/null", os.O_RDONLY, 0),
            (os.POSIX_SPAWN_OPEN, 1, out, os.O_WRONLY if stdout else flags, 0o644),
            (os.POSIX_SPAWN_OPEN, 2, self.err, flags, 0o644),
        ]
        signal.signal(signal.SIGALRM, self._stop)
        words = [program, *map(str, words)]
        self.pid = os.posix_spawn(program, words, env or {}, file_actions=actions)
        signal.setitimer(signal.ITIMER_REAL, self.seconds)
        _, status = os.waitpid(self.pid, 0)
        signal.setitimer(signal.ITIMER_REAL, 0)
        wrote = b"" if stdout else Path(self.out).read_bytes()
        return Ended(os.waitstatus_to_exitcode(status), wrote, Path(self.err).read_bytes())

    def measured(self, *words):
        """What a run wrote, its exit status, and its peak memory in KiB; what is below 10 MiB the Python takes that starts it."""
        words = [sys.executable, "-I", "-S", "-c", MEASURE, PROGRAM, *map(str, words)]
        found = subprocess.run(words, capture_output=True, text=True, check=True)
        return found.stdout, *map(int, found.stderr.split()[-2:])

    def check(self, capture, order, start="zero", profile=None, **how):
        """`check` of these texts, with a profile where one is named."""
        capture, order = self.put("capture", capture), self.put("order", order)
        words = ["--profile", profile] if profile else []
        return self.run("check", capture, order, "--start", start, *words, **how)

    def show(self, capture, profile=None, **how):
        words = ["--profile", profile] if profile else []
        return self.run("show", self.put("capture", capture), *words, **how)

    def make(self, script, **how):
        return self.run("make", self.put("script", script), **how)


class Tally:
    """What passed and what failed."""

    def __init__(self):
        self.passed, self.failed = 0, 0

    def want(self, name, found, wanted):
        if found == wanted:
            self.passed += 1
        else:
            self.failed += 1
            print(f"{name}: wants {wanted!r}, found {found!r}", file=sys.stderr)

    def holds(self, name, is_so, found=None):
        if is_so:
            self.passed += 1
        else:
            self.failed += 1
            print(f"{name}: found {found!r}", file=sys.stderr)

    def add(self, passed, failed):
        self.passed += passed
        self.failed += failed
