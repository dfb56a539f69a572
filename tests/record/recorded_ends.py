"""What the tests of nbdcheck-record share: clients and servers that do as a test tells them, and runs of the tool."""

import os
import resource
import signal
import socket
import subprocess
import sys
import tempfile
import threading
import time
from pathlib import Path
from unittest.mock import patch

from built import PROGRAM, TOP
from messages import CLIENT, SERVER, begun, longest_runs, read, records_of, simple, text, write

RECORD = TOP / "bin/nbdcheck-record"
SECONDS = 30
MIB = 2**20
# A WRITE and a READ of it, one after the other.
GOOD = begun() + [write(1, 1, b"ab"), simple(1), read(2, 0, 4), simple(2, b"\0ab\0")]
# The answer of a session without a request.
NONE = "yes requests 0 answered 0 improper 0"
# Why contents are not compared of the first and of the second of two connections that play GOOD.
MEET = {number: f"contents not compared: request 1, a WRITE, meets request 1 of connection {3 - number}, a WRITE, at offset 1"
        for number in (1, 2)}

# A client: it plays its part of the session of a file, and ends with a status.
PLAYER = """
import socket, sys
words = sys.argv[1:]
where, session, status = words[0], words[1], int(words[2]) if words[2:] else 0
family = socket.AF_UNIX if "/" in where else socket.AF_INET
end = socket.socket(family)
end.connect(where if "/" in where else ("127.0.0.1", int(where)))
for line in open(session):
    data = bytes.fromhex(line[2:])
    if line[0] == "C":
        end.sendall(data)
    while line[0] == "S" and data:
        data = data[len(end.recv(len(data))) or sys.exit("the server ended it"):]
end.close()
sys.exit(status)
"""


def limited(limits):
    """What sets limits of the system before a program runs."""
    def set_all():
        for which, most in limits.items():
            resource.setrlimit(which, (most, most))
    return set_all if limits else None


class Tool:
    """A run of nbdcheck-record, which asks `nbdcheck lint` where a test wants it."""

    def __init__(self, *words, limits=None, nbdcheck=PROGRAM, env_more=None, lints=False, **how):
        env = {**os.environ, "NBDCHECK": str(nbdcheck), **(env_more or {})}
        how = {"stdin": subprocess.DEVNULL, "stdout": subprocess.PIPE, "stderr": subprocess.PIPE, **how}
        command = [sys.executable, str(RECORD), *([] if lints else ["--no-lint"]), *map(str, words)]
        self.process = subprocess.Popen(command, env=env, preexec_fn=limited(limits), text=True, **how)

    def __enter__(self):
        return self

    def __exit__(self, *_):
        if self.process.poll() is None:
            self.process.kill()
        self.process.communicate()

    def all(self):
        """Its processes: the one that was run is the last."""
        pid = self.process.pid
        return [int(worker) for worker in Path(f"/proc/{pid}/task/{pid}/children").read_text().split()] + [pid]

    def signal(self, number):
        """Sends a signal to all of its processes."""
        for pid in self.all():
            os.kill(pid, number)

    def end(self, number=None):
        """Its status, standard output and standard error, after this signal."""
        if number is not None:
            self.process.send_signal(number)
        out, err = self.process.communicate(timeout=SECONDS)
        return self.process.returncode, out, err


def ended(*words, **how):
    with Tool(*words, **how) as tool:
        return tool.end()


def all_of(end, count):
    """As many bytes of a socket, or fewer where they end."""
    data = b""
    while len(data) < count and (part := end.recv(count - len(data))):
        data += part
    return data


def runs_of(path):
    """The records of a capture as the longest of one side; each of its lines has to be whole."""
    capture = Path(path).read_bytes()
    if capture and not capture.endswith(b"\n"):
        raise AssertionError(f"{path} ends in a line")
    return longest_runs(records_of(capture))


def bytes_of(path, side):
    return of_side(runs_of(path), side)


class Ends:
    """A client's and a server's end round a tool that was told to listen, and its capture."""

    def __init__(self, folder, name="s", *words, **how):
        self.here, self.there, self.out = (f"{folder}/{name}.{kind}" for kind in ("here", "there", "out"))
        self.listener = socket.socket(socket.AF_UNIX)
        self.listener.settimeout(SECONDS)
        self.listener.bind(self.there)
        self.listener.listen(8)
        self.tool = Tool("--listen", self.here, "--to", self.there, "--out", self.out, *words, **how)

    def __enter__(self):
        return self

    def __exit__(self, *_):
        self.listener.close()
        self.tool.__exit__()

    def connect(self):
        """A client's socket, as soon as the tool listens."""
        until = time.monotonic() + SECONDS
        while True:
            client = socket.socket(socket.AF_UNIX)
            client.settimeout(SECONDS)
            try:
                client.connect(self.here)
                return client
            except OSError:
                client.close()
                if time.monotonic() > until or self.tool.process.poll() is not None:
                    raise
                time.sleep(0.01)

    def both(self):
        """Both ends of a connection."""
        client = self.connect()
        server, _ = self.listener.accept()
        server.settimeout(SECONDS)
        return client, server

    @staticmethod
    def play(client, server, records):
        """Passes a session from end to end."""
        for side, data in records:
            (client if side == CLIENT else server).sendall(data)
            all_of(server if side == CLIENT else client, len(data))

    def capture(self, number=1):
        return f"{self.out}.{number}.cap"

    def listed(self, requests, client, server, number=1):
        """The line of a connection's capture: how many requests, and bytes of each side."""
        return f"{self.capture(number)}: requests {requests}, bytes {client} of the client, {server} of the server\n"

    @staticmethod
    def ended(how):
        """The line on how a connection ended."""
        return f"ended: {how}\n"

    def interrupt(self):
        return self.tool.end(signal.SIGINT)


class Server:
    """A server on a free port or a unix socket that plays its part of the same session with each client."""

    def __init__(self, records, path=None, count=1):
        self.records = records
        self.listener = socket.socket(socket.AF_INET if path is None else socket.AF_UNIX)
        self.listener.settimeout(SECONDS)
        self.listener.bind(("127.0.0.1", 0) if path is None else path)
        self.listener.listen(8)
        self.address = path or f"127.0.0.1:{self.listener.getsockname()[1]}"
        self.thread = threading.Thread(target=self._serve, args=(count,), daemon=True)
        self.thread.start()

    def _serve(self, count):
        try:
            for _ in range(count):
                end, _ = self.listener.accept()
                with end:
                    end.settimeout(SECONDS)
                    self._play(end)
        except OSError:
            pass

    def _play(self, end):
        try:
            for side, data in self.records:
                if side == SERVER:
                    end.sendall(data)
                elif all_of(end, len(data)) != data:
                    return
            end.recv(1)
        except OSError:
            pass

    def __enter__(self):
        return self

    def __exit__(self, *_):
        # A connection of its own wakes a server that still waits for one.
        try:
            self.listener.shutdown(socket.SHUT_RDWR)
        except OSError:
            pass
        self.listener.close()
        self.thread.join(SECONDS)


def player(folder, records, where="{port}", status=0):
    """The words of a client that plays this session."""
    program, session = Path(folder, "player.py"), Path(folder, f"session{abs(hash(text(records)))}")
    program.write_text(PLAYER)
    session.write_bytes(text(records))
    return [sys.executable, "-IS", str(program), where, str(session), str(status)]


def of_side(records, side):
    return b"".join(data for sender, data in records if sender == side)


def sizes_of(records):
    """How many bytes each side sends."""
    return [len(of_side(records, side)) for side in (CLIENT, SERVER)]


def run_parts(tally, parts):
    """Runs each part in a folder of its own; what is kept without a place goes into another one, and with it."""
    for part in parts:
        with tempfile.TemporaryDirectory(prefix="nbdcheck-") as folder, tempfile.TemporaryDirectory(prefix="nbdcheck-") as kept:
            with patch.dict(os.environ, TMPDIR=kept):
                part(tally, folder)
