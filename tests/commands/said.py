"""What the tests of commands share: a session, what is said of it, and what is said beside an answer."""

import os
import pty
import subprocess

from built import PROGRAM, Ended
from messages import begun, client_flags, greeting, read, records_of, simple, text

LF = b"\n"
EMPTY = b"the capture is empty: nothing was recorded\n"
SEARCHED = b"line 1 is no entry of an order but an answer: 'no' or 'gave up'\n"
CAPTURE = text(begun() + [read(1, 0, 4), simple(1, bytes(4))])
YES = b"yes requests 1 answered 1 improper 0\n"
# A READ of a byte that nobody wrote.
FOUND = text(begun() + [read(1, 0, 1), simple(1, b"\x07")])
SCRIPT = b"S greeting flags=3\nC client-flags flags=3\n"
MADE = text([greeting(), client_flags()])


def hint_of(capture):
    """What stands on standard error beside the answer of a capture."""
    return b"" if capture else EMPTY


def fault(what, status=3):
    return Ended(status, b"", f"fault {what}\n".encode())


def sides(capture):
    """The bytes of the client and those of the server."""
    records = records_of(capture)
    return [b"".join(data for one, data in records if one == side) for side in "CS"]


def on_a_terminal(room, *words):
    """The exit status of a run whose standard error is a terminal, its output, and what the terminal shows."""
    shown, terminal = pty.openpty()
    done = subprocess.run([PROGRAM, *words], stdin=subprocess.DEVNULL, stdout=subprocess.PIPE, stderr=terminal, env={},
                          timeout=60)
    os.close(terminal)
    told = b""
    try:
        while part := os.read(shown, 4096):
            told += part
    except OSError:
        # The terminal's other end is closed.
        pass
    os.close(shown)
    return Ended(done.returncode, done.stdout, told.replace(b"\r\n", b"\n"))
