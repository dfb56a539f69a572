"""Standard output, which a client shares with the answer: this begins a line of its own behind what the client left there."""

import fcntl
import os
import stat
import sys
import termios
import threading
from select import select

LARGEST = 2**16


def are_one():
    """Whether standard output and standard error are one file."""
    return os.path.samestat(os.fstat(1), os.fstat(2))


def write_all(data):
    """Writes to standard output, also where another program had it not wait."""
    while data:
        try:
            data = data[os.write(1, data) :]
        except BlockingIOError:
            select([], [1], [])


class Pipe:
    """Standard output is a pipe or a socket: what the client writes passes through another pipe, so that its last byte is known."""

    def __init__(self):
        self.source, self.target = os.pipe()
        os.set_blocking(self.source, False)
        self.last, self.is_over, self.lock = b"", False, threading.Lock()
        self.thread = threading.Thread(target=self._run, daemon=True)

    def words(self):
        """The client's standard output, and its standard error where both are one file here."""
        return {"stdout": self.target, **({"stderr": self.target} if are_one() else {})}

    def began(self):
        """The client has its end of the pipe, or could not be run."""
        os.close(self.target)
        self.thread.start()

    def _run(self):
        while not self.is_over:
            select([self.source], [], [])
            with self.lock:
                self._pass(LARGEST)

    def _pass(self, most):
        """Hands on what is there, and answers how many bytes; it is over at the end, and where nobody takes them."""
        try:
            piece = os.read(self.source, min(most, LARGEST))
            write_all(piece)
        except BlockingIOError:
            return 0
        except OSError:
            piece = b""
        self.last = piece[-1:] or self.last
        if not piece:
            # The client's next write fails, as it would without this pipe.
            self.is_over = True
            os.close(self.source)
        return len(piece)

    def last_byte(self):
        """The last byte of a client that has ended; what it left in the background may write on."""
        with self.lock:
            left = 0 if self.is_over else int.from_bytes(fcntl.ioctl(self.source, termios.FIONREAD, bytes(4)), sys.byteorder)
            while left > 0 and not self.is_over:
                left -= self._pass(left)
            return self.last


class File:
    """Standard output is a regular file: its last byte can be looked up."""

    def __init__(self):
        self.begun = os.lseek(1, 0, os.SEEK_CUR)

    @staticmethod
    def words():
        return {}

    def began(self):
        pass

    def last_byte(self):
        at = os.lseek(1, 0, os.SEEK_CUR)
        try:
            with open("/proc/self/fd/1", "rb") as file:
                return os.pread(file.fileno(), 1, at - 1) if at > self.begun else b""
        except OSError:
            return b""


class Device:
    """Standard output is a terminal or another device: on a terminal as many spaces as a row has end a row that was begun, and no other."""

    @staticmethod
    def words():
        return {}

    def began(self):
        pass

    def last_byte(self):
        if os.isatty(1):
            print(" " * (os.get_terminal_size(1).columns or 80), end="\r\x1b[K", flush=True)
        return b""


def shared():
    """Standard output, before the client is run."""
    mode = os.fstat(1).st_mode
    if stat.S_ISFIFO(mode) or stat.S_ISSOCK(mode):
        return Pipe()
    return File() if stat.S_ISREG(mode) else Device()


def begin_line(output):
    """Ends a line that the client left unfinished."""
    if output.last_byte() not in (b"", b"\n"):
        print(flush=True)
