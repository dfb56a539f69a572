"""What a recording needs of the system: messages, signals, programs that are run, and a folder."""

import contextlib
import os
import signal
import socket
import subprocess
import sys
import tempfile
from selectors import EVENT_READ

INTERRUPTS = (signal.SIGINT, signal.SIGTERM, signal.SIGHUP)


class Interrupted(BaseException):
    """A signal that asks for the end came; its number."""


class Stopped(Exception):
    """Why nothing can be recorded."""


def tell(line):
    """A line on standard error, in one write."""
    try:
        print(f"nbdcheck-record: {line}\n", end="", file=sys.stderr, flush=True)
    except OSError:
        pass


def reason_of(error):
    """The system's reason of an error, without its number."""
    return getattr(error, "strerror", None) or str(error) or type(error).__name__


def remove(path):
    """Removes a file, where it is there."""
    try:
        os.unlink(path)
    except OSError:
        pass


class Signals:
    """The signals of an end and of the client's: they wake the relay, which looks when it comes to that."""

    def __init__(self, selector):
        # The first signal that asked for the end.
        self.came = None
        self.wakes, self.woken = socket.socketpair()
        for end in (self.wakes, self.woken):
            end.setblocking(False)
        selector.register(self.woken, EVENT_READ, lambda *_: self.woken.recv(4096))
        signal.set_wakeup_fd(self.wakes.fileno(), warn_on_full_buffer=False)
        signal.signal(signal.SIGCHLD, lambda *_: None)
        catch(self._note)

    def _note(self, number, _):
        self.came = self.came or number


def catch(handler):
    """Hands the signals of an end to this function; under nohup a terminal's end is none."""
    for number in INTERRUPTS:
        if number != signal.SIGHUP or signal.getsignal(number) != signal.SIG_IGN:
            signal.signal(number, handler)


class Hold:
    """Puts off the end that a signal asks for while a program is begun, so that none is left behind."""

    def __init__(self):
        self.is_held, self.came = False, None

    def take(self):
        self.is_held = True

    def let_go(self):
        self.is_held = False
        if self.came is not None:
            raise Interrupted(self.came)


HOLD = Hold()


def stop_at_once(number, _):
    if not HOLD.is_held:
        raise Interrupted(number)
    HOLD.came = number


@contextlib.contextmanager
def running(words, **how):
    """A program that is run; it is ended where it is not wanted any more, also where a signal comes while it begins."""
    HOLD.take()
    try:
        child = subprocess.Popen(words, stdin=subprocess.DEVNULL, **how)
    except BaseException:
        HOLD.let_go()
        raise
    with child:
        try:
            HOLD.let_go()
            yield child
        except BaseException:
            child.kill()
            raise


def ran(words, **how):
    """Runs a program: how it ended, and what it wrote where that is a pipe."""
    with running(words, **how) as child:
        out, err = child.communicate()
    return child.returncode, out, err


class Room:
    """A folder of its own for a socket, an order, and captures that have no other place."""

    def __init__(self):
        """Makes it under TMPDIR, and nowhere else where that cannot be."""
        place = os.environ.get("TMPDIR") or "/tmp"
        try:
            self.folder = tempfile.mkdtemp(prefix="nbdcheck-record-", dir=place)
        except OSError as error:
            raise Stopped(f"cannot make a folder in TMPDIR, {place}: {reason_of(error)}") from None

    def path(self, name):
        return os.path.join(self.folder, name)

    def close(self):
        """Removes the folder, where no capture is kept in it."""
        for name in ("socket", "order"):
            remove(self.path(name))
        try:
            os.rmdir(self.folder)
        except OSError:
            pass
