"""The signals that end the program, behind what it has begun."""

import os
import signal

NUMBERS = (signal.SIGINT, signal.SIGTERM, signal.SIGHUP)


class Interrupted(BaseException):
    """The signal that came."""


class Signals:
    """Raises a signal that comes; while it is held, when it is let go."""

    def __init__(self):
        self.is_held, self.came = False, None

    def catch(self):
        for number in NUMBERS:
            signal.signal(number, self._note)

    def _note(self, number, _):
        self.came = number
        self._raise()

    def _raise(self):
        if self.came is not None and not self.is_held:
            raise Interrupted(self.came)

    def hold(self):
        self.is_held = True

    def let_go(self):
        self.is_held = False
        self._raise()


SIGNALS = Signals()


def end_by(number):
    """Ends the program as the signal does."""
    signal.signal(number, signal.SIG_DFL)
    os.kill(os.getpid(), number)
