"""Why there is no page, and how a line of it is said."""

import os

FAILED, MEMORY = 3, 4
NOT_WHOLE = "what was written is no whole page"


class Fault(Exception):
    """Why there is no page, with its exit status."""

    def __init__(self, status, reason):
        super().__init__(reason)
        self.status = status


def printable(name):
    """A file's name, in a line that a terminal can take."""
    return name if name.isprintable() else repr(name)


def failed(name, error):
    return Fault(FAILED, f"{printable(name)}: {error.strerror or error}")


def say(text):
    """A line on standard error, where that can be."""
    try:
        os.write(2, text.encode("ascii", "backslashreplace") + b"\n")
    except OSError:
        pass
