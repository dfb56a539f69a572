"""How much has passed, on a terminal."""

import os
import time

# Seconds between two paintings.
BETWEEN = 0.25
UNITS = ("bytes", "KB", "MB", "GB", "TB")


def told(count):
    """A count of bytes, as people read it."""
    for unit in UNITS:
        if count < 1000 or unit == UNITS[-1]:
            break
        count /= 1000
    return f"{count} {unit}" if unit == "bytes" else f"{count:.1f} {unit}"


def line_of(connections, requests, client, server):
    asked = "" if requests is None else f"{requests} requests, "
    return f"nbdcheck-record: {connections} connections, {asked}C {told(client)}, S {told(server)}"


class Progress:
    """A line that is rewritten while sessions are recorded, where there is a terminal."""

    def __init__(self, file):
        self.file = file if file is not None and file.isatty() else None
        self.painted, self.at = "", 0.0

    def between(self):
        """How long the next painting may be waited for: for ever where there is no terminal."""
        return BETWEEN if self.file is not None else None

    def _write(self, text):
        try:
            self.file.write(text)
            self.file.flush()
        except OSError:
            self.file = None

    def width(self):
        """How much of a line the terminal shows in one row."""
        try:
            return (os.get_terminal_size(self.file.fileno()).columns or 80) - 1
        except OSError:
            return 79

    def paint(self, relay):
        """Rewrites the line, where it has changed and its time has come."""
        if self.file is None or time.monotonic() - self.at < BETWEEN:
            return
        line = line_of(*relay.counts())[: self.width()]
        self.at = time.monotonic()
        if line != self.painted:
            self.painted = line
            self._write(f"\r\x1b[K{line}")

    def erase(self):
        if self.file is not None and self.painted:
            self.painted = ""
            self._write("\r\x1b[K")
