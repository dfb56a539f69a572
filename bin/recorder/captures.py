"""Captures as they are recorded."""

import binascii
import os

CLIENT, SERVER = "C", "S"


# A write that SIGKILL or a full disk cuts short ends where a page does, so no line passes the end of one.
PAGE = 4096
# The least line with a byte: a side, a space, two digits and a line feed; and the digits of the longest one of a page.
LEAST, MOST = 5, (PAGE - 3) // 2 * 2
HEADS = {CLIENT: b"C ", SERVER: b"S "}


def lines_of(side, piece, at):
    """The lines of a piece, in parts, that are written from this place of a file on; empty ones fill what is left of a page."""
    digits, head = memoryview(binascii.hexlify(piece)), HEADS[side]
    room = PAGE - at % PAGE
    fill, most = (room, MOST) if room < LEAST else (0, (room - 3) // 2 * 2)
    parts = [b"\n" * fill + head, digits[:most]]
    ended = b"\n" * (1 + -(at + fill + most + 3) % PAGE) + head
    for begin in range(most, len(digits), MOST):
        parts += (ended, digits[begin : begin + MOST])
        ended = b"\n\n" + head
    parts.append(b"\n")
    return parts


class Capture:
    """The text of a capture, one write for each piece. It ends with a whole line, whatever fails or ends the program."""

    def __init__(self, path):
        self.path, self.length = path, 0
        self.file = os.open(path, os.O_WRONLY | os.O_CREAT | os.O_TRUNC, 0o666)

    def add(self, side, piece):
        """Writes a piece, or nothing where that fails."""
        try:
            parts = lines_of(side, piece, self.length)
            length = sum(map(len, parts))
            written = os.writev(self.file, parts)
            while written < length:
                written += os.write(self.file, b"".join(parts)[written:])
        except (OSError, MemoryError):
            self._cut()
            raise
        self.length += length

    def _cut(self):
        """Takes back the beginning of a line."""
        try:
            os.ftruncate(self.file, self.length)
        except OSError:
            pass

    def close(self):
        os.close(self.file)
