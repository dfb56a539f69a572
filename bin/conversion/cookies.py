"""The order of service in a server's log of cookies: which request each line is about, and what is wrong with a line."""

import re
from collections import defaultdict

from .ending import Refused

# Digits with a zero before them may be meant as hexadecimal ones, and are neither.
NUMBER = re.compile(rb"0|[1-9][0-9]*|0[xX][0-9a-fA-F]+")
# No decimal number up to MOST has more digits.
MOST, DIGITS = 2**64 - 1, 20
# How many bad lines are told.
TOLD = 10


class BadLine(Exception):
    """What is wrong with a line."""


def shown(word):
    """A word of a line, or its beginning, where it may be long or no text."""
    text = word.decode("ascii", "backslashreplace")
    return text if len(text) <= 40 else f"{text[:40]}.."


def number(word):
    if not NUMBER.fullmatch(word):
        raise BadLine(f"{shown(word)} is no number, as decimal digits or 0x and hexadecimal digits make one")
    is_decimal = word[1:2] not in (b"x", b"X")
    if is_decimal and len(word) > DIGITS or int(word, 10 if is_decimal else 16) > MOST:
        raise BadLine(f"{shown(word)} is more than {MOST}")
    return int(word, 10 if is_decimal else 16)


class Uses:
    """The requests that had one cookie, each with the bytes of the export in its range, and how far a log has come with them."""

    def __init__(self):
        self.requests, self.taken = [], 0
        # How many bytes the parts of the last request that was taken lack; 0 where it has none.
        self.lacking = 0

    def take(self, length):
        """The request of the next line: the number of an atomic one, or that of a part's with this length; None where there is none.

        A request is whole when its parts have as many bytes as its range: a client uses a cookie again when the reply has
        ended, and what was answered was served.
        """
        if length is None or self.lacking == 0:
            if self.taken == len(self.requests):
                return None
            self.taken += 1
            self.lacking = 0 if length is None else self.requests[self.taken - 1][1]
        if length is not None:
            self.lacking = max(self.lacking - length, 0)
        return self.requests[self.taken - 1][0]


def uses_of(requests):
    """The uses of each cookie of these requests."""
    uses = defaultdict(Uses)
    for request in requests:
        uses[request.cookie].requests.append((request.number, request.inside))
    return uses


def entry(line, uses):
    """The line of the order for a line of the log."""
    if not line.endswith(b"\n"):
        raise BadLine("no line feed at its end")
    words = line.split()
    if len(words) not in (1, 3):
        raise BadLine("neither a cookie alone, nor a cookie, an offset and a length")
    cookie, *part = map(number, words)
    if cookie not in uses:
        raise BadLine(f"no request of the session has the cookie {shown(words[0])}")
    found = uses[cookie].take(part[1] if part else None)
    if found is None:
        count = len(uses[cookie].requests)
        had = "one request had it" if count == 1 else f"{count} requests had it"
        raise BadLine(f"the cookie {shown(words[0])} is logged more often than it was used: {had}")
    return " ".join(map(str, (found, *part))) + "\n"


def order(log, requests):
    """The lines of the order for the lines of a log; where lines of it are bad it is refused."""
    uses, entries, bad = uses_of(requests), [], []
    for at, line in enumerate(log, 1):
        try:
            entries.append(entry(line, uses).encode())
        except BadLine as reason:
            bad.append(f"log line {at}: {reason}")
    if bad:
        more = [f"and {len(bad) - TOLD} more"] if len(bad) > TOLD else []
        raise Refused("\n  ".join(bad[:TOLD] + more))
    return entries
