"""What is known of a connection that was recorded."""

import time

from .captures import CLIENT, SERVER
from .endings import Ending
from .refusals import Refusals
from .replies import Replies
from .requests import Requests


class Recorded:
    """A connection: what passed of it, and how it ended."""

    def __init__(self, number, refused):
        self.number = number
        # The path of its capture, or None, and whether both ends were there.
        self.path, self.has_begun = None, False
        # How many bytes of each side were written down.
        self.counts = {CLIENT: 0, SERVER: 0}
        self.requests = Requests()
        self.replies = Replies(self.requests)
        self.refusals = Refusals(refused)
        self.ending = Ending(self.requests, self.replies)
        # When it was taken, and when the last byte came; but not what the client sent as its leave.
        self.begun = self.last = time.monotonic()
        # How many seconds it took, the version of TLS to the server, or None, and why the recording is not whole.
        self.seconds, self.tls, self.fault = 0.0, None, None

    def note(self, side, piece):
        """Counts a piece that was written down."""
        self.counts[side] += len(piece)
        (self.requests if side == CLIENT else self.replies).feed(piece)
        if side == SERVER or not self.requests.has_left:
            self.last = time.monotonic()

    def is_empty(self):
        """Whether not a byte passed."""
        return not any(self.counts.values())
