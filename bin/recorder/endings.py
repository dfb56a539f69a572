"""How a connection ended: which side closed first, and what was under way then."""

import errno

from .captures import CLIENT, SERVER

END, RESET = "end of file", "reset"
# Each as it is said in a line.
SAID = {END: "end of file", RESET: "a reset"}
BOTH = "both"
NAMES = {CLIENT: "client", SERVER: "server", BOTH: BOTH}


class Ending:
    """The side that closed first, or BOTH where both had closed when that was seen, and by what; None where neither did. What was
    under way is what stood at its last byte."""

    def __init__(self, requests, replies):
        self._requests, self._replies = requests, replies
        self.first, self.by = None, None
        # How many requests had no whole reply, or None where that is not known, and the message that each side was in.
        self.outstanding, self.client_in, self.server_in = None, None, None
        self._hint, self._is_seen = END, False

    def gone(self, side, error):
        """This side took no more bytes: it has closed, and its own bytes may still be on their way."""
        if self.first is None:
            self.first, self._hint = side, END if error.errno == errno.EPIPE else RESET

    def ended(self, side, is_reset, has_other):
        """The bytes of this side have ended; `has_other` says that the other side has closed too."""
        if self.first is None:
            self.first = BOTH if has_other else side
        if is_reset and self.first in (side, BOTH):
            self._hint = RESET
        if self.first == side:
            self.close()

    def close(self):
        """Nothing more comes of the side that closed first, or of both."""
        if self._is_seen:
            return
        self._is_seen, self.by = True, None if self.first is None else self._hint
        if self._requests.is_sure:
            self.client_in = self._requests.middle()
        if self._requests.is_sure and self._replies.is_sure:
            self.outstanding, self.server_in = self._requests.outstanding(), self._replies.middle()

    def client_left(self):
        """The message in which the client left, or None."""
        return self.client_in if self.first in (CLIENT, BOTH) else None

    def is_usual(self):
        """Whether the client closed, or both sides behind its DISC or ABORT, and nothing was under way."""
        by_client = self.first in (CLIENT, BOTH) or self.first is not None and self._requests.has_left
        return by_client and self.by == END and not self.outstanding and not self.client_in and not self.server_in

    def _who(self):
        if self.first is None:
            return "neither side closed"
        who = "both sides closed" if self.first == BOTH else f"the {NAMES[self.first]} closed first"
        return f"{who}, by {SAID[self.by]}"

    def line(self):
        outstanding = "unknown" if self.outstanding is None else self.outstanding
        parts = [self._who(), f"requests outstanding {outstanding}"]
        for side, part in (("client", self.client_in), ("server", self.server_in)):
            if part is not None:
                parts.append(f"the {side} in the middle of {part}")
        return f"ended: {', '.join(parts)}"

    def as_json(self):
        return {"first": NAMES.get(self.first), "by": self.by, "outstanding": self.outstanding, "client_in": self.client_in,
                "server_in": self.server_in}
