"""What a server answers, as it comes: which requests have their whole reply, and in which message its bytes end."""

GREETING, GREETING_SIZE = b"NBDMAGICIHAVEOPT", 18
# How many bytes the head of a message has, by its first four: an answer to an option, a simple reply, a chunk, an extended one.
ANSWER, SIMPLE, CHUNK, EXTENDED = (bytes.fromhex(magic) for magic in ("0003e889", "67446698", "668e33ef", "6e8a278c"))
HEADS = {ANSWER: 20, SIMPLE: 16, CHUNK: 20, EXTENDED: 32}
ANSWER_REST = bytes.fromhex("045565a9")
# An export's size and flags, and the zeroes behind them where one side does not leave them out.
EXPORT_SIZE, ZEROES = 10, 124
NO_ZEROES, DONE = 2, 1
# The last answer to an option is an ACK or an error, whose kind begins with this bit.
ACK, ERROR = bytes((0, 0, 0, 1)), 0x80


class Replies:
    """Follows the server's bytes, and takes from the requests that wait each whose reply is whole."""

    def __init__(self, requests):
        self.requests = requests
        # Whether each message up to here was one whose length is known.
        self.is_sure = True
        self._head, self._size = b"", GREETING_SIZE
        # How many bytes of a payload are to come, the cookie of their request, and whether they end its reply.
        self._rest, self._cookie, self._is_last = 0, None, False
        self._leaves_out = False
        # How many options have their last answer.
        self.options = 0

    def middle(self):
        """The message of which a part has come, or None."""
        if self._rest:
            number, _ = self.requests.waiting.get(self._cookie, (None, 0))
            return "an answer to an option" if number is None else f"the reply to request {number}"
        if not self._head:
            return None
        if self._size == GREETING_SIZE:
            return "the greeting"
        return "the head of a reply" if self.requests.waiting else "an answer to an option"

    def feed(self, piece):
        at = 0
        while at < len(piece) and self.is_sure:
            if not self._rest:
                at += self._feed_head(piece, at)
            if self._rest:
                step = min(self._rest, len(piece) - at)
                self._rest -= step
                at += step
            if not self._rest and self._is_last:
                self.requests.waiting.pop(self._cookie, None)
                self._is_last = False

    def _feed_head(self, piece, at):
        """Takes a head, or a part of one; how many bytes."""
        if not self._head and self._size == 4 and len(piece) - at >= (size := HEADS.get(piece[at : at + 4], len(piece) + 1)):
            # The usual case: a whole head at once.
            self._take(piece[at : at + size])
            return size
        part = piece[at : at + self._size - len(self._head)]
        self._head += part
        if self._size == GREETING_SIZE and not GREETING.startswith(self._head[: len(GREETING)]):
            self.is_sure = False
        elif len(self._head) == self._size:
            self._begin(self._head)
        return len(part)

    def _begin(self, head):
        """The bytes of which the length was known have come: what follows them?"""
        self._head = b""
        if self._size == GREETING_SIZE:
            self._leaves_out, self._size = bool(head[17] & NO_ZEROES), 4
        elif self._size == 4:
            self._expect(head)
        else:
            self._size = 4
            self._take(head)

    def _expect(self, magic):
        """The first four bytes of a message have come: how long is its head?"""
        self._head = magic
        if magic in HEADS:
            self._size = HEADS[magic]
        elif self.requests.has_named:
            leaves_out = self._leaves_out and self.requests.flags & NO_ZEROES
            self._size = EXPORT_SIZE + (0 if leaves_out else ZEROES)
        else:
            self.is_sure = False

    def _take(self, head):
        """A head is whole."""
        magic, self._cookie = head[:4], None
        if magic == ANSWER:
            self.is_sure, self._rest = head[4:8] == ANSWER_REST, int.from_bytes(head[16:], "big")
            self.options += head[12:16] == ACK or head[12] >= ERROR
        elif magic in HEADS:
            self._cookie = head[8:16]
            number, wanted = self.requests.waiting.get(self._cookie, (None, 0))
            self.is_sure = number is not None
            if magic == SIMPLE:
                self._is_last, self._rest = True, 0 if any(head[4:8]) else wanted
            else:
                self._is_last = bool(head[5] & DONE)
                self._rest = int.from_bytes(head[16:] if magic == CHUNK else head[24:], "big")
