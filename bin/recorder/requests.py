"""A connection's requests, as they come in the client's bytes."""

import struct

OPTION, EXPORT_NAME, ABORT, GO = b"IHAVEOPT", 1, 2, 7
FLAGS_SIZE, OPTION_SIZE = 4, 16
# The length of an export's name stands before it in GO, and proto.md allows a name so many bytes.
LENGTH_SIZE, LONGEST_NAME = 4, 4096
# The heads of requests by their magic numbers, the second that of an extended one: flags, type, cookie, offset, length.
HEADS = {bytes.fromhex("25609513"): struct.Struct(">4xHH8sQI"), bytes.fromhex("21e41c71"): struct.Struct(">4xHH8sQQ")}
EXTENDED_SIZE = 32
FORMS = {form.size: form for form in HEADS.values()}
READ, WRITE, DISC, FLUSH, TRIM, CACHE, WRITE_ZEROES, BLOCK_STATUS = range(8)
# The flag of a request with an extended head that says that a payload follows.
PAYLOAD_LEN = 1 << 5
CHANGE_NOTHING = (READ, DISC, FLUSH, CACHE, BLOCK_STATUS)


class Requests:
    """Counts the requests but DISC in the client's bytes, each at its last byte, as nbdcheck numbers them."""

    def __init__(self):
        self.count = 0
        # Whether each message up to here was one whose length is known, and whether a request began that may change the export.
        self.is_sure, self.has_change = True, False
        # The client's flags, whether it asked for an export by EXPORT_NAME, and whether it took its leave by DISC or ABORT.
        self.flags, self.has_named, self.has_left = 0, False, False
        # By their cookies the requests that began and have no whole reply: the number, and how many bytes a READ wants.
        self.waiting = {}
        # The heads of the requests but DISC, also of one that has not come as a whole; all are as long as the first.
        self.heads = bytearray()
        # The name of the export that was asked for last, or None.
        self.name = None
        self._head, self._size = b"", FLAGS_SIZE
        # How many bytes of a payload are to come, what its end adds to the count, and what is kept of the option that has the name.
        self._rest, self._adds = 0, 0
        self._option, self._kept = 0, None

    def is_none(self):
        """Whether there is surely no request."""
        return self.is_sure and self.count == 0 and not self.has_change

    def all(self):
        """The flags, type, cookie, offset and length of each request but DISC that began."""
        return FORMS[self._size].iter_unpack(self.heads) if self.heads else ()

    def is_extended(self):
        """Whether requests have extended heads."""
        return self._size == EXTENDED_SIZE

    def outstanding(self):
        """How many requests are whole and have no whole reply."""
        return len([number for number, _ in self.waiting.values() if number <= self.count])

    def middle(self):
        """The message of which a part has come, or None."""
        if self._rest:
            return f"request {self.count + 1}" if self._adds else "an option"
        if not self._head:
            return None
        if self._size == FLAGS_SIZE:
            return "the client flags"
        is_option = self._size == OPTION_SIZE and self._head[:4] not in HEADS
        return "an option" if is_option else "the head of a request"

    def feed(self, piece):
        at = 0
        while at < len(piece) and self.is_sure:
            if not self._rest:
                head = self._head + piece[at : at + self._size - len(self._head)]
                at += len(head) - len(self._head)
                self._head = head
                if len(head) == self._size:
                    self._begin(head)
            if self._rest:
                step = min(self._rest, len(piece) - at)
                if self._kept is not None:
                    self._keep(piece[at : at + step], step == self._rest)
                self._rest -= step
                at += step
            if not self._rest:
                self.count, self._adds = self.count + self._adds, 0

    def _keep(self, part, is_last):
        """A part of the option that has the name."""
        self._kept += part[: LENGTH_SIZE + LONGEST_NAME - len(self._kept)]
        if is_last:
            count = int.from_bytes(self._kept[:LENGTH_SIZE], "big")
            self.name = bytes(self._kept if self._option == EXPORT_NAME else self._kept[LENGTH_SIZE : LENGTH_SIZE + count])
            self._kept = None

    def _begin(self, head):
        """The head of a message is whole: what follows it?"""
        self._head = b""
        if self._size in FORMS:
            self._begin_request(head)
        elif self._size == FLAGS_SIZE:
            self._size, self.flags = OPTION_SIZE, int.from_bytes(head, "big")
        elif head[:4] in HEADS:
            self._size, self._head = HEADS[head[:4]].size, head
        elif head.startswith(OPTION):
            self._begin_option(*struct.unpack(">II", head[8:]))
        else:
            self.is_sure = False

    def _begin_option(self, option, length):
        self._rest = length
        self.has_named, self.has_left = self.has_named or option == EXPORT_NAME, self.has_left or option == ABORT
        if option in (EXPORT_NAME, GO):
            self.name, self._option, self._kept = b"", option, bytearray() if length else None

    def _begin_request(self, head):
        form = HEADS.get(head[:4])
        if form is not FORMS[self._size]:
            self.is_sure = False
            return
        flags, kind, cookie, _, length = form.unpack(head)
        has_payload = kind == WRITE or flags & PAYLOAD_LEN and self.is_extended()
        self._rest = length if has_payload else 0
        if kind == DISC:
            self.has_left = True
            return
        self._adds = 1
        self.has_change = self.has_change or kind not in CHANGE_NOTHING
        self.heads += head
        self.waiting[cookie] = (self.count + 1, length if kind == READ else 0)
