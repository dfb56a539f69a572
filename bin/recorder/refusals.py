"""Options that are refused in the server's place: they are taken out of the client's bytes, and answered here."""

import struct

from .requests import FLAGS_SIZE, OPTION, OPTION_SIZE

# The numbers of options, by the words that name them.
OPTIONS = {"list": 3, "starttls": 5, "info": 6, "go": 7, "structured-reply": 8, "list-meta-context": 9, "set-meta-context": 10,
           "extended-headers": 11}
ANSWER_MAGIC, ERR_UNSUP = 0x0003E889045565A9, 0x80000001


def unsupported(number):
    """The answer that an option is not supported."""
    return struct.pack(">QIII", ANSWER_MAGIC, number, ERR_UNSUP, 0)


class Refusals:
    """The client's bytes up to its first request, without the options of these numbers."""

    def __init__(self, numbers):
        self.numbers, self.is_over = numbers, False
        # How many options were whole, and the numbers of those that were refused.
        self.count, self.refused = 0, []
        self._head, self._size = b"", FLAGS_SIZE
        # How many bytes of an option's data are to come, and the option's number where it is refused.
        self._rest, self._number = 0, None

    def split(self, piece):
        """What is forwarded of a piece, in bytes, and between them the number of each option that ends here and is refused."""
        at = 0
        while at < len(piece) and not self.is_over:
            if self._rest:
                step = min(self._rest, len(piece) - at)
                self._rest -= step
                if self._number is None:
                    yield piece[at : at + step]
            else:
                part = piece[at : at + self._size - len(self._head)]
                step = len(part)
                self._head += part
                if len(self._head) == self._size:
                    yield self._begin()
            at += step
            if self._number is not None and not self._rest:
                self.refused.append(self._number)
                yield self._number
                self._number = None
        yield piece[at:]

    def _begin(self):
        """A head is whole: what of it is forwarded."""
        head, self._head = self._head, b""
        if self._size == FLAGS_SIZE:
            self._size = OPTION_SIZE
        elif not head.startswith(OPTION):
            self.is_over = True
        else:
            number, self._rest = struct.unpack(">II", head[8:])
            self.count += 1
            if number in self.numbers:
                self._number = number
                return b""
        return head

    def left(self):
        """The beginning of a head behind which no more comes."""
        left, self._head = self._head, b""
        return left

    def names(self):
        return [name for number in self.refused for name in OPTIONS if OPTIONS[name] == number]
