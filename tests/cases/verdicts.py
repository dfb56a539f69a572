"""Reads and what was there, pieces of replies, and orders, on an export of 8 bytes that holds zeroes at first."""

from cases.case import Case
from messages import READ, TRIM, WRITE_ZEROES, begun, content, done, hole, read, request, simple, write


def session(*messages, structured=False):
    return [*begun(structured), *messages]


WRITTEN = write(1, 0, b"\xab\xcd")
UPPER = write(1, 4, b"\x0a\x0b\x0c\x0d"), done(1), read(2, 0, 8), content(2, 4, b"\x0a\x0b\x0c\x0d")
EIGHT = b"\x01\x02\x03\x04\x05\x06\x07\x08"
ONE_BY_ONE = read(1, 0, 1), simple(1, b"\0"), read(2, 0, 1), simple(2, b"\0")
# The READ gives the first byte of the WRITE, and not the second.
HALF_WRITTEN = session(WRITTEN, read(2, 0, 2), simple(2, b"\xab\0"), simple(1))
# The READ gives the last two bytes of the WRITE, and not the two before.
IN_PIECES = session(
    write(1, 4, b"\x0a\x0b\x0c\x0d"), read(2, 0, 8), content(2, 6, b"\x0c\x0d"), content(2, 0, bytes(2)), hole(2, 2, 4),
    done(2), done(1), structured=True,
)

READS = [
    Case(
        name="written and read",
        capture=session(WRITTEN, simple(1), read(2, 0, 4), simple(2, b"\xab\xcd\0\0")),
        order="1\n2\n",
        want="yes requests 2 answered 2 improper 0\n",
    ),
    Case(
        name="the second byte is wrong",
        capture=session(WRITTEN, simple(1), read(2, 0, 4), simple(2, b"\xab\xce\0\0")),
        order="1\n2\n",
        want="no content request 2 offset 1\n",
    ),
    Case(
        name="read before the write was answered",
        capture=session(WRITTEN, read(2, 0, 2), simple(2, b"\xab\xcd"), simple(1)),
        order="1\n2\n",
        want="yes requests 2 answered 2 improper 0\n",
    ),
    Case(
        name="a write that fails leaves unknown bytes",
        capture=session(WRITTEN, read(2, 0, 2), simple(2, b"\xee\xff"), simple(1, error=5)),
        order="1\n2\n",
        want="yes requests 2 answered 2 improper 0\n",
    ),
    Case(
        name="a write that succeeds leaves its bytes",
        capture=session(WRITTEN, read(2, 0, 2), simple(2, b"\xee\xff"), simple(1)),
        order="1\n2\n",
        want="no content request 2 offset 0\n",
    ),
    Case(
        name="a pending write leaves unknown bytes where it is named",
        capture=session(write(1, 0, b"\xab"), read(2, 0, 1), simple(2, b"\xff")),
        order="1\n2\n",
        want="yes requests 2 answered 1 improper 0\n",
    ),
    Case(
        name="a pending write does nothing where it is not named",
        capture=session(write(1, 0, b"\xab"), read(2, 0, 1), simple(2, b"\xff")),
        order="2\n",
        want="no content request 2 offset 0\n",
    ),
    Case(
        name="a trimmed range is unknown",
        capture=session(request(TRIM, 1, 0, 8), simple(1), read(2, 0, 8), simple(2, EIGHT)),
        order="1\n2\n",
        want="yes requests 2 answered 2 improper 0\n",
    ),
    Case(
        name="a range of zeroes is not",
        capture=session(request(WRITE_ZEROES, 1, 0, 8), simple(1), read(2, 0, 8), simple(2, EIGHT)),
        order="1\n2\n",
        want="no content request 2 offset 0\n",
    ),
    Case(
        name="a read past the end fails",
        capture=session(request(READ, 1, 8, 1), simple(1, error=22)),
        order="1\n",
        want="yes requests 1 answered 1 improper 1\n",
    ),
]

PIECES = [
    Case(
        name="bytes and a hole",
        capture=session(*UPPER, hole(2, 0, 4), done(2), structured=True),
        order="1\n2\n",
        want="yes requests 2 answered 2 improper 0\n",
    ),
    Case(
        name="the later piece is wrong",
        capture=session(*UPPER, content(2, 0, b"\0\0\0\x01"), done(2), structured=True),
        order="1\n2\n",
        want="no content request 2 offset 3\n",
    ),
    Case(
        name="pieces that share an offset",
        capture=session(read(1, 0, 8), content(1, 0, bytes(4)), hole(1, 3, 5), structured=True),
        order="",
        want="no at byte 224: BadContent\n",
    ),
]

ORDERS = [
    Case(
        name="no request",
        capture=session(),
        order="",
        want="yes requests 0 answered 0 improper 0\n",
    ),
    Case(
        name="no such request",
        capture=session(),
        order="1\n",
        want="no order entry 1: NoSuchRequest\n",
    ),
    Case(
        name="late",
        capture=session(*ONE_BY_ONE),
        order="2\n1\n",
        want="no order entry 1: Late\n",
    ),
    Case(
        name="in time",
        capture=session(*ONE_BY_ONE),
        order="1\n2\n",
        want="yes requests 2 answered 2 improper 0\n",
    ),
    Case(
        name="twice",
        capture=session(*ONE_BY_ONE),
        order="1\n1\n",
        want="no order entry 2: Twice\n",
    ),
    Case(
        name="missing",
        capture=session(*ONE_BY_ONE),
        order="1\n",
        want="no order entry 2: Missing\n",
    ),
    Case(
        name="late, though each entry is in time for the next",
        capture=session(
            read(1, 0, 1), read(2, 0, 1), simple(1, b"\0"), read(3, 0, 1), simple(2, b"\0"), simple(3, b"\0"),
        ),
        order="3\n2\n1\n",
        want="no order entry 1: Late\n",
    ),
]

PARTS = [
    Case(
        name="the READ between the two bytes of the WRITE",
        capture=HALF_WRITTEN,
        order="1 0 1\n2\n1 1 1\n",
        want="yes requests 2 answered 2 improper 0\n",
    ),
    Case(
        name="the WRITE atomically",
        capture=HALF_WRITTEN,
        order="1\n2\n",
        want="no content request 2 offset 1\n",
    ),
    Case(
        name="one byte of the WRITE alone",
        capture=HALF_WRITTEN,
        order="1 0 1\n2\n",
        want="no order entry 1: NotCovered\n",
    ),
    Case(
        name="parts that share an offset",
        capture=HALF_WRITTEN,
        order="1 0 1\n1 0 2\n2\n",
        want="no order entry 2: BadPart\n",
    ),
    Case(
        name="the WRITE between two parts of the READ",
        capture=IN_PIECES,
        order="2 3 3\n1\n2 6 2\n2 0 3\n",
        want="yes requests 2 answered 2 improper 0\n",
    ),
    Case(
        name="a part that meets three pieces, before the WRITE",
        capture=IN_PIECES,
        order="2 1 6\n1\n2 0 1\n2 7 1\n",
        want="no content request 2 offset 6\n",
    ),
    Case(
        name="a part that meets three pieces, after the WRITE",
        capture=IN_PIECES,
        order="1\n2 1 6\n2 0 1\n2 7 1\n",
        want="no content request 2 offset 4\n",
    ),
    Case(
        name="the last byte of a hole",
        capture=IN_PIECES,
        order="2 0 5\n1\n2 5 1\n2 6 2\n",
        want="no content request 2 offset 5\n",
    ),
]

IMAGES = [
    Case(
        name="no session, and an image",
        capture=[],
        order="1\n",
        start=bytes(9),
        want="no order entry 1: NoSuchRequest\n",
    ),
    Case(
        name="an image of a byte more than the export",
        capture=session(),
        order="",
        start=bytes(9),
        want="no image 9 size 8\n",
    ),
]

CASES = READS + PIECES + ORDERS + PARTS + IMAGES
REFUSED = []
