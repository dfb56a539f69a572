"""Requests that are served in parts."""

from cases.case import Case
from messages import CACHE, FLUSH, TRIM, WRITE_ZEROES, begun, content, done, hole, read, request, simple, write

# The READ gives the first byte of the WRITE, and not the second.
HALF_READ = [*begun(), write(1, 0, b"\xab\xcd"), read(2, 0, 2), simple(2, b"\xab\0"), simple(1)]

A_WRITE_AND_A_READ = [
    Case(
        name="the READ between the two bytes of the WRITE",
        capture=HALF_READ,
        order="1 0 1\n2\n1 1 1\n",
        want="yes requests 2 answered 2 improper 0\n",
    ),
    Case(
        name="the WRITE atomically",
        capture=HALF_READ,
        order="1\n2\n",
        want="no content request 2 offset 1\n",
    ),
    Case(
        name="the WRITE between the two bytes of the READ",
        capture=[*begun(), write(1, 0, b"\xab\xcd"), read(2, 0, 2), simple(2, b"\0\xcd"), simple(1)],
        order="2 0 1\n1\n2 1 1\n",
        want="yes requests 2 answered 2 improper 0\n",
    ),
    Case(
        name="the second part of a READ is compared with what stands then",
        capture=[*begun(), write(1, 0, b"\xab\xcd"), read(2, 0, 2), simple(2, b"\0\0"), simple(1)],
        order="2 0 1\n1\n2 1 1\n",
        want="no content request 2 offset 1\n",
    ),
    Case(
        name="the parts in the other order",
        capture=HALF_READ,
        order="1 1 1\n1 0 1\n2\n",
        want="no content request 2 offset 1\n",
    ),
    Case(
        name="the READ between the second byte of the WRITE and the first",
        capture=[*begun(), write(1, 0, b"\xab\xcd"), read(2, 0, 2), simple(2, b"\0\xcd"), simple(1)],
        order="1 1 1\n2\n1 0 1\n",
        want="yes requests 2 answered 2 improper 0\n",
    ),
]

FAULTS = [
    Case(
        name="one of two bytes alone",
        capture=HALF_READ,
        order="1 0 1\n2\n",
        want="no order entry 1: NotCovered\n",
    ),
    Case(
        name="parts that share an offset",
        capture=HALF_READ,
        order="1 0 1\n1 0 2\n2\n",
        want="no order entry 2: BadPart\n",
    ),
    Case(
        name="a part that is longer than the request",
        capture=HALF_READ,
        order="1 0 3\n2\n",
        want="no order entry 1: BadPart\n",
    ),
    Case(
        name="atomically after a part",
        capture=HALF_READ,
        order="1 0 1\n1\n2\n",
        want="no order entry 2: Twice\n",
    ),
    Case(
        name="a part after the request atomically",
        capture=HALF_READ,
        order="1\n1 0 1\n2\n",
        want="no order entry 2: Twice\n",
    ),
    Case(
        name="a part without bytes",
        capture=HALF_READ,
        order="1 0 0\n2\n",
        want="no order entry 1: BadPart\n",
    ),
    Case(
        name="a part of no request",
        capture=HALF_READ,
        order="3 0 1\n2\n",
        want="no order entry 1: NoSuchRequest\n",
    ),
    Case(
        name="a part that ends above 2^64",
        capture=HALF_READ,
        order="1 1 18446744073709551615\n2\n",
        want="no order entry 1: BadPart\n",
    ),
    Case(
        name="Missing of the first before NotCovered of a later one",
        capture=[*begun(), read(1, 0, 1), simple(1, b"\0"), write(2, 0, b"\xab\xcd"), simple(2)],
        order="2 0 1\n",
        want="no order entry 1: Missing\n",
    ),
    Case(
        name="NotCovered of the first before Missing of a later one",
        capture=[*begun(), write(1, 0, b"\xab\xcd"), simple(1), read(2, 0, 1), simple(2, b"\0")],
        order="1 1 1\n",
        want="no order entry 1: NotCovered\n",
    ),
    Case(
        name="parts of READs one after the other",
        capture=[*begun(), read(1, 0, 1), simple(1, b"\0"), read(2, 0, 1), simple(2, b"\0")],
        order="2 0 1\n1 0 1\n",
        want="no order entry 1: Late\n",
    ),
    Case(
        name="a line of two numbers",
        capture=HALF_READ,
        order="1 0\n",
        want="fault order line 1\n",
    ),
]

# A WRITE of four bytes, of which two lie in the export.
WRITE_PAST_THE_END = write(1, 6, b"\xaa\xbb\xcc\xdd")

NOT_ALL_OF_A_REQUEST = [
    Case(
        name="a part of a pending WRITE leaves unknown bytes there",
        capture=[*begun(), write(1, 0, b"\xab\xcd"), read(2, 0, 2), simple(2, b"\xee\0")],
        order="1 0 1\n2\n",
        want="yes requests 2 answered 1 improper 0\n",
    ),
    Case(
        name="and no others",
        capture=[*begun(), write(1, 0, b"\xab\xcd"), read(2, 0, 2), simple(2, b"\xee\xff")],
        order="1 0 1\n2\n",
        want="no content request 2 offset 1\n",
    ),
    Case(
        name="of a WRITE that passes the end what lies in the export",
        capture=[*begun(), WRITE_PAST_THE_END, simple(1, error=22)],
        order="1 6 2\n",
        want="yes requests 1 answered 1 improper 1\n",
    ),
    Case(
        name="of a WRITE that passes the end all of it",
        capture=[*begun(), WRITE_PAST_THE_END, simple(1, error=22)],
        order="1 6 4\n",
        want="no order entry 1: BadPart\n",
    ),
    Case(
        name="a FLUSH has no part",
        capture=[*begun(), request(FLUSH, 1, 0, 0), simple(1)],
        order="1 0 1\n",
        want="no order entry 1: BadPart\n",
    ),
]

# A WRITE of two bytes that is answered.
WRITTEN = [*begun(), write(1, 0, b"\xab\xcd"), simple(1)]

TRIMS_AND_ZEROES = [
    Case(
        name="a part of a TRIM leaves an unknown byte there",
        capture=[*WRITTEN, request(TRIM, 2, 0, 2), read(3, 0, 2), simple(3, b"\xff\xcd"), simple(2)],
        order="1\n2 0 1\n3\n2 1 1\n",
        want="yes requests 3 answered 3 improper 0\n",
    ),
    Case(
        name="and none beside it",
        capture=[*WRITTEN, request(TRIM, 2, 0, 2), read(3, 0, 2), simple(3, b"\0\0"), simple(2)],
        order="1\n2 0 1\n3\n2 1 1\n",
        want="no content request 3 offset 1\n",
    ),
    Case(
        name="a part of a WRITE_ZEROES",
        capture=[*WRITTEN, request(WRITE_ZEROES, 2, 0, 2), read(3, 0, 2), simple(3, b"\0\xcd"), simple(2)],
        order="1\n2 0 1\n3\n2 1 1\n",
        want="yes requests 3 answered 3 improper 0\n",
    ),
    Case(
        name="and nothing beside it",
        capture=[*WRITTEN, request(WRITE_ZEROES, 2, 0, 2), read(3, 0, 2), simple(3, b"\0\0"), simple(2)],
        order="1\n2 0 1\n3\n2 1 1\n",
        want="no content request 3 offset 1\n",
    ),
    Case(
        name="the other part of a WRITE_ZEROES",
        capture=[*WRITTEN, request(WRITE_ZEROES, 2, 0, 2), read(3, 0, 2), simple(3, b"\0\xcd"), simple(2)],
        order="1\n2 1 1\n3\n2 0 1\n",
        want="no content request 3 offset 0\n",
    ),
]

# What stands in the export where the READ of 8 bytes begins.
IMAGE = bytes([0, 0, 0, 0, 0x0a, 0x0b, 0x0c, 0x0d])

# The pieces are a hole of four bytes and four bytes; the WRITE is of the first one.
PIECES = [
    *begun(structured=True), write(1, 0, b"\xab"), read(2, 0, 8), content(2, 4, b"\x0a\x0b\x0c\x0d"), hole(2, 0, 4), done(2),
    simple(1),
]

PARTS_OF_PIECES = [
    Case(
        name="the hole before the WRITE",
        capture=PIECES,
        order="2 0 4\n1\n2 4 4\n",
        start=IMAGE,
        want="yes requests 2 answered 2 improper 0\n",
    ),
    Case(
        name="the hole after the WRITE",
        capture=PIECES,
        order="2 4 4\n1\n2 0 4\n",
        start=IMAGE,
        want="no content request 2 offset 0\n",
    ),
    Case(
        name="a part of both pieces",
        capture=PIECES,
        order="2 0 2\n1\n2 2 4\n2 6 2\n",
        start=IMAGE,
        want="yes requests 2 answered 2 improper 0\n",
    ),
    Case(
        name="the last bytes of the last piece",
        capture=PIECES,
        order="2 0 6\n2 6 2\n1\n",
        start=bytes([0, 0, 0, 0, 0x0a, 0x0b, 0x0c, 0x0e]),
        want="no content request 2 offset 7\n",
    ),
]

INSIDES = [
    Case(
        name="parts of a CACHE",
        capture=[*begun(), request(CACHE, 1, 0, 4), simple(1)],
        order="1 2 2\n1 0 2\n",
        want="yes requests 1 answered 1 improper 0\n",
    ),
    Case(
        name="a part of a CACHE alone",
        capture=[*begun(), request(CACHE, 1, 0, 4), simple(1)],
        order="1 2 2\n",
        want="no order entry 1: NotCovered\n",
    ),
    Case(
        name="a request of no bytes is served atomically",
        capture=[*begun(), read(1, 0, 0), simple(1)],
        order="1\n",
        want="yes requests 1 answered 1 improper 0\n",
    ),
    Case(
        name="and has no part",
        capture=[*begun(), read(1, 0, 0), simple(1)],
        order="1 0 0\n",
        want="no order entry 1: BadPart\n",
    ),
    Case(
        name="a part that begins before its request",
        capture=[*begun(), write(1, 1, b"\xab"), simple(1)],
        order="1 0 2\n",
        want="no order entry 1: BadPart\n",
    ),
]

SEVERAL_FAULTS = [
    Case(
        name="a bad part after a late entry",
        capture=[*begun(), read(1, 0, 1), simple(1, b"\0"), read(2, 0, 1), simple(2, b"\0")],
        order="2 0 1\n1 0 2\n",
        want="no order entry 2: BadPart\n",
    ),
    Case(
        name="a late entry, and a request that is not wholly served",
        capture=[*begun(), write(1, 0, b"\xab\xcd"), simple(1), read(2, 0, 1), simple(2, b"\xab")],
        order="2\n1 0 1\n",
        want="no order entry 1: Late\n",
    ),
]

CASES = (
    A_WRITE_AND_A_READ + FAULTS + NOT_ALL_OF_A_REQUEST + TRIMS_AND_ZEROES + PARTS_OF_PIECES + INSIDES +
    SEVERAL_FAULTS
)
REFUSED = []
