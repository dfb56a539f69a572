"""The bytes of reads."""

from cases.case import Case
from messages import TRIM, WRITE_ZEROES, begun, read, request, simple, write

READS_OF_WHAT_WAS_THERE_FIRST = [
    Case(
        name="zeroes were read from zeroes",
        capture=[*begun(), read(1, 0, 4), simple(1, bytes(4))],
        order="1\n",
        want="yes requests 1 answered 1 improper 0\n",
    ),
    Case(
        name="the third byte is wrong",
        capture=[*begun(), read(1, 0, 4), simple(1, b"\0\0\1\0")],
        order="1\n",
        want="no content request 1 offset 2\n",
    ),
    Case(
        name="the third byte may be anything",
        capture=[*begun(), read(1, 0, 4), simple(1, b"\0\0\1\0")],
        order="1\n",
        start="unknown",
        want="yes requests 1 answered 1 improper 0\n",
    ),
    Case(
        name="the last byte is not there",
        capture=[*begun(), read(1, 0, 4), simple(1, bytes(3))],
        order="1\n",
        want="no at byte 143: Unfinished\n",
    ),
]

READS_OF_AN_IMAGE = [
    Case(
        name="the image's bytes were read",
        capture=[*begun(), read(1, 0, 4), simple(1, b"nbdc")],
        order="1\n",
        start=b"nbdcheck",
        want="yes requests 1 answered 1 improper 0\n",
    ),
    Case(
        name="the third byte is not the image's",
        capture=[*begun(), read(1, 0, 4), simple(1, b"nbtc")],
        order="1\n",
        start=b"nbdcheck",
        want="no content request 1 offset 2\n",
    ),
    Case(
        name="an image of another size than the export's",
        capture=begun(),
        order="",
        start=b"nbdchecks",
        want="no image 9 size 8\n",
    ),
    Case(
        name="an image that ends before the export does",
        capture=begun(),
        order="",
        start=b"nbdchec",
        want="no image 7 size 8\n",
    ),
    Case(
        name="an image without bytes",
        capture=begun(),
        order="",
        start=b"",
        want="no image 0 size 8\n",
    ),
    Case(
        name="an image of more bytes than are read at a time",
        capture=begun(),
        order="",
        start=bytes([7]) * 200_000,
        want="no image 200000 size 8\n",
    ),
    Case(
        name="an image of another size, and a reply to no request",
        capture=[*begun(), simple(1)],
        order="",
        start=bytes([7]) * 200_000,
        want="no at byte 112: UnknownCookie\n",
    ),
    Case(
        name="an image, and a session that does not reach transmission",
        capture=[],
        order="",
        start=b"nbdcheck",
        want="yes requests 0 answered 0 improper 0\n",
    ),
]

READS_OF_WHAT_WAS_WRITTEN = [
    Case(
        name="the second byte is wrong",
        capture=[*begun(), write(1, 0, b"\xab\xcd"), simple(1), read(2, 0, 4), simple(2, b"\xab\xce\0\0")],
        order="1\n2\n",
        want="no content request 2 offset 1\n",
    ),
    Case(
        name="a write that fails leaves any bytes",
        capture=[*begun(), write(1, 0, b"\xab\xcd"), read(2, 0, 2), simple(2, b"\xee\xff"), simple(1, error=5)],
        order="1\n2\n",
        want="yes requests 2 answered 2 improper 0\n",
    ),
    Case(
        name="a write that succeeds does not",
        capture=[*begun(), write(1, 0, b"\xab\xcd"), read(2, 0, 2), simple(2, b"\xee\xff"), simple(1)],
        order="1\n2\n",
        want="no content request 2 offset 0\n",
    ),
    Case(
        name="a write without an answer leaves any bytes",
        capture=[*begun(), write(1, 0, b"\xab"), read(2, 0, 1), simple(2, b"\xff")],
        order="1\n2\n",
        want="yes requests 2 answered 1 improper 0\n",
    ),
    Case(
        name="a write without an answer that was not served",
        capture=[*begun(), write(1, 0, b"\xab"), read(2, 0, 1), simple(2, b"\xff")],
        order="2\n",
        want="no content request 2 offset 0\n",
    ),
]

READS_OF_WHAT_WAS_TRIMMED_OR_ZEROED = [
    Case(
        name="a trim leaves any bytes",
        capture=[
            *begun(), request(TRIM, 1, 0, 8), simple(1), read(2, 0, 8), simple(2, b"\x01\x02\x03\x04\x05\x06\x07\x08"),
        ],
        order="1\n2\n",
        want="yes requests 2 answered 2 improper 0\n",
    ),
    Case(
        name="WRITE_ZEROES leaves zeroes",
        capture=[
            *begun(), request(WRITE_ZEROES, 1, 0, 8), simple(1), read(2, 0, 8),
            simple(2, b"\x01\x02\x03\x04\x05\x06\x07\x08"),
        ],
        order="1\n2\n",
        want="no content request 2 offset 0\n",
    ),
]

CASES = (
    READS_OF_WHAT_WAS_THERE_FIRST + READS_OF_AN_IMAGE + READS_OF_WHAT_WAS_WRITTEN +
    READS_OF_WHAT_WAS_TRIMMED_OR_ZEROED
)
REFUSED = []
