"""Numbers at the end of their fields."""

from cases.case import Case
from messages import DONE, ERROR, TRIM, WRITE, begun, chunk, hole, read, request, simple

REQUESTS = [
    Case(
        name="a WRITE of which no byte came",
        capture=[*begun(), request(WRITE, 1, 2**64 - 1, 2**32 - 1)],
        order="1\n",
        want="no at byte 124: Unfinished\n",
    ),
    Case(
        name="a read past all exports fails",
        capture=[*begun(), read(1, 2**64 - 1, 2**32 - 1), simple(1, error=22)],
        order="1\n",
        want="yes requests 1 answered 1 improper 1\n",
    ),
    Case(
        name="a reply of which no byte came",
        # The READ is improper and has not failed yet.
        capture=[*begun(), read(1, 0, 2**32 - 1), simple(1)],
        order="1\n",
        want="no at byte 140: Unfinished\n",
    ),
    Case(
        name="a trim that is not answered",
        capture=[*begun(), request(TRIM, 1, 2**64 - 1, 2**32 - 1)],
        order="1\n",
        want="yes requests 1 answered 0 improper 1\n",
    ),
]

PARTS_OF_CHUNKS = [
    Case(
        name="a hole past all exports",
        capture=[*begun(structured=True), read(1, 0, 8), hole(1, 2**64 - 1, 2**32 - 1)],
        order="1\n",
        want="no at byte 192: BadContent\n",
    ),
    Case(
        name="a message that is longer than its chunk",
        capture=[
            *begun(structured=True), read(1, 0, 8),
            # The error 5, with a message of 65535 bytes in a chunk of 6.
            chunk(1, ERROR, b"\0\0\0\x05\xff\xff", DONE),
        ],
        order="1\n",
        want="no at byte 186: BadChunk\n",
    ),
]

CASES = REQUESTS + PARTS_OF_CHUNKS
REFUSED = []
