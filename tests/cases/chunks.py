"""Structured replies."""

from cases.case import Case
from messages import DONE, NONE, READ, SERVER, begun, chunk, content, done, failed, failed_at, hole, read, request, simple, write

A_READ_IN_PIECES = [
    Case(
        name="a hole before written bytes, stated after them",
        capture=[
            *begun(structured=True), write(1, 4, b"\x0a\x0b\x0c\x0d"), done(1), read(2, 0, 8),
            content(2, 4, b"\x0a\x0b\x0c\x0d"), hole(2, 0, 4), done(2),
        ],
        order="1\n2\n",
        want="yes requests 2 answered 2 improper 0\n",
    ),
    Case(
        name="the wrong byte is in the second piece",
        capture=[
            *begun(structured=True), write(1, 4, b"\x0a\x0b\x0c\x0d"), done(1), read(2, 0, 8),
            content(2, 4, b"\x0a\x0b\x0c\x0d"), content(2, 0, b"\0\0\0\1"), done(2),
        ],
        order="1\n2\n",
        want="no content request 2 offset 3\n",
    ),
    Case(
        name="two pieces share the offset 3",
        capture=[*begun(structured=True), read(1, 0, 8), content(1, 0, bytes(4)), hole(1, 3, 5)],
        order="1\n",
        want="no at byte 224: BadContent\n",
    ),
    Case(
        name="the last byte is in no piece",
        capture=[*begun(structured=True), read(1, 0, 8), content(1, 0, bytes(7), DONE)],
        order="1\n",
        want="no at byte 195: IncompleteRead\n",
    ),
]

REPLIES_THAT_MAY_NOT_BE = [
    Case(
        name="a simple reply to a read under structured replies",
        capture=[
            *begun(structured=True), read(1, 0, 1), simple(1),
            # The byte that was read.
            (SERVER, b"\0"),
        ],
        order="1\n",
        want="no at byte 176: SimpleForbidden\n",
    ),
    Case(
        name="a chunk without content that does not end the reply",
        capture=[*begun(structured=True), read(1, 0, 0), chunk(1, NONE)],
        order="1\n",
        want="no at byte 180: BadChunk\n",
    ),
    Case(
        name="the offset of an error is past the read",
        capture=[*begun(structured=True), read(1, 0, 2), failed_at(1, 2)],
        order="1\n",
        want="no at byte 194: BadContent\n",
    ),
]

REPLIES_WITHOUT_BYTES = [
    Case(
        name="a read of no bytes",
        capture=[*begun(structured=True), read(1, 0, 0), done(1)],
        order="1\n",
        want="yes requests 1 answered 1 improper 0\n",
    ),
    Case(
        name="an error at an offset of the read",
        capture=[*begun(structured=True), read(1, 0, 2), failed_at(1, 1)],
        order="1\n",
        want="yes requests 1 answered 1 improper 0\n",
    ),
]

A_READ_THAT_IS_NOT_TO_BE_SPLIT = [
    Case(
        name="it is split",
        capture=[
            *begun(structured=True, flags=0xED), request(READ, 1, 0, 8, flags=4), content(1, 0, bytes(4)),
            hole(1, 4, 4),
        ],
        order="1\n",
        want="no at byte 224: BadContent\n",
    ),
    Case(
        name="the flag was not offered, and the read succeeds",
        capture=[
            *begun(structured=True), request(READ, 1, 0, 8, flags=4), content(1, 0, bytes(4)), hole(1, 4, 4), done(1),
        ],
        order="1\n",
        want="no at byte 244: SuccessOfImproper\n",
    ),
    Case(
        name="the flag was not offered, and the read fails",
        capture=[
            *begun(structured=True), request(READ, 1, 0, 8, flags=4), content(1, 0, bytes(4)), hole(1, 4, 4), failed(1),
        ],
        order="1\n",
        want="yes requests 1 answered 1 improper 1\n",
    ),
]

CASES = A_READ_IN_PIECES + REPLIES_WITHOUT_BYTES + A_READ_THAT_IS_NOT_TO_BE_SPLIT
REFUSED = REPLIES_THAT_MAY_NOT_BE
