"""Requests and simple replies."""

from cases.case import Case
from messages import CACHE, CLIENT, DISC, FLUSH, SERVER, WRITE, begun, cut, done, read, request, simple, write

BUT_ONE, LAST = cut(write(1, 0, b"\xab\xcd"), 29)
FIRST, REST = cut(simple(1), 1)

A_WRITE_AND_A_READ = [
    Case(
        name="one after the other",
        capture=[*begun(), write(1, 0, b"\xab\xcd"), simple(1), read(2, 0, 4), simple(2, b"\xab\xcd\0\0")],
        order="1\n2\n",
        want="yes requests 2 answered 2 improper 0\n",
    ),
    Case(
        name="the last reply's last byte is not there",
        capture=[*begun(), write(1, 0, b"\xab\xcd"), simple(1), read(2, 0, 4), simple(2, b"\xab\xcd\0")],
        order="1\n2\n",
        want="no at byte 189: Unfinished\n",
    ),
    Case(
        name="the read is answered before the write",
        capture=[*begun(), write(1, 0, b"\xab\xcd"), read(2, 0, 2), simple(2, b"\xab\xcd"), simple(1)],
        order="1\n2\n",
        want="yes requests 2 answered 2 improper 0\n",
    ),
    Case(
        name="the reply starts before the write is whole",
        capture=[
            *begun(),
            # A WRITE but for its last byte; the reply's first byte, the WRITE's last one, and the rest of the reply.
            BUT_ONE, FIRST, LAST, REST,
        ],
        order="1\n",
        want="no at byte 142: UnknownCookie\n",
    ),
]

COOKIES = [
    Case(
        name="two outstanding requests with one cookie",
        capture=[*begun(), read(1, 0, 1), read(1, 0, 1)],
        order="1\n2\n",
        want="no at byte 152: CookieInUse\n",
    ),
    Case(
        name="a cookie is free again before the next request with it is whole",
        capture=[
            *begun(), read(1, 0, 1),
            # A WRITE of one byte at 4 with the cookie 1, but for that byte.
            request(WRITE, 1, 4, 1), simple(1, b"\0"),
            # That byte.
            (CLIENT, b"\xab"), simple(1),
        ],
        order="1\n2\n",
        want="yes requests 2 answered 2 improper 0\n",
    ),
]

AFTER_DISC = [
    Case(
        name="replies may follow DISC",
        capture=[*begun(), write(1, 0, b"\xab"), read(2, 4, 1), request(DISC, 9, 0, 0), simple(2, b"\0"), simple(1)],
        order="1\n2\n",
        want="yes requests 2 answered 2 improper 0\n",
    ),
    Case(
        name="the client may not speak after DISC",
        capture=[
            *begun(), write(1, 0, b"\xab"), read(2, 4, 1), request(DISC, 9, 0, 0),
            # A byte of whatever.
            (CLIENT, b"\0"), simple(2, b"\0"), simple(1),
        ],
        order="1\n2\n",
        want="no at byte 182: OutOfTurn\n",
    ),
]

REQUESTS_BEHIND_THE_END_OF_THE_EXPORT = [
    Case(
        name="a read past the end fails",
        capture=[*begun(), read(1, 8, 1), simple(1, error=22)],
        order="1\n",
        want="yes requests 1 answered 1 improper 1\n",
    ),
    Case(
        name="a read at the last offset of all fails",
        capture=[*begun(), read(1, 2**64 - 1, 1), simple(1, error=22)],
        order="1\n",
        want="yes requests 1 answered 1 improper 1\n",
    ),
    Case(
        name="a read past the end succeeds",
        capture=[*begun(), read(1, 8, 1), simple(1, b"\0")],
        order="1\n",
        want="no at byte 141: SuccessOfImproper\n",
    ),
    Case(
        name="a read of no bytes at the end succeeds",
        capture=[*begun(), read(1, 8, 0), simple(1)],
        order="1\n",
        want="yes requests 1 answered 1 improper 0\n",
    ),
]

COMMANDS_THAT_WERE_NOT_OFFERED = [
    Case(
        name="CACHE needs no offer",
        capture=[*begun(), request(CACHE, 1, 0, 8), simple(1)],
        order="1\n",
        want="yes requests 1 answered 1 improper 0\n",
    ),
    Case(
        name="FLUSH that was not offered fails",
        capture=[*begun(flags=0x69), request(FLUSH, 1, 0, 0), simple(1, error=22)],
        order="1\n",
        want="yes requests 1 answered 1 improper 1\n",
    ),
    Case(
        name="FLUSH that was not offered succeeds",
        capture=[*begun(flags=0x69), request(FLUSH, 1, 0, 0), simple(1)],
        order="1\n",
        want="no at byte 140: SuccessOfImproper\n",
    ),
]

REFUSED_AT_ONCE = [
    Case(
        name="the server's bytes begin with no magic number",
        capture=[
            *begun(),
            # Neither a simple reply nor a chunk.
            (SERVER, b"\xde\xad\xbe\xef"),
        ],
        order="",
        want="no at byte 100: BadMagic\n",
    ),
    Case(
        name="DISC with a length",
        capture=[*begun(), request(DISC, 9, 0, 1)],
        order="",
        want="no at byte 124: BadDisconnect\n",
    ),
    Case(
        name="a chunk, though structured replies were not agreed",
        capture=[*begun(), read(1, 0, 1), done(1)],
        order="1\n",
        want="no at byte 144: ChunkForbidden\n",
    ),
]

CASES = (
    A_WRITE_AND_A_READ + COOKIES + AFTER_DISC + REQUESTS_BEHIND_THE_END_OF_THE_EXPORT +
    COMMANDS_THAT_WERE_NOT_OFFERED
)
REFUSED = REFUSED_AT_ONCE
