"""Captures and their message lines."""

from collections import namedtuple

from messages import (
    CLIENT, DISC, EXPORT_NAME, FLAGS, SERVER, WRITE, ZEROES, begun, client_flags, content, cut, done, entered, greeting, hole, option, read,
    request, simple, write,
)

# A capture, and the lines that are written.
Show = namedtuple("Show", "name capture want")

BUT_ONE, LAST = cut(write(1, 0, b"\xab\xcd"), 29)
FIRST, REST = cut(simple(1), 1)

# The lines of `begun()`.
BEGUN_LINES = """\
S greeting flags=3
C client-flags flags=3
C option id=7 payload=000000000000
S answer option=7 kind=3 payload=00000000000000000008006d
S answer option=7 kind=1 payload=
"""

# The lines of `begun(structured=True)`.
BEGUN_STRUCTURED_LINES = """\
S greeting flags=3
C client-flags flags=3
C option id=8 payload=
S answer option=8 kind=1 payload=
C option id=7 payload=000000000000
S answer option=7 kind=3 payload=00000000000000000008006d
S answer option=7 kind=1 payload=
"""

ACCEPTED = [
    Show(
        name="nothing",
        capture=[],
        want=["ok\n"],
    ),
    Show(
        name="a negotiation",
        capture=begun(),
        want=[BEGUN_LINES, "ok\n"],
    ),
    Show(
        name="a write and a read",
        capture=[*begun(), write(1, 0, b"\xab\xcd"), simple(1), read(2, 0, 4), simple(2, b"\xab\xcd\0\0")],
        want=[
            BEGUN_LINES,
            "C request flags=0 command=1 cookie=1 offset=0 length=2 payload=abcd\n",
            "S simple error=0 cookie=1 payload=\n",
            "C request flags=0 command=0 cookie=2 offset=0 length=4 payload=\n",
            "S simple error=0 cookie=2 payload=abcd0000\n",
            "ok\n",
        ],
    ),
    Show(
        name="chunks",
        capture=[
            *begun(structured=True), write(1, 4, b"\x0a\x0b\x0c\x0d"), done(1), read(2, 0, 8),
            content(2, 4, b"\x0a\x0b\x0c\x0d"), hole(2, 0, 4), done(2),
        ],
        want=[
            BEGUN_STRUCTURED_LINES,
            "C request flags=0 command=1 cookie=1 offset=4 length=4 payload=0a0b0c0d\n",
            "S chunk flags=1 kind=0 cookie=1 payload=\n",
            "C request flags=0 command=0 cookie=2 offset=0 length=8 payload=\n",
            "S chunk flags=0 kind=1 cookie=2 payload=00000000000000040a0b0c0d\n",
            "S chunk flags=0 kind=2 cookie=2 payload=000000000000000000000004\n",
            "S chunk flags=1 kind=0 cookie=2 payload=\n",
            "ok\n",
        ],
    ),
    Show(
        name="a read at the last offset, and its failure",
        capture=[*begun(), read(1, 2**64 - 1, 1), simple(1, error=22)],
        want=[
            BEGUN_LINES,
            "C request flags=0 command=0 cookie=1 offset=18446744073709551615 length=1 payload=\n",
            "S simple error=22 cookie=1 payload=\n",
            "ok\n",
        ],
    ),
    Show(
        name="an export by its name, padded",
        capture=[
            greeting(), client_flags(1), option(EXPORT_NAME, b"disk"), entered(), *ZEROES, read(1, 0, 1), simple(1, b"\0"),
        ],
        want=[
            "S greeting flags=3\nC client-flags flags=1\n",
            "C option id=1 payload=6469736b\n",
            "S export size=8 flags=109 padded=1\n",
            "C request flags=0 command=0 cookie=1 offset=0 length=1 payload=\n",
            "S simple error=0 cookie=1 payload=00\n",
            "ok\n",
        ],
    ),
    Show(
        name="an export by its name, not padded",
        capture=[*FLAGS, option(EXPORT_NAME, b"disk"), entered()],
        want=[
            "S greeting flags=3\nC client-flags flags=3\n",
            "C option id=1 payload=6469736b\n",
            "S export size=8 flags=109 padded=0\n",
            "ok\n",
        ],
    ),
    Show(
        name="replies after a DISC",
        capture=[*begun(), write(1, 0, b"\xab"), read(2, 0, 1), request(DISC, 9, 0, 0), simple(2, b"\0"), simple(1)],
        want=[
            BEGUN_LINES,
            "C request flags=0 command=1 cookie=1 offset=0 length=1 payload=ab\n",
            "C request flags=0 command=0 cookie=2 offset=0 length=1 payload=\n",
            "C request flags=0 command=2 cookie=9 offset=0 length=0 payload=\n",
            "S simple error=0 cookie=2 payload=00\n",
            "S simple error=0 cookie=1 payload=\n",
            "ok\n",
        ],
    ),
    Show(
        name="a read completes while a write is under way",
        capture=[
            *begun(), read(1, 0, 1),
            # A WRITE of one byte at 4 but for that byte, the reply to the READ, and that byte.
            request(WRITE, 1, 4, 1), simple(1, b"\0"), (CLIENT, b"\xab"), simple(1),
        ],
        want=[
            BEGUN_LINES,
            "C request flags=0 command=0 cookie=1 offset=0 length=1 payload=\n",
            "S simple error=0 cookie=1 payload=00\n",
            "C request flags=0 command=1 cookie=1 offset=4 length=1 payload=ab\n",
            "S simple error=0 cookie=1 payload=\n",
            "ok\n",
        ],
    ),
]

REFUSED = [
    Show(
        name="the first byte",
        capture=[(CLIENT, b"\0")],
        want=["no at byte 1: OutOfTurn\n"],
    ),
    Show(
        name="the reply starts before the write is whole",
        capture=[
            *begun(),
            # A WRITE but for its last byte; the reply's first byte, the WRITE's last one, and the rest of the reply.
            BUT_ONE, FIRST, LAST, REST,
        ],
        want=[
            BEGUN_LINES,
            "C request flags=0 command=1 cookie=1 offset=0 length=2 payload=abcd\n",
            "no at byte 142: UnknownCookie\n",
        ],
    ),
    Show(
        name="the last reply's last byte is not there",
        capture=[*begun(), write(1, 0, b"\xab\xcd"), simple(1), read(2, 0, 4), simple(2, b"\xab\xcd\0")],
        want=[
            BEGUN_LINES,
            "C request flags=0 command=1 cookie=1 offset=0 length=2 payload=abcd\n",
            "S simple error=0 cookie=1 payload=\n",
            "C request flags=0 command=0 cookie=2 offset=0 length=4 payload=\n",
            "no at byte 189: Unfinished\n",
        ],
    ),
    Show(
        name="a cookie in use",
        capture=[*begun(), read(1, 0, 1), read(1, 0, 1)],
        want=[
            BEGUN_LINES,
            "C request flags=0 command=0 cookie=1 offset=0 length=1 payload=\n",
            "no at byte 152: CookieInUse\n",
        ],
    ),
    Show(
        name="what comes after the refused byte is not shown",
        capture=[*begun(), (SERVER, b"\xde\xad\xbe\xef"), read(1, 0, 1), simple(1, b"\0")],
        want=[BEGUN_LINES, "no at byte 100: BadMagic\n"],
    ),
]

# What follows `begun()`, and the fault.
BAD_TEXTS = [
    ("C 0\n", "fault capture line 6\n"),
    ("# a comment\n\nC 00\nX\n", "fault capture line 9\n"),
    ("S deadbeef\nS 0g\n", "fault capture line 7\n"),
    ("C 00", "fault capture line 6\n"),
]
