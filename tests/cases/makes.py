"""Scripts and the captures that are made of them."""

from messages import (
    DISC, EXPORT_NAME, FLAGS, LIST, STARTTLS, STRUCTURED, TRIM, WRITE_ZEROES, ZEROES, ack, begun, client_flags, content, done, entered,
    error, failed_at, go, greeting, hole, option, read, request, simple, write,
)

# A script, and its capture, whose bytes are by hand.
MADE = [
    ("", ""),
    (
        "S greeting flags=3\nC client-flags flags=3\n",
        "S 4e42444d4147494349484156454f50540003\nC 00000003\n",
    ),
    (
        "# flags\n\nC client-flags flags=3\nok\nS greeting flags=3\n",
        "C 00000003\nS 4e42444d4147494349484156454f50540003\n",
    ),
    (
        "S chunk flags=1 kind=0 cookie=1 payload=\n",
        "S 668e33ef00010000000000000000000100000000\n",
    ),
    (
        "S simple error=0 cookie=2 payload=ABcd\n",
        "S 67446698000000000000000000000002abcd\n",
    ),
    # STARTTLS, and an answer that refuses it; an error with an offset.
    (
        "C option id=5 payload=\nS answer option=5 kind=2147483649 payload=\n"
        "S chunk flags=1 kind=32770 cookie=1 payload=0000000500000000000000000001\n",
        "C 49484156454f50540000000500000000\nS 0003e889045565a9000000058000000100000000\n"
        "S 668e33ef0001800200000000000000010000000e0000000500000000000000000001\n",
    ),
    # Numbers at the ends of their fields, each in its place.
    (
        "C request flags=1 command=1 cookie=18446744073709551615 offset=4 length=2 payload=0aB0\n"
        "S export size=18446744073709551615 flags=65535 padded=0\nS export size=8 flags=109 padded=1\n",
        "C 2560951300010001ffffffffffffffff0000000000000004000000020ab0\n"
        f"S ffffffffffffffffffff\nS 0000000000000008006d{'00' * 124}\n",
    ),
]

# A script, and its fault.
BAD_SCRIPTS = [
    ("C client-flags flags=03\n", "fault script line 1\n"),
    (
        "S export size=8 flags=109 padded=2\n",
        "fault script line 1\n",
    ),
    # A READ with bytes.
    (
        "C request flags=0 command=0 cookie=2 offset=0 length=4 payload=00\n",
        "fault script line 1\n",
    ),
    # Two spaces.
    (
        "S greeting flags=3\nS greeting  flags=3\n",
        "fault script line 2\n",
    ),
    # The wrong sender.
    ("C greeting flags=3\n", "fault script line 1\n"),
    ("S greeting flags=65536\n", "fault script line 1\n"),
    ("\n#\nok\nok \n", "fault script line 4\n"),
    ("S greeting flags=3\nok", "fault script line 2\n"),
    ("ok\nno at byte 1: OutOfTurn\n", "fault script line 2\n"),
    ("C client-flags flags=4294967296\n", "fault script line 1\n"),
    ("S export size=18446744073709551616 flags=0 padded=0\n", "fault script line 1\n"),
    (" S greeting flags=3\n", "fault script line 1\n"),
    ("S greeting flags=3 \n", "fault script line 1\n"),
    ("S greeting flags= 3\n", "fault script line 1\n"),
    ("S greeting flags=+3\n", "fault script line 1\n"),
    ("S greeting flags=\n", "fault script line 1\n"),
    ("S greeting flags=0x3\n", "fault script line 1\n"),
    ("S greeting flags=3\r\n", "fault script line 1\n"),
    ("\r\n", "fault script line 1\n"),
    ("S simple cookie=1 error=0 payload=\n", "fault script line 1\n"),
    ("S simple error=0 cookie=1\n", "fault script line 1\n"),
    ("S greeting flags=3 payload=\n", "fault script line 1\n"),
    ("S answer option=7 kind=1 payload=0\n", "fault script line 1\n"),
    ("S answer option=7 kind=1 payload=0g\n", "fault script line 1\n"),
    # A WRITE with too few bytes.
    ("C request flags=0 command=1 cookie=2 offset=0 length=2 payload=00\n", "fault script line 1\n"),
    ("ok\n# x", "fault script line 2\n"),
    # The first of two.
    ("\nS greeting\n0\n", "fault script line 2\n"),
]

# Accepted sessions of which no two messages overlap.
SESSIONS = [
    [],
    FLAGS,
    begun(),
    begun(structured=True),
    [*FLAGS, option(LIST), ack(LIST), *STRUCTURED, option(EXPORT_NAME, b"disk")],
    # A WRITE and a READ, one after the other, and the other way round.
    [*begun(), write(1, 0, b"\xab\xcd"), simple(1), read(2, 0, 4), simple(2, b"\xab\xcd\0\0")],
    [*begun(), write(1, 0, b"\xab\xcd"), simple(1), read(2, 0, 4), simple(2, b"\xab\xce\0\0")],
    [*begun(), write(1, 0, b"\xab\xcd"), read(2, 0, 2), simple(2, b"\xab\xcd"), simple(1)],
    # The READ gets other bytes, and the WRITE fails after it or does not.
    [*begun(), write(1, 0, b"\xab\xcd"), read(2, 0, 2), simple(2, b"\xee\xff"), simple(1, error=5)],
    [*begun(), write(1, 0, b"\xab\xcd"), read(2, 0, 2), simple(2, b"\xee\xff"), simple(1)],
    # A WRITE that is not answered.
    [*begun(), write(1, 0, b"\xab"), read(2, 0, 1), simple(2, b"\xff")],
    [*begun(), read(1, 0, 4), simple(1, bytes(4))],
    [*begun(), read(1, 0, 1), simple(1, b"\0"), read(2, 0, 1), simple(2, b"\0")],
    [*begun(structured=True), read(1, 0, 4), content(1, 0, bytes(4)), done(1)],
    # Two pieces of a READ, the later one first.
    [
        *begun(structured=True), write(1, 4, b"\x0a\x0b\x0c\x0d"), done(1), read(2, 0, 8),
        content(2, 4, b"\x0a\x0b\x0c\x0d"), hole(2, 0, 4), done(2),
    ],
    # A READ that begins at the export's end, one of no bytes there, and one that begins at 2^64 - 1.
    [*begun(), read(1, 8, 1), simple(1, error=22)],
    [*begun(), read(1, 8, 0), simple(1)],
    [*begun(), read(1, 2**64 - 1, 1), simple(1, error=22)],
    [
        greeting(), client_flags(1), option(EXPORT_NAME, b"disk"), entered(), *ZEROES, read(1, 0, 1), simple(1, b"\0"),
    ],
    [*FLAGS, option(EXPORT_NAME, b"disk"), entered(), read(1, 0, 1), simple(1, b"\0")],
    [*begun(), request(TRIM, 1, 0, 8), simple(1), read(2, 0, 8), simple(2, b"\x01\x02\x03\x04\x05\x06\x07\x08")],
    [
        *begun(), request(WRITE_ZEROES, 1, 0, 8), simple(1), read(2, 0, 8),
        simple(2, b"\x01\x02\x03\x04\x05\x06\x07\x08"),
    ],
    # STARTTLS, which is refused, and GO.
    [*FLAGS, option(STARTTLS), error(STARTTLS, 0x80000001), *go()],
    [*begun(), write(1, 0, b"\xab"), read(2, 0, 1), request(DISC, 9, 0, 0), simple(2, b"\0"), simple(1)],
    # A READ of no bytes, and an error chunk with an offset.
    [*begun(structured=True), read(1, 0, 0), done(1)],
    [*begun(structured=True), read(1, 0, 2), failed_at(1, 1)],
]
