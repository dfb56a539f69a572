"""Sessions with extended headers, and what `check` says of each in both profiles: on an export of 8 bytes, which holds zeroes unless
said.

In `base` no answer to EXTENDED_HEADERS but an error is followed. In `wide` its ACK puts extended headers in force, and with them
structured replies: each request, and each chunk, has a header of 32 bytes.
"""

import struct

from cases.by_chunk import order
from cases.case import at, cases, upto, yes
from cases.contexts import NO_CONTEXT, ONES
from cases.extended_messages import (
    ABCD, BEGUN, EXTENDED, FIRST, LARGE, LARGEST, MOST, ONE_READ, PLAINLY, SHORT, TRIM_CARRIES, TWO_CONTEXTS, WRITTEN, Reply,
    alike, asked, asks, begun, carries, ends, fails, filters, gives, gives_last, head_of, left, reads, spoken, talk, tells,
    tells_last, writes, writes_plainly, wrong, zeroes, zeroes_last,
)
from cases.extended_statuses import FILTERS, NO_STATUSES, STATUSES
from cases.shows import Show
from messages import (
    CACHE, CHUNKS, CLIENT, DISC, DONE, EXTENDED_HEADERS, FLAGS, FLUSH, GO, OFFSET_HOLE, PAYLOAD_LEN, READ, REQ_ONE, STARTTLS,
    STRUCTURED, STRUCTURED_REPLY, TRIM, WRITE, WRITE_ZEROES, ack, answer, asking, by_name, content, done, error, export, failed,
    go, option, read, request, simple, sizes,
)


def negotiates(name, records, wide, base=58):
    """A negotiation alone."""
    return talk(name, FLAGS + records, [], wide, count=0, base=base)


def enters(name, before, wide=None, base=58):
    """One READ behind these options and GO."""
    return talk(name, FLAGS + before + go(), ONE_READ, wide or yes(1), base=base)


ODD = option(EXTENDED_HEADERS, b"x")
REFUSED = [option(EXTENDED_HEADERS), error(EXTENDED_HEADERS, 0x80000001)]

NEGOTIATIONS = [
    negotiates("granted", EXTENDED + go(), yes(0)),
    alike("refused", FLAGS + REFUSED + go() + [read(1, 0, 1), simple(1, b"\0")], yes(1)),
    negotiates("the option has a byte of data, and ACK", [ODD, ack(EXTENDED_HEADERS)], at(59, "SuccessOfImproper"), base=59),
    alike("the option has a byte of data, and an error", FLAGS + [ODD, error(EXTENDED_HEADERS)], yes(0), count=0),
    negotiates("answered by the name of an export", [option(EXTENDED_HEADERS), answer(EXTENDED_HEADERS, 2)], at(58, "BadReplyKind")),
    negotiates("an ACK of a byte", [option(EXTENDED_HEADERS), answer(EXTENDED_HEADERS, 1, b"x")], at(58, "BadReplyPayload")),
    alike("answered as STRUCTURED_REPLY", FLAGS + [option(EXTENDED_HEADERS), ack(STRUCTURED_REPLY)], at(58, "WrongOption"), count=0),
    enters("structured replies are in force before", STRUCTURED + EXTENDED, base=94),
    enters("structured replies are granted behind", EXTENDED + STRUCTURED),
    enters("granted twice", EXTENDED + EXTENDED),
    enters("a second option fails", EXTENDED + [option(EXTENDED_HEADERS), error(EXTENDED_HEADERS, 0x80000003)]),
    enters("structured replies are refused behind", EXTENDED + [option(STRUCTURED_REPLY), error(STRUCTURED_REPLY, 0x8000000A)]),
    enters("STARTTLS is refused behind", EXTENDED + [option(STARTTLS), error(STARTTLS, 0x80000002)]),
    enters("STARTTLS is granted behind", EXTENDED + [option(STARTTLS), ack(STARTTLS)], at(94)),
    alike("refused behind structured replies", CHUNKS + REFUSED + go() + [read(1, 0, 1), content(1, 0, bytes(1), DONE)], yes(1)),
    talk("EXPORT_NAME enters", FLAGS + EXTENDED + by_name(b"disk"), ONE_READ, yes(1)),
]


HEADERS = [
    begun("a READ", ONE_READ, yes(1)),
    begun("a request without one", [read(1, 0, 1)], at(160, "Unfinished")),
    begun("a request without one, and four bytes more", [read(1, 0, 1), (CLIENT, bytes(4))], at(164, "BadMagic")),
    begun("a simple reply", [reads(1, 0, 1), simple(1)], at(168, "BadMagic")),
    begun("a chunk without one", [reads(1, 0, 1), done(1)], at(168, "BadMagic")),
    alike("a chunk with one, though none is in force", NO_CONTEXT + [read(1, 0, 1), ends(1)], at(164, "BadMagic")),
    alike("a request with one, though none is in force", NO_CONTEXT + [reads(1, 0, 1)], at(160, "BadMagic")),
]

TRIM_1 = asked(TRIM, 1, 0, 8)
TWO_READS = [reads(1, 0, 1), reads(2, 4, 1)]

OFFSETS = [
    begun("the offset of a piece is 0 in place of 4", [reads(1, 4, 1), gives_last(1, 4, b"\0", of=0)], at(205, "BadReplyOffset")),
    begun("the second piece has its own offset",
          [reads(1, 0, 8), gives(1, 0, bytes(4)), gives_last(1, 4, bytes(4), of=4)], at(252, "BadReplyOffset")),
    begun("the offset of a chunk without content is 1 in place of 0", [TRIM_1, ends(1, of=1)], at(196, "BadReplyOffset")),
    begun("the offset differs above 32 bits", [TRIM_1, ends(1, of=2**32)], at(196, "BadReplyOffset")),
    begun("the offset of an error is the largest", [TRIM_1, fails(1, of=MOST)], at(202, "BadReplyOffset")),
    begun("two READs, each with its offset", [*TWO_READS, gives_last(2, 4, b"\0"), gives_last(1, 0, b"\0")], yes(2), count=2),
    begun("two READs, and the offset of the other", [*TWO_READS, gives_last(2, 4, b"\0", of=0)], at(237, "BadReplyOffset"), count=2),
    begun("a wrong offset, and the READ is not covered", [reads(1, 0, 1), ends(1, of=1)], at(196, "IncompleteRead")),
    begun("a wrong offset, and the request is improper", [asked(TRIM, 1, 8, 1), ends(1, of=0)], at(196, "SuccessOfImproper")),
    begun("a wrong offset, and the piece is outside", [reads(1, 0, 1), gives_last(1, 1, b"\0", of=1)], at(205, "BadContent")),
    begun("a wrong offset, and the chunk is malformed", [TRIM_1, ends(1, of=1, flags=0)], at(196, "BadChunk")),
    begun("a wrong offset, and an unknown cookie", [reads(1, 0, 1), ends(2, of=1)], at(196, "UnknownCookie")),
    begun("a READ at the largest offset fails", [reads(1, MOST, 1), fails(1)], yes(1, 1)),
]


READ_BACK = [ends(1), reads(2, 0, 2), gives_last(2, 0, ABCD)]

WRITES = [
    begun("a WRITE, and a READ", [WRITTEN, *READ_BACK], yes(2), count=2),
    begun("a WRITE without the flag, and a READ", [PLAINLY, *READ_BACK], yes(2), count=2),
    begun("a WRITE without the flag, and a READ gives a wrong byte",
          [PLAINLY, ends(1), reads(2, 0, 2), gives_last(2, 0, b"\xab\xce")], wrong(2, 1), count=2),
    begun("a WRITE without the flag fails", [PLAINLY, fails(1)], yes(1)),
    begun("a WRITE without the flag past the end fails", [writes_plainly(1, 7, ABCD), fails(1)], yes(1, 1)),
    begun("a WRITE without the flag past the end succeeds", [writes_plainly(1, 7, ABCD), ends(1)], at(198, "SuccessOfImproper")),
    begun("a WRITE of no bytes", [writes(1, 0, b""), ends(1)], yes(1)),
    begun("a WRITE of no bytes without the flag", [writes_plainly(1, 0, b""), ends(1)], yes(1)),
]

FLAGGED = request(READ, 1, 0, 2, flags=PAYLOAD_LEN)

# Without extended headers the flag carries nothing, and is not allowed.
WITHOUT = [
    alike("none is in force, and a WRITE has the flag", NO_CONTEXT + [request(WRITE, 1, 0, 2, ABCD, PAYLOAD_LEN), done(1)],
          at(182, "SuccessOfImproper")),
    alike("none is in force, and a READ with the flag fails", NO_CONTEXT + [FLAGGED, failed(1)], yes(1, 1)),
    alike("none is in force, and a simple reply to a READ with the flag", NO_CONTEXT + [FLAGGED, simple(1, error=22)],
          at(176, "SimpleForbidden")),
    alike("none is in force, and a READ with the flag has bytes", NO_CONTEXT + [FLAGGED, (CLIENT, bytes(2)), failed(1)],
          at(188, "Unfinished")),
]

# Any command may carry a payload, and each but a WRITE is improper then.
CARRIERS = {"READ": READ, "FLUSH": FLUSH, "TRIM": TRIM, "CACHE": CACHE, "WRITE_ZEROES": WRITE_ZEROES, "command 42": 42}


PAYLOADS = [
    begun(f"{word} with a payload fails, and a READ", [
        carries(number, 1, 0, ABCD), fails(1), reads(2, 4, 1), gives_last(2, 4, b"\0")], yes(2, 1), count=2)
    for word, number in CARRIERS.items()
] + [
    begun("TRIM with a payload succeeds", [TRIM_CARRIES, ends(1)], at(198, "SuccessOfImproper")),
    begun("TRIM with a payload of no bytes succeeds", [carries(TRIM, 1, 0, b""), ends(1)], at(196, "SuccessOfImproper")),
    begun("READ with a payload gives a byte and fails", [carries(READ, 1, 0, ABCD), gives(1, 0, b"\0"), fails(1)], yes(1, 1)),
    begun("TRIM with a payload fails, and its range is unknown",
          [TRIM_CARRIES, fails(1), reads(2, 0, 4), gives_last(2, 0, b"\xff\xff\0\0")], yes(2, 1), count=2),
    begun("TRIM with a payload fails, and a byte behind its range is wrong",
          [TRIM_CARRIES, fails(1), reads(2, 0, 4), gives_last(2, 0, b"\xff\xff\xff\0")], wrong(2, 2), count=2),
    begun("the cookie of a TRIM with a payload is in use", [reads(1, 0, 1), carries(TRIM, 1, 0, b"\xab")], at(197, "CookieInUse")),
]


LENGTHS = [
    begun("TRIM with too long a payload", [asked(TRIM, 1, 0, SHORT + 1, PAYLOAD_LEN)], at(164)),
    begun("WRITE with too long a payload, without the flag", [asked(WRITE, 1, 0, SHORT + 1)], at(164)),
    begun("WRITE with the longest payload, of which no byte came", [asked(WRITE, 1, 0, SHORT, PAYLOAD_LEN)], at(164, "Unfinished")),
    begun("a READ of 33 bits fails", [reads(1, 0, SHORT + 1), fails(1)], yes(1, 1)),
    begun("DISC with the flag", [asked(DISC, 9, 0, 0, PAYLOAD_LEN)], yes(0), count=0),
    begun("DISC with a payload of a byte", [asked(DISC, 9, 0, 1, PAYLOAD_LEN)], at(164, "BadDisconnect"), count=0),
    begun("DISC with too long a payload", [asked(DISC, 9, 0, SHORT + 1, PAYLOAD_LEN)], at(164), count=0),
    begun("DISC with a length of 33 bits", [asked(DISC, 9, 0, SHORT + 1)], at(164, "BadDisconnect"), count=0),
    begun("a chunk with too long a payload", [reads(1, 0, 1), head_of(1, SHORT + 1)], at(196)),
    begun("a chunk with the longest length for an unknown cookie", [reads(1, 0, 1), head_of(2, MOST)], at(196)),
    begun("a chunk with the longest payload, of which no byte came", [reads(1, 0, 1), head_of(1, SHORT, of=1)], at(196, "Unfinished")),
]

MIDDLE = 2**33


def large(name, messages, wide, count=1, **how):
    """On the largest export."""
    return talk(name, LARGE, messages, wide, count, **how)


RANGES = [
    large("all of the largest export is zeroed, and its last byte read",
          [asked(WRITE_ZEROES, 1, 0, LARGEST), ends(1), reads(2, LARGEST - 1, 1), gives_last(2, LARGEST - 1, b"\0")], yes(2), count=2),
    large("all of the largest export is zeroed, and its last byte is wrong",
          [asked(WRITE_ZEROES, 1, 0, LARGEST), ends(1), reads(2, LARGEST - 1, 1), gives_last(2, LARGEST - 1, b"\1")],
          wrong(2, LARGEST - 1), count=2, start="unknown"),
    large("the last byte of a TRIM of 34 bits",
          [asked(TRIM, 1, MIDDLE, MIDDLE), ends(1), reads(2, 2 * MIDDLE - 1, 1), gives_last(2, 2 * MIDDLE - 1, b"\1")], yes(2), count=2),
    large("the byte behind a TRIM of 34 bits",
          [asked(TRIM, 1, MIDDLE, MIDDLE), ends(1), reads(2, 2 * MIDDLE, 1), gives_last(2, 2 * MIDDLE, b"\1")], wrong(2, 2 * MIDDLE), count=2),
    large("a READ of 33 bits in two holes", [reads(1, 0, SHORT + 1), zeroes(1, 0, SHORT), zeroes_last(1, SHORT, 1)], yes(1)),
    large("a READ of 33 bits in one hole", [reads(1, 0, SHORT + 1), zeroes_last(1, 0, SHORT)], at(208, "IncompleteRead")),
    large("a READ of 33 bits in three holes",
          [reads(1, 0, SHORT + 2), zeroes(1, SHORT + 1, 1), zeroes(1, 0, SHORT), zeroes_last(1, SHORT, 1)], yes(1)),
    large("all of the largest export is read, and not answered", [reads(1, 0, LARGEST)], left(1), count=0),
    large("a READ that passes the largest export by a byte", [reads(1, 1, LARGEST), fails(1)], yes(1, 1)),
    large("WRITE_ZEROES of 34 bits in two parts", [asked(WRITE_ZEROES, 1, 0, MIDDLE), ends(1)], yes(1),
          entries=order((1, 0, 2**32), (1, 2**32, 2**32))),
    begun("a range that ends behind 2^64", [reads(1, MOST, MOST), zeroes(1, MOST, SHORT), fails(1)], yes(1, 1)),
    begun("WRITE_ZEROES up to 2^64 succeeds", [asked(WRITE_ZEROES, 1, 1, MOST), ends(1)], at(196, "SuccessOfImproper")),
    begun("WRITE_ZEROES up to 2^64 fails, and the first byte stays",
          [asked(WRITE_ZEROES, 1, 1, MOST), fails(1), reads(2, 0, 8), gives_last(2, 0, b"\0" + ONES[1:])], yes(2, 1), count=2),
]


def sized(name, messages, improper, numbers=(2, 512, 512), size=8):
    """The client accepted these block sizes."""
    begin = FLAGS + EXTENDED + [asking(3), sizes(*numbers), export(size=size), ack(GO)]
    return talk(f"block sizes, {name}", begin, messages, yes(1, improper))


SIZES = [
    sized("a READ inside", [reads(1, 0, 4), zeroes_last(1, 0, 4)], 0),
    sized("a READ at an odd offset", [reads(1, 1, 2), zeroes_last(1, 1, 2)], 1),
    sized("a WRITE inside", [writes_plainly(1, 0, ABCD), ends(1)], 0),
    sized("a WRITE at an odd offset", [writes_plainly(1, 1, ABCD), ends(1)], 1),
    sized("WRITE_ZEROES of an odd length of 33 bits", [asked(WRITE_ZEROES, 1, 0, SHORT + 2), ends(1)], 1, size=LARGEST),
    sized("TRIM of 34 bits", [asked(TRIM, 1, 0, MIDDLE), ends(1)], 0, size=LARGEST),
    sized("a READ of 33 bits where the largest is no limit", [reads(1, 0, SHORT + 1), zeroes(1, 0, SHORT), zeroes_last(1, SHORT, 1)], 0,
          (1, 512, SHORT), LARGEST),
]

MORE = [
    begun("a hole whose size has 64 bits", [reads(1, 0, 8), Reply(1, OFFSET_HOLE, struct.pack(">QQ", 0, 8), DONE, None)], at(212, "BadChunk")),
    begun("an error of an unknown type", [reads(1, 0, 8), Reply(1, 0x8003, struct.pack(">IH", 5, 0), DONE, None)], yes(1)),
    sized("a READ longer than the largest", [reads(1, 0, 6), zeroes_last(1, 0, 6)], 0, (2, 512, 4)),
    sized("a WRITE longer than the largest", [writes(1, 0, bytes(6)), ends(1)], 1, (2, 512, 4)),
]


TABLE = (NEGOTIATIONS + HEADERS + OFFSETS + WRITES + WITHOUT + PAYLOADS + LENGTHS + RANGES + SIZES + MORE + NO_STATUSES + STATUSES
         + FILTERS)
CASES = [case for told in TABLE for case in cases(told)]

READ_LINE = "C extended-request flags=0 command=0 cookie=1 offset=0 length=1 payload=\n"
DATA_LINE = "S extended-chunk flags=1 kind=1 cookie=1 offset=0 payload=000000000000000000\n"
BEGUN_LINES = """\
S greeting flags=3
C client-flags flags=3
C option id=11 payload=
S answer option=11 kind=1 payload=
C option id=7 payload=000000000000
S answer option=7 kind=3 payload=00000000000000000008006d
S answer option=7 kind=1 payload=
"""

# What `show --profile wide` prints.
SHOWN = [Show(name="a READ with an extended header", capture=BEGUN + spoken(ONE_READ),
              want=[BEGUN_LINES, READ_LINE, DATA_LINE, "ok\n"])]

CARRYING_LINE = "C extended-request flags={} command={} cookie=1 offset=0 length=2 payload={}\n"

# A script, and its capture, whose bytes are by hand.
MADE = [
    (CARRYING_LINE.format(32, 4, "abcd"), "C 21e41c710020000400000000000000010000000000000000" "0000000000000002abcd\n"),
    ("S extended-chunk flags=1 kind=0 cookie=1 offset=0 payload=\n",
     "S 6e8a278c0001000000000000000000010000000000000000" "0000000000000000\n"),
    (CARRYING_LINE.format(0, 1, "abcd"), "C 21e41c710000000100000000000000010000000000000000" "0000000000000002abcd\n"),
]

# A script, and its fault: one byte in place of two, and two bytes where nothing says that any come.
BAD_SCRIPTS = [
    (CARRYING_LINE.format(32, 4, "ab"), "fault script line 1\n"),
    (CARRYING_LINE.format(0, 4, "abcd"), "fault script line 1\n"),
]

# Requests of each form that are outstanding together, and replies of each form, of which some are improper or fail.
MIXED = [
    WRITTEN, reads(2, 0, 8), gives(2, 0, ABCD), writes_plainly(3, 4, b"\xef"), ends(1), carries(TRIM, 4, 2, b"\1"), zeroes_last(2, 2, 6),
    ends(3), fails(4), reads(5, 1, 7), asked(WRITE_ZEROES, 6, 0, 8), ends(6), gives(5, 1, b"\xcd\x55\0"), gives_last(5, 4, b"\xef\0\0\0"),
    reads(7, 8, 1), fails(7), asked(FLUSH, 8, 0, 0), ends(8),
]
STATUS_MIXED = [asks(1, 0, 8), tells(1, 2, (1, 1), (7, 0)), asks(2, 0, 4, REQ_ONE), tells(2, 1, (4, 3)), tells_last(1, 1, (3, 2), (9, 2)),
                tells_last(2, 2, (2, 0))]
FILTER_MIXED = [FIRST, filters(2, 4, 4, 2, 1), tells(2, 1, (MOST, 3)), tells_last(1, 1, (8, 2)), tells_last(2, 2, (2, 0)),
                filters(1, 0, 8, 2, 2), tells(1, 2, (8, 0)), fails(1)]
ALL_MIXED = MIXED + STATUS_MIXED + FILTER_MIXED
DAMAGED = TWO_CONTEXTS + spoken([*ALL_MIXED, asked(DISC, 9, 0, 0, PAYLOAD_LEN)])
DAMAGED_ORDER = upto(sum(record[0] == CLIENT for record in spoken(ALL_MIXED)))
