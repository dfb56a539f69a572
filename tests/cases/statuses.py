"""More sessions in which a status is asked while a context is in force, beside those of contexts.py: on an export of 8 bytes of
zeroes unless said. What a status calls zero is zero in all of them.
"""

from cases.case import at, cases, followed, yes
from cases.contexts import EMPTY_1, EMPTY_ONE, FOUR, FOUR_ONE, LAST, LENGTH, NO_CONTEXT, STATUS_1, TWO_CONTEXTS, one, two
from cases.shows import BEGUN_STRUCTURED_LINES, Show
from messages import (
    ALLOCATION, CHUNKS, DONE, ERROR, NONE, OFFSET_HOLE, REQ_ONE, STATUS, TRIM, ack, allocation, chunk, content, context, cut,
    done, extents, failed, failed_at, go, granted, hole, read, request, setting, simple, status, told_last, write,
)

FUA, NO_HOLE, DF, FAST_ZERO = 1, 2, 4, 16
# The transmission flags of the other cases, and others.
OFFERED, READ_ONLY, SEND_FUA, SEND_DF, SEND_FAST_ZERO = 0x6D, 2, 8, 128, 2048
WHOLE = extents(1, 1, (8, 0))
WHOLE_LAST = told_last(1, 1, (8, 0))
# An error that does not end its reply: 26 bytes.
FAILS = chunk(1, ERROR, b"\0\0\0\x16\0\0")


def on(size, flags, name, messages, wide, order="1\n"):
    """Behind a negotiation as ONE_CONTEXT, of an export of another size or with other flags."""
    return followed(name, CHUNKS + granted() + go(size=size, flags=flags) + messages, at(121), wide, order)


def identified(number, name, messages, wide):
    """Behind a negotiation as ONE_CONTEXT, where the context has this id."""
    return followed(name, CHUNKS + granted(number) + go() + messages, at(121), wide, "1\n")


def left(requests, answered, improper=0):
    return f"yes requests {requests} answered {answered} improper {improper}\n"


def raw(payload, flags=DONE, kind=STATUS):
    return chunk(1, kind, payload, flags)


IDS = [
    identified(0, "the context has the id 0", [STATUS_1, told_last(1, 0, (8, 0))], yes(1)),
    identified(0, "the context has the id 0, and the status another", [STATUS_1, WHOLE_LAST], at(294, "BadContent")),
    identified(LENGTH, "the context has the largest id", [STATUS_1, told_last(1, LENGTH, (8, 0))], yes(1)),
    identified(256, "the id of the context has its low byte alone", [STATUS_1, told_last(1, 0, (8, 0))], at(294, "BadContent")),
    one("the id of a context that nobody told", [STATUS_1, told_last(1, 2, (8, 0))], at(294, "BadContent")),
    followed("two contexts of one name, each with its status", CHUNKS + [
        setting(ALLOCATION), allocation(1), allocation(2), ack(), *go(), STATUS_1, WHOLE, told_last(1, 2, (8, 0))], at(121),
        yes(1), "1\n"),
    # The second context ends at byte 179, GO's answer at 273, the status' head at 301.
    followed("two contexts of one name, and one status", CHUNKS + [
        setting(ALLOCATION), allocation(1), allocation(2), ack(), *go(), STATUS_1, WHOLE_LAST], at(121),
        at(333, "IncompleteStatus"), "1\n"),
    followed("the status of a context without a name", CHUNKS + [setting(ALLOCATION), context(1, b""), ack(), *go(), STATUS_1,
             WHOLE_LAST], at(121), yes(1), "1\n"),
]

# The contexts end at bytes 115, 142 and 169, the request at 291.
THREE_CONTEXTS = CHUNKS + [setting(b"x:"), context(5, b"x:a"), context(1, b"x:b"), context(0, b"x:c"), ack(), *go(), STATUS_1]

THREE = [
    followed("three contexts", THREE_CONTEXTS + [
        extents(1, 0, (8, 0)), extents(1, 5, (8, 0)), WHOLE_LAST], at(108), yes(1), "1\n"),
    followed("three contexts, of which one is left out", THREE_CONTEXTS + [
        extents(1, 5, (8, 0)), told_last(1, 0, (8, 0))], at(108), at(355, "IncompleteStatus"), "1\n"),
    followed("three contexts, of which one is told twice", THREE_CONTEXTS + [
        extents(1, 5, (8, 0)), extents(1, 0, (8, 0)), told_last(1, 5, (8, 0))], at(108), at(387, "BadContent"), "1\n"),
]

TWO = [
    two("both contexts in the order of their ids", [STATUS_1, WHOLE, told_last(1, 2, (8, 0))], yes(1)),
    two("both contexts in the other order", [STATUS_1, extents(1, 2, (8, 1)), WHOLE_LAST], yes(1)),
    two("the contexts have extents of their own", [STATUS_1, extents(1, 2, (1, 1), (7, 0)), told_last(1, 1, (4, 0))], yes(1)),
    two("an end without content behind both", [STATUS_1, extents(1, 2, (8, 1)), WHOLE, done(1)], yes(1)),
    two("an end without content behind one", [STATUS_1, extents(1, 2, (8, 1)), done(1)], at(384, "IncompleteStatus")),
    two("the first context is left out", [STATUS_1, told_last(1, 2, (8, 0))], at(364, "IncompleteStatus")),
    two("an end without any context", [STATUS_1, done(1)], at(352, "IncompleteStatus")),
    two("one context twice and the other once", [STATUS_1, WHOLE, extents(1, 2, (8, 0)), WHOLE_LAST], at(428, "BadContent")),
    two("the second context twice", [STATUS_1, extents(1, 2, (8, 0)), told_last(1, 2, (8, 0))], at(396, "BadContent")),
    two("one context and no end", [STATUS_1, WHOLE], left(1, 0)),
    two("both contexts and no end", [STATUS_1, WHOLE, extents(1, 2, (8, 0))], left(1, 0)),
    two("one context of a status of no bytes", [EMPTY_1, WHOLE_LAST], yes(1)),
    two("a status of no bytes without a context", [EMPTY_1, done(1)], yes(1)),
    two("one context twice of a status of no bytes", [EMPTY_1, WHOLE, WHOLE_LAST], at(396, "BadContent")),
    two("a context is left out, and an error came", [STATUS_1, FAILS, WHOLE_LAST], yes(1)),
    two("an improper status leaves out a context", [status(1, 4, 8), told_last(1, 1, (4, 0))], at(364, "SuccessOfImproper")),
    two("one extent of each context was asked for", [FOUR_ONE, extents(1, 1, (4, 0)), told_last(1, 2, (1, 0))], yes(1)),
    two("one extent was asked for, and the second context has two",
        [FOUR_ONE, extents(1, 1, (4, 0)), told_last(1, 2, (1, 0), (3, 0))], at(404, "BadContent")),
]

ENDS = [
    one("a context twice", [STATUS_1, WHOLE, WHOLE], at(326, "BadContent")),
    one("a context twice, of which the second ends the reply", [STATUS_1, WHOLE, WHOLE_LAST], at(326, "BadContent")),
    one("an end without content behind a status", [STATUS_1, WHOLE, done(1)], yes(1)),
    one("a chunk without content that does not end the reply", [STATUS_1, WHOLE, chunk(1, NONE)], at(314, "BadChunk")),
    one("no chunk ends the reply", [STATUS_1, WHOLE], left(1, 0)),
    one("no chunk ends the reply, and no entry names the request", [STATUS_1, WHOLE], "no order entry 1: Missing\n", order=""),
    one("a status that is not answered", [STATUS_1], left(1, 0), order=""),
    one("a status that is not answered, and whose range is not proper", [status(1, 4, 8)], left(1, 0, 1), order=""),
    one("a status behind the end of its reply", [STATUS_1, WHOLE_LAST, WHOLE], at(314, "UnknownCookie")),
    one("a status behind an error", [STATUS_1, FAILS, WHOLE_LAST], yes(1)),
    one("a status between two errors", [STATUS_1, FAILS, WHOLE, failed(1)], yes(1)),
    one("a status of a context not in force behind an error", [STATUS_1, FAILS, told_last(1, 2, (8, 0))], at(320, "BadContent")),
    one("a context twice round an error", [STATUS_1, WHOLE, FAILS, WHOLE_LAST], at(352, "BadContent")),
    one("an error, and an end without content", [STATUS_1, FAILS, done(1)], yes(1)),
    one("an error at an offset of the range", [STATUS_1, failed_at(1, 7)], yes(1)),
    one("an error at an offset behind the range", [FOUR, failed_at(1, 4)], at(296, "BadContent")),
    one("a simple error behind an error in a chunk", [STATUS_1, FAILS, simple(1, error=5)], at(304, "SimpleForbidden")),
    one("a simple reply of success to a status of no bytes", [EMPTY_1, simple(1)], at(278, "SimpleForbidden")),
    one("a simple reply of success to an improper status", [status(1, 4, 8), simple(1)], at(278, "SimpleForbidden")),
    one("a simple error to an improper status", [status(1, 4, 8), simple(1, error=22)], yes(1, 1)),
    two("a simple reply of success where two contexts are in force", [STATUS_1, simple(1)], at(348, "SimpleForbidden")),
]

OTHER_CHUNKS = [
    one("bytes answer a status", [STATUS_1, content(1, 0, bytes(8))], at(298, "BadContent")),
    one("a hole answers a status", [STATUS_1, hole(1, 0, 8)], at(294, "BadContent")),
    one("a hole ends the reply to a status", [STATUS_1, chunk(1, OFFSET_HOLE, bytes(11) + b"\x08", DONE)], at(294, "BadContent")),
    one("a status answers a WRITE", [write(1, 0, b"\0"), WHOLE_LAST], at(295, "BadContent")),
    one("a status answers a TRIM", [request(TRIM, 1, 0, 8), WHOLE_LAST], at(294, "BadContent")),
    one("a status answers a command that is not known", [request(8, 1, 0, 8), WHOLE_LAST], at(294, "BadContent")),
    one("a READ succeeds with its bytes and a status",
        [read(1, 0, 8), content(1, 0, bytes(8)), WHOLE_LAST], at(330, "BadContent")),
    one("a chunk of the type 3", [STATUS_1, raw(WHOLE[1][20:], kind=3)], at(294, "BadChunk")),
    one("a chunk of the type 4", [STATUS_1, raw(WHOLE[1][20:], kind=4)], at(294, "BadChunk")),
    one("a chunk of the type 6", [STATUS_1, raw(WHOLE[1][20:], kind=6)], at(294, "BadChunk")),
]

FORMS = [
    one("a status without an id", [STATUS_1, raw(b"")], at(282, "BadChunk")),
    one("a status with three bytes of an id", [STATUS_1, raw(b"\0\0\1")], at(285, "BadChunk")),
    one("a length without flags", [STATUS_1, raw(b"\0\0\0\1\0\0\0\x08")], at(290, "BadChunk")),
    one("a byte less than an extent has", [STATUS_1, raw(WHOLE[1][20:-1])], at(293, "BadChunk")),
    one("a byte behind the last extent", [STATUS_1, raw(WHOLE[1][20:] + b"\0")], at(295, "BadChunk")),
    one("half an extent behind the last", [STATUS_1, raw(WHOLE[1][20:] + bytes(4))], at(298, "BadChunk")),
    one("the first of two extents is empty", [STATUS_1, told_last(1, 1, (0, 0), (8, 0))], at(302, "BadChunk")),
    one("the last of two extents is empty", [STATUS_1, told_last(1, 1, (4, 0), (0, 0))], at(302, "BadChunk")),
    one("an empty extent of a context not in force", [STATUS_1, told_last(1, 9, (0, 0))], at(294, "BadChunk")),
    one("an empty extent of a status of no bytes", [EMPTY_1, told_last(1, 1, (0, 0))], at(294, "BadChunk")),
    one("an empty extent answers a READ", [read(1, 0, 8), told_last(1, 1, (0, 0))], at(294, "BadChunk")),
    one("all flags of an extent", [STATUS_1, told_last(1, 1, (8, LENGTH))], yes(1)),
    one("a status chunk of which the last byte is missing", [STATUS_1, cut(WHOLE_LAST, 31)[0]], at(293, "Unfinished")),
]

WIDE = 2**40
MANY = [(1, 0)] * 10000

REACHES = [
    one("an extent that is a byte longer than the range", [STATUS_1, told_last(1, 1, (9, 0))], yes(1)),
    one("the longest extent", [STATUS_1, told_last(1, 1, (LENGTH, 0))], yes(1)),
    one("the last extent passes the export's end", [status(1, 4, 4), told_last(1, 1, (2, 0), (100, 0))], yes(1)),
    one("the extents but the last end a byte before the range", [FOUR, told_last(1, 1, (1, 0), (2, 0), (9, 0))], yes(1)),
    one("the extents but the last end where the range does", [FOUR, told_last(1, 1, (1, 0), (3, 0), (1, 0))],
        at(310, "BadContent")),
    one("the first of two extents is longer than the range", [FOUR, told_last(1, 1, (5, 0), (1, 0))], at(302, "BadContent")),
    one("two of the longest extents", [STATUS_1, told_last(1, 1, (LENGTH, 0), (LENGTH, 0))], at(302, "BadContent")),
    on(WIDE, OFFERED, "the longest range", [status(1, 0, LENGTH), told_last(1, 1, (LENGTH - 1, 0), (LENGTH, 0))], yes(1)),
    on(WIDE, OFFERED, "extents whose lengths are together 2^32 but for the last",
       [status(1, 0, LENGTH), told_last(1, 1, (2**31, 0), (2**31, 0), (1, 0))], at(310, "BadContent")),
    on(WIDE, OFFERED, "extents whose lengths are together 2^33 but for the last",
       [status(1, 0, 8), told_last(1, 1, *[(2**31, 0)] * 4, (1, 0))], at(326, "BadContent")),
    on(20000, OFFERED, "10,000 extents of a byte each", [status(1, 0, 10000), told_last(1, 1, *MANY)], yes(1)),
    on(20000, OFFERED, "10,000 extents, a byte more than were asked for", [status(1, 0, 9999), told_last(1, 1, *MANY)],
       at(80286, "BadContent")),
    one("two extents of a status of no bytes", [EMPTY_1, told_last(1, 1, (8, 0), (8, 0))], yes(1)),
    one("two extents of a status of no bytes, though one was asked for", [EMPTY_ONE, told_last(1, 1, (8, 0), (8, 0))], yes(1)),
    one("a context not in force of a status of no bytes", [EMPTY_1, told_last(1, 2, (8, 0))], at(294, "BadContent")),
    one("a status of no bytes at the export's end", [status(1, 8, 0), done(1)], yes(1)),
]

ONE = [
    one("one extent that is shorter than the range", [FOUR_ONE, told_last(1, 1, (3, 0))], yes(1)),
    one("two short extents, though one was asked for", [FOUR_ONE, told_last(1, 1, (1, 0), (1, 0))], at(302, "BadContent")),
    one("the longest extent, though one was asked for", [FOUR_ONE, told_last(1, 1, (LENGTH, 0))], at(294, "BadContent")),
    one("one extent was asked for, and an error came", [FOUR_ONE, FAILS, told_last(1, 1, (5, 0))], at(320, "BadContent")),
    one("FUA with REQ_ONE", [status(1, 0, 4, FUA | REQ_ONE), told_last(1, 1, (4, 0))], yes(1)),
    followed("REQ_ONE where no context was asked for", NO_CONTEXT + [FOUR_ONE, failed(1)], yes(1, 1), yes(1, 1), "1\n"),
]


def improper(name, asked, flags=OFFERED):
    """An improper BLOCK_STATUS, which an error may answer, also behind a status, but no success."""
    yield on(8, flags, f"{name}: an error", [asked, failed(1)], yes(1, 1))
    yield on(8, flags, f"{name}: a status and an error", [asked, WHOLE, failed(1)], yes(1, 1))
    yield on(8, flags, f"{name}: a status", [asked, WHOLE_LAST], at(294, "SuccessOfImproper"))
    yield on(8, flags, f"{name}: no status", [asked, done(1)], at(282, "SuccessOfImproper"))


ODD_FLAGS = {
    "NO_HOLE": (NO_HOLE, OFFERED),
    "DF where SEND_DF is set": (DF, OFFERED | SEND_DF),
    "FAST_ZERO where SEND_FAST_ZERO is set": (FAST_ZERO, OFFERED | SEND_FAST_ZERO),
    "a flag without a name": (32, OFFERED),
    "the highest flag": (2**15, OFFERED),
    "FUA without SEND_FUA": (FUA, OFFERED & ~SEND_FUA),
    "FUA with REQ_ONE without SEND_FUA": (FUA | REQ_ONE, OFFERED & ~SEND_FUA),
}

FLAGS = [
    one("FUA with SEND_FUA", [status(1, 0, 8, FUA), WHOLE_LAST], yes(1)),
    on(8, 1, "an export that has HAS_FLAGS alone", [STATUS_1, WHOLE_LAST], yes(1)),
    on(8, OFFERED | READ_ONLY, "an export that is read-only", [STATUS_1, WHOLE_LAST], yes(1)),
    on(8, OFFERED | READ_ONLY, "an export that is read-only, with REQ_ONE and FUA",
       [status(1, 0, 8, FUA | REQ_ONE), WHOLE_LAST], yes(1)),
    *(told for name, (flags, offered) in ODD_FLAGS.items() for told in improper(name, status(1, 0, 8, flags), flags=offered)),
]

IMPROPER = [
    *improper("a range that passes the export's end", status(1, 4, 8)),
    *improper("a range that begins behind the export's end", status(1, 9, 1)),
    *improper("a range that ends at 2^64 and more", status(1, LAST, 8)),
    *improper("a range of no bytes behind the export's end", status(1, 9, 0)),
    one("an improper status has extents behind its range", [status(1, 4, 8), told_last(1, 1, (8, 0), (1, 0))],
        at(302, "BadContent")),
    one("an improper status has two extents, though one was asked for",
        [status(1, 4, 8, REQ_ONE), extents(1, 1, (4, 0), (1, 0))], at(302, "BadContent")),
    one("an improper status of no bytes may have any extents",
        [status(1, 9, 0, REQ_ONE), extents(1, 1, (4, 0), (1, 0)), failed(1)], yes(1, 1)),
]

STATUS_2 = status(2, 0, 4)

OUTSTANDING = [
    one("two statuses, answered in the other order",
        [STATUS_1, STATUS_2, told_last(2, 1, (4, 0)), WHOLE_LAST], yes(2), order="1\n2\n"),
    one("the chunks of two statuses are mixed",
        [STATUS_1, STATUS_2, WHOLE, extents(2, 1, (4, 0)), done(1), done(2)], yes(2), order="2\n1\n"),
    one("one of two statuses is told twice, the other never",
        [STATUS_1, STATUS_2, WHOLE, done(2)], at(342, "IncompleteStatus"), order="1\n2\n"),
    one("two statuses with one cookie, one after the other",
        [STATUS_1, WHOLE_LAST, STATUS_1, WHOLE_LAST], yes(2), order="1\n2\n"),
    one("two statuses with one cookie", [STATUS_1, STATUS_1], at(290, "CookieInUse")),
    one("a status that begins before its request is whole", [cut(STATUS_1, 27)[0], cut(WHOLE_LAST, 1)[0], cut(STATUS_1, 27)[1],
                                                             cut(WHOLE_LAST, 1)[1]], at(282, "UnknownCookie")),
    one("a status and a READ", [STATUS_1, read(2, 0, 8), WHOLE_LAST, content(2, 0, bytes(8), DONE)], yes(2),
        order="2\n1\n"),
]

SERVED = [
    one("one part serves all of a status", [STATUS_1, WHOLE_LAST], yes(1), order="1 0 8\n"),
    one("two parts of a status share an offset", [STATUS_1, WHOLE_LAST], "no order entry 2: BadPart\n", order="1 0 5\n1 4 4\n"),
    one("a part of a status passes its range", [FOUR, told_last(1, 1, (4, 0))], "no order entry 1: BadPart\n", order="1 0 5\n"),
    one("an empty part of a status", [STATUS_1, WHOLE_LAST], "no order entry 1: BadPart\n", order="1 0 0\n"),
    one("a status is served twice", [STATUS_1, WHOLE_LAST], "no order entry 2: Twice\n", order="1\n1\n"),
    one("a part of a status that was served", [STATUS_1, WHOLE_LAST], "no order entry 2: Twice\n", order="1\n1 0 8\n"),
    one("a part of a status of no bytes", [EMPTY_1, done(1)], "no order entry 1: BadPart\n", order="1 0 1\n"),
    one("an answered status that no entry names", [STATUS_1, WHOLE_LAST], "no order entry 1: Missing\n", order=""),
    one("a part of a status with a flag that is not allowed", [status(1, 0, 8, NO_HOLE), failed(1)],
        "no order entry 1: BadPart\n", order="1 0 8\n"),
    one("a status with a flag that is not allowed", [status(1, 0, 8, NO_HOLE), failed(1)], yes(1, 1), order="1\n"),
    one("a part of a status that fails", [STATUS_1, failed(1)], "no order entry 1: NotCovered\n", order="1 0 4\n"),
    one("a part of a status that is not answered", [STATUS_1], left(1, 0), order="1 0 4\n"),
    followed("a part of a status where no context was asked for", NO_CONTEXT + [STATUS_1, failed(1)],
             "no order entry 1: BadPart\n", "no order entry 1: BadPart\n", "1 0 8\n"),
]

# Statuses and a READ that are outstanding together, a failure and a status of no bytes, and an order of them.
MIXED = TWO_CONTEXTS + [
    STATUS_1, status(2, 0, 4, REQ_ONE), extents(1, 2, (1, 1), (7, 0)), read(3, 0, 8), extents(2, 1, (4, 3)),
    told_last(1, 1, (3, 2), (9, 2)), status(4, 4, 4, FUA), content(3, 0, bytes(8), DONE), told_last(2, 2, (2, 0)),
    extents(4, 1, (4, 0)), failed(4), EMPTY_1, done(1),
]
MIXED_ORDER = "1\n2\n3\n4\n5\n"
FAILS_7 = chunk(7, ERROR, b"\0\0\0\x16\0\0")
# The same with requests that are not proper, which fail.
DAMAGED = MIXED + [
    status(6, 4, 8), extents(6, 2, (4, 0)), failed(6), status(7, 0, 8, NO_HOLE), FAILS_7, done(7),
    STATUS_1, simple(1, error=22),
]

TABLE = IDS + THREE + TWO + ENDS + OTHER_CHUNKS + FORMS + REACHES + ONE + FLAGS + IMPROPER + OUTSTANDING + SERVED

CASES = [case for told in TABLE for case in cases(told)]

NEGOTIATED_LINES = """\
C option id=10 payload=00000000000000010000000f626173653a616c6c6f636174696f6e
S answer option=10 kind=4 payload=00000001626173653a616c6c6f636174696f6e
S answer option=10 kind=1 payload=
"""

# What `show --profile wide` prints.
SHOWN = [
    Show(
        name="a status",
        capture=CHUNKS + granted() + go() + [STATUS_1, told_last(1, 1, (8, 3))],
        want=[
            "".join(BEGUN_STRUCTURED_LINES.splitlines(True)[:4]),
            NEGOTIATED_LINES,
            "".join(BEGUN_STRUCTURED_LINES.splitlines(True)[4:]),
            "C request flags=0 command=7 cookie=1 offset=0 length=8 payload=\n",
            "S chunk flags=1 kind=5 cookie=1 payload=000000010000000800000003\n",
            "ok\n",
        ],
    ),
]
