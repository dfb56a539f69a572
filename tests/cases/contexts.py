"""Sessions with metadata contexts, and what `check` says of each in both profiles: on an export of 8 bytes, which holds zeroes
unless said.

In `base` no answer to LIST_META_CONTEXT and SET_META_CONTEXT but an error is followed. In `wide` they are negotiated, and
BLOCK_STATUS is asked while a context is in force.
"""

from cases.case import at, cases, followed, yes
from messages import (
    ALLOCATION, CHUNKS, DEPTH, DONE, FLAGS, LIST_META_CONTEXT, META_CONTEXT, READ, REQ_ONE, SERVER_NAME, SET_META_CONTEXT,
    STRUCTURED, TRIM, WRITE_ZEROES, ack, allocation, answer, by_name, content, context, cut, done, error, extents, failed, go,
    granted, listing, option, read, request, setting, simple, status, told_last, write,
)

LAST, LENGTH = 2**64 - 1, 2**32 - 1
SEVEN = bytes(7) + b"\x07"
ONES = b"\xff" * 8

NO_CONTEXT = CHUNKS + go()
# base:allocation with the id 1 is in force: 234 bytes. Its first answer's head ends at byte 121.
ONE_CONTEXT = CHUNKS + granted() + go()
# The ids are 1 and 2: 304 bytes. The first answer's head ends at byte 146.
TWO_CONTEXTS = CHUNKS + [setting(ALLOCATION, DEPTH), allocation(1), context(2, DEPTH), ack()] + go()

WRITTEN = write(1, 0, b"\xab\xcd")
STATUS_1 = status(1, 0, 8)
EMPTY_1, EMPTY_ONE = status(1, 0, 0), status(1, 0, 0, REQ_ONE)
FAILED_1 = simple(1, error=22)


def with_more(asked, data):
    """An option with more data than its own."""
    return option(int.from_bytes(asked[1][8:12], "big"), asked[1][16:] + data)


def one(name, messages, wide, order="1\n", start="zero"):
    """Behind ONE_CONTEXT."""
    return followed(name, ONE_CONTEXT + messages, at(121), wide, order, start)


def two(name, messages, wide, order="1\n", start="zero"):
    """Behind TWO_CONTEXTS."""
    return followed(name, TWO_CONTEXTS + messages, at(146), wide, order, start)


WHAT_IS_CALLED_ZERO = [
    one("a hole that reads as zeroes", [STATUS_1, told_last(1, 1, (8, 3))], yes(1)),
    one("zeroes where nothing is known", [STATUS_1, told_last(1, 1, (8, 3))], yes(1), start="unknown"),
    one("the last of the zeroes is a 7", [STATUS_1, told_last(1, 1, (8, 3))], "no status request 1 offset 7\n", start=SEVEN),
    one("a hole is not called zero", [STATUS_1, told_last(1, 1, (8, 1))], yes(1), start=SEVEN),
    one("the 7 stands behind the zeroes", [STATUS_1, told_last(1, 1, (7, 3), (1, 0))], yes(1), start=SEVEN),
]

UNDER_WAY = WRITTEN, status(2, 0, 8), told_last(2, 1, (8, 2))

STATUSES_AND_WRITES = [
    one("zeroes after a write", [*UNDER_WAY, simple(1)], "no status request 2 offset 0\n", order="1\n2\n"),
    one("zeroes before a write", [*UNDER_WAY, simple(1)], yes(2), order="2\n1\n"),
    one("zeroes after a write that failed", [*UNDER_WAY, simple(1, error=5)], yes(2), order="1\n2\n"),
    one("a write was answered before the status was asked", [WRITTEN, simple(1), *UNDER_WAY[1:]],
        "no order entry 1: Late\n", order="2\n1\n"),
]


def changed(change):
    """A WRITE, another change of what it wrote, and a status that calls all of it zero."""
    return [WRITTEN, simple(1), change, simple(2), status(3, 0, 8), told_last(3, 1, (8, 3))]


STATUSES_AND_OTHER_CHANGES = [
    one("zeroes after a TRIM", changed(request(TRIM, 2, 0, 8)), yes(3), order="1\n2\n3\n"),
    one("zeroes after a WRITE_ZEROES of one of two bytes", changed(request(WRITE_ZEROES, 2, 0, 1)),
        "no status request 3 offset 1\n", order="1\n2\n3\n"),
    one("a status makes no byte known",
        [STATUS_1, told_last(1, 1, (8, 2)), read(2, 0, 8), content(2, 0, SEVEN, DONE)],
        yes(2), order="1\n2\n", start="unknown"),
]

FOUR, FOUR_ONE = status(1, 0, 4), status(1, 0, 4, REQ_ONE)

EXTENTS = [
    one("the last extent passes the range", [FOUR, told_last(1, 1, (3, 0), (4, 2))], yes(1)),
    one("the last extent passes each number of 32 bits", [FOUR, told_last(1, 1, (3, 0), (LENGTH, 2))], yes(1)),
    one("zeroes behind the range are not looked at", [FOUR, told_last(1, 1, (3, 0), (5, 2))], yes(1), start=SEVEN),
    one("an extent behind one that reaches the range's end", [FOUR, told_last(1, 1, (4, 0), (1, 2))], at(302, "BadContent")),
    one("extents whose lengths are together a number of 33 bits", [FOUR, told_last(1, 1, (LENGTH, 0), (1, 0), (1, 2))],
        at(310, "BadContent")),
    one("the second extent begins where the first ends", [STATUS_1, told_last(1, 1, (7, 0), (1, 2))],
        "no status request 1 offset 7\n", start=SEVEN),
    one("the first extent begins where the range does", [status(1, 6, 2), told_last(1, 1, (1, 0), (9, 2))],
        "no status request 1 offset 7\n", start=SEVEN),
    one("extents that are shorter than the range", [STATUS_1, told_last(1, 1, (4, 2))], yes(1)),
    one("an extent of length 0", [STATUS_1, told_last(1, 1, (0, 2))], at(294, "BadChunk")),
    one("no extent", [STATUS_1, told_last(1, 1)], at(286, "BadChunk")),
    one("a context that was not selected", [STATUS_1, told_last(1, 0, (8, 0))], at(294, "BadContent")),
    one("a READ is answered by a status", [read(1, 0, 8), extents(1, 1, (8, 0))], at(294, "BadContent")),
]

ONE_EXTENT_ASKED = [
    one("one extent", [FOUR_ONE, told_last(1, 1, (4, 2))], yes(1)),
    one("one extent that passes the range", [FOUR_ONE, told_last(1, 1, (5, 2))], at(294, "BadContent")),
    one("two extents, though one was asked for", [FOUR_ONE, told_last(1, 1, (1, 2), (1, 0))], at(302, "BadContent")),
    one("REQ_ONE on a READ", [request(READ, 1, 0, 8, flags=REQ_ONE), failed(1)], yes(1, 1)),
]

TWO_CONTEXTS_IN_FORCE = [
    two("bit 1 of another context is no zero", [STATUS_1, extents(1, 2, (8, 2)), told_last(1, 1, (8, 0))], yes(1), start=ONES),
    two("zeroes that are not in the first message are not looked at",
        [STATUS_1, extents(1, 2, (8, 0)), told_last(1, 1, (8, 2))], yes(1), start=ONES),
    two("zeroes in the first message of two", [STATUS_1, extents(1, 1, (8, 2)), told_last(1, 2, (8, 0))],
        "no status request 1 offset 0\n", start=ONES),
    two("a context is left out", [STATUS_1, told_last(1, 1, (8, 0))], at(364, "IncompleteStatus"), start=ONES),
    two("a context is told twice", [STATUS_1, extents(1, 1, (8, 0)), told_last(1, 1, (8, 0))], at(396, "BadContent"),
        start=ONES),
    two("a status that fails is not compared", [STATUS_1, extents(1, 1, (8, 2)), failed(1)], yes(1), start=ONES),
    two("a chunk without content ends the reply", [STATUS_1, extents(1, 1, (8, 0)), extents(1, 2, (3, 2)), done(1)], yes(1),
        start=ONES),
]

OTHER_REPLIES_TO_A_STATUS = [
    one("no context is told", [STATUS_1, done(1)], at(282, "IncompleteStatus")),
    one("a simple reply of success", [STATUS_1, simple(1)], at(278, "SimpleForbidden")),
    one("a simple error behind a status", [STATUS_1, extents(1, 1, (8, 0)), simple(1, error=5)], at(310, "SimpleForbidden")),
    one("a simple error", [STATUS_1, FAILED_1], yes(1)),
    one("an error in a chunk", [STATUS_1, failed(1)], yes(1)),
]

LENGTHS = [
    one("a status of no bytes fails", [EMPTY_1, failed(1)], yes(1)),
    one("a status of no bytes succeeds without a context", [EMPTY_1, done(1)], yes(1)),
    one("a status of no bytes has no zeroes", [EMPTY_1, told_last(1, 1, (8, 2))], yes(1), start=ONES),
    one("one extent of a status of no bytes", [EMPTY_ONE, told_last(1, 1, (8, 0))], yes(1)),
    one("a status behind the export's end succeeds", [status(1, 9, 0), done(1)], at(282, "SuccessOfImproper")),
    one("a status past the export's end succeeds", [status(1, 4, 8), told_last(1, 1, (4, 0))], at(294, "SuccessOfImproper")),
    one("a status past all exports fails behind its extents",
        [status(1, LAST, LENGTH), extents(1, 1, (4, 2), (4, 2)), failed(1)], yes(1, 1)),
]

NAMED_DISK = CHUNKS + granted(name=b"disk") + go() + [STATUS_1]
SELECTED_NONE = CHUNKS + granted() + [setting(), ack()] + go() + [STATUS_1]
TOLD_2 = CHUNKS + granted() + [setting(ALLOCATION), allocation(2)]
SECOND_FAILS = TOLD_2 + [error(kind=0x80000006)] + go() + [STATUS_1]
SECOND = TOLD_2 + [ack()] + go() + [STATUS_1]
LISTED = CHUNKS + [listing(b"base:"), allocation(0, LIST_META_CONTEXT), ack(LIST_META_CONTEXT)] + go() + [STATUS_1]

NONE_IN_FORCE = [
    followed("no context was asked for, and an error answers a status", NO_CONTEXT + [STATUS_1, FAILED_1], yes(1, 1), yes(1, 1),
             "1\n"),
    followed("no context was asked for, and a status is answered", NO_CONTEXT + [STATUS_1, told_last(1, 1, (8, 0))],
             at(192, "BadChunk"), at(192, "BadChunk"), "1\n"),
    followed("the contexts are of another export, and an error answers a status", NAMED_DISK + [failed(1)], at(125), yes(1, 1),
             "1\n"),
    followed("the contexts are of another export, and a status is answered", NAMED_DISK + [told_last(1, 1, (8, 0))], at(125),
             at(298, "BadChunk"), "1\n"),
    followed("a second selection asks for nothing", SELECTED_NONE + [told_last(1, 1, (8, 0))], at(121), at(338, "BadChunk"),
             "1\n"),
    followed("a second selection fails", SECOND_FAILS + [told_last(1, 1, (8, 0))], at(121), at(396, "BadChunk"), "1\n"),
    followed("what is listed is not selected", LISTED + [told_last(1, 0, (8, 0))], at(111), at(284, "BadChunk"), "1\n"),
]

ONE_IN_FORCE = [
    followed("the context of a second selection", SECOND + [told_last(1, 2, (8, 0))], at(121), yes(1), "1\n"),
    followed("the context of a first selection", SECOND + [told_last(1, 1, (8, 0))], at(121), at(396, "BadContent"), "1\n"),
    followed("an export that EXPORT_NAME names",
             CHUNKS + granted(name=b"disk") + by_name(b"disk") + [STATUS_1, told_last(1, 1, (8, 2))], at(125), yes(1), "1\n"),
]

SIMPLE = FLAGS + granted()
ASKED = CHUNKS + [setting(ALLOCATION)]
LISTED_ALL = CHUNKS + [listing()]

ANSWERS = [
    followed("a context without structured replies", SIMPLE, at(85), yes(0)),
    followed("a context without structured replies, and an error answers a status",
             SIMPLE + go() + [STATUS_1, FAILED_1], at(85), yes(1, 1), "1\n"),
    followed("a context without structured replies, and a status is answered",
             SIMPLE + go() + [STATUS_1, told_last(1, 1, (8, 0))], at(85), at(246, "ChunkForbidden"), "1\n"),
    followed("structured replies behind the context",
             SIMPLE + STRUCTURED + go() + [STATUS_1, told_last(1, 1, (8, 2))], at(85), yes(1), "1\n"),
    followed("the server refuses contexts", FLAGS + [setting(ALLOCATION), error()], yes(0), yes(0)),
    followed("a list of contexts",
             FLAGS + [listing(ALLOCATION), allocation(0, LIST_META_CONTEXT), ack(LIST_META_CONTEXT)], at(85), yes(0)),
    followed("a context, though no query asked for one", CHUNKS + [setting(), cut(allocation(1), 20)[0]], at(102),
             at(102, "BadReplyKind")),
    followed("one id for two contexts", CHUNKS + [setting(ALLOCATION, DEPTH), allocation(1), context(1, DEPTH)], at(146),
             at(210, "BadReplyPayload")),
    followed("a list of all contexts, each with the id 0",
             LISTED_ALL + [allocation(0, LIST_META_CONTEXT), context(0, DEPTH, LIST_META_CONTEXT), ack(LIST_META_CONTEXT)],
             at(102), yes(0)),
    followed("a context without the last byte of its id", LISTED_ALL + [answer(LIST_META_CONTEXT, META_CONTEXT, bytes(3))],
             at(102), at(105, "BadReplyPayload")),
    followed("a byte behind the query", CHUNKS + [with_more(setting(ALLOCATION), b"x"), allocation(1)], at(122),
             at(141, "SuccessOfImproper")),
    followed("the name of an export in place of a context", ASKED + [answer(SET_META_CONTEXT, SERVER_NAME)], at(121),
             at(121, "BadReplyKind")),
]

UPPER_WRITTEN = [STATUS_1, write(2, 4, b"\xff"), told_last(1, 1, (8, 2)), simple(2)]

PARTS = [
    one("served before the write", UPPER_WRITTEN, yes(2), order="1\n2\n"),
    one("served in two parts, the upper one before the write", UPPER_WRITTEN, yes(2), order="1 4 4\n2\n1 0 4\n"),
    one("served after the write", UPPER_WRITTEN, "no status request 1 offset 4\n", order="2\n1\n"),
    one("served in two parts, the upper one after the write", UPPER_WRITTEN, "no status request 1 offset 4\n",
        order="1 0 4\n2\n1 4 4\n"),
    one("the upper part alone", UPPER_WRITTEN, "no order entry 1: NotCovered\n", order="1 4 4\n2\n"),
    one("a part that passes the export", UPPER_WRITTEN, "no order entry 2: BadPart\n", order="2\n1 0 9\n"),
    one("a part of a status that passes the export", [status(1, 4, 8), failed(1)], "no order entry 1: BadPart\n",
        order="1 4 4\n"),
]

STATUS_TABLE = (
    WHAT_IS_CALLED_ZERO + STATUSES_AND_WRITES + STATUSES_AND_OTHER_CHANGES + EXTENTS + ONE_EXTENT_ASKED +
    TWO_CONTEXTS_IN_FORCE + OTHER_REPLIES_TO_A_STATUS + LENGTHS + NONE_IN_FORCE + ONE_IN_FORCE + ANSWERS + PARTS
)

CASES = [case for told in STATUS_TABLE for case in cases(told)]
