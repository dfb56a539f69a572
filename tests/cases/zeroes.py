"""Sessions in which a status calls bytes zero, beside those of contexts.py: on an export of 8 bytes of zeroes unless said. A status
of base:allocation calls zero what its extents have with the flag 2.
"""

from cases.case import at, cases, followed, upto, yes
from cases.contexts import EMPTY_1, LAST, LENGTH, ONES, SEVEN, STATUS_1, WRITTEN, one, two
from cases.statuses import FAILS, FUA, OFFERED, READ_ONLY, left, on
from messages import (
    ALLOCATION, CHUNKS, DEPTH, DONE, OFFSET_HOLE, REQ_ONE, TRIM, WRITE_ZEROES, ack, allocation, chunk, content, context, done,
    extents, failed, go, read, request, setting, simple, status, told_last, write,
)

ZERO, HOLE = 2, 1
WHOLE = extents(1, 1, (8, ZERO))
WHOLE_LAST = told_last(1, 1, (8, ZERO))
BEGIN = "no status request 1 offset 0\n"


def wrong(number, offset, word="status"):
    return f"no {word} request {number} offset {offset}\n"


def zero(cookie):
    """A BLOCK_STATUS of the whole export, which is called zero."""
    return [status(cookie, 0, 8), told_last(cookie, 1, (8, ZERO))]


def but(place):
    """An image of zeroes, but for a byte 7 at one place."""
    return bytes(place) + b"\7" + bytes(7 - place)


# A status of the four bytes from 2 on: what it tells, and for each byte of the export which offset is wrong where this byte alone
# is a 7; the offsets that are not named are right.
FOUR_INSIDE = {
    "one extent as long as the range": ([(4, ZERO)], (2, 3, 4, 5)),
    "one extent that passes the range by a byte": ([(5, ZERO)], (2, 3, 4, 5)),
    "the longest extent": ([(LENGTH, ZERO)], (2, 3, 4, 5)),
    "one extent of a byte": ([(1, ZERO)], (2,)),
    "one extent that ends a byte before the range": ([(3, ZERO)], (2, 3, 4)),
    "zeroes behind other bytes": ([(2, 0), (2, ZERO)], (4, 5)),
    "zeroes before other bytes": ([(2, ZERO), (2, 0)], (2, 3)),
    "zeroes between other bytes": ([(1, 0), (2, ZERO), (1, 0)], (3, 4)),
    "other bytes between zeroes": ([(1, ZERO), (2, 0), (1, ZERO)], (2, 5)),
    "two extents of zeroes": ([(2, ZERO), (2, ZERO)], (2, 3, 4, 5)),
    "the last extent alone passes the range": ([(3, 0), (LENGTH, ZERO)], (5,)),
    "a hole that is not called zero": ([(4, HOLE)], ()),
    "a hole that is called zero": ([(4, ZERO | HOLE)], (2, 3, 4, 5)),
    "all flags": ([(4, LENGTH)], (2, 3, 4, 5)),
    "all flags but the one of zeroes": ([(4, LENGTH - ZERO)], ()),
    "the flag above the one of zeroes": ([(4, 4)], ()),
    "the flag of zeroes in another byte": ([(4, ZERO << 8)], ()),
}

INSIDE = [
    one(f"the four bytes from 2 on, {name}, a 7 at {place}", [status(1, 2, 4), told_last(1, 1, *parts)],
        wrong(1, place) if place in places else yes(1), start=but(place))
    for name, (parts, places) in FOUR_INSIDE.items() for place in range(8)
]

RANGES = [
    one("the least of many wrong offsets", [STATUS_1, WHOLE_LAST], BEGIN, start=ONES),
    one("the least of the wrong offsets of two extents", [STATUS_1, told_last(1, 1, (3, ZERO), (3, 0), (2, ZERO))], wrong(1, 2),
        start=b"\0\0\xff\xff\xff\xff\xff\xff"),
    one("the least wrong offset of the second extent", [STATUS_1, told_last(1, 1, (3, 0), (5, ZERO))], wrong(1, 3), start=ONES),
    one("one extent was asked for", [status(1, 2, 4, REQ_ONE), told_last(1, 1, (4, ZERO))], wrong(1, 5), start=but(5)),
    one("one extent was asked for, and is shorter", [status(1, 2, 4, REQ_ONE), told_last(1, 1, (3, ZERO))], yes(1), start=but(5)),
    one("zeroes past the export's end", [status(1, 4, 4), told_last(1, 1, (100, ZERO))], wrong(1, 7), start=SEVEN),
    one("zeroes past the export's end, and the 7 before the range", [status(1, 4, 4), told_last(1, 1, (100, ZERO))], yes(1),
        start=but(3)),
    one("zeroes of a status of no bytes at the export's end", [status(1, 8, 0), told_last(1, 1, (8, ZERO))], yes(1), start=ONES),
    one("a status of no bytes, behind a write", [WRITTEN, simple(1), status(2, 0, 0), told_last(2, 1, (8, ZERO))], yes(2),
        order=upto(2)),
    one("a status of no bytes, and one of a byte", [EMPTY_1, told_last(1, 1, (8, ZERO)), status(2, 0, 1), told_last(2, 1, (1, ZERO))],
        wrong(2, 0), order=upto(2), start=ONES),
    one("FUA", [status(1, 0, 8, FUA), WHOLE_LAST], BEGIN, start=ONES),
    on(8, OFFERED | READ_ONLY, "an export that is read-only holds zeroes", [STATUS_1, WHOLE_LAST], yes(1)),
    one("an image of zeroes", [STATUS_1, WHOLE_LAST], yes(1), start=bytes(8)),
    one("an image of another size", [STATUS_1, WHOLE_LAST], "no image 9 size 8\n", start=b"\xff" * 9),
]


def named(name, messages, wide):
    """Where the context with the id 1 has this name; on bytes ff."""
    return followed(f"the context's name is {name.decode()!r}", CHUNKS + [setting(ALLOCATION), context(1, name), ack(), *go()] + messages,
                    at(121), wide, "1\n", ONES)


# The other context has the lesser id. The first answer's head ends at byte 146.
DEPTH_FIRST = CHUNKS + [setting(ALLOCATION, DEPTH), context(1, DEPTH), allocation(2), ack(), *go(), STATUS_1]
TWICE = CHUNKS + [setting(ALLOCATION), allocation(1), allocation(2), ack(), *go(), STATUS_1]
# base:allocation stands between two others.
THREE = CHUNKS + [setting(b"x:"), context(5, b"x:a"), allocation(1), context(0, b"x:c"), ack(), *go(), STATUS_1]


def of_three(name, chunks, wide):
    return followed(name, THREE + chunks, at(108), wide, "1\n", ONES)


FIRST_MESSAGES = [
    *(named(name, [STATUS_1, WHOLE_LAST], yes(1))
      for name in (b"", b"base:", b"base:allocatio", b"base:allocation2", b"base:allocation:", b"BASE:ALLOCATION", b"qemu:allocation")),
    named(ALLOCATION, [STATUS_1, WHOLE_LAST], BEGIN),
    followed("the other context has the lesser id, and is told first",
             DEPTH_FIRST + [WHOLE, told_last(1, 2, (8, ZERO))], at(146), yes(1), "1\n", ONES),
    followed("the other context has the lesser id, and is told last",
             DEPTH_FIRST + [extents(1, 2, (8, ZERO)), WHOLE_LAST], at(146), BEGIN, "1\n", ONES),
    followed("two contexts of that name, and the first message calls nothing zero",
             TWICE + [extents(1, 2, (8, 0)), WHOLE_LAST], at(121), yes(1), "1\n", ONES),
    followed("two contexts of that name, and the first message is of the second",
             TWICE + [extents(1, 2, (8, ZERO)), told_last(1, 1, (8, 0))], at(121), BEGIN, "1\n", ONES),
    of_three("three contexts, and it is told first", [WHOLE, extents(1, 5, (8, 0)), told_last(1, 0, (8, 0))], BEGIN),
    of_three("three contexts, and it is told second", [extents(1, 5, (8, 0)), WHOLE, told_last(1, 0, (8, 0))], yes(1)),
    of_three("three contexts, and it is told last", [extents(1, 5, (8, ZERO)), extents(1, 0, (8, ZERO)), WHOLE_LAST], yes(1)),
    two("an end without content behind both, and it is told first", [STATUS_1, WHOLE, extents(1, 2, (8, 0)), done(1)], BEGIN, start=ONES),
    two("the chunks of two statuses are mixed, and one begins with another context",
        [STATUS_1, status(2, 0, 8), extents(2, 1, (8, ZERO)), extents(1, 2, (8, 0)), told_last(2, 2, (8, 0)), WHOLE_LAST],
        wrong(2, 0), order=upto(2), start=ONES),
]

FAILURES = [
    one("a status that fails behind its zeroes", [STATUS_1, WHOLE, failed(1)], yes(1), start=ONES),
    one("a status that fails before its zeroes", [STATUS_1, FAILS, WHOLE_LAST], yes(1), start=ONES),
    one("a status that fails by a simple reply", [STATUS_1, simple(1, error=5)], yes(1), start=ONES),
    one("a status whose reply has no end", [STATUS_1, WHOLE], left(1, 0), start=ONES),
    one("a status that fails, and one that does not", [STATUS_1, WHOLE, failed(1), *zero(2)], wrong(2, 0), order=upto(2), start=ONES),
    one("an improper status that fails", [status(1, 4, 8), WHOLE, failed(1)], yes(1, 1), start=ONES),
    one("an improper status past all exports that fails", [status(1, LAST, LENGTH), WHOLE, failed(1)], yes(1, 1), start=ONES),
]


def behind(name, messages, count, wide, start=ONES, order=None):
    """Requests, and a status of all behind them that calls all zero; `count` are the requests."""
    return one(name, [*messages, *zero(count)], wide, order or upto(count), start)


FOUR_ZEROES = request(WRITE_ZEROES, 1, 0, 4)
FOUR_TRIMMED = request(TRIM, 1, 0, 4)
FOUR_WRITTEN = write(1, 0, b"\1\2\3\4")

CHANGES = [
    behind("zeroes that were written", [write(1, 0, bytes(8)), simple(1)], 2, yes(2)),
    behind("four zeroes that were written", [write(1, 0, bytes(4)), simple(1)], 2, wrong(2, 4)),
    behind("a WRITE_ZEROES of all", [request(WRITE_ZEROES, 1, 0, 8), simple(1)], 2, yes(2)),
    behind("a WRITE_ZEROES of four bytes", [FOUR_ZEROES, simple(1)], 2, wrong(2, 4)),
    behind("a TRIM of all", [request(TRIM, 1, 0, 8), simple(1)], 2, yes(2)),
    behind("a TRIM of four bytes", [FOUR_TRIMMED, simple(1)], 2, wrong(2, 4)),
    behind("a WRITE that failed", [FOUR_WRITTEN, simple(1, error=5)], 2, wrong(2, 4)),
    behind("a WRITE_ZEROES that failed", [FOUR_ZEROES, simple(1, error=5)], 2, wrong(2, 4)),
    behind("a TRIM that failed", [FOUR_TRIMMED, simple(1, error=5)], 2, wrong(2, 4)),
    behind("a WRITE that was not answered", [FOUR_WRITTEN], 2, left(2, 1), start="zero"),
    behind("a WRITE that was not answered, and half of the start is not zero", [FOUR_WRITTEN], 2, wrong(2, 4)),
    behind("a WRITE that was not answered, served behind the status", [FOUR_WRITTEN], 2, left(2, 1), start="zero", order="2\n1\n"),
    behind("a WRITE that was not answered, and is not served", [FOUR_WRITTEN], 2, wrong(2, 0), order="2\n"),
    behind("a WRITE that was not answered, and is served in part", [FOUR_WRITTEN], 2, wrong(2, 2), order="1 0 2\n2\n"),
    behind("a WRITE behind a TRIM", [FOUR_TRIMMED, simple(1), write(2, 3, b"\1"), simple(2)], 3, wrong(3, 3), start="unknown"),
    behind("a TRIM behind a WRITE", [FOUR_WRITTEN, simple(1), request(TRIM, 2, 1, 7), simple(2)], 3, wrong(3, 0), start="unknown"),
    behind("a WRITE behind a WRITE_ZEROES, of zeroes", [FOUR_ZEROES, simple(1), write(2, 4, bytes(4)), simple(2)], 3, yes(3)),
    behind("a WRITE of one byte that is not zero", [write(1, 6, b"\1"), simple(1)], 2, wrong(2, 6), start="unknown"),
    one("the bytes that were written are not called zero",
        [WRITTEN, simple(1), status(2, 0, 8), told_last(2, 1, (2, 0), (6, ZERO))], yes(2), order=upto(2)),
    one("one of the bytes that were written is called zero",
        [WRITTEN, simple(1), status(2, 0, 8), told_last(2, 1, (1, 0), (7, ZERO))], wrong(2, 1), order=upto(2)),
    behind("two WRITEs, the upper one first", [write(1, 6, b"\1"), simple(1), write(2, 1, b"\2"), simple(2)], 3, wrong(3, 1), start="zero"),
    behind("two WRITEs, the lower one first", [write(1, 1, b"\1"), simple(1), write(2, 6, b"\2"), simple(2)], 3, wrong(3, 1), start="zero"),
    one("a status between two changes",
        [request(WRITE_ZEROES, 1, 0, 8), simple(1), *zero(2), write(3, 0, b"\1"), simple(3)], yes(3), order=upto(3), start=ONES),
    one("a status before, and one behind a change", [*zero(1), write(2, 5, b"\1"), simple(2), *zero(3)], wrong(3, 5), order=upto(3)),
    one("a write that comes when the status is told, and before its end",
        [STATUS_1, WHOLE, write(2, 0, b"\1"), simple(2), done(1)], yes(2), order=upto(2)),
    one("the same, and the write is said to be served first",
        [STATUS_1, WHOLE, write(2, 0, b"\1"), simple(2), done(1)], "no order entry 1: Late\n", order="2\n1\n"),
]

# A status of all, and a WRITE of the byte 4 that is under way together with it.
UPPER = [STATUS_1, write(2, 4, b"\xff"), WHOLE_LAST, simple(2)]
TWO_STATUSES = [STATUS_1, status(2, 0, 8), WHOLE_LAST, told_last(2, 1, (8, ZERO))]

PARTS = [
    one("three parts, the one with the byte before the write", UPPER, yes(2), order="1 4 1\n2\n1 0 4\n1 5 3\n"),
    one("three parts, the one with the byte behind the write", UPPER, wrong(1, 4), order="1 5 3\n1 0 4\n2\n1 4 1\n"),
    one("parts of a byte each, the one with the byte last", UPPER, wrong(1, 4),
        order="2\n" + "".join(f"1 {x} 1\n" for x in (7, 6, 5, 3, 2, 1, 0, 4))),
    one("parts of a byte each, the one with the byte first", UPPER, yes(2),
        order="1 4 1\n2\n" + "".join(f"1 {x} 1\n" for x in (7, 0, 6, 1, 5, 2, 3))),
    one("the first part has the wrong byte, not the one with the least offset", [STATUS_1, WHOLE_LAST], wrong(1, 6),
        order="1 6 2\n1 0 6\n", start=ONES),
    one("the parts in the other order", [STATUS_1, WHOLE_LAST], BEGIN, order="1 0 6\n1 6 2\n", start=ONES),
    one("parts that are cut otherwise than the extents", [STATUS_1, told_last(1, 1, (3, 0), (5, ZERO))], wrong(1, 3),
        order="1 0 2\n1 2 3\n1 5 3\n", start=ONES),
    one("a part without a zero before a part with one", [STATUS_1, told_last(1, 1, (2, ZERO), (6, 0))], BEGIN,
        order="1 2 6\n1 0 2\n", start=ONES),
    one("parts of two statuses, of which one is served before the other's last", TWO_STATUSES, wrong(1, 0),
        order="2 4 4\n1\n2 0 4\n", start=but(0)),
    one("parts of two statuses, the first part is wrong", TWO_STATUSES, wrong(2, 0), order="2 0 4\n1\n2 4 4\n", start=but(0)),
    one("a wrong byte, and a part that no part goes on", [STATUS_1, WHOLE_LAST], "no order entry 1: NotCovered\n", order="1 0 4\n",
        start=ONES),
    one("a wrong byte, and a part that passes the range", [STATUS_1, WHOLE_LAST], "no order entry 2: BadPart\n", order="1 0 4\n1 4 5\n",
        start=ONES),
    one("a wrong byte, and a status that is served twice", [STATUS_1, WHOLE_LAST], "no order entry 2: Twice\n", order="1\n1\n",
        start=ONES),
    one("a wrong byte, and a status that is not served", [STATUS_1, WHOLE_LAST, *zero(2)], "no order entry 2: Missing\n", order="1\n",
        start=ONES),
    one("a wrong byte, and a write that is served too late", [WRITTEN, simple(1), *zero(2)], "no order entry 1: Late\n", order="2\n1\n",
        start=ONES),
    one("a wrong byte, and a request that there is not", [STATUS_1, WHOLE_LAST], "no order entry 2: NoSuchRequest\n", order="1\n2\n",
        start=ONES),
]


def given(cookie, data):
    """A READ of the whole export, and its bytes."""
    return [read(cookie, 0, 8), content(cookie, 0, data, DONE)]


HOLE_OF_8 = chunk(2, OFFSET_HOLE, bytes(8) + b"\0\0\0\x08", DONE)
READ_AND_STATUS = [read(1, 0, 8), status(2, 0, 8), content(1, 0, bytes(8), DONE), told_last(2, 1, (8, ZERO))]

READS = [
    one("a READ and a status are wrong, the READ first", READ_AND_STATUS, wrong(1, 7, "content"), order="1\n2\n", start=SEVEN),
    one("a READ and a status are wrong, the status first", READ_AND_STATUS, wrong(2, 7), order="2\n1\n", start=SEVEN),
    one("a READ and a status are wrong, and half of the READ is right", READ_AND_STATUS, wrong(2, 7), order="1 0 4\n2\n1 4 4\n",
        start=SEVEN),
    one("a READ and a status are wrong, and half of the status is right", READ_AND_STATUS, wrong(1, 7, "content"),
        order="2 0 4\n1\n2 4 4\n", start=SEVEN),
    one("a status is wrong, and a READ behind it is right", [*zero(1), *given(2, SEVEN)], wrong(1, 7), order=upto(2), start=SEVEN),
    one("a status is right, and a READ behind it is wrong", [STATUS_1, told_last(1, 1, (7, ZERO), (1, 0)), *given(2, bytes(8))],
        wrong(2, 7, "content"), order=upto(2), start=SEVEN),
    one("a hole excuses no READ", [STATUS_1, told_last(1, 1, (8, HOLE)), *given(2, bytes(8))], wrong(2, 7, "content"), order=upto(2),
        start=SEVEN),
    one("a READ of a hole where a status called zero what is not known", [*zero(1), read(2, 0, 8), HOLE_OF_8], yes(2), order=upto(2),
        start="unknown"),
    one("a READ makes no byte known to a status", [*given(1, ONES), *zero(2)], yes(2), order=upto(2), start="unknown"),
    one("a status before and one behind a READ of other bytes", [*zero(1), *given(2, ONES), *zero(3)], yes(3), order=upto(3),
        start="unknown"),
    one("a READ gives what a status, behind a write, calls zero", [WRITTEN, simple(1), *given(2, b"\xab\xcd" + bytes(6)), *zero(3)],
        wrong(3, 0), order=upto(3)),
]

LARGE, LARGEST = 2**62, 2**63 - 1


def near_the_end(size):
    """A WRITE of two bytes before the last one, and a status of as much as one can ask for, up to the end."""
    return [write(1, size - 3, b"\1\2"), simple(1), status(2, size - LENGTH, LENGTH)]


MANY = 200

SIZES = [
    on(LARGE, OFFERED, "an export of 2^62 bytes, behind a write near its end",
       [*near_the_end(LARGE), told_last(2, 1, (LENGTH, ZERO))], wrong(2, LARGE - 3), upto(2)),
    on(LARGE, OFFERED, "an export of 2^62 bytes, and what was written is not called zero",
       [*near_the_end(LARGE), told_last(2, 1, (LENGTH - 3, ZERO), (2, 0), (1, ZERO))], yes(2), upto(2)),
    on(LARGE, OFFERED, "an export of 2^62 bytes, and one byte that was written is called zero",
       [*near_the_end(LARGE), told_last(2, 1, (LENGTH - 2, ZERO), (2, 0))], wrong(2, LARGE - 3), upto(2)),
    on(LARGEST, OFFERED, "the largest export, behind a write near its end",
       [*near_the_end(LARGEST), told_last(2, 1, (LENGTH - 3, 0), (1, 0), (LENGTH, ZERO))], wrong(2, LARGEST - 2), upto(2)),
    on(LARGEST, OFFERED, "the largest export, and its last byte alone is called zero",
       [*near_the_end(LARGEST), told_last(2, 1, (LENGTH - 1, 0), (LENGTH, ZERO))], yes(2), upto(2)),
    one("200 statuses, and one behind a write", [
        *(message for number in range(1, MANY + 1) for message in zero(number)), write(MANY + 1, 3, b"\1"), simple(MANY + 1),
        *zero(MANY + 2)], wrong(MANY + 2, 3), order=upto(MANY + 2)),
    one("200 statuses under way together, and a write", [
        *(status(number, 0, 8) for number in range(1, MANY + 1)), write(MANY + 1, 3, b"\1"),
        *(told_last(number, 1, (8, ZERO)) for number in range(1, MANY + 1)), simple(MANY + 1)], wrong(100, 3),
        order=upto(99) + f"{MANY + 1}\n" + "".join(f"{number}\n" for number in range(100, MANY + 1))),
    on(2 * MANY, OFFERED, "200 extents, of which every second one is called zero", [
        status(1, 0, 2 * MANY), told_last(1, 1, *[(1, 0), (1, ZERO)] * MANY), write(2, 2 * MANY - 2, b"\1"), simple(2),
        status(3, 0, 2 * MANY), told_last(3, 1, *[(1, 0), (1, ZERO)] * MANY)], yes(3), upto(3)),
    on(2 * MANY, OFFERED, "200 extents, of which the last is called zero and is not", [
        write(1, 2 * MANY - 1, b"\1"), simple(1), status(2, 0, 2 * MANY), told_last(2, 1, *[(1, 0), (1, ZERO)] * MANY)],
       wrong(2, 2 * MANY - 1), upto(2)),
]

TABLE = INSIDE + RANGES + FIRST_MESSAGES + FAILURES + CHANGES + PARTS + READS + SIZES

CASES = [case for told in TABLE for case in cases(told)]
