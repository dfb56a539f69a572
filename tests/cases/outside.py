"""Requests outside of the block sizes that their client accepted, and inside, beside those of sizes.py: on an export of 8 bytes of
zeroes unless said, with a least size of 2 and a largest of 4. An odd request is one whose offset or length is odd.
"""

from cases.case import at, cases, followed, yes
from cases.contexts import LAST, LENGTH, SEVEN
from cases.sizes import FAILED_GO, ODD_READ, TOLD_UNASKED, alike, begun, counted, fails, ok
from cases.statuses import FUA, OFFERED, READ_ONLY
from messages import (
    CACHE, CHUNKS, DISC, DONE, FLUSH, NONE, READ, REQ_ONE, STRUCTURED, TRIM, WRITE_ZEROES, chunk, content, cut, done, extents,
    failed, granted, hole, read, request, status, told_last, write,
)

# What is in force, the offset and the length of requests on an export of 2^40 bytes, and whether they are outside by the least size.
POLICY = 512, 4096, 32768
EDGES = [
    (POLICY, 0, 512, False), (POLICY, 512, 512, False), (POLICY, 512, 1024, False), (POLICY, 1536, 512, False), (POLICY, 512, 0, False),
    (POLICY, 511, 512, True), (POLICY, 513, 512, True), (POLICY, 256, 512, True), (POLICY, 512, 511, True), (POLICY, 512, 513, True),
    (POLICY, 511, 1, True), (POLICY, 1, 511, True), (POLICY, 1, 0, True), (POLICY, 2**32, 512, False), (POLICY, 2**32 + 1, 512, True),
    (POLICY, 2**40 - 512, 512, False), (POLICY, 2**40 - 1, 1, True), (POLICY, 2**40, 0, False),
    ((1, 512, 512), 511, 7, False), ((65536, 65536, 65536), 65536, 65536, False), ((65536, 65536, 65536), 32768, 65536, True),
    ((65536, 65536, 65536), 0, 32768, True), ((65536, 65536, 65536), 2**32 + 65536, 65536, False),
]
WITH_RANGES = {"READ": READ, "TRIM": TRIM, "CACHE": CACHE, "WRITE_ZEROES": WRITE_ZEROES}


def ranged(word, command, numbers, offset, length):
    return f"sizes: {word} {offset} {length} of {numbers}", begun(*numbers, size=2**40), [request(command, 1, offset, length), fails(1)]


AT_EDGES = [
    counted(*ranged(word, command, numbers, offset, length), 0, 1 if is_outside else 0)
    for word, command in WITH_RANGES.items() for numbers, offset, length, is_outside in EDGES
]


def written(offset, length, outside):
    return counted(f"sizes: a WRITE at {offset} of {length} bytes", begun(*POLICY, size=2**16),
                   [write(1, offset, bytes(length)), ok(1)], 0, outside)


WRITES = [written(*how) for how in (
    (0, 512, 0), (512, 512, 0), (0, 0, 0), (512, 0, 0), (1, 0, 1), (511, 512, 1), (512, 511, 1), (512, 513, 1), (0, 32768, 0),
    (0, 33280, 1), (32768, 32768, 0), (1, 32768, 1),
)]

# The longest payloads: of a READ and of a request without one. The largest size, the length, and whether a READ is outside.
LONGEST = [
    ((1, 4096, 2**25), 2**25, 0), ((1, 4096, 2**25), 2**25 + 1, 1), ((1, 512, LENGTH), LENGTH, 0), ((1, 512, LENGTH - 1), LENGTH - 1, 0),
    ((1, 512, LENGTH - 1), LENGTH, 1), ((1, 512, 1), 1, 0), ((1, 512, 1), 2, 1), ((512, 512, 512), 512, 0), ((512, 512, 512), 1024, 1),
    (POLICY, 32768, 0), (POLICY, 33280, 1), (POLICY, 2**31, 1),
]
PAYLOADS = [counted(*ranged("a payload: READ", READ, numbers, 0, length), 0, outside) for numbers, length, outside in LONGEST]
PAYLOADS += [
    counted(*ranged(f"no payload: {word}", command, numbers, 0, length), 0, 0)
    for word, command in WITH_RANGES.items() if command != READ for numbers, length, _ in LONGEST
] + [
    counted("sizes: a TRIM of an odd length where the largest is no limit", begun(2, 512, LENGTH, size=2**40),
            [request(TRIM, 1, 0, LENGTH), fails(1)], 0, 1),
]

OTHERS = [
    counted("sizes: FLUSH", begun(), [request(FLUSH, 1, 0, 0), ok(1)], 0, 0),
    counted("sizes: FLUSH with an odd offset is improper", begun(), [request(FLUSH, 1, 1, 0), fails(1)], 1, 1),
    counted("sizes: FLUSH with an odd length is improper", begun(), [request(FLUSH, 1, 0, 1), fails(1)], 1, 1),
    counted("sizes: the command 8", begun(), [request(8, 1, 1, 1), fails(1)], 1, 1),
    counted("sizes: the largest command", begun(), [request(65535, 1, 1, 9), fails(1)], 1, 1),
    alike("sizes: DISC", begun() + [request(DISC, 1, 0, 0)], yes(0), ""),
    counted("sizes: past the export's end, at a multiple", begun(), [read(1, 8, 2), fails(1)], 1, 1),
    counted("sizes: behind all exports", begun(), [read(1, LAST, LENGTH), fails(1)], 1, 1),
    counted("sizes: behind all exports, of an even length", begun(), [read(1, LAST - 1, 2), fails(1)], 1, 1),
    counted("sizes: an odd WRITE to a read-only export", begun(flags=OFFERED | READ_ONLY), [write(1, 1, b"\1"), fails(1)], 1, 1),
    counted("sizes: an odd READ of a read-only export", begun(flags=OFFERED | READ_ONLY), ODD_READ, 0, 1),
    counted("sizes: an odd TRIM that is not offered", begun(flags=1), [request(TRIM, 1, 1, 1), fails(1)], 1, 1),
    counted("sizes: an odd CACHE that is not offered", begun(flags=1), [request(CACHE, 1, 1, 1), ok(1)], 0, 1),
    counted("sizes: an odd READ with FUA that is not offered", begun(flags=1), [request(READ, 1, 1, 1, flags=FUA), fails(1)], 1, 1),
    counted("sizes: an odd READ with FUA", begun(), [request(READ, 1, 1, 1, flags=FUA), ok(1, b"\0")], 0, 1),
    alike("sizes: an odd TRIM that is not offered succeeds", begun(flags=1) + [request(TRIM, 1, 1, 1), ok(1)],
          at(176, "SuccessOfImproper")),
    counted("sizes: a good, an improper and an outside request, and one that is both", begun(), [
        read(1, 0, 4), ok(1, bytes(4)), read(2, 8, 2), fails(2), read(3, 1, 2), ok(3, bytes(2)), read(4, 7, 2), fails(4)], 2, 3),
    followed("sizes: an odd READ that is not answered", begun() + ODD_READ[:1], "yes requests 1 answered 0 improper 0\n",
             "yes requests 1 answered 0 improper 1\n"),
    alike("sizes: two odd READs with one cookie", begun() + ODD_READ[:1] * 2, at(188, "CookieInUse")),
    alike("sizes: an odd READ without its last byte", begun() + [cut(ODD_READ[0], 27)[0]], at(159, "Unfinished"), ""),
]

WRITTEN = write(1, 1, b"\1\2\3")
WROTE = [WRITTEN, ok(1), read(2, 0, 4)]


def wrote(name, data, base, wide=None, order="1\n2\n"):
    """An odd WRITE of three bytes from the offset 1 on, and a READ of four."""
    return followed(f"sizes: {name}", begun() + [*WROTE, ok(2, data)], base, wide or base, order)


UNDER_WAY = begun() + [WRITTEN, read(2, 1, 3), ok(2, b"\1\0\0"), ok(1)]

CONTENTS = [
    wrote("an odd WRITE is read", b"\0\1\2\3", yes(2), yes(2, 1)),
    wrote("an odd WRITE is lost", bytes(4), "no content request 2 offset 1\n"),
    wrote("the last byte of an odd WRITE is lost", b"\0\1\2\0", "no content request 2 offset 3\n"),
    wrote("an odd WRITE is served too late", b"\0\1\2\3", "no order entry 1: Late\n", order="2\n1\n"),
    wrote("an odd WRITE in two parts", b"\0\1\2\3", yes(2), yes(2, 1), order="1 2 2\n1 1 1\n2\n"),
    wrote("a part of an odd WRITE that passes its range", b"\0\1\2\3", "no order entry 1: BadPart\n", order="1 0 2\n1 2 2\n2\n"),
    wrote("a part of an odd WRITE alone", b"\0\1\2\3", "no order entry 1: NotCovered\n", order="1 1 1\n2\n"),
    wrote("an odd WRITE that no entry names", b"\0\1\2\3", "no order entry 1: Missing\n", order="2\n"),
    wrote("an odd WRITE that is served twice", b"\0\1\2\3", "no order entry 2: Twice\n", order="1\n1\n2\n"),
    alike("sizes: a wrong byte of an odd READ", begun() + [read(1, 1, 3), ok(1, b"\0\0\1")], "no content request 1 offset 3\n"),
    alike("sizes: a wrong byte of a READ longer than the largest", begun() + [read(1, 0, 6), ok(1, b"\0\0\0\0\0\1")],
          "no content request 1 offset 5\n"),
    alike("sizes: an odd READ of an image of another size", begun() + ODD_READ, "no image 9 size 8\n", start=bytes(9)),
    followed("sizes: an odd READ of an image", begun() + [read(1, 5, 3), ok(1, b"\0\0\7")], yes(1), yes(1, 1), "1\n", SEVEN),
    followed("sizes: an odd WRITE that failed is read as it was", begun() + [WRITTEN, fails(1), read(2, 0, 4), ok(2, bytes(4))], yes(2),
             yes(2, 1), "1\n2\n"),
    followed("sizes: an odd WRITE that failed is read as it would be", begun() + [WRITTEN, fails(1), read(2, 0, 4), ok(2, b"\0\1\2\3")],
             yes(2), yes(2, 1), "1\n2\n"),
    alike("sizes: behind an odd WRITE that failed another byte is wrong", begun() + [WRITTEN, fails(1), read(2, 0, 4), ok(2, b"\1\1\2\3")],
          "no content request 2 offset 0\n", "1\n2\n"),
    followed("sizes: an odd TRIM leaves its range unknown", begun() + [request(TRIM, 1, 1, 1), ok(1), read(2, 0, 2), ok(2, b"\0\7")],
             yes(2), yes(2, 1), "1\n2\n"),
    alike("sizes: behind an odd TRIM another byte is wrong", begun() + [request(TRIM, 1, 1, 1), ok(1), read(2, 0, 2), ok(2, b"\7\7")],
          "no content request 2 offset 0\n", "1\n2\n"),
    followed("sizes: an odd READ between the parts of an odd WRITE", UNDER_WAY, yes(2), yes(2, 2), "1 1 1\n2\n1 2 2\n"),
    alike("sizes: an odd READ behind an odd WRITE under way", UNDER_WAY, "no content request 2 offset 2\n", "1\n2\n"),
]

CHUNKED = CHUNKS + begun()[2:]
PIECES = CHUNKED + [read(1, 1, 5), content(1, 3, bytes(3)), hole(1, 1, 2)]

STRUCTURED_READS = [
    followed("sizes: an odd READ in chunks", PIECES + [done(1)], yes(1), yes(1, 1), "1\n"),
    alike("sizes: an odd READ whose chunks lack a byte", CHUNKED + [read(1, 1, 5), content(1, 3, bytes(3)), hole(1, 1, 1), done(1)],
          at(279, "IncompleteRead")),
    followed("sizes: a READ longer than the largest in chunks", CHUNKED + [read(1, 0, 6), content(1, 0, bytes(6)), done(1)], yes(1), yes(1),
             "1\n"),
    followed("sizes: a READ longer than the largest in chunks fails", CHUNKED + [read(1, 0, 6), failed(1)], yes(1), yes(1), "1\n"),
    followed("sizes: a READ of a whole export under structured replies", CHUNKED + [read(1, 0, 8), hole(1, 0, 8), done(1)], yes(1), yes(1),
             "1\n"),
    followed("sizes: an odd READ longer than the largest in chunks", CHUNKED + [read(1, 1, 7), hole(1, 1, 7), done(1)], yes(1), yes(1, 1),
             "1\n"),
    followed("sizes: a WRITE longer than the largest under structured replies", CHUNKED + [write(1, 0, bytes(6)), chunk(1, NONE, flags=DONE)],
             yes(1), yes(1, 1), "1\n"),
    followed("sizes: an odd READ in chunks fails", PIECES + [failed(1)], yes(1), yes(1, 1), "1\n"),
    alike("sizes: an odd READ by a simple reply under structured replies", CHUNKED + ODD_READ, at(212, "SimpleForbidden")),
    followed("sizes: structured replies are asked for behind a GO that failed", FAILED_GO + STRUCTURED + begun()[2:] + [
        read(1, 1, 1), content(1, 1, b"\0", DONE)], yes(1), yes(1, 1), "1\n"),
    alike("sizes: an odd WRITE is answered by content", CHUNKED + [write(1, 1, b"\0"), content(1, 1, b"\0")], at(226, "BadContent")),
    followed("sizes: an odd WRITE in a chunk without content", CHUNKED + [write(1, 1, b"\1"), chunk(1, NONE, flags=DONE)], yes(1),
             yes(1, 1), "1\n"),
]

# base:allocation with the id 1 and sizes are in force; the first answer's head ends at byte 121, the session begins at 270.
BOTH = CHUNKS + granted() + begun()[2:]


def asked(name, messages, wide, order="1\n", start="zero", begin=None):
    return followed(f"sizes: {name}", (begin or BOTH) + messages, at(121), wide, order, start)


ODD_STATUS = status(1, 1, 3)

STATUSES = [
    asked("a BLOCK_STATUS inside", [status(1, 0, 4), told_last(1, 1, (4, 2))], yes(1)),
    asked("a BLOCK_STATUS at an odd offset", [status(1, 1, 2), told_last(1, 1, (2, 2))], yes(1, 1)),
    asked("a BLOCK_STATUS of an odd length", [status(1, 0, 3), told_last(1, 1, (3, 2))], yes(1, 1)),
    asked("a BLOCK_STATUS longer than the largest", [status(1, 0, 8), told_last(1, 1, (8, 2))], yes(1)),
    asked("a BLOCK_STATUS of no bytes", [status(1, 2, 0), done(1)], yes(1)),
    asked("a BLOCK_STATUS of no bytes at an odd offset", [status(1, 1, 0), done(1)], yes(1, 1)),
    asked("an odd BLOCK_STATUS with REQ_ONE", [status(1, 1, 3, REQ_ONE), told_last(1, 1, (3, 2))], yes(1, 1)),
    asked("an odd BLOCK_STATUS fails", [ODD_STATUS, failed(1)], yes(1, 1)),
    asked("an odd BLOCK_STATUS fails by a simple reply", [ODD_STATUS, fails(1)], yes(1, 1)),
    asked("an extent of an odd length", [status(1, 0, 4), told_last(1, 1, (3, 0), (1, 2))], yes(1)),
    asked("an odd BLOCK_STATUS past the export's end", [status(1, 7, 2), fails(1)], yes(1, 1)),
    asked("an odd BLOCK_STATUS past the export's end succeeds", [status(1, 7, 2), told_last(1, 1, (2, 0))],
          at(330, "SuccessOfImproper")),
    asked("a false zero of an odd BLOCK_STATUS", [status(1, 5, 3), told_last(1, 1, (3, 2))], "no status request 1 offset 7\n",
          start=SEVEN),
    asked("an odd BLOCK_STATUS in parts", [ODD_STATUS, told_last(1, 1, (3, 2))], yes(1, 1), order="1 3 1\n1 1 2\n"),
    asked("a part of an odd BLOCK_STATUS that passes its range", [ODD_STATUS, told_last(1, 1, (3, 2))], "no order entry 1: BadPart\n",
          order="1 0 4\n"),
    asked("a context is in force, and an odd READ", [read(1, 1, 1), content(1, 1, b"\0"), done(1)], yes(1, 1)),
    asked("an odd BLOCK_STATUS with NO_HOLE", [status(1, 1, 1, 2), extents(1, 1, (1, 0)), failed(1)], yes(1, 1)),
    asked("an odd BLOCK_STATUS where GO did not ask", [ODD_STATUS, told_last(1, 1, (3, 2))], yes(1),
          begin=CHUNKS + granted() + TOLD_UNASKED[2:]),
]

# A session of requests inside and outside, of which some are improper too; and an order of them.
DAMAGED = BOTH + [
    write(1, 0, b"\1\2\3\4"), ok(1), write(2, 3, b"\5\6\7"), done(2), read(3, 0, 6), content(3, 0, b"\1\2\3\5\6\7"), done(3),
    request(TRIM, 4, 1, 2), read(5, 7, 2), ok(4), failed(5), status(6, 5, 3), request(WRITE_ZEROES, 7, 4, 4), ok(7),
    told_last(6, 1, (1, 0), (2, 2)), request(CACHE, 8, 1, 1), read(9, 2, 2), content(9, 2, b"\3\5"), done(9), done(8),
]
ORDER = "".join(f"{number}\n" for number in range(1, 10))

TABLE = AT_EDGES + WRITES + PAYLOADS + OTHERS + CONTENTS + STRUCTURED_READS + STATUSES

CASES = [case for told in TABLE for case in cases(told)]
