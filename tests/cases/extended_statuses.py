"""Sessions with extended headers in which a status is asked, of each context or of some: on an export of 8 bytes of zeroes unless said."""

import struct

from cases.by_chunk import order
from cases.case import at, followed, yes
from cases.contexts import ONES, SEVEN, STATUS_1
from cases.contexts import ONE_CONTEXT as ONE_SHORT_CONTEXT
from cases.extended_messages import (
    BOTH, EXTENDED, FIRST, IN_SIZES, LARGEST, LARGE_CONTEXT, MOST, NONE_ASKED, NOT_OFFERED, OFFERED_PAYLOAD, ONE_CONTEXT, ONE_UNKNOWN,
    SECOND, TWICE, TWO_CONTEXTS, UNKNOWN, WHOLE_FIRST, Reply, asks, begun, carries, ends, fails, filters, talk, tells, tells_last, writes,
    wrong,
)
from messages import BLOCK_STATUS, DONE, FLAGS, REQ_ONE, STATUS, STATUS_EXT, STRUCTURED, chunk, extended_extents, go, granted

# A status where no context is in force, and one in the other form.
NO_STATUSES = [
    followed("extended headers: none is in force, and the status has their form",
             ONE_SHORT_CONTEXT + [STATUS_1, chunk(1, STATUS_EXT, extended_extents(1, (8, 3)), DONE)], at(121), at(306, "BadChunk"), "1\n"),
    begun("no context is in force, and a status is answered", [asks(1, 0, 8), tells_last(1, 1, (8, 3))], at(220, "BadChunk")),
    begun("no context is in force, and an error answers a status", [asks(1, 0, 8), fails(1)], yes(1, 1)),
    talk("no context is in force, and a status that asks for one fails", FLAGS + EXTENDED + go(flags=OFFERED_PAYLOAD),
         [filters(1, 0, 8, 1), fails(1)], yes(1, 1)),
]


def one(name, messages, wide, count=1, **how):
    """Behind ONE_CONTEXT."""
    return talk(name, ONE_CONTEXT, messages, wide, count, **how)


def status(name, wide, *replies, start="zero", length=8, flags=0):
    """A BLOCK_STATUS from the export's beginning on, while one context is in force."""
    return one(name, [asks(1, 0, length, flags), *replies], wide, start=start)


STATUSES = [
    talk("a selection before them stays", FLAGS + STRUCTURED + granted() + EXTENDED + go(), [asks(1, 0, 8), tells_last(1, 1, (8, 2))],
         yes(1), base=121),
    status("a hole that reads as zeroes", yes(1), tells_last(1, 1, (8, 3))),
    status("the last of the zeroes is a 7", wrong(1, 7, "status"), tells_last(1, 1, (8, 3)), start=SEVEN),
    status("the flag of zeroes beside one above 32 bits", wrong(1, 7, "status"), tells_last(1, 1, (8, 2**32 + 2)), start=SEVEN),
    status("the flag of zeroes above 32 bits", yes(1), tells_last(1, 1, (8, 2 * 2**32)), start=SEVEN),
    status("a status of the other form", at(310, "BadChunk"), Reply(1, STATUS, struct.pack(">III", 1, 8, 3), DONE, None)),
    status("a count of 2, and one extent", at(322, "BadChunk"), tells_last(1, 1, (8, 3), count=2)),
    status("an extent of length 0", at(322, "BadChunk"), tells_last(1, 1, (0, 3))),
    status("a count of 1, and two extents", at(338, "BadChunk"), tells_last(1, 1, (4, 3), (4, 3), count=1)),
    status("no extent", at(306, "BadChunk"), tells_last(1, 1)),
    status("no context is told", at(298, "IncompleteStatus"), ends(1)),
    status("no context is told, and a wrong offset", at(298, "IncompleteStatus"), ends(1, of=1)),
    status("the last extent is the longest", yes(1), tells_last(1, 1, (3, 0), (MOST, 2)), length=4),
    status("an extent of 33 bits, and one more", at(338, "BadContent"), tells_last(1, 1, (2**32, 0), (1, 2)), length=4),
    status("extents whose lengths are together a number of 65 bits", at(354, "BadContent"),
           tells_last(1, 1, (MOST, 0), (1, 0), (1, 2)), length=4),
    status("one extent of 33 bits, where one is asked for", at(322, "BadContent"), tells_last(1, 1, (2**32 + 4, 0)), length=4, flags=REQ_ONE),
    talk("all of the largest export is called zero", LARGE_CONTEXT, [asks(1, 0, LARGEST), tells_last(1, 1, (LARGEST, 2))], yes(1)),
    talk("the last byte of the largest export is called zero, and is not", LARGE_CONTEXT,
         [writes(1, LARGEST - 1, b"\1"), ends(1), asks(2, 0, LARGEST), tells_last(2, 1, (LARGEST, 2))],
         wrong(2, LARGEST - 1, "status"), count=2),
]


def two(name, messages, wide, **how):
    """Behind TWO_CONTEXTS."""
    return talk(f"some contexts, {name}", TWO_CONTEXTS, messages, wide, **how)


def malformed(name, count, end, wide):
    """A BLOCK_STATUS with a payload of so many bytes, which is none that asks for contexts."""
    return two(f"a payload of {name}", [carries(BLOCK_STATUS, 1, 0, bytes(count)), end(1)], wide)


FILTERS = [
    talk("some contexts, block sizes, a range inside", IN_SIZES, [FIRST, WHOLE_FIRST], yes(1)),
    talk("some contexts, block sizes, a range of half the least size", IN_SIZES, [filters(1, 0, 4, 1), tells_last(1, 1, (4, 0))], yes(1, 1)),
    two("the second is told", [SECOND, tells_last(1, 2, (8, 0))], yes(1)),
    two("the second has no zeroes", [SECOND, tells_last(1, 2, (8, 2))], yes(1), start=ONES),
    two("the second is asked for, and the first told", [SECOND, WHOLE_FIRST], at(404, "BadContent")),
    two("the second is asked for, and both are told", [SECOND, tells(1, 2, (8, 0)), WHOLE_FIRST], at(460, "BadContent")),
    two("both are asked for, and the first told", [BOTH, WHOLE_FIRST], at(408, "IncompleteStatus")),
    two("both are asked for and told", [BOTH, tells(1, 1, (8, 0)), tells_last(1, 2, (8, 0))], yes(1)),
    two("zeroes of the first are ones", [FIRST, tells_last(1, 1, (8, 2))], wrong(1, 0, "status"), start=ONES),
    two("served in two parts", [FIRST, tells_last(1, 1, (8, 2))], yes(1), entries=order((1, 0, 4), (1, 4, 4))),
    two("a part that is as long as the payload", [FIRST, tells_last(1, 1, (8, 2))], "no order entry 1: BadPart\n", entries=order((1, 0, 12))),
    two("a part of one that asks for the first twice", [TWICE, fails(1)], "no order entry 1: BadPart\n", entries=order((1, 0, 8))),
    two("an error behind the first", [FIRST, tells(1, 1, (8, 0)), fails(1)], yes(1)),
    two("the first is asked for twice, which fails", [TWICE, fails(1)], yes(1, 1)),
    two("an unknown one is asked for, which fails", [UNKNOWN, fails(1)], yes(1, 1)),
    two("the first is asked for twice, which succeeds", [TWICE, WHOLE_FIRST], at(408, "SuccessOfImproper")),
    two("the first and an unknown one are asked for, which succeeds", [ONE_UNKNOWN, WHOLE_FIRST], at(408, "SuccessOfImproper")),
    two("an unknown one is asked for and told", [ONE_UNKNOWN, tells_last(1, 3, (8, 0))], at(408, "BadContent")),
    two("none is asked for, which succeeds", [NONE_ASKED, ends(1)], yes(1)),
    two("none is asked for, which fails", [NONE_ASKED, fails(1)], yes(1)),
    two("none is asked for, and the first told", [NONE_ASKED, WHOLE_FIRST], at(400, "BadContent")),
    malformed("nine bytes fails", 9, fails, yes(1, 1)),
    malformed("no bytes fails", 0, fails, yes(1, 1)),
    malformed("four bytes succeeds", 4, ends, at(372, "SuccessOfImproper")),
    two("the export's last byte", [filters(1, 7, 1, 1), tells_last(1, 1, (1, 0))], yes(1)),
    two("a range that passes the export", [filters(1, 4, 8, 1), tells_last(1, 1, (4, 0))], at(404, "SuccessOfImproper")),
    two("a range that ends behind 2^64", [filters(1, 4, MOST, 1), fails(1)], yes(1, 1)),
    two("a range of no bytes", [filters(1, 0, 0, 1), ends(1)], yes(1)),
    two("two extents, though one is asked for", [filters(1, 0, 8, 1, flags=REQ_ONE), tells_last(1, 1, (1, 0), (1, 2))], at(420, "BadContent")),
    two("two extents of a shorter range, though one is asked for",
        [filters(1, 0, 2, 1, flags=REQ_ONE), tells_last(1, 1, (2, 0), (1, 2))], at(420, "BadContent")),
    talk("some contexts, the export does not offer it, which fails", NOT_OFFERED, [FIRST, fails(1)], yes(1, 1)),
    talk("some contexts, the export does not offer it, which succeeds", NOT_OFFERED, [FIRST, WHOLE_FIRST], at(404, "SuccessOfImproper")),
]
