"""Sessions that are explained without an order. explained/NAME.txt has what `explain` writes of the one with this name."""

from cases.sizes import begun as sized
from explain.refused import WIRE
from explain.told import SELECTED, WRITTEN, Session
from messages import DONE, WRITE_ZEROES, begun, content, done, extents, hole, read, request, simple, status, write

# Two WRITEs that are outstanding while three READs come one after the other: they got the bytes of the one, of the other, and of
# the one again.
UNORDERED = [
    *begun(), write(1, 0, b"\1"), write(2, 0, b"\2"), read(3, 0, 1), simple(3, b"\1"), read(4, 0, 1), simple(4, b"\2"), read(5, 0, 1),
    simple(5, b"\1"), simple(1), simple(2),
]
# A READ that got 01 from one of two WRITEs, and after it one that got the byte of the start.
SILENT = [
    *begun(), read(1, 0, 1), write(2, 0, b"\1"), write(3, 0, b"\1"), simple(1, b"\1"), read(4, 0, 1), simple(2), simple(4, b"\0"), simple(3)]
# WRITEs that are outstanding together, and after all of them READs of 01 and of 00.
SET = [
    *begun(), write(1, 0, b"\1"), write(2, 0, b"\0"), write(3, 0, b"\1"), simple(1), simple(2), simple(3), read(4, 0, 1),
    simple(4, b"\1"), read(5, 0, 1), simple(5, b"\0")]


def alternating(count):
    """READs that get 01 and 02 in turn, each after a WRITE of its byte that stays open, so many of each; and a last READ of 01,
    for which no WRITE is left. No READ can be spared."""
    records, replies, number = begun(), [], 0
    for byte in (b"\1", b"\2") * count:
        number += 2
        records += [write(number - 1, 0, byte), read(number, 0, 1), simple(number, byte)]
        replies.append(simple(number - 1))
    return [*records, read(number + 1, 0, 1), simple(number + 1, b"\1"), *replies]


# Three WRITEs that are outstanding, of 01, 01 and 02, and READs one after the other that get 02, 01 and 02: the second READ stands between
# the WRITE of 02 and the last READ.
BETWEEN = [*begun(), write(1, 0, b"\1"), write(2, 0, b"\1"), write(3, 0, b"\2"), read(4, 0, 1), simple(4, b"\2"), read(5, 0, 1),
           simple(5, b"\1"), read(6, 0, 1), simple(6, b"\2"), simple(1), simple(2), simple(3)]
# Three WRITEs of 01, 00 and 01 that end before two READs, which get 01, and 00 as a hole.
HOLED = [*begun(structured=True), write(1, 0, b"\1"), write(2, 0, b"\0"), write(3, 0, b"\1"), done(1), done(2), done(3), read(4, 0, 1),
         content(4, 0, b"\1"), done(4), read(5, 0, 1), hole(5, 0, 1), done(5)]

# A WRITE that a READ got while it was outstanding, and a BLOCK_STATUS that calls the byte zero after the READ.
UNDONE = [
    *SELECTED, write(1, 0, b"\1"), read(2, 0, 1), content(2, 0, b"\1"), done(2), status(3, 0, 8), extents(3, 1, (8, 2), flags=DONE),
    simple(1)]
# A WRITE of 00 over an image that stays outstanding, and two BLOCK_STATUSes that call its byte zero, of which one comes before another
# WRITE and one after it.
CALLED_TWICE = [
    *SELECTED, write(1, 1, b"\0"), status(2, 1, 1), extents(2, 1, (1, 2), flags=DONE), write(3, 1, b"\5"), simple(3), status(4, 1, 1),
    extents(4, 1, (1, 2), flags=DONE), simple(1)]
# As BETWEEN, with a BLOCK_STATUS between: it calls zero what a READ before it and one after it got as 02, of one WRITE.
CALLED_BETWEEN = [
    *SELECTED, write(1, 0, b"\0"), write(2, 0, b"\0"), write(3, 0, b"\2"), read(4, 0, 1), content(4, 0, b"\2"), done(4), status(5, 0, 1),
    extents(5, 1, (1, 3), flags=DONE), read(6, 0, 1), content(6, 0, b"\2"), done(6), simple(1), simple(2), simple(3)]
# WRITEs of 01 and of 00 in turn that stay outstanding, and after each what finds its byte: a READ, or a BLOCK_STATUS that calls it zero.
# For the last READ no WRITE of 01 is left.
CALLED_IN_TURN = [
    *SELECTED, write(1, 5, b"\1"), read(2, 5, 1), content(2, 5, b"\1"), done(2), write(3, 5, b"\0"), status(4, 5, 1),
    extents(4, 1, (1, 2), flags=DONE), write(5, 5, b"\1"), read(6, 5, 1), content(6, 5, b"\1"), done(6), write(7, 5, b"\0"),
    status(8, 5, 1), extents(8, 1, (1, 2), flags=DONE), read(9, 5, 1), content(9, 5, b"\1"), done(9), simple(1), simple(3), simple(5),
    simple(7)]

# Sessions that are explained without an order.
ORDERLESS = {
    "no-order-before-the-start": Session(SILENT),
    "no-order-of-a-set": Session(SET),
    "no-source-before-others": Session(
        [*begun(), write(1, 0, b"\1"), simple(1), write(2, 0, b"\2"), simple(2), read(3, 0, 1), simple(3, b"\xff"),
         write(4, 0, b"\3"), simple(4), write(5, 0, b"\xff"), simple(5)]),
    "found": Session(WRITTEN),
    "found-with-a-request-outside": Session([*sized(2, 512, 4), read(1, 1, 2), simple(1, bytes(2))], profile="wide"),
    "found-in-parts": Session(
        [*begun(), write(1, 0, b"\xab\xcd"), read(2, 0, 2), simple(1), simple(2, b"\xab\0")]),
    "no-source-overwritten": Session(
        [*begun(), write(1, 0, b"\xab\xcd"), simple(1), write(2, 0, b"\x11\x22"), simple(2), read(3, 0, 4),
         simple(3, b"\xab\x22\0\0")]),
    "no-source-served-after": Session([*begun(), read(1, 0, 2), simple(1, b"\xab\0"), write(2, 0, b"\xab")]),
    "no-source-changed-before": Session(
        [*begun(), write(1, 0, b"\xab\xcd"), simple(1), read(2, 0, 2), simple(2, b"\xab\xce")], start="unknown"),
    "no-source-in-a-hole": Session(
        [*begun(structured=True), write(1, 1, b"\7"), simple(1), read(2, 0, 4), hole(2, 0, 4), done(2)]),
    "no-source-while-outstanding": Session(
        [*begun(), write(1, 0, b"\1"), simple(1), read(2, 0, 1), write(3, 0, b"\3"), simple(2, b"\xff"), write(4, 0, b"\xff"),
         simple(4), simple(3)]),
    "no-source-of-many": Session(
        [*begun(), *(record for number in range(1, 11) for record in (write(number, 0, bytes([number])), simple(number))),
         read(11, 0, 1), simple(11, b"\xff")]),
    "no-order-of-three-reads": Session(UNORDERED),
    "no-order-of-a-read-between": Session(BETWEEN),
    "no-order-of-a-hole": Session(HOLED),
    "no-order-of-five-reads": Session(alternating(2)),
    "no-order-of-thirteen-reads": Session(alternating(6)),
    "no-source-of-a-status": Session(
        [*SELECTED, request(WRITE_ZEROES, 1, 0, 1), simple(1), write(2, 0, b"\x11"), simple(2), status(3, 0, 8),
         extents(3, 1, (8, 2), flags=DONE)], profile="wide"),
    "no-source-of-a-status-of-the-start": Session(
        [*SELECTED, status(1, 5, 2), extents(1, 1, (1, 0), (1, 2), flags=DONE)], start="image:8", profile="wide"),
    "no-order-of-a-read-and-a-status": Session(UNDONE, profile="wide"),
    "no-order-of-two-statuses": Session(CALLED_TWICE, start="image:8", profile="wide"),
    "no-order-of-a-status-between": Session(CALLED_BETWEEN, profile="wide"),
    "no-order-of-reads-and-statuses-in-turn": Session(CALLED_IN_TURN, start="image:8", profile="wide"),
    "image": Session(WRITTEN, start="image:9"),
    "unknown-cookie": WIRE["unknown-cookie"],
}
