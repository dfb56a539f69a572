"""Which connections touch what another one changes: of these what the export held at first is not the start."""

from collections import namedtuple
from operator import attrgetter

from .requests import BLOCK_STATUS, CACHE, FLUSH, PAYLOAD_LEN, READ, TRIM, WRITE, WRITE_ZEROES

# Behind the last byte of every export.
END = 2**64
KINDS = {READ: "a READ", WRITE: "a WRITE", TRIM: "a TRIM", WRITE_ZEROES: "a WRITE_ZEROES", BLOCK_STATUS: "a BLOCK_STATUS"}

# The bytes that a request reads, tells the status of or changes, the request's type, its number and that of its connection.
Range = namedtuple("Range", "begin end kind request connection")

class Meeting(namedtuple("Meeting", "own other")):
    """A range of a connection, and one of another connection that changes a byte of it."""

    def offset(self):
        """The first byte of both."""
        return max(self.own.begin, self.other.begin)


def range_of(request, number, connection, is_extended):
    """The range of a request; one of unknown type may change each byte, and one with a filter may be longer than its head says."""
    flags, kind, _, offset, length = request
    if kind not in KINDS:
        return Range(0, END, kind, number, connection)
    has_filter = is_extended and kind != WRITE and flags & PAYLOAD_LEN
    return Range(offset, max(offset, END) if has_filter else offset + length, kind, number, connection)


def ranges_of(held):
    """The ranges of a connection's requests that have a byte."""
    is_extended = held.requests.is_extended()
    for number, request in enumerate(held.requests.all(), 1):
        if request[1] not in (FLUSH, CACHE):
            found = range_of(request, number, held.number, is_extended)
            if found.begin < found.end:
                yield found


def changes(each):
    return each.kind not in (READ, BLOCK_STATUS)


def reaching(order):
    """Each range with a change that stands before it and reaches into it, in the order of their beginnings."""
    # Of the changes up to here the one that reaches furthest, and the one that does among those of the other connections.
    first = second = None
    for each in order:
        met = second if first is not None and first.connection == each.connection else first
        if met is not None and met.end > each.begin:
            yield Meeting(each, met)
        if not changes(each):
            continue
        if first is None or first.connection == each.connection:
            first = each if first is None or each.end > first.end else first
        elif each.end > first.end:
            first, second = each, first
        elif second is None or each.end > second.end:
            second = each


def beginning(order):
    """Each range with a change that stands behind it and begins in it, in the order of their beginnings."""
    # Of the changes from here on the next one, and the next one of another connection.
    first = second = None
    for each in reversed(order):
        met = second if first is not None and first.connection == each.connection else first
        if met is not None and met.begin < each.end:
            yield Meeting(each, met)
        if changes(each):
            first, second = each, second if first is None or first.connection == each.connection else first


def meetings(ranges):
    """By its connection's number the meeting of the first request that touches what another connection changes."""
    order = sorted(ranges, key=attrgetter("begin"))
    found = {}
    for part in (reaching(order), beginning(order)):
        for met in part:
            before = found.get(met.own.connection)
            if before is None or met.own.request < before.own.request:
                found[met.own.connection] = met
    return found
