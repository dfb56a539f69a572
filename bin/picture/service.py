"""An order of service: at which moments of the session its entries fit, and which of them wrote a byte."""

from collections import namedtuple
from itertools import groupby

from .session import FAILURE, PENDING, READ, SUCCESS, TRIM, WRITE, WRITE_ZEROES

# An entry of an order: a request, and its part, or neither offset nor length.
Entry = namedtuple("Entry", "request offset length")

CHANGES = (WRITE, TRIM, WRITE_ZEROES)


def read_order(text):
    """The entries of an order, which nbdcheck has read."""
    rows = [list(map(int, line.split())) for line in text.splitlines()]
    return [Entry(row[0], *(row[1:] or (None, None))) for row in rows]


def holds(entry, request, offset):
    """Whether this entry serves this offset."""
    if entry.length is None:
        return request.holds(offset)
    return entry.offset <= offset < entry.offset + entry.length


def windows(entries, requests, end):
    """Of each entry the moment from which on it may have been served, and that from which on not: an entry comes behind those
    before it, and so behind the last byte of each of their requests, and before the first reply to each one behind it."""
    begins, ends, latest, earliest = [], [end] * len(entries), end, 0
    known = [requests[entry.request - 1] if 0 < entry.request <= len(requests) else None for entry in entries]
    for request in known:
        earliest = max(earliest, request.last if request else 0)
        begins.append(earliest)
    for at in reversed(range(len(known))):
        if known[at] and known[at].reply:
            latest = min(latest, known[at].reply - 1)
        ends[at] = latest
    return begins, ends


def limits(begins, ends, end):
    """Of each entry how far it is drawn at most: to the end of its window, and to where a later one's begins."""
    found, later = list(ends), end
    for at in reversed(range(len(begins) - 1)):
        if begins[at] < begins[at + 1]:
            later = begins[at + 1]
        found[at] = min(ends[at], later)
    return found


def moments(entries, requests, end):
    """A moment for each entry, in their order; those with one window stand apart in equal steps."""
    begins, ends = windows(entries, requests, end)
    found = []
    for (begin, limit), run in groupby(zip(begins, limits(begins, ends, end))):
        count, begin = len(list(run)), max(begin, found[-1] if found else 0)
        room = max(limit - begin, 0)
        found += [round(begin + room * step / (count + 1), 2) for step in range(1, count + 1)]
    return found


def left(request):
    """What a change leaves of the offset in question: two digits, or `??` where the byte is not known then."""
    if request.command == TRIM or request.result != SUCCESS:
        return "??"
    return "00" if request.command == WRITE_ZEROES else request.byte


def history(entries, requests, offset):
    """Which entries changed or read the offset, and what they left or returned; entries are counted from 0."""
    told = []
    for at, entry in enumerate(entries):
        request = requests[entry.request - 1] if 0 < entry.request <= len(requests) else None
        if request is None or not holds(entry, request, offset):
            continue
        if request.command in CHANGES:
            told.append((at, entry.request, left(request)))
        elif request.command == READ and request.result not in (PENDING, FAILURE):
            told.append((at, entry.request, request.byte))
    return told


def expected(told, requests, number):
    """The entry that the READ with this number should have got its byte from, or None for the start: what changed last."""
    last = None
    for at, request, _ in told:
        if request == number:
            return last
        if requests[request - 1].command in CHANGES:
            last = at
    return None
