"""A reader of orders and contents for tests, behind that of transmissions (transmitted.py): a second opinion of the line of `check`.
It looks each byte back through the order, as docs/DEFINITIONS.md has it, and shares no code with the program or with the tables.
"""

from models import transmitted
from models.transmitted import BLOCK_STATUS, CACHE, READ, TRIM, WRITE, WRITE_ZEROES, is_proper

ALLOCATION = b"base:allocation"
ZERO = 2
# What stands in a range: bytes, or zeroes only; None where nothing is known.
ZEROES = 0


def entries_of(order):
    """The entries of a well-formed order: the number of a request, and where the part begins and ends, or None."""
    words = (list(map(int, line.split())) for line in order.splitlines())
    return [(number, (part[0], sum(part)) if part else None) for number, *part in words]


def zeroes_of(one, found):
    """The ranges that the reply to a BLOCK_STATUS calls zero."""
    if one.first is None or not is_proper(one, found) or found.contexts[one.first[0]] != ALLOCATION:
        return
    begin = one.offset
    for length, flags in one.first[1]:
        if flags & ZERO and begin < one.end:
            yield begin, min(begin + length, one.end)
        begin += length


def first_other(known, told, size):
    """Where two contents of a range first differ; None where they do not."""
    if known == ZEROES and told is None:
        return None
    known, told = known if known != ZEROES else bytes(size), told if told is not None else bytes(size)
    return next((at for at in range(size) if known[at] != told[at]), None)


class Service:
    """A session that is served in an order."""

    def __init__(self, sent, found, order, start, profile):
        self.sent, self.found, self.start, self.entries = sent, found, start, entries_of(order)
        self.is_by_chunk = profile == "wide"
        self.size = found.size if found.entered else 0

    def inside(self, one):
        """Where the offsets begin and end that a request has in the export."""
        has_range = one.command in (READ, WRITE, TRIM, CACHE, WRITE_ZEROES)
        if has_range or one.command == BLOCK_STATUS and is_proper(one, self.found):
            return one.offset, min(one.end, self.size)
        return 0, 0

    def order_fault(self):
        """The entry or the request of a fault of the order, and the fault."""
        return self.entry_fault() or self.late() or self.unserved()

    def entry_fault(self):
        self.parts = {}
        for at, (number, part) in enumerate(self.entries, 1):
            if not 1 <= number <= len(self.sent):
                return at, "NoSuchRequest"
            before = self.parts.setdefault(number, [])
            if before and (part is None or None in before):
                return at, "Twice"
            if part is not None:
                first, last = self.inside(self.sent[number - 1])
                begin, end = part
                if begin == end or begin < first or end > last or any(begin < other[1] and other[0] < end for other in before):
                    return at, "BadPart"
            before.append(part)
        return None

    def due(self, one):
        """What of a request has to be served, in ranges, each with how many requests had come then. By chunk a READ's byte is due when the
        first message that shows it is whole; all else when the reply begins."""
        if not self.is_by_chunk or one.command != READ:
            return [] if one.known is None else [(*self.inside(one), one.known)]
        # (each range less what was shown before it)
        found, left = [], [self.inside(one)]
        for begin, end, count in one.shown:
            rest = []
            for first, last in left:
                here, there = max(begin, first), min(end, last)
                if here < there:
                    found.append((here, there, count))
                    rest += [it for it in ((first, here), (there, last)) if it[0] < it[1]]
                else:
                    rest.append((first, last))
            left = rest
        return found

    def is_due(self, one):
        """Whether something of a request is due, also of one without an offset in the export."""
        if self.is_by_chunk and one.command == READ:
            return bool(self.due(one)) or one.ended_at is not None
        return one.known is not None

    def least_due(self, one, part):
        """By how many requests what an entry serves is due at the earliest."""
        if part is None and self.inside(one)[0] >= self.inside(one)[1]:
            return one.ended_at if self.is_by_chunk and one.command == READ else one.known
        first, last = part or self.inside(one)
        return min((count for begin, end, count in self.due(one) if begin < last and first < end), default=None)

    def late(self):
        """The first entry whose request had not come when what it or a later one serves was due."""
        found, least = None, None
        for at, (number, part) in reversed(list(enumerate(self.entries, 1))):
            known = self.least_due(self.sent[number - 1], part)
            least = known if least is None else least if known is None else min(known, least)
            if least is not None and least < number:
                found = at, "Late"
        return found

    def unserved(self):
        for number, one in enumerate(self.sent, 1):
            if not self.is_due(one):
                continue
            parts = self.parts.get(number)
            if parts is None:
                return number, "Missing"
            wanted = sum(max(end - begin, 0) for begin, end, _ in self.due(one))
            served = sum(max(min(end, last) - max(begin, first), 0) for begin, end, _ in self.due(one)
                         for first, last in filter(None, parts))
            if None not in parts and served != wanted:
                return number, "NotCovered"
        return None

    def left_by(self, one, begin, end):
        """What a change leaves in a range of its own."""
        if not one.succeeded() or one.command == TRIM:
            return None
        return one.data[begin - one.offset : end - one.offset] if one.command == WRITE else ZEROES

    def at_start(self, begin, end):
        """The parts of a range at the start, and what stands in them."""
        if isinstance(self.start, str):
            return [(begin, end, {"zero": ZEROES, "unknown": None}[self.start])]
        return [(begin, end, self.start[begin:end])] if isinstance(self.start, bytes) else self.start.between(begin, end)

    def before(self, at, begin, end):
        """What a range holds at an entry, looked up backwards: ranges, and what stands in them."""
        left = [(begin, end)]
        for number, part in reversed(self.entries[:at]):
            one = self.sent[number - 1]
            if one.command in (WRITE, TRIM, WRITE_ZEROES):
                first, last = one.offset, one.end
                if part is not None:
                    first, last = max(first, part[0]), min(last, part[1])
                rest = []
                for begin, end in left:
                    here, there = max(begin, first), min(end, last)
                    if here < there:
                        yield here, there, self.left_by(one, here, there)
                        rest += [it for it in ((begin, here), (there, end)) if it[0] < it[1]]
                    else:
                        rest.append((begin, end))
                left = rest
        for begin, end in left:
            yield from self.at_start(begin, end)

    def told(self, one):
        """The ranges that a reply gives or calls zero, each with its bytes, or None of zeroes."""
        if not one.succeeded():
            return []
        if one.command == BLOCK_STATUS:
            return [(begin, end, None) for begin, end in zeroes_of(one, self.found)]
        return one.given

    def wrong(self):
        """The request of the first entry with a wrong byte, and the least offset of one."""
        for at, (number, part) in enumerate(self.entries):
            one = self.sent[number - 1]
            first, last = part or (one.offset, one.end)
            places = []
            for begin, end, data in self.told(one):
                for here, there, known in self.before(at, max(begin, first), min(end, last)):
                    given = data if data is None else data[here - begin : there - begin]
                    if here < there and known is not None and (other := first_other(known, given, there - here)) is not None:
                        places.append(here + other)
            if places:
                return number, min(places)
        return None


def refused(told, start):
    """The line where the bytes are refused, or the start has another size than the export; else None."""
    if told.fault:
        return transmitted.said(told)
    size = told.found.size if isinstance(start, str) else len(start) if isinstance(start, bytes) else start.size
    return f"no image {size} size {told.found.size}\n" if told.found.entered and size != told.found.size else None


def line(records, order, start, profile):
    """The line of `check`. The start is `zero`, `unknown`, the bytes of an image, or contents (tools/contents.py)."""
    told = transmitted.judge(records, profile)
    if fault := refused(told, start):
        return fault
    service = Service(told.sent, told.found, order, start, profile)
    if fault := service.order_fault():
        return f"no order entry {fault[0]}: {fault[1]}\n"
    if wrong := service.wrong():
        word = "status" if told.sent[wrong[0] - 1].command == BLOCK_STATUS else "content"
        return f"no {word} request {wrong[0]} offset {wrong[1]}\n"
    return transmitted.said(told)
