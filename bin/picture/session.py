"""The messages of a session with their places, and its requests, from the lines of `show`."""

import heapq
import struct

from .places import SIDES

READ, WRITE, DISC, FLUSH, TRIM, CACHE, WRITE_ZEROES, BLOCK_STATUS = range(8)
OFFSET_DATA, OFFSET_HOLE = 1, 2
# Types of chunks from here on are errors.
ERRORS = 0x8000
PENDING, SUCCESS, FAILURE = range(3)
# The bytes of each message without its payload.
HEADS = {"greeting": 18, "client-flags": 4, "option": 16, "answer": 20, "export": 10, "request": 28, "simple": 16, "chunk": 20,
         "extended-request": 32, "extended-chunk": 32}
PADDING = 124
# The largest block size that is no limit.
LIMITLESS = 2**32 - 1
INFO, INFO_EXPORT, INFO_BLOCK_SIZE = 3, 0, 3
READ_ONLY, SEND_FLUSH, SEND_FUA, SEND_TRIM, SEND_WRITE_ZEROES, SEND_DF, SEND_FAST_ZERO = (1 << at for at in (1, 2, 3, 5, 6, 7, 11))
BLOCK_STATUS_PAYLOAD = 1 << 12
FUA, NO_HOLE, DF, REQ_ONE, FAST_ZERO, PAYLOAD_LEN = 1, 2, 4, 8, 16, 32
EXPORT_NAME, GO, STRUCTURED_REPLY, SET_META_CONTEXT, EXTENDED_HEADERS = 1, 7, 8, 10, 11
ACK, META_CONTEXT = 1, 4


class Request:
    """A request, with the messages of its reply: where it begins, is whole, is first answered, and ends."""

    def __init__(self, number, command, flags, offset, length, first, last):
        self.number, self.command, self.flags, self.offset, self.length = number, command, flags, offset, length
        self.first, self.last, self.reply, self.end = first, last, None, None
        self.result, self.is_improper, self.lane, self.has_error = PENDING, False, 0, False
        # Of the offset in question: the byte that a WRITE has, or that a READ returned, and where that stands.
        self.byte, self.place = None, None

    def holds(self, offset):
        return self.offset <= offset < self.offset + self.length


class Contexts:
    """The metadata contexts that were selected, and the names of exports: docs/PROFILE.md, "Metadata contexts"."""

    def __init__(self):
        self.is_structured, self.is_granted, self.ids = False, False, set()
        # The export of the selection, and the one that was entered last.
        self.selected, self.entered = None, None

    def told(self, kind, fields, payload):
        if kind == "option":
            self._chosen(int(fields["id"]), bytes.fromhex(payload.decode()))
        elif kind == "answer":
            self._answered(int(fields["option"]), int(fields["kind"]), payload)

    def _chosen(self, option, data):
        name = data[4 : 4 + int.from_bytes(data[:4], "big")]
        if option == SET_META_CONTEXT:
            self.selected, self.is_granted, self.ids = name, False, set()
        elif option in (EXPORT_NAME, GO):
            self.entered = data if option == EXPORT_NAME else name

    def _answered(self, option, kind, payload):
        if option in (STRUCTURED_REPLY, EXTENDED_HEADERS):
            self.is_structured |= kind == ACK
        elif option == SET_META_CONTEXT:
            if kind == META_CONTEXT:
                self.ids.add(int(payload[:8], 16))
            self.is_granted |= kind == ACK

    def are_in_force(self):
        return self.is_structured and self.is_granted and bool(self.ids) and self.selected == self.entered


class Sizes:
    """The block sizes that a client asked for in its last option, a GO, and was told: docs/PROFILE.md, "Block sizes"."""

    def __init__(self):
        self.is_asked, self.least, self.largest = False, 1, LIMITLESS

    def told(self, kind, fields, payload):
        if kind == "option":
            self.is_asked = int(fields["id"]) == GO and self._asks(bytes.fromhex(payload.decode()))
            self.least, self.largest = 1, LIMITLESS
        elif kind == "answer" and int(fields["kind"]) == INFO and len(payload) == 28 and int(payload[:4], 16) == INFO_BLOCK_SIZE:
            self.least, _, self.largest = struct.unpack(">III", bytes.fromhex(payload[4:].decode()))

    @staticmethod
    def _asks(data):
        """Whether GO asks for them; one whose data does not have its form leads nowhere."""
        infos = data[6 + int.from_bytes(data[:4], "big") :]
        return INFO_BLOCK_SIZE in (int.from_bytes(infos[at : at + 2], "big") for at in range(0, len(infos), 2))

    def are_broken(self, request, is_structured):
        if not self.is_asked:
            return False
        has_bound = request.command == WRITE or request.command == READ and not is_structured
        is_long = has_bound and request.length > self.largest
        return is_long or request.offset % self.least != 0 or request.length % self.least != 0


class Export:
    """The size and the flags of the export, as last told, its metadata contexts, and its block sizes where they are looked at."""

    def __init__(self, has_sizes):
        self.size, self.flags, self.contexts = None, 0, Contexts()
        self.sizes = Sizes() if has_sizes else None

    def told(self, kind, fields, payload):
        self.contexts.told(kind, fields, payload)
        if self.sizes is not None:
            self.sizes.told(kind, fields, payload)
        if kind == "export":
            self.size, self.flags = int(fields["size"]), int(fields["flags"])
        elif kind == "answer" and int(fields["kind"]) == INFO and len(payload) == 24 and int(payload[:4], 16) == INFO_EXPORT:
            self.size, self.flags = struct.unpack(">QH", bytes.fromhex(payload[4:].decode()))

    def _allowed(self, command, may_carry):
        """The command flags that a request may have, by whether PAYLOAD_LEN is one."""
        allowed = PAYLOAD_LEN if may_carry else 0
        allowed |= FUA if self.flags & SEND_FUA else 0
        if command == READ and self.flags & SEND_DF:
            allowed |= DF
        if command == BLOCK_STATUS:
            allowed |= REQ_ONE
        if command == WRITE_ZEROES:
            allowed |= NO_HOLE | (FAST_ZERO if self.flags & SEND_FAST_ZERO else 0)
        return allowed

    def _takes(self, ids):
        """Whether a client may send a filter with these ids."""
        return self.flags & BLOCK_STATUS_PAYLOAD and len(set(ids)) == len(ids) and self.contexts.ids.issuperset(ids)

    def filter_in(self, request, is_extended, payload):
        """The length of the range and the ids in the payload of a BLOCK_STATUS that has a filter: docs/PROFILE.md, "Extended headers"."""
        may_have = is_extended and request.command == BLOCK_STATUS and request.flags & PAYLOAD_LEN and self.contexts.are_in_force()
        if not may_have or len(payload) < 16 or len(payload) % 8 != 0:
            return None
        return int(payload[:16], 16), [int(payload[at : at + 8], 16) for at in range(16, len(payload), 8)]

    def is_improper(self, request, is_extended, ids):
        """Whether the client should not have sent it, with the ids in its filter, if it has one: docs/PROFILE.md, "Requests", "Block sizes"
        and "Extended headers"."""
        command = request.command
        needed = {FLUSH: SEND_FLUSH, TRIM: SEND_TRIM, WRITE_ZEROES: SEND_WRITE_ZEROES}.get(command, 0)
        if command == FLUSH:
            is_beyond = request.offset != 0 or request.length != 0
        else:
            is_beyond = request.offset + request.length > self.size
        may_not_change = command in (WRITE, TRIM, WRITE_ZEROES) and self.flags & READ_ONLY
        may_carry = is_extended and command == WRITE or ids is not None and self._takes(ids)
        is_known = command in (READ, WRITE, FLUSH, TRIM, CACHE, WRITE_ZEROES)
        is_known |= command == BLOCK_STATUS and self.contexts.are_in_force()
        has_broken = self.sizes is not None and command != FLUSH and self.sizes.are_broken(request, self.contexts.is_structured)
        return bool(not is_known or is_beyond or may_not_change or needed & ~self.flags
                    or request.flags & ~self._allowed(command, may_carry) or has_broken)


class Session:
    """What was read of a session, in the profile wide with its block sizes. The messages are four lists, since there may be many."""

    def __init__(self, places, offset, is_wide=False):
        self.places, self.offset = places, offset
        self.sides, self.firsts, self.lasts, self.numbers = [], [], [], []
        self.requests, self.export, self.end = [], Export(is_wide), None
        self.read = dict.fromkeys(SIDES, 0)
        self.outstanding = {}

    def add(self, line):
        """A line of `show`; its last one is the end."""
        front, has_payload, payload = line.partition(b" payload=")
        words = front.decode().split(" ")
        if words[0] not in SIDES or len(words) < 2 or words[1] not in HEADS:
            self.end = line
            return
        fields = dict(word.split("=") for word in words[2:])
        self._message(words[0], words[1], fields, payload if has_payload else b"")

    def _message(self, side, kind, fields, payload):
        length = HEADS[kind] + len(payload) // 2 + (PADDING if fields.get("padded") == "1" else 0)
        begin, stream = self.read[side], self.places.streams[side]
        self.read[side] += length
        first, last = stream.place(begin), stream.place(begin + length - 1)
        self.export.told(kind, fields, payload)
        number = 0
        if kind in ("request", "extended-request"):
            number = self._request(kind, fields, payload, first, last)
        elif kind in ("simple", "chunk", "extended-chunk"):
            number = self._reply(kind, fields, payload, first, last, begin + HEADS[kind])
        for column, value in zip((self.sides, self.firsts, self.lasts, self.numbers), (side, first, last, number)):
            column.append(value)

    def _request(self, kind, fields, payload, first, last):
        command, flags, offset, length = (int(fields[name]) for name in ("command", "flags", "offset", "length"))
        if command == DISC:
            return 0
        request = Request(len(self.requests) + 1, command, flags, offset, length, first, last)
        is_extended = kind == "extended-request"
        narrowed = self.export.filter_in(request, is_extended, payload)
        if narrowed is not None:
            request.length = narrowed[0]
        request.is_improper = self.export.is_improper(request, is_extended, None if narrowed is None else narrowed[1])
        if command == WRITE and self.offset is not None and request.holds(self.offset):
            at = self.offset - offset
            request.byte = payload[2 * at : 2 * at + 2].decode()
        self.requests.append(request)
        self.outstanding[int(fields["cookie"])] = request
        return request.number

    def _reply(self, kind, fields, payload, first, last, begin):
        """A reply's message, whose payload begins at this byte of its side."""
        cookie = int(fields["cookie"])
        request = self.outstanding[cookie]
        request.reply, request.end = request.reply or first, last
        if self.offset is not None and request.command == READ:
            self._content(request, kind, int(fields.get("kind", OFFSET_DATA)), payload, begin)
        if kind == "simple":
            request.result = SUCCESS if int(fields["error"]) == 0 else FAILURE
        else:
            request.has_error |= int(fields["kind"]) >= ERRORS
            if int(fields["flags"]) & 1 == 0:
                return request.number
            request.result = FAILURE if request.has_error else SUCCESS
        del self.outstanding[cookie]
        return request.number

    def _content(self, request, kind, of, payload, begin):
        """The byte of the offset in question, where this piece of a reply has it."""
        base, front, is_chunk = request.offset, 0, kind != "simple"
        if is_chunk:
            if of not in (OFFSET_DATA, OFFSET_HOLE):
                return
            base, front = int(payload[:16], 16), 8
        at = self.offset - base
        if at >= 0 and is_chunk and of == OFFSET_HOLE:
            if at < int(payload[16:24], 16):
                request.byte, request.place = "00", self.places.streams["S"].place(begin + len(payload) // 2 - 1)
        elif 0 <= at < len(payload) // 2 - front:
            at += front
            request.byte, request.place = payload[2 * at : 2 * at + 2].decode(), self.places.streams["S"].place(begin + at)


def set_lanes(requests, end):
    """Gives each request the first lane that is free from its first byte on; how many lanes there are."""
    free, used, taken = [], [], 0
    for request in requests:
        while used and used[0][0] < request.first:
            heapq.heappush(free, heapq.heappop(used)[1])
        if not free:
            heapq.heappush(free, taken)
            taken += 1
        request.lane = heapq.heappop(free)
        # A reply that is not finished keeps its lane.
        heapq.heappush(used, (end + 1 if request.result == PENDING else request.end, request.lane))
    return taken
