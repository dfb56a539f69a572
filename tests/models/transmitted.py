"""A reader of transmissions for tests, behind the reader of negotiations (negotiated.py): a second opinion of where `check`
refuses the bytes of a session, and of what it counts. It is written from the rules of the protocol, message after message,
and shares no code with the program or with the tables. Orders and contents are those of served.py.
"""

import struct
from collections import namedtuple

from models import negotiated
from models.negotiated import Refused

REQUEST_MAGIC, SIMPLE_MAGIC, CHUNK_MAGIC = 0x25609513, 0x67446698, 0x668E33EF
EXTENDED_REQUEST_MAGIC, EXTENDED_CHUNK_MAGIC = 0x21E41C71, 0x6E8A278C
# How many bytes each header has.
HEADS = {REQUEST_MAGIC: 28, EXTENDED_REQUEST_MAGIC: 32, SIMPLE_MAGIC: 16, CHUNK_MAGIC: 20, EXTENDED_CHUNK_MAGIC: 32}
READ, WRITE, DISC, FLUSH, TRIM, CACHE, WRITE_ZEROES, BLOCK_STATUS = range(8)
NONE, OFFSET_DATA, OFFSET_HOLE, STATUS, STATUS_EXT, ERROR, ERROR_OFFSET = 0, 1, 2, 5, 6, 0x8001, 0x8002
READ_ONLY, SEND_FLUSH, SEND_FUA, SEND_TRIM, SEND_WRITE_ZEROES, SEND_DF, SEND_FAST_ZERO = 2, 4, 8, 32, 64, 128, 2048
BLOCK_STATUS_PAYLOAD = 4096
FUA, NO_HOLE, DF, REQ_ONE, FAST_ZERO, PAYLOAD_LEN = 1, 2, 4, 8, 16, 32
DONE = 1
# The longest payload behind an extended header.
LONGEST = 2**32 - 1

# Where and with what the session was refused (None: it was not), how many requests came, were answered, and were improper or
# outside the block sizes; what the negotiation found, and the requests.
Judged = namedtuple("Judged", "place fault requests answered improper found sent")


class Request:
    """A request, and what came in answer to it."""

    def __init__(self, flags, command, cookie, offset, length, data):
        self.flags, self.command, self.cookie, self.offset, self.length = flags, command, cookie, offset, length
        self.end, self.data = offset + length, data
        # Of a BLOCK_STATUS whose payload says which contexts it asks for: their ids, each as often as it stands there.
        self.ids = None
        self.chunks, self.has_failed, self.has_ended = 0, False, False
        # How many requests had come when its reply began, if it did.
        self.known = None
        # Of a READ: the ranges that its messages showed, each with how many requests had come when its message was whole; and how many
        # had when its last one was.
        self.shown, self.ended_at = [], None
        # The ranges that its reply gave, each with its bytes, or None of a hole; and the ids that status chunks named.
        self.given, self.told = [], set()
        # The id and the extents of the first chunk, where that is a status.
        self.first = None

    def narrow(self, ids, length):
        """Its payload says that it asks for these, and that its range has this length."""
        self.ids, self.length, self.end = ids, length, self.offset + length

    def asked(self, contexts):
        """The ids of those contexts in force that a BLOCK_STATUS asks for."""
        return set(contexts) if self.ids is None else set(contexts) & set(self.ids)

    def holds(self, offset):
        return self.offset <= offset < self.end

    def is_covered(self):
        return sum(end - begin for begin, end, _ in self.given) == self.length

    def succeeded(self):
        return self.has_ended and not self.has_failed


def is_proper(request, found):
    """Whether a client should send this on the export of what the negotiation found."""
    command, flags = request.command, found.flags
    if command not in range(8) or command == DISC or command == BLOCK_STATUS and not found.contexts:
        return False
    if command == FLUSH:
        fits = request.offset == request.length == 0
    else:
        fits = request.end <= found.size
    needed = {FLUSH: SEND_FLUSH, TRIM: SEND_TRIM, WRITE_ZEROES: SEND_WRITE_ZEROES}.get(command, 0)
    is_allowed = not (flags & READ_ONLY and command in (WRITE, TRIM, WRITE_ZEROES))
    known = {READ: DF if flags & SEND_DF else 0, BLOCK_STATUS: REQ_ONE,
             WRITE_ZEROES: NO_HOLE | (FAST_ZERO if flags & SEND_FAST_ZERO else 0)}.get(command, 0)
    known |= FUA if flags & SEND_FUA else 0
    if found.extended and (command == WRITE or request.ids is not None):
        known |= PAYLOAD_LEN
    return fits and is_allowed and needed & ~flags == 0 and request.flags & ~known == 0 and asks_properly(request, found)


def asks_properly(request, found):
    """Whether a BLOCK_STATUS that says which contexts it asks for may do so, and each of them is in force and stands there once."""
    ids = request.ids
    return ids is None or found.flags & BLOCK_STATUS_PAYLOAD != 0 and set(ids) <= set(found.contexts) and len(set(ids)) == len(ids)


def is_outside(request, found):
    """Whether a request breaks the block sizes that its client accepted."""
    has_range = request.command in (READ, WRITE, TRIM, CACHE, WRITE_ZEROES) or request.command == BLOCK_STATUS and found.contexts
    if not has_range or found.sizes is None:
        return False
    least, largest = found.sizes
    has_payload = request.command == WRITE or request.command == READ and not found.structured
    is_long = has_payload and request.length > largest
    return is_long or request.offset % least != 0 or request.length % least != 0


def cut_extents(payload):
    """The id and the extents in a status chunk; None where it does not have the form."""
    if len(payload) < 12 or len(payload) % 8 != 4:
        return None
    found = list(struct.iter_unpack(">II", payload[4:]))
    return (int.from_bytes(payload[:4], "big"), found) if all(length for length, _ in found) else None


def cut_long_extents(payload):
    """The same in a chunk with an extended header."""
    count = int.from_bytes(payload[4:8], "big")
    if count == 0 or len(payload) != 8 + 16 * count:
        return None
    found = list(struct.iter_unpack(">QQ", payload[8:]))
    return (int.from_bytes(payload[:4], "big"), found) if all(length for length, _ in found) else None


def cut_narrowed(payload):
    """The ids, and the length of the range, in the payload of a BLOCK_STATUS; None where it does not have the form."""
    if len(payload) < 8 or len(payload) % 4 != 0:
        return None
    return [number for (number,) in struct.iter_unpack(">I", payload[8:])], int.from_bytes(payload[:8], "big")


class Side:
    """The bytes of one side behind its last message."""

    def __init__(self, head):
        self.bytes, self.head, self.need = bytearray(), head, head


class Reader:
    """A session from its transmission on."""

    def __init__(self, found, is_wide):
        self.found, self.at, self.is_over, self.is_wide = found, found.behind, False, is_wide
        self.requests, self.outstanding = [], {}
        self.improper = self.answered = 0
        self.client, self.server = Side(HEADS[EXTENDED_REQUEST_MAGIC if found.extended else REQUEST_MAGIC]), Side(4)
        # How many requests had come when the server's message began, and the request that it answers.
        self.known, self.of = 0, None

    def need(self, is_so, fault):
        if not is_so:
            raise Refused(self.at, fault)

    def take(self, side, data):
        """Bytes of a side, as many at once as are wanted next."""
        if side == "C" and self.is_over and data:
            raise Refused(self.at + 1, "OutOfTurn")
        one, step = (self.client, self.request) if side == "C" else (self.server, self.reply)
        while data:
            if side == "S" and not one.bytes:
                self.known = len(self.requests)
            part = data[: one.need - len(one.bytes)]
            one.bytes += part
            self.at, data = self.at + len(part), data[len(part) :]
            while len(one.bytes) == one.need and one.bytes:
                step(one)
            if side == "C" and self.is_over and data:
                raise Refused(self.at + 1, "OutOfTurn")

    def request(self, one):
        """A client's message, or its head."""
        is_extended = self.found.extended
        magic, *fields, length = struct.unpack(">IHHQQQ" if is_extended else ">IHHQQI", one.bytes[: one.head])
        request = Request(*fields, length, bytes(one.bytes[one.head :]))
        if one.need == one.head:
            self.need(magic == (EXTENDED_REQUEST_MAGIC if is_extended else REQUEST_MAGIC), "BadMagic")
            has_payload = request.command == WRITE or is_extended and request.flags & PAYLOAD_LEN
            self.need(length <= LONGEST or not has_payload, "OutOfProfile")
            self.need(request.command != DISC or request.offset == length == 0, "BadDisconnect")
            if has_payload and length:
                one.need += length
                return
        if request.command == DISC:
            self.is_over = True
        else:
            self.need(request.cookie not in self.outstanding, "CookieInUse")
            self.number(request)
        one.bytes.clear()
        one.need = one.head

    def is_status(self, request):
        """Whether a request is a BLOCK_STATUS with an extended header while a context is in force."""
        return self.found.extended and self.found.contexts and request.command == BLOCK_STATUS

    def number(self, request):
        """A request gets the next number."""
        narrowed = cut_narrowed(request.data) if self.is_status(request) and request.flags & PAYLOAD_LEN else None
        if narrowed is not None:
            request.narrow(*narrowed)
        self.requests.append(request)
        self.outstanding[request.cookie] = len(self.requests)
        self.improper += not is_proper(request, self.found) or is_outside(request, self.found)

    def reply(self, one):
        """A server's message, its head, or its magic number."""
        magic = int.from_bytes(one.bytes[:4], "big")
        if one.need == 4:
            self.need(magic in ((EXTENDED_CHUNK_MAGIC,) if self.found.extended else (SIMPLE_MAGIC, CHUNK_MAGIC)), "BadMagic")
            one.need = HEADS[magic]
            return
        if one.need == HEADS[magic] and self.of is None:
            more = self.reply_head(magic, one.bytes)
            if more:
                one.need += more
                return
        (self.simple if magic == SIMPLE_MAGIC else self.chunk)(bytes(one.bytes))
        self.of = None
        one.bytes.clear()
        one.need = 4

    def reply_head(self, magic, head):
        """How many bytes stand behind the head of a server's message."""
        length = int.from_bytes(head[24:32] if magic == EXTENDED_CHUNK_MAGIC else head[16:20], "big")
        self.need(magic != EXTENDED_CHUNK_MAGIC or length <= LONGEST, "OutOfProfile")
        number = self.outstanding.get(int.from_bytes(head[8:16], "big"))
        self.need(number is not None and number <= self.known, "UnknownCookie")
        self.of = self.requests[number - 1]
        self.of.known = self.known if self.of.known is None else self.of.known
        if magic == SIMPLE_MAGIC:
            return self.simple_head(head)
        self.need(self.found.structured, "ChunkForbidden")
        return length

    def simple_head(self, head):
        """How many bytes stand behind the head."""
        of, error = self.of, int.from_bytes(head[4:8], "big")
        is_read, is_status = of.command == READ, of.command == BLOCK_STATUS and self.found.contexts
        self.need(of.chunks == 0, "SimpleForbidden")
        self.need(not (is_read and self.found.structured), "SimpleForbidden")
        self.need(not (is_status and error == 0), "SimpleForbidden")
        return of.length if is_read and error == 0 else 0

    def simple(self, message):
        is_success = int.from_bytes(message[4:8], "big") == 0
        self.need(not is_success or is_proper(self.of, self.found), "SuccessOfImproper")
        if is_success and self.of.command == READ:
            self.of.given.append((self.of.offset, self.of.end, message[16:]))
        self.of.has_failed |= not is_success
        self.end()

    def chunk(self, message):
        of, is_extended = self.of, self.found.extended
        flags, kind = struct.unpack(">HH", message[4:8])
        is_last = flags & DONE == DONE
        self.payload(kind, message[HEADS[EXTENDED_CHUNK_MAGIC if is_extended else CHUNK_MAGIC] :], is_last)
        of.chunks += 1
        if is_last and not of.has_failed:
            self.success()
        self.need(not is_extended or of.offset == int.from_bytes(message[16:24], "big"), "BadReplyOffset")
        if is_last:
            self.end()

    def payload(self, kind, payload, is_last):
        """The payload of a chunk of this type."""
        if kind == NONE:
            self.need(payload == b"" and is_last, "BadChunk")
        elif kind in (OFFSET_DATA, OFFSET_HOLE):
            self.content(kind, payload)
        elif kind in (ERROR, ERROR_OFFSET) or self.is_wide and kind >= 2**15:
            self.error(kind, payload)
        elif kind == STATUS and self.found.contexts and not self.found.extended:
            self.status(cut_extents(payload))
        elif kind == STATUS_EXT and self.found.contexts and self.found.extended:
            self.status(cut_long_extents(payload))
        else:
            self.need(False, "BadChunk")

    def success(self):
        """A reply without an error chunk ends."""
        of = self.of
        self.need(of.command != READ or of.is_covered(), "IncompleteRead")
        self.need(is_proper(of, self.found), "SuccessOfImproper")
        is_whole = of.told == of.asked(self.found.contexts)
        self.need(of.command != BLOCK_STATUS or of.length == 0 or is_whole, "IncompleteStatus")

    def content(self, kind, payload):
        of = self.of
        self.need(len(payload) >= 9 if kind == OFFSET_DATA else len(payload) == 12, "BadChunk")
        begin = int.from_bytes(payload[:8], "big")
        size = len(payload) - 8 if kind == OFFSET_DATA else int.from_bytes(payload[8:], "big")
        self.need(size > 0, "BadChunk")
        self.need(of.command == READ, "BadContent")
        self.need(of.offset <= begin and begin + size <= of.end, "BadContent")
        self.need(all(end <= begin or begin + size <= other for other, end, _ in of.given), "BadContent")
        self.need(not (of.given and of.flags & DF and is_proper(of, self.found)), "BadContent")
        of.given.append((begin, begin + size, payload[8:] if kind == OFFSET_DATA else None))
        of.shown.append((begin, begin + size, len(self.requests)))

    def error(self, kind, payload):
        text = int.from_bytes(payload[4:6], "big")
        self.need(len(payload) >= (14 if kind == ERROR_OFFSET else 6) + text and payload[:4] != bytes(4), "BadChunk")
        if kind == ERROR_OFFSET:
            self.need(self.of.holds(int.from_bytes(payload[6 + text : 14 + text], "big")), "BadContent")
        self.of.has_failed = True

    def status(self, found):
        """The id and the extents of a chunk; None where it does not have the form."""
        of = self.of
        self.need(found is not None, "BadChunk")
        number, parts = found
        lengths = [length for length, _ in parts]
        self.need(of.command == BLOCK_STATUS, "BadContent")
        self.need(number in of.asked(self.found.contexts) and number not in of.told, "BadContent")
        if of.length:
            self.need(sum(lengths[:-1]) < of.length, "BadContent")
            self.need(not of.flags & REQ_ONE or len(lengths) == 1 and lengths[0] <= of.length, "BadContent")
        of.told.add(number)
        if of.chunks == 0:
            of.first = found

    def end(self):
        """The reply has ended."""
        del self.outstanding[self.of.cookie]
        self.of.has_ended = True
        self.of.shown.append((self.of.offset, self.of.end, len(self.requests)))
        self.of.ended_at = len(self.requests)
        self.answered += 1


def judge(records, profile):
    """Where the bytes of a session are refused, or what they count."""
    found = negotiated.read(records, profile)
    if found.fault or not found.entered:
        return Judged(found.place, found.fault, 0, 0, 0, found, [])
    reader, place, fault = Reader(found, profile == "wide"), None, None
    try:
        at = 0
        for side, data in records:
            reader.take(side, data[max(0, found.behind - at) :])
            at += len(data)
        reader.need(not reader.client.bytes and not reader.server.bytes, "Unfinished")
    except Refused as refused:
        place, fault = refused.place, refused.fault
    return Judged(place, fault, len(reader.requests), reader.answered, reader.improper, found, reader.requests)


def said(told):
    """The line of `check` where the bytes are refused; else the yes, if neither order nor contents say no."""
    if told.fault:
        return f"no at byte {told.place}: {told.fault}\n"
    return f"yes requests {told.requests} answered {told.answered} improper {told.improper}\n"


def line(records, profile):
    return said(judge(records, profile))
