"""Small sessions at random, for test_search.py.

In those of SHAPES nothing comes in between the messages of a reply. In those by chunk READs are answered in pieces, and the other side
speaks between these and within each message.
"""

import struct
from collections import namedtuple
from itertools import pairwise

from cases.sizes import ASKED
from messages import (
    BLOCK_STATUS, CHUNKS, CLIENT, DONE, ERROR, GO, NONE, OFFSET_DATA, READ, REQ_ONE, SERVER, STATUS, TRIM, WRITE, WRITE_ZEROES,
    ack, begun, chunk, content, cut, done, export, extents, failed, go, granted, hole, request, simple, sizes, write,
)

# How many requests, on how many bytes, how many of them outstanding, how many different bytes; in a hundred: how many steps of a
# service serve one byte alone, how many changes and statuses fail, requests get no reply, READs and statuses get a wrong byte, and
# how many requests ask for a status; the least block size, which is the largest too, or 0 where none is in force; and in a hundred how
# many requests have no byte, and how many changes pass the export's end, which then fail.
Shape = namedtuple("Shape", "requests size window letters torn failures unanswered wrong statuses block empty past",
                   defaults=[0])
SMALL = Shape(8, 4, 5, 3, 30, 10, 10, 10, 0, 0, 0)
SHAPES = {
    "small sessions": SMALL,
    "sessions of one byte": SMALL._replace(requests=10, size=1),
    "sessions of a right server": SMALL._replace(requests=10, size=3, window=9, letters=2, wrong=0),
    "sessions with statuses": SMALL._replace(statuses=10),
    "sessions of statuses": SMALL._replace(requests=10, size=3, statuses=33, wrong=20),
    "sessions of statuses of a right server": SMALL._replace(requests=10, size=3, window=9, letters=2, wrong=0, statuses=33),
    "sessions with requests outside of the block sizes": SMALL._replace(block=2),
    "sessions with statuses outside of the block sizes": SMALL._replace(statuses=20, block=2),
}
# Of the sessions by chunk, which have 2 to 5 requests; in a hundred: how many requests are served when it may be too late, how many
# sessions are without structured replies, and how many READs are of all bytes.
BY_CHUNK = SMALL._replace(requests=5, letters=4, torn=70, failures=5, unanswered=5, statuses=10, empty=5)
LATE, SIMPLY, ALL = 50, 15, 60
# How many in a hundred of the bytes that are zero a status does not call so, and how many statuses are cut short, have a last extent
# that passes the range, or are asked for one extent.
UNTOLD, SHORT, LONG, ONE = 20, 10, 30, 10
# By how many bytes a change passes the export's end at most: so many more are held.
PAST = 2
ZERO = 2


class Asked:
    """A request: from its number on it can be served, and surely before the one whose number is `before`, if there is one; by chunk at
    each offset before the one that `due` has for it. `zeroes` are the places of the bytes that a status calls zero."""

    def __init__(self, number, command, offset, data, fails=False, before=None, zeroes=()):
        self.number, self.command, self.offset, self.data, self.fails = number, command, offset, bytearray(data), fails
        self.length, self.before, self.zeroes = len(data), before, set(zeroes)
        self.served, self.is_mute, self.flags, self.due = 0, False, 0, None
        self.reads = command in (READ, BLOCK_STATUS)

    def message(self):
        if self.command == WRITE:
            return write(self.number, self.offset, bytes(self.data))
        return request(self.command, self.number, self.offset, self.length, flags=self.flags)

    def is_outside(self, block):
        """Whether it breaks block sizes of which the least and the largest are this; under structured replies that bounds no READ."""
        is_long = self.command == WRITE and self.length > block
        return is_long or self.offset % block != 0 or self.length % block != 0

    def places(self):
        """The offsets at which it is served; None of one without a byte."""
        return range(self.offset, self.offset + self.length) or (None,)

    def due_at(self, offset):
        """The number of the request before which it is surely served at an offset, if there is one."""
        return self.before if self.due is None else self.due.get(offset)

    def act_at(self, offset):
        """What it does to a byte: whether it reads it, and the byte, None of one that is not known; None where it does nothing. A byte
        that a status calls zero is read as one."""
        place = offset - self.offset
        if not 0 <= place < self.length or self.reads and (self.before is None or self.fails):
            return None
        if self.command == BLOCK_STATUS:
            return (True, 0) if place in self.zeroes else None
        if self.command == READ:
            return True, self.data[place]
        if self.before is None or self.fails or self.command == TRIM:
            return False, None
        return False, self.data[place]


def drawn(dice, number, shape):
    """A request at random."""
    command = dice.choice([TRIM, WRITE_ZEROES] + [WRITE] * 4 + [READ] * 4)
    if shape.statuses and dice.randrange(100) < shape.statuses:
        command = BLOCK_STATUS
    offset = dice.randrange(shape.size)
    length = dice.randint(1, shape.size - offset)
    if shape.empty and command != BLOCK_STATUS and dice.randrange(100) < shape.empty:
        length = 0
    is_past = shape.past and command not in (READ, BLOCK_STATUS) and dice.randrange(100) < shape.past
    if is_past:
        length = shape.size - offset + dice.randint(1, PAST)
    data = [dice.randrange(shape.letters) if command == WRITE else 0 for _ in range(length)]
    one = Asked(number, command, offset, data, command != READ and dice.randrange(100) < shape.failures)
    one.fails |= bool(is_past)
    one.is_mute = dice.randrange(100) < shape.unanswered
    if command == BLOCK_STATUS and dice.randrange(100) < ONE:
        one.flags = REQ_ONE
    return one


def negotiation(shape):
    """The records up to transmission."""
    told = [ASKED, sizes(shape.block, 512, shape.block), export(size=shape.size), ack(GO)] if shape.block else go(size=shape.size)
    return CHUNKS + (granted() if shape.statuses else []) + told


def session(dice, shape, held, log=None):
    """The records of a session, and its requests, from a server that serves them in parts: `log` takes what it serves,
    the number of a request with an offset and a length."""
    records, asked, under_way = negotiation(shape), [], []
    for _ in range(40 * shape.requests):
        if len(asked) < shape.requests and len(under_way) < shape.window and dice.randrange(100) < 40:
            one = drawn(dice, len(asked) + 1, shape)
            asked.append(one)
            under_way.append(one)
            records.append(one.message())
        elif under_way:
            one = dice.choice(under_way)
            if one.served < one.length:
                serve(dice, shape, held, one, log)
            else:
                under_way.remove(one)
                if not one.is_mute:
                    records += reply(dice, shape, one, len(asked))
    return records, asked


def serve(dice, shape, held, one, log=None):
    count = 1 if dice.randrange(100) < shape.torn else one.length
    places = range(one.served, min(one.served + count, one.length))
    if log is not None:
        log.append((one.number, one.offset + one.served, len(places)))
    for index in places:
        serve_at(dice, shape, held, one, one.offset + index)
        one.served += 1


def serve_at(dice, shape, held, one, at):
    if one.reads:
        one.data[at - one.offset] = held[at]
    elif one.command == TRIM or one.fails:
        held[at] = dice.randrange(shape.letters)
    else:
        held[at] = one.data[at - one.offset]


def reply(dice, shape, one, came):
    one.before = came + 1
    if one.command == BLOCK_STATUS:
        return told(dice, shape, one)
    if one.command != READ:
        return [simple(one.number, error=5 if one.fails else 0)]
    if dice.randrange(100) < shape.wrong:
        one.data[dice.randrange(one.length)] = dice.randrange(shape.letters)
    half = dice.randrange(one.length)
    pieces = [(one.offset, one.data[:half]), (one.offset + half, one.data[half:])]
    return [content(one.number, offset, bytes(data)) for offset, data in pieces if data] + [done(one.number)]


def told(dice, shape, one):
    """The reply to a BLOCK_STATUS; it may fail behind its extents."""
    parts = parts_told(dice, shape, one)
    if one.fails:
        return [*([extents(one.number, 1, *parts)] * dice.randrange(2)), failed(one.number)]
    return [extents(one.number, 1, *parts, flags=DONE)] if dice.randrange(2) else [extents(one.number, 1, *parts), done(one.number)]


def parts_told(dice, shape, one):
    """The extents that a BLOCK_STATUS is told, which call zero most of the bytes that were zero when it was served."""
    one.zeroes = {place for place in range(one.length) if one.data[place] == 0 and dice.randrange(100) >= UNTOLD}
    if dice.randrange(100) < shape.wrong:
        one.zeroes.add(dice.randrange(one.length))
    parts = []
    for place in range(one.length):
        flags = ZERO * (place in one.zeroes) + dice.randrange(2)
        if parts and parts[-1][1] == flags:
            parts[-1] = parts[-1][0] + 1, flags
        else:
            parts.append((1, flags))
    if one.flags or dice.randrange(100) < SHORT:
        parts = parts[:1]
        one.zeroes = {place for place in one.zeroes if place < parts[0][0]}
    elif dice.randrange(100) < LONG:
        parts[-1] = parts[-1][0] + dice.randrange(1, 9), parts[-1][1]
    return parts


# A message of a session by chunk: the request that it asks or answers, what it is, the offsets of its piece, whether it ends the reply.
Message = namedtuple("Message", "of kind piece is_last")
ASKS, SIMPLE = "asks", "simple"


def session_by_chunk(dice, shape, held, log=None):
    """The records of a session, and its requests; `log` as above, but None is the place of a request without a byte."""
    is_simple = dice.randrange(100) < SIMPLY
    count = max(dice.randint(2, shape.requests), dice.randint(2, shape.requests))
    shape = shape._replace(size=len(held), statuses=0 if is_simple else shape.statuses)
    asked = [drawn_by_chunk(dice, number, shape) for number in range(1, count + 1)]
    halves = woven(dice, asked, [reply_by_chunk(dice, shape, one, is_simple) for one in asked])
    for number, at in moments(dice, shape, asked):
        if log is not None:
            log.append((number, at, 1))
        if at is not None:
            serve_at(dice, shape, held, asked[number - 1], at)
    for one in asked:
        if one.command == READ and one.length and dice.randrange(100) < shape.wrong:
            one.data[dice.randrange(one.length)] = dice.randrange(shape.letters)
    cuts = {message: halved(dice, message_by_chunk(dice, shape, message)) for message, is_rest in halves if not is_rest}
    begin = begun(size=shape.size) if is_simple else negotiation(shape)
    return begin + [cuts[message][is_rest] for message, is_rest in halves], asked


def drawn_by_chunk(dice, number, shape):
    """A request at random, but that many READs are of all bytes."""
    one = drawn(dice, number, shape)
    if one.command == READ and dice.randrange(100) < ALL:
        one.offset, one.length, one.data = 0, shape.size, bytearray(shape.size)
    return one


def reply_by_chunk(dice, shape, one, is_simple):
    """The messages of a reply, in their order; of one without an end the first."""
    parts, end, one.due = [], one.offset + one.length, {}
    if one.command == READ:
        one.fails = dice.randrange(100) < shape.failures
        bounds = {one.offset, end, *(at for at in range(one.offset + 1, end) if dice.randrange(2))}
        parts = [(OFFSET_DATA, range(*ends)) for ends in pairwise(sorted(bounds))]
        dice.shuffle(parts)
    elif one.command == BLOCK_STATUS:
        parts = [(STATUS, ())]
    if one.fails:
        at = dice.randint(0, len(parts))
        parts[at : dice.randint(at, len(parts))] = [(ERROR, ())]
    if not parts or dice.randrange(2):
        parts.append((NONE, ()))
    if is_simple or not one.reads and dice.randrange(2):
        parts = [(SIMPLE, ())]
    messages = [Message(one, kind, piece, at == len(parts)) for at, (kind, piece) in enumerate(parts, 1)]
    if one.is_mute:
        one.fails |= one.reads
        del messages[dice.randrange(len(messages)) :]
    return messages


def woven(dice, asked, replies):
    """The halves of all messages, each with whether it is the rest, in an order at random; notes when each offset is due."""
    requests, sending, came, halves = [Message(one, ASKS, (), False) for one in asked], {}, 0, []
    while any([requests, sending, *replies]):
        side = dice.choice((CLIENT, SERVER))
        left = [messages for messages in ([requests] if side == CLIENT else replies[:came]) if messages]
        is_rest = side in sending
        if is_rest:
            message = sending.pop(side)
        elif left:
            message = sending[side] = dice.choice(left).pop(0)
        else:
            continue
        halves.append((message, is_rest))
        if side == CLIENT:
            came += is_rest
        elif is_rest == (message.of.command == READ):
            note(message, came)
    return halves


def note(message, came):
    """What a message makes due: of a READ, when it is whole, what it shows; of another request all, when it begins."""
    one = message.of
    one.before = one.before or came + 1
    for at in one.places() if message.is_last or one.command != READ else message.piece:
        one.due.setdefault(at, came + 1)


def moments(dice, shape, asked):
    """The numbers of requests with the offsets at which they are served, one after the other at random: mostly before they are due."""
    found = []
    for one in asked:
        is_late, share = dice.randrange(100) < LATE, dice.random()
        for at in one.places():
            due = one.due_at(at)
            if due is not None or dice.randrange(2):
                share = dice.random() if dice.randrange(100) < shape.torn else share
                end = len(asked) + 1 if is_late or due is None else due
                found.append((one.number + share * (end - one.number), one.number, at))
    return [(number, at) for _, number, at in sorted(found)]


def message_by_chunk(dice, shape, message):
    one, flags = message.of, DONE if message.is_last else 0
    if message.kind == ASKS:
        return one.message()
    if message.kind == SIMPLE:
        return simple(one.number, bytes(one.data) if one.command == READ and not one.fails else b"", 5 if one.fails else 0)
    if message.kind == STATUS:
        return extents(one.number, 1, *parts_told(dice, shape, one), flags=flags)
    if message.kind != OFFSET_DATA:
        return chunk(one.number, message.kind, struct.pack(">IH", 5, 0) if message.kind == ERROR else b"", flags)
    first, size = message.piece[0], len(message.piece)
    data = bytes(one.data[first - one.offset :][:size])
    if data == bytes(size) and dice.randrange(2):
        return hole(one.number, first, size, flags)
    return content(one.number, first, data, flags)


def halved(dice, message):
    return cut(message, dice.randrange(1, len(message[1])))
