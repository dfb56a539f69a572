"""Messages with extended headers: each request, and each chunk, has a header of 32 bytes. What the sessions with them share: how they begin,
and what is told of them.
"""

import struct
from collections import namedtuple

from cases.case import at, followed, upto
from cases.contexts import LAST, LENGTH
from messages import (
    ALLOCATION, BLOCK_STATUS, DEPTH, DONE, ERROR, EXTENDED_HEADERS, FLAGS, GO, NONE, OFFSET_DATA, OFFSET_HOLE, PAYLOAD_LEN, READ,
    STATUS_EXT, TRIM, WRITE, ack, allocation, asking, context, export, extended_chunk, extended_extents, extended_request, go,
    granted, option, setting, sizes,
)

# The longest length, the longest length of 32 bits, and the size of the largest export.
MOST, SHORT, LARGEST = LAST, LENGTH, 2**63 - 1
# What the other cases offer, and beside it payloads behind BLOCK_STATUS.
OFFERED, OFFERED_PAYLOAD = 0x6D, 0x106D
ABCD = b"\xab\xcd"

# A chunk with an extended header; the offset in it is that of the request with its cookie, unless another is given.
Reply = namedtuple("Reply", "cookie kind data flags offset")
REQUEST = bytes.fromhex("21e41c71")


def spoken(messages):
    """The records of these messages."""
    records, offsets = [], {}
    for one in messages:
        if isinstance(one, Reply):
            offset = offsets.get(one.cookie, 0) if one.offset is None else one.offset
            one = extended_chunk(one.cookie, one.kind, offset, one.data, one.flags)
        elif one[1][:4] == REQUEST:
            cookie, offset = struct.unpack(">QQ", one[1][8:24])
            offsets[cookie] = offset
        records.append(one)
    return records


def asked(command, cookie, offset, length, flags=0):
    """A request with an extended header, and nothing behind it."""
    return extended_request(command, cookie, offset, length, flags=flags)


def reads(cookie, offset, length):
    return asked(READ, cookie, offset, length)


def carries(command, cookie, offset, data, flags=0):
    """A request whose length is that of its payload, as its flag says."""
    return extended_request(command, cookie, offset, len(data), data, PAYLOAD_LEN | flags)


def writes(cookie, offset, data):
    return carries(WRITE, cookie, offset, data)


def writes_plainly(cookie, offset, data):
    """A WRITE without the flag."""
    return extended_request(WRITE, cookie, offset, len(data), data)


def asks(cookie, offset, length, flags=0):
    """A BLOCK_STATUS that asks for each context."""
    return asked(BLOCK_STATUS, cookie, offset, length, flags)


def filters(cookie, offset, length, *ids, flags=0):
    """A BLOCK_STATUS that asks for the contexts with these ids."""
    return carries(BLOCK_STATUS, cookie, offset, struct.pack(f">Q{len(ids)}I", length, *ids), flags)


def gives(cookie, offset, data, of=None, flags=0):
    """Bytes in answer to a READ."""
    return Reply(cookie, OFFSET_DATA, offset.to_bytes(8, "big") + data, flags, of)


def gives_last(cookie, offset, data, of=None):
    return gives(cookie, offset, data, of, DONE)


def zeroes(cookie, offset, size, flags=0):
    """A hole in answer to a READ."""
    return Reply(cookie, OFFSET_HOLE, struct.pack(">QI", offset, size), flags, None)


def zeroes_last(cookie, offset, size):
    return zeroes(cookie, offset, size, DONE)


def ends(cookie, of=None, flags=DONE):
    """A chunk without content."""
    return Reply(cookie, NONE, b"", flags, of)


def fails(cookie, of=None):
    """An error that ends its reply."""
    return Reply(cookie, ERROR, struct.pack(">IH", 22, 0), DONE, of)


def tells(cookie, number, *parts, flags=0, **how):
    """Extents of the context with this id."""
    return Reply(cookie, STATUS_EXT, extended_extents(number, *parts, **how), flags, None)


def tells_last(cookie, number, *parts, **how):
    return tells(cookie, number, *parts, flags=DONE, **how)


EXTENDED = [option(EXTENDED_HEADERS), ack(EXTENDED_HEADERS)]
BOTH_SELECTED = [setting(ALLOCATION, DEPTH), allocation(1), context(2, DEPTH), ack()]
# Extended headers are in force. 132 bytes; 234 with base:allocation, which has the id 1; 304 with a second context, which has the id 2.
BEGUN = FLAGS + EXTENDED + go()
ONE_CONTEXT = FLAGS + EXTENDED + granted() + go(flags=OFFERED_PAYLOAD)
TWO_CONTEXTS = FLAGS + EXTENDED + BOTH_SELECTED + go(flags=OFFERED_PAYLOAD)
LARGE = FLAGS + EXTENDED + go(size=LARGEST)
LARGE_CONTEXT = FLAGS + EXTENDED + granted() + go(size=LARGEST, flags=OFFERED_PAYLOAD)
# 73 bytes.
ONE_READ = [reads(1, 0, 1), gives_last(1, 0, b"\0")]


def talk(name, begin, messages, wide, count=1, start="zero", base=58, entries=None):
    """A session whose `count` requests are served as they came, unless there are entries; in `base` the answer to EXTENDED_HEADERS is
    refused at its header."""
    served = upto(count) if entries is None else entries
    return followed(f"extended headers: {name}", begin + spoken(messages), at(base), wide, served, start)


def alike(name, records, line, count=1):
    """A session without extended headers, which is the same in both profiles."""
    return followed(f"extended headers: {name}", spoken(records), line, line, upto(count))


def wrong(request, offset, word="content"):
    return f"no {word} request {request} offset {offset}\n"


def left(requests):
    return f"yes requests {requests} answered 0 improper 0\n"


def begun(name, messages, wide, count=1, **how):
    """Behind BEGUN."""
    return talk(name, BEGUN, messages, wide, count, **how)


WRITTEN, PLAINLY = writes(1, 0, ABCD), writes_plainly(1, 0, ABCD)
TRIM_CARRIES = carries(TRIM, 1, 0, ABCD)
FIRST, SECOND, NONE_ASKED = filters(1, 0, 8, 1), filters(1, 0, 8, 2), filters(1, 0, 8)
BOTH, TWICE, UNKNOWN, ONE_UNKNOWN = (filters(1, 0, 8, *ids) for ids in ((2, 1), (1, 1), (3,), (1, 3)))
WHOLE_FIRST = tells_last(1, 1, (8, 0))
IN_SIZES = FLAGS + EXTENDED + granted() + [asking(3), sizes(8, 512, 512), export(flags=OFFERED_PAYLOAD), ack(GO)]
NOT_OFFERED = FLAGS + EXTENDED + BOTH_SELECTED + go(flags=OFFERED)


def head_of(cookie, length, of=0):
    """The header of a chunk with bytes."""
    return extended_chunk(cookie, OFFSET_DATA, of, length=length)
