"""The message at which a session was refused, as far as its bytes go."""

import struct
from collections import namedtuple

from .places import SIDES, bytes_of

# The numbers with which replies begin; each has its cookie behind eight bytes.
SIMPLE_REPLY, CHUNK, EXTENDED_CHUNK = 0x67446698, 0x668E33EF, 0x6E8A278C
# Where a message's bytes stand, and the request that it replies to, or 0.
Message = namedtuple("Message", "side first last request")


def replied_to(session, side, data):
    """The number of the outstanding request that a reply's first bytes name."""
    if side != "S" or len(data) < 16 or struct.unpack(">I", data[:4])[0] not in (SIMPLE_REPLY, CHUNK, EXTENDED_CHUNK):
        return 0
    request = session.outstanding.get(struct.unpack(">Q", data[8:16])[0])
    return request.number if request else 0


def message_of(session, side, place, capture):
    """The message of this side that had begun at this place, or None."""
    stream, begin = session.places.streams[side], session.read[side]
    end = stream.before(place)
    if end <= begin:
        return None
    number = 0
    if session.requests:
        with open(capture, "rb") as file:
            number = replied_to(session, side, bytes_of(file, side, begin, min(end, begin + 16)))
    return Message(side, stream.place(begin), stream.place(end - 1), number)


def refused_messages(session, verdict, capture):
    """The messages in question: the one at whose byte the session was refused, or all that have not come to their end."""
    sides = SIDES if verdict.fault == "Unfinished" else (session.places.side_at(verdict.place),)
    found = (message_of(session, side, verdict.place, capture) for side in sides if side is not None)
    return [message for message in found if message is not None]
