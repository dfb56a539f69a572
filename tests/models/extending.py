"""A session said again with extended headers: its requests and replies say the same in other headers, and each message begins and ends
where it did. So `check` has the same line of both in `wide`, where the session had structured replies.
"""

import struct

from messages import (
    ACK, CLIENT, DISC, DONE, ERROR, EXPORT_NAME, EXTENDED_HEADERS, NONE, OFFSET_DATA, PAYLOAD_LEN, READ, SERVER, STATUS,
    STATUS_EXT, STRUCTURED_REPLY, WRITE, answer, extended_chunk, extended_extents, extended_request, front, option,
)
from models import negotiated, transmitted

SIMPLE_REPLY = bytes.fromhex("67446698")
# The first byte of each message of a side.
FIRST = {CLIENT: b"\x21", SERVER: b"\x6e"}


def can_be_extended(records):
    """Whether a session comes to its transmission without extended headers, and nothing in its bytes is refused in `wide`."""
    told = transmitted.judge(records, "wide")
    return told.fault is None and told.found.entered and not told.found.extended


def says_the_same(records):
    """Whether such a session has the same line with extended headers: structured replies are in force, and no request has the flag that
    says of its length what it is there."""
    told = transmitted.judge(records, "wide")
    return told.found.structured and not any(one.flags & PAYLOAD_LEN for one in told.sent)


class Transmission:
    """The records of a transmission with extended headers."""

    def __init__(self, is_flagged):
        self.records, self.open, self.is_flagged = [], {CLIENT: bytearray(), SERVER: bytearray()}, is_flagged
        # The command, the offset and the length of the last request with a cookie.
        self.asked = {}

    def take(self, side, data):
        for at in range(len(data)):
            message = self.open[side]
            if not message:
                self.records.append((side, FIRST[side]))
            message += data[at : at + 1]
            if len(message) == self.whole(side, message):
                _, said = self.request(bytes(message)) if side == CLIENT else self.reply(bytes(message))
                self.records.append((side, said[1:]))
                message.clear()

    def whole(self, side, message):
        """How many bytes the message has that begins so; None where it is not known yet."""
        size = 28 if side == CLIENT else 16 if message[:4] == SIMPLE_REPLY else 20
        if len(message) < size:
            return None
        if size == 16:
            command, _, length = self.asked[bytes(message[8:16])]
            return size + (length if command == READ and message[4:8] == bytes(4) else 0)
        has_bytes = size == 20 or int.from_bytes(message[6:8], "big") == WRITE
        return size + (int.from_bytes(message[size - 4 : size], "big") if has_bytes else 0)

    def request(self, data):
        flags, command, cookie, offset, length = struct.unpack(">HHQQI", data[4:28])
        if command != DISC:
            self.asked[data[8:16]] = command, offset, length
        if command == WRITE and self.is_flagged:
            flags |= PAYLOAD_LEN
        return extended_request(command, cookie, offset, length, data[28:], flags)

    def reply(self, data):
        command, offset, _ = self.asked[data[8:16]]
        if data[:4] == SIMPLE_REPLY:
            flags, kind, payload = DONE, NONE, b""
            if data[4:8] != bytes(4):
                kind, payload = ERROR, data[4:8] + bytes(2)
            elif data[16:]:
                kind, payload = OFFSET_DATA, offset.to_bytes(8, "big") + data[16:]
        else:
            (flags, kind), payload = struct.unpack(">HH", data[4:8]), data[20:]
            if kind == STATUS:
                kind, payload = STATUS_EXT, extended_extents(int.from_bytes(payload[:4], "big"), *struct.iter_unpack(">II", payload[4:]))
        return extended_chunk(int.from_bytes(data[8:16], "big"), kind, offset, payload, flags)


def messages_of(records):
    """The messages of a negotiation that leads to transmission, each with the number of its option, or None."""
    side_of, data = "".join(side * len(part) for side, part in records), b"".join(part for _, part in records)
    told, at, number = [(None, SERVER, data[:18]), (None, CLIENT, data[18:22])], 22, None
    while at < len(data):
        size = 16 if side_of[at] == CLIENT else 20
        end = at + size + int.from_bytes(data[at + size - 4 : at + size], "big")
        if number == EXPORT_NAME:
            end = len(data)
        else:
            number = int.from_bytes(data[at + 8 : at + 12], "big")
        told.append((number, side_of[at], data[at:end]))
        at = end
    return told


def negotiation(records):
    """The negotiation that asks for extended headers wherever it asked for structured replies; where it did not, before its last option."""
    told = messages_of(records)
    choices = [at for at, (number, side, _) in enumerate(told) if side == CLIENT and number is not None]
    said = [(side, data[:8] + EXTENDED_HEADERS.to_bytes(4, "big") + data[12:] if number == STRUCTURED_REPLY else data)
            for number, side, data in told]
    if not any(number == STRUCTURED_REPLY for number, _, _ in told):
        said[choices[-1] : choices[-1]] = [option(EXTENDED_HEADERS), answer(EXTENDED_HEADERS, ACK)]
    return said


def extended(records, is_flagged=True):
    """The session with extended headers. Its WRITEs have the flag that says that their length is that of a payload, or none has."""
    behind = negotiated.read(records, "wide").behind
    told, at = Transmission(is_flagged), 0
    for side, data in records:
        told.take(side, data[max(0, behind - at) :])
        at += len(data)
    return negotiation(front(records, behind)) + told.records
