"""The segments of a TCP connection, put in order: the bytes of each side, and how those of the two sides are mixed.

A byte becomes part of the capture when it is the next of its side, so when all bytes before it have passed the recorder
as well: its receiver cannot have had it earlier, and what the receiver sent because of it passes later. Where packets
stand in the file in another order than the one in which they passed, a segment waits also for what it acknowledges: its
sender had that when it sent the segment. So no reply stands before the request that caused it.
"""

import heapq
from bisect import bisect_right
from collections import deque, namedtuple

from .ending import Refused
from .recordings import CLIENT, SERVER, Record

FIN, SYN, RST, ACK = 1, 2, 4, 16

Segment = namedtuple("Segment", "frame source target number acknowledged flags data")
# What came in order: the place behind it, what its segment acknowledges, and its packet.
Piece = namedtuple("Piece", "end needs frame")


class Side:
    """One direction of a connection. Places count its bytes from 0; its end has a place too, behind the last byte."""

    def __init__(self, name, letter, first):
        self.name, self.letter, self.first = name, letter, first
        # What came in order, and which packet brought the bytes from which place on.
        self.data, self.starts, self.frames = bytearray(), [], []
        self.is_ended = False
        # What came too early, the lowest place first.
        self.early = []
        # What came in order and is no part of the capture yet, and the place behind what is.
        self.waiting, self.placed = deque(), 0
        # The highest place that the other side acknowledged.
        self.acknowledged = 0

    @property
    def next(self):
        return len(self.data) + self.is_ended

    def place(self, number):
        """The place that is nearest to the next one and has this number, of 32 bits."""
        return self.next + (number - self.first - self.next + 2**31) % 2**32 - 2**31

    def take(self, place, frame, data, is_last, needs):
        """Takes a segment, and what came early and is next then."""
        if place < 0:
            place, data = 0, data[-place:]
        if self.is_keep_alive(place, data):
            return
        heapq.heappush(self.early, (place, frame, data, is_last, needs))
        while self.early and self.early[0][0] <= self.next:
            self.join(*heapq.heappop(self.early))

    def is_keep_alive(self, place, data):
        """Whether a segment has the last byte alone, which was acknowledged: its value means nothing."""
        return len(data) == 1 and place == len(self.data) - 1 and place < self.acknowledged

    def join(self, place, frame, data, is_last, needs):
        """Takes a segment that begins with the next byte, or before it."""
        end, before = place + len(data), self.next
        if self.is_ended and end > len(self.data) or is_last and end < len(self.data):
            raise Refused(f"packet {frame}: the {self.name} ended before its byte {max(end, len(self.data))}, which was sent")
        known = self.data[place : place + len(data)]
        if not data.startswith(known):
            self.refuse_others(place, frame, data, known)
        if len(known) < len(data):
            self.starts.append(len(self.data))
            self.frames.append(frame)
            self.data += data[len(known) :]
        self.is_ended = self.is_ended or is_last
        if self.next > before:
            self.waiting.append(Piece(self.next, needs, frame))

    def refuse_others(self, place, frame, data, known):
        """Refuses a segment that has another byte than an earlier one had at its place."""
        at = place + next(at for at, byte in enumerate(known) if byte != data[at])
        first, again = sorted((frame, self.frames[bisect_right(self.starts, at) - 1]))
        raise Refused(f"packet {again}: byte {at + 1} of the {self.name} is another one than in packet {first}")

    def advance(self, place):
        """Places what waits up to this place; the record of it."""
        with memoryview(self.data) as data:
            data = bytes(data[self.placed : place])
        self.placed = place
        while self.waiting and self.waiting[0].end <= place:
            self.waiting.popleft()
        return Record(self.letter, data)

    def ready(self, other):
        """The place up to which nothing waits for the other side."""
        place = self.placed
        for piece in self.waiting:
            if piece.needs > other.placed:
                break
            place = piece.end
        return place

    def is_whole(self):
        return not self.early and self.acknowledged <= self.next


def untied(side, other):
    """The record of a side where both wait for one another.

    Both segments were sent again then, and the recording has not what was sent first: no sender repeats what it knows to
    have been acknowledged. So neither byte was sent because of the other, and the one whose packet came first goes first.
    """
    if side.waiting[0].frame > other.waiting[0].frame:
        side, other = other, side
    return side.advance(min(side.waiting[0].end, other.waiting[0].needs))


def placed(side, other):
    """The records of what can be placed now."""
    while True:
        moved = False
        for one, another in ((side, other), (other, side)):
            place = one.ready(another)
            if place > one.placed:
                moved = True
                yield one.advance(place)
        if not moved and side.waiting and other.waiting:
            yield untied(side, other)
        elif not moved:
            return


def sides_of(stream):
    """The sides of a connection by their addresses, from the numbers with which each begins."""
    opening = stream[0]
    if opening.source == opening.target:
        raise Refused(f"packet {opening.frame}: both ends of the connection are the same")
    if opening.flags & (SYN | ACK) != SYN:
        raise Refused("the recording began after the connection; start tcpdump first")
    firsts = {segment.source: (segment.number + 1) % 2**32 for segment in stream if segment.flags & SYN}
    others = [segment.frame for segment in stream if not segment.flags & SYN]
    if opening.target not in firsts and others:
        raise Refused(f"packet {others[0]}: the connection's first packets are missing")
    client = Side("client", CLIENT, firsts[opening.source])
    return {opening.source: client, opening.target: Side("server", SERVER, firsts.get(opening.target, 0))}


def records_of(stream):
    """The records of a connection."""
    sides = sides_of(stream)
    records = []
    for segment in stream:
        side, other = sides[segment.source], sides[segment.target]
        needs = 0
        if segment.flags & ACK:
            needs = other.place(segment.acknowledged)
            other.acknowledged = max(other.acknowledged, needs)
        # A SYN takes the number before the first byte. What a RST has is no part of the connection's bytes.
        place = side.place(segment.number + bool(segment.flags & SYN))
        data, is_last = b"" if segment.flags & RST else segment.data, bool(segment.flags & FIN)
        if data or is_last:
            side.take(place, segment.frame, data, is_last, needs)
            records += [record for record in placed(side, other) if record.data]
    for side in sides.values():
        if not side.is_whole():
            raise Refused(f"bytes of the {side.name} are missing: packets were dropped; record with tcpdump -B 65536")
    return records
