"""A TCP connection between a client and a server over a way that loses, repeats and reorders, as a recorder on the way sees it.

The client sends requests of random bytes, several before a reply, and the server a greeting and a reply to each. Either's
packets pass the recorder after a random time, and arrive after another one; they are lost before the recorder or behind it.
"""

import heapq
import random
import struct
from collections import namedtuple

FIN, SYN, ACK = 1, 2, 16
# Nothing known to be acknowledged is sent again; what is not is after so long.
PATIENCE = 60
PORTS = {"C": 40000, "S": 10809}
OTHER = {"C": "S", "S": "C"}

# A packet: what its sender had received in order is acknowledged; places count from a side's first byte.
Packet = namedtuple("Packet", "side place data flags acknowledged")
# Where a byte of a side was sent because so many bytes of the other side had been received.
Tie = namedtuple("Tie", "side place received")


class Peer:
    """One end: what it sent, what of it is acknowledged, and what it received."""

    def __init__(self, side):
        self.side, self.sent, self.is_closed = side, bytearray(), False
        self.acknowledged, self.gone = 0, 0
        self.early, self.received, self.end = set(), 0, None

    def last(self):
        """The place behind all that it has to send; its end has one too."""
        return len(self.sent) + self.is_closed

    def hear(self, packet):
        """Takes a packet; whether anything was new."""
        self.acknowledged = max(self.acknowledged, packet.acknowledged)
        end = packet.place + len(packet.data) + bool(packet.flags & FIN)
        self.early.update(range(max(packet.place, self.received), end))
        if packet.flags & FIN:
            self.end = end
        before = self.received
        while self.received in self.early:
            self.early.remove(self.received)
            self.received += 1
        return self.received > before


class Connection:
    """The connection with this seed; `passed` has its packets in the order in which they passed the recorder."""

    def __init__(self, seed):
        self.dice = random.Random(seed)
        self.peers = {"C": Peer("C"), "S": Peer("S")}
        self.begins = {side: self.dice.choice((2**32 - self.dice.randint(1, 400), self.dice.randrange(2**32))) for side in "CS"}
        self.most, self.spread = self.dice.choice((9, 60, 300)), self.dice.choice((1, 8, 40))
        self.lost, self.twice = self.dice.choice((0, 0.05, 0.2)), self.dice.choice((0, 0.2))
        self.requests = [self.dice.randint(1, 200) for _ in range(self.dice.randint(1, 8))]
        self.asked, self.answered, self.window = [], 0, self.dice.randint(1, 3)
        self.time, self.events, self.serial, self.passed, self.ties = 0, [], 0, [], []
        self.run()

    def later(self, act, *what):
        self.serial += 1
        heapq.heappush(self.events, (self.time + self.dice.randint(1, self.spread), self.serial, act, what))

    def send(self, peer, place, end):
        """Sends what lies between two places as a packet; it passes the recorder, and arrives, or is lost."""
        is_last = peer.is_closed and place < end == peer.last()
        data = bytes(peer.sent[place : end - is_last])
        flags = ACK | (FIN if is_last else 0)
        for _ in range(1 + (self.dice.random() < self.twice)):
            if self.dice.random() >= self.lost:
                self.later(self.passes, Packet(peer.side, place, data, flags, peer.received))

    def passes(self, packet):
        self.passed.append(packet)
        if self.dice.random() >= self.lost:
            self.later(self.arrives, packet)

    def arrives(self, packet):
        peer = self.peers[OTHER[packet.side]]
        is_new = peer.hear(packet)
        if is_new:
            self.act(peer)
        if (packet.data or packet.flags & FIN) and (not is_new or self.dice.random() < 0.5):
            self.send(peer, peer.gone, peer.gone)

    def say(self, peer, count, front=b""):
        self.ties.append(Tie(peer.side, len(peer.sent), peer.received))
        peer.sent += front + self.dice.randbytes(count)

    def act(self, peer):
        """What an end does with what it received: the client asks and closes at last, the server replies."""
        if peer.side == "S":
            while self.answered < len(self.asked) and self.asked[self.answered] <= peer.received:
                self.answered += 1
                self.say(peer, self.dice.randint(1, 300))
        elif peer.received:
            while self.requests and len(self.asked) - self.answered < self.window:
                self.say(peer, self.requests.pop())
                self.asked.append(len(peer.sent))
        other = self.peers[OTHER[peer.side]]
        all_said = not self.requests and self.answered == len(self.asked)
        if all_said and (peer.received == other.last() if peer.side == "C" else peer.end == peer.received):
            peer.is_closed = True
        self.flush(peer)

    def flush(self, peer):
        """Sends what was not sent yet, in packets of random sizes."""
        while peer.gone < peer.last():
            end = min(peer.last(), peer.gone + self.dice.randint(1, self.most))
            self.send(peer, peer.gone, end)
            peer.gone = end

    def again(self, peer):
        """Sends once more what is not acknowledged, cut in another way."""
        if peer.acknowledged < peer.gone:
            self.send(peer, peer.acknowledged, min(peer.gone, peer.acknowledged + self.dice.randint(1, self.most)))

    def run(self):
        server = self.peers["S"]
        self.say(server, 10, b"NBDMAGIC")
        self.flush(server)
        while any(peer.acknowledged < peer.last() or not peer.is_closed for peer in self.peers.values()):
            wakes = self.time + PATIENCE
            while self.events and self.events[0][0] <= wakes:
                self.time, _, act, what = heapq.heappop(self.events)
                act(*what)
            self.time = wakes
            for peer in self.peers.values():
                self.again(peer)

    def packets(self):
        """All packets: the opening ones, of which some stand there twice, and what passed."""
        opening = [Packet("C", -1, b"", SYN, None), Packet("S", -1, b"", SYN | ACK, 0), Packet("C", 0, b"", ACK, 0)]
        repeated = [packet for packet in opening for _ in range(self.dice.choice((1, 1, 2)))]
        passed = list(self.passed)
        if self.dice.random() < 0.3:
            passed.insert(self.dice.randint(0, len(passed)), opening[1])
        return repeated + passed

    def shuffled(self, packets):
        """The packets in the order of a recorder that notes some a little later than others."""
        begin = next(at for at, packet in enumerate(packets) if not packet.flags & SYN)
        width = self.dice.randint(2, 12)
        rest = sorted(enumerate(packets[begin:]), key=lambda held: held[0] + self.dice.random() * width)
        return packets[:begin] + [packet for _, packet in rest]

    def pcap(self, packets):
        """A pcap file of these packets."""
        return pcap_of(packets, self.begins)


def pcap_of(packets, begins):
    """A pcap file of packets over raw IP; `begins` has the number with which each side begins."""
    frames = [struct.pack("<IHHiIII", 0xA1B2C3D4, 2, 4, 0, 0, 1 << 18, 101)]
    for at, packet in enumerate(packets):
        number, acknowledged = begins[packet.side] + 1 + packet.place, 0
        if packet.acknowledged is not None:
            acknowledged = begins[OTHER[packet.side]] + 1 + packet.acknowledged
        numbers = PORTS[packet.side], PORTS[OTHER[packet.side]], number % 2**32, acknowledged % 2**32
        tcp = struct.pack(">HHIIBBHHH", *numbers, 0x50, packet.flags, 65535, 0, 0) + packet.data
        ip = struct.pack(">BBHHHBBH", 0x45, 0, 20 + len(tcp), 0, 0, 64, 6, 0) + b"\x7f\0\0\1" * 2
        frames.append(struct.pack("<IIII", 0, at, len(ip + tcp), len(ip + tcp)) + ip + tcp)
    return b"".join(frames)


def in_order(packets):
    """The sides of all bytes, each byte where it and all bytes before it have passed."""
    sides, seen, until = [], {"C": set(), "S": set()}, {"C": 0, "S": 0}
    for packet in packets:
        side = packet.side
        seen[side].update(range(packet.place, packet.place + len(packet.data)))
        while until[side] in seen[side]:
            until[side] += 1
            sides.append(side)
    return "".join(sides)


def broken_ties(ties, sides):
    """The ties that a sequence of sides breaks: a byte stands before one of which it is told that it had been received."""
    before, count = {"C": [], "S": []}, {"C": 0, "S": 0}
    for side in sides:
        before[side].append(count[OTHER[side]])
        count[side] += 1
    return [tie for tie in ties if before[tie.side][tie.place] < tie.received]
