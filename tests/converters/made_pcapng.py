"""pcapng files made of the packets of a pcap file, after the format's description (draft-ietf-opsawg-pcapng)."""

import struct

from converters.changed_packets import FRAMES

SECTION, INTERFACE, OLD, SIMPLE, NAMES, ENHANCED, CUSTOM = 0x0A0D0D0A, 1, 2, 3, 4, 6, 0x0BAD
ETHERNET, RAW = 1, 101
# The bytes of each packet, with the head of Ethernet.
PACKETS = [frame[16:] for frame in FRAMES]


def padded(data):
    return data + bytes(-len(data) % 4)


def option(order, kind, data):
    return struct.pack(order + "HH", kind, len(data)) + padded(data)


class Maker:
    """Blocks in one byte order."""

    def __init__(self, order="<"):
        self.order = order

    def pack(self, form, *numbers):
        return struct.pack(self.order + form, *numbers)

    def block(self, kind, body):
        length = self.pack("I", 12 + len(body))
        return self.pack("I", kind) + length + body + length

    def section(self, major=1, minor=0, options=b""):
        return self.block(SECTION, self.pack("IHHq", 0x1A2B3C4D, major, minor, -1) + options)

    def interface(self, link=ETHERNET, limit=0, resolution=None):
        """An interface, with the resolution of its times as an option: 6 for 10^-6, 0x89 for 2^-9."""
        options = b"" if resolution is None else option(self.order, 9, bytes([resolution])) + bytes(4)
        return self.block(INTERFACE, self.pack("HHI", link, 0, limit) + options)

    def enhanced(self, packet, interface=0, taken=None, sent=None, options=b""):
        taken, sent = len(packet) if taken is None else taken, len(packet) if sent is None else sent
        return self.block(ENHANCED, self.pack("IIIII", interface, 1, 2, taken, sent) + padded(packet) + options)

    def old(self, packet, interface=0):
        numbers = self.pack("HHIIII", interface, 0xFFFF, 1, 2, len(packet), len(packet))
        return self.block(OLD, numbers + padded(packet))

    def simple(self, packet, sent=None):
        return self.block(SIMPLE, self.pack("I", len(packet) if sent is None else sent) + padded(packet))

    def front(self, **how):
        return self.section() + self.interface(**how)

    def file(self, packets=PACKETS):
        """A section with one interface and these packets."""
        return self.front() + b"".join(map(self.enhanced, packets))
