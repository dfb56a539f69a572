"""The packets in a file of pcap or pcapng: their numbers, and their bytes behind the head of their link."""

import struct

from . import pcapng
from .ending import Refused

# The bytes before the IP packet, by the kind of link.
LINKS = {0: 4, 1: 14, 12: 0, 14: 0, 101: 0, 108: 4, 113: 16, 228: 0, 229: 0, 276: 20}
ETHERNET, VLANS = 1, (0x8100, 0x88A8)
ORDERS = {b"\xd4\xc3\xb2\xa1": "<", b"\x4d\x3c\xb2\xa1": "<", b"\xa1\xb2\xc3\xd4": ">", b"\xa1\xb2\x3c\x4d": ">"}
# The most bytes that tcpdump takes of a packet.
LONGEST = 1 << 18


def of_pcap(file, front):
    """The frames of a pcap file with these first bytes: the kind of link, the bytes, and how many of them were sent."""
    head = front + file.read(24 - len(front))
    if len(head) < 24 or front not in ORDERS:
        raise Refused("no pcap file, as tcpdump -w writes it, and no pcapng file")
    order, frame = ORDERS[front], 0
    link = struct.unpack(order + "I", head[20:])[0] & 0xFFFF
    while record := file.read(16):
        frame += 1
        if len(record) < 16:
            raise Refused(f"the file ends in packet {frame}")
        taken, sent = struct.unpack(order + "II", record[8:])
        if taken > LONGEST:
            raise Refused(f"packet {frame} has a length of {taken} bytes, which no packet has: the file is damaged")
        data = file.read(taken)
        if len(data) < taken:
            raise Refused(f"the file ends in packet {frame}")
        yield link, data, sent


def frames(file):
    front = file.read(4)
    return pcapng.frames(file) if front == pcapng.SECTION else of_pcap(file, front)


def packets(file):
    """The packets of a file, from 1 on, without the head of their link."""
    for frame, (link, data, sent) in enumerate(frames(file), 1):
        if link not in LINKS:
            raise Refused(f"packets of the link type {link}, which is not known here")
        if len(data) < sent:
            raise Refused(f"packet {frame} was cut from {sent} to {len(data)} bytes; record with tcpdump -s 0")
        skipped = LINKS[link]
        while link == ETHERNET and int.from_bytes(data[skipped - 2 : skipped], "big") in VLANS:
            skipped += 4
        yield frame, data[skipped:]
