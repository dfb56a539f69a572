"""The packets in a pcapng file, as Wireshark and dumpcap write it: blocks, in sections that have a byte order and interfaces of their
own. Blocks that have no packet, and options, as that for the resolution of the times, are skipped: no time goes into a capture."""

import struct
from collections import namedtuple

from .ending import Refused

# The type of a section's header is the same in both byte orders.
SECTION = b"\n\r\r\n"
HEADER, INTERFACE, OLD_PACKET, SIMPLE_PACKET, PACKET = 0x0A0D0D0A, 1, 2, 3, 6
ORDERS = {b"\x4d\x3c\x2b\x1a": "<", b"\x1a\x2b\x3c\x4d": ">"}
VERSION = 1
# The least and the most bytes of a block; the most that a reader has to expect is not said anywhere.
LEAST, MOST = 12, 1 << 24

Block = namedtuple("Block", "number order kind body")
# The kind of an interface's link, and the most bytes that are taken of a packet there: 0 is no limit.
Interface = namedtuple("Interface", "link limit")


def blocks(file):
    """The blocks of a file whose first four bytes were read."""
    number, order, front = 0, None, SECTION
    while front:
        number += 1
        front += file.read(8 - len(front))
        if front[:4] == SECTION:
            front += file.read(4)
            if len(front) == 12 and front[8:] not in ORDERS:
                raise Refused(f"block {number}: {front[8:].hex()} is no byte order of a section")
            order = ORDERS.get(front[8:])
        if len(front) < 8 or order is None:
            raise Refused(f"the file ends in block {number}")
        kind, length = struct.unpack(order + "II", front[:8])
        if length % 4 or not max(LEAST, len(front) + 4) <= length <= MOST:
            raise Refused(f"block {number} has a length of {length} bytes, which no block has: the file is damaged")
        rest = file.read(length - len(front))
        if len(rest) < length - len(front):
            raise Refused(f"the file ends in block {number}")
        if rest[-4:] != front[4:8]:
            raise Refused(f"block {number}: another length stands at its end than at its beginning: the file is damaged")
        yield Block(number, order, kind, front[8:] + rest[:-4])
        front = file.read(4)


def numbers(block, form):
    """The numbers at the beginning of a block, and what is behind them."""
    size = struct.calcsize(block.order + form)
    if len(block.body) < size:
        raise Refused(f"block {block.number} is too short for its type, {block.kind}: the file is damaged")
    return *struct.unpack(block.order + form, block.body[:size]), block.body[size:]


def packet(frame, block, interfaces):
    """The kind of link of a packet, its bytes, and how many of them were sent."""
    taken = None
    if block.kind == SIMPLE_PACKET:
        at, (sent, data) = 0, numbers(block, "I")
    elif block.kind == OLD_PACKET:
        at, _, _, taken, sent, data = numbers(block, "HHQII")
    else:
        at, _, taken, sent, data = numbers(block, "IQII")
    if at >= len(interfaces):
        raise Refused(f"packet {frame}: no block before it describes the interface {at}")
    link, limit = interfaces[at]
    if taken is None:
        taken = min(sent, limit or sent)
    if taken > len(data):
        raise Refused(f"packet {frame} has a length of {taken} bytes, in a block with {len(data)}: the file is damaged")
    return link, data[:taken], sent


def frames(file):
    """The frames of a file, as a pcap file has them."""
    interfaces, frame = [], 0
    for block in blocks(file):
        if block.kind == HEADER:
            _, major, minor, _, _ = numbers(block, "IHHQ")
            if major != VERSION:
                raise Refused(f"block {block.number}: a section of version {major}.{minor}, which is not known here")
            interfaces = []
        elif block.kind == INTERFACE:
            link, _, limit, _ = numbers(block, "HHI")
            interfaces.append(Interface(link, limit))
        elif block.kind in (PACKET, SIMPLE_PACKET, OLD_PACKET):
            frame += 1
            yield packet(frame, block, interfaces)
