"""The packets of session.pcap, and changes of them."""

import struct

from built import TOP

PCAP = (TOP / "tests/converters/session.pcap").read_bytes()


def frames(pcap):
    """The file's head, and each packet with its head."""
    at, found = 24, []
    while at < len(pcap):
        taken = struct.unpack("<I", pcap[at + 8 : at + 12])[0]
        found.append(pcap[at : at + 16 + taken])
        at += 16 + taken
    return pcap[:24], found


HEAD, FRAMES = frames(PCAP)
# Where a frame's parts stand: 16 bytes of the file, 14 of Ethernet, 20 of IP, and then the ports.
IP, TCP = 30, 50


def has_data(frame):
    return len(frame) > TCP + 4 * (frame[TCP + 12] >> 4)


FIRST_DATA = next(at for at, frame in enumerate(FRAMES) if has_data(frame))
LAST_DATA = max(at for at, frame in enumerate(FRAMES) if has_data(frame))


def pcap_of(packets, head=HEAD):
    return head + b"".join(packets)


def without(at):
    return pcap_of(FRAMES[:at] + FRAMES[at + 1 :])


def of_other_ports():
    """The same connection between other ports."""
    moved = []
    for frame in FRAMES:
        ports = struct.unpack(">HH", frame[TCP : TCP + 4])
        changed = [port if port == 10809 else port - 1 for port in ports]
        moved.append(frame[:TCP] + struct.pack(">HH", *changed) + frame[TCP + 4 :])
    return moved


def numbered_from(start):
    """The same connection, the client's bytes numbered from another number on."""
    client = struct.unpack(">I", FRAMES[0][TCP + 4 : TCP + 8])[0]
    changed = []
    for frame in FRAMES:
        at = TCP + 4 if is_client(frame) else TCP + 8
        number = struct.unpack(">I", frame[at : at + 4])[0]
        if is_client(frame) or frame[TCP + 13] & 16:
            number = (number - client + start) % 2**32
        changed.append(frame[:at] + struct.pack(">I", number) + frame[at + 4 :])
    return pcap_of(changed)


def exchanged():
    """The two packets of the client's GO, each in the other's place."""
    first, second = [at for at, frame in enumerate(FRAMES) if has_data(frame)][4:6]
    changed = list(FRAMES)
    changed[first], changed[second] = FRAMES[second], FRAMES[first]
    return pcap_of(changed)


def cut(frame, count):
    return frame[:8] + struct.pack("<I", len(frame) - 16 - count) + frame[12:-count]


def moved(at, to):
    """The packet at one place, put at another one."""
    others = FRAMES[:at] + FRAMES[at + 1 :]
    return pcap_of(others[:to] + [FRAMES[at]] + others[to:])


def with_again(at, to):
    """The packet at one place, once more at another one."""
    return pcap_of(FRAMES[:to] + [FRAMES[at]] + FRAMES[to:])


def changed(frame, at):
    """A frame of which one byte is another one."""
    at %= len(frame)
    return frame[:at] + bytes([frame[at] ^ 1]) + frame[at + 1 :]


def is_client(frame):
    return frame[TCP : TCP + 2] == FRAMES[0][TCP : TCP + 2]


def keep_alive(frame):
    """A packet with the last byte of this one alone, and that another one."""
    begin = TCP + 4 * (frame[TCP + 12] >> 4)
    skipped = len(frame) - begin - 1
    number = struct.unpack(">I", frame[TCP + 4 : TCP + 8])[0] + skipped
    length = struct.pack(">H", begin - IP + 1)
    size = struct.pack("<II", begin - 16 + 1, begin - 16 + 1)
    front = frame[:8] + size + frame[16 : IP + 2] + length + frame[IP + 4 : TCP + 4]
    return front + struct.pack(">I", number % 2**32) + frame[TCP + 8 : begin] + bytes([frame[-1] ^ 1])


def of_side(side, holds):
    """The places of the client's packets, or the server's, of which this holds."""
    return [at for at, frame in enumerate(FRAMES) if is_client(frame) == side and holds(frame)]


# The packet with the end of a side, True for the client's, and the last one with bytes before it.
ENDS = {side: of_side(side, lambda frame: frame[TCP + 13] & 1)[0] for side in (True, False)}
LASTS = {side: of_side(side, has_data)[-1] for side in (True, False)}


def raw():
    """The same packets without the heads of Ethernet, link type 101."""
    packets = [frame[:8] + struct.pack("<II", len(frame) - 30, len(frame) - 30) + frame[30:] for frame in FRAMES]
    return pcap_of(packets, HEAD[:20] + struct.pack("<I", 101))
