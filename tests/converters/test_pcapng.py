"""pcap-to-capture over pcapng: session.pcapng is session.pcap as editcap wrote it, and files made by hand have the other forms and each
refusal. Where editcap is installed, what it makes of session.pcap is read too.
"""

import io
import random
import shutil
import subprocess
import sys
import tempfile
from pathlib import Path

from converters.made_pcapng import CUSTOM, ENHANCED, INTERFACE, NAMES, PACKETS, RAW, SECTION, SIMPLE, Maker, option
from converters.test_conversions import BIN, HERE, SESSION, Conversion, loaded

LITTLE, BIG = Maker("<"), Maker(">")
HALF = len(PACKETS) // 2
WHOLE, FIRST, SECOND = LITTLE.file(), PACKETS[:HALF], PACKETS[HALF:]
RECORDED = (HERE / "session.pcapng").read_bytes()
COMMENT = option("<", 1, b"a packet") + bytes(4)
# The bytes before the first packet, and the first packet's block.
FRONT, BLOCK = LITTLE.front(), LITTLE.enhanced(PACKETS[0])


def joined(make, packets=PACKETS):
    return b"".join(map(make, packets))


def without_head(packet):
    return packet[14:]


TAKEN = {
    "as editcap wrote it": RECORDED,
    "little numbers": WHOLE,
    "big numbers": BIG.file(),
    "simple packets": FRONT + joined(LITTLE.simple),
    "simple packets, big numbers": BIG.front() + joined(BIG.simple),
    "old packets": FRONT + joined(LITTLE.old),
    "old packets, big numbers": BIG.front() + joined(BIG.old),
    "packets with options": FRONT + joined(lambda packet: LITTLE.enhanced(packet, options=COMMENT)),
    "a section with options": LITTLE.section(options=option("<", 4, b"a program") + bytes(4)) + LITTLE.interface() + WHOLE[len(FRONT) :],
    "a limit that no packet reaches": LITTLE.front(limit=65535) + joined(LITTLE.simple),
    "the minor version 2": LITTLE.section(minor=2) + LITTLE.interface() + WHOLE[len(FRONT) :],
    "packets without the head of Ethernet": LITTLE.front(link=RAW) + joined(lambda packet: LITTLE.enhanced(without_head(packet))),
    "two interfaces": LITTLE.front() + LITTLE.interface(link=RAW)
    + joined(LITTLE.enhanced, FIRST) + joined(lambda packet: LITTLE.enhanced(without_head(packet), 1), SECOND),
    "an interface of an unknown link without packets": LITTLE.section() + LITTLE.interface(link=105) + LITTLE.interface()
    + joined(lambda packet: LITTLE.enhanced(packet, 1)),
    "two sections": LITTLE.file(FIRST) + LITTLE.file(SECOND),
    "two sections of two byte orders": LITTLE.file(FIRST) + BIG.file(SECOND),
    "each section has interfaces of its own": LITTLE.file(FIRST) + LITTLE.front(link=RAW)
    + joined(lambda packet: LITTLE.enhanced(without_head(packet)), SECOND),
    "unknown blocks": LITTLE.section() + LITTLE.block(CUSTOM, bytes(8)) + LITTLE.interface() + LITTLE.block(NAMES, bytes(4))
    + joined(lambda packet: LITTLE.enhanced(packet) + LITTLE.block(0x80000001, bytes(4))),
    "a block of 1 MB that is skipped": FRONT + LITTLE.block(CUSTOM, bytes(1 << 20)) + WHOLE[len(FRONT) :],
    **{f"times of the resolution {resolution:#x}": LITTLE.front(resolution=resolution) + WHOLE[len(FRONT) :]
       for resolution in (0, 6, 9, 0x80, 0x89, 0xFF)},
}


def at_end(block, length):
    """A block with another length at its end."""
    return block[:-4] + LITTLE.pack("I", length)


REFUSED = {
    "a section alone": (LITTLE.section(), "no TCP packet"),
    "no packet": (FRONT, "no TCP packet"),
    "an end in a section's header": (LITTLE.section()[:-1], "the file ends in block 1"),
    "an end before a byte order": (LITTLE.section()[:8], "the file ends in block 1"),
    "an end in a byte order": (LITTLE.section()[:11], "the file ends in block 1"),
    "an end in a head": (FRONT + BLOCK[:6], "the file ends in block 3"),
    "an end in a packet": (FRONT + BLOCK[:-1], "the file ends in block 3"),
    "an end in the last packet": (WHOLE[:-3], f"the file ends in block {2 + len(PACKETS)}"),
    "no byte order": (LITTLE.block(SECTION, bytes(16)), "block 1: 00000000 is no byte order of a section"),
    "the second section has no byte order": (WHOLE + LITTLE.block(SECTION, bytes(16)), f"block {3 + len(PACKETS)}: 00000000 is no"),
    "another version": (LITTLE.section(major=2, minor=1), "block 1: a section of version 2.1, which is not known here"),
    "a section that is too short": (LITTLE.block(SECTION, LITTLE.pack("I", 0x1A2B3C4D)), "block 1 is too short for its type"),
    "a length that is too small": (FRONT + LITTLE.pack("II", CUSTOM, 8) + bytes(8), "block 3 has a length of 8 bytes, which no block has"),
    "a length that is no multiple of 4": (FRONT + LITTLE.pack("II", CUSTOM, 13) + bytes(8), "block 3 has a length of 13 bytes"),
    "a length of 4 GB": (FRONT + LITTLE.pack("II", ENHANCED, 2**32 - 4) + bytes(8), "block 3 has a length of 4294967292 bytes"),
    "a length of 0": (FRONT + bytes(64), "block 3 has a length of 0 bytes"),
    "two lengths": (FRONT + at_end(BLOCK, 4), "block 3: another length stands at its end than at its beginning"),
    "an interface that is too short": (LITTLE.section() + LITTLE.block(INTERFACE, bytes(4)), "block 2 is too short for its type, 1"),
    "an enhanced packet that is too short": (FRONT + LITTLE.block(ENHANCED, bytes(16)), "block 3 is too short for its type, 6"),
    "a simple packet that is too short": (FRONT + LITTLE.block(SIMPLE, b""), "block 3 is too short for its type, 3"),
    "a packet longer than its block": (FRONT + LITTLE.enhanced(PACKETS[0], taken=5000, sent=5000),
                                       f"packet 1 has a length of 5000 bytes, in a block with {len(PACKETS[0]) + 2}"),
    "a simple packet longer than its block": (FRONT + LITTLE.simple(PACKETS[0], sent=5000), "packet 1 has a length of 5000 bytes"),
    "an interface that is not described": (WHOLE + LITTLE.enhanced(PACKETS[0], 1),
                                           f"packet {1 + len(PACKETS)}: no block before it describes the interface 1"),
    "a packet before its interface": (LITTLE.section() + BLOCK + LITTLE.interface(), "packet 1: no block before it describes"),
    "a simple packet without an interface": (LITTLE.section() + LITTLE.simple(PACKETS[0]), "packet 1: no block before it describes"),
    "an interface of the section before": (LITTLE.file(FIRST) + LITTLE.section() + joined(LITTLE.enhanced, SECOND),
                                           f"packet {1 + HALF}: no block before it describes the interface 0"),
    "another link": (LITTLE.front(link=105) + BLOCK, "packets of the link type 105, which is not known here"),
    "a cut packet": (FRONT + LITTLE.enhanced(PACKETS[0][:40], sent=74), "packet 1 was cut from 74 to 40 bytes; record with tcpdump -s 0"),
    "a simple packet that its interface cut": (LITTLE.front(limit=40) + LITTLE.simple(PACKETS[0][:40], sent=74),
                                               "packet 1 was cut from 74 to 40 bytes"),
    "a packet that is missing": (FRONT + joined(LITTLE.enhanced, PACKETS[:-8] + PACKETS[-5:]), "are missing"),
    "the same connection twice, on other numbers": (WHOLE + LITTLE.file([PACKETS[0][:41] + b"\xff" + PACKETS[0][42:]])[len(FRONT) :],
                                                    "2 connections"),
}


def damaged(tally):
    """Each byte of a file another one, and bytes at random: a capture, or a refusal with its reason, and nothing else."""
    script, dice = loaded("pcap-to-capture"), random.Random(1)
    changes = [(at, value) for at in range(len(RECORDED)) for value in (RECORDED[at] ^ 1, 255 - RECORDED[at])]
    files = [RECORDED[:at] + bytes([value]) + RECORDED[at + 1 :] for at, value in changes]
    files += [LITTLE.section() + dice.randbytes(dice.randrange(200)) for _ in range(2000)]
    refused = 0
    for file in files:
        try:
            for stream in script.connections(io.BytesIO(file)):
                script.records_of(stream)
        except script.Refused:
            refused += 1
    tally.holds("damaged files", 2000 < refused < len(files), refused)


def made_elsewhere(tally, pcap):
    """What Wireshark's own programs make of the packets."""
    if not shutil.which("editcap"):
        print("pcapng: skipped what needs editcap, which is not installed here")
        return
    for words in ([], ["-a", "1:a packet"], ["-T", "ether", "-t", "3600"]):
        with tempfile.TemporaryDirectory(prefix="nbdcheck-") as folder:
            made = Path(folder, "made")
            subprocess.run(["editcap", "-F", "pcapng", *words, HERE / "session.pcap", made], check=True, timeout=60)
            pcap.takes(tally, f"editcap {words}", made.read_bytes())


def run(tally):
    with tempfile.TemporaryDirectory(prefix="nbdcheck-") as folder:
        pcap = Conversion("pcap-to-capture", folder)
        for name, recording in TAKEN.items():
            pcap.takes(tally, name, recording)
        for name, (recording, reason) in REFUSED.items():
            pcap.refuses(tally, name, recording, reason)
        made_elsewhere(tally, pcap)
        piped = subprocess.run([sys.executable, BIN / pcap.name, "/dev/stdin"], input=RECORDED, capture_output=True, timeout=60)
        tally.want("through a pipe", (piped.returncode, piped.stdout.decode(), piped.stderr), (0, SESSION, b""))
    damaged(tally)
