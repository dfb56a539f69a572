"""The conversions of recordings: session.socat and session.pcap are one session as socat and as tcpdump
recorded it, and each refusal is a change of these.

Connections whose packets were lost, repeated and reordered are made by simulated_tcp.py, which knows what was sent.
"""

import io
import os
import struct
import subprocess
import sys
import tempfile
import time
from importlib.machinery import SourceFileLoader
from pathlib import Path
from types import ModuleType

from built import TOP
from converters import simulated_tcp
from converters.changed_packets import (
    ENDS, FIRST_DATA, FRAMES, HEAD, LASTS, LAST_DATA, PCAP, TCP, changed, cut, exchanged, has_data, keep_alive, moved,
    numbered_from, of_other_ports, pcap_of, raw, with_again, without,
)
from messages import (
    DONE, answer, client_flags, content, export_info, greeting, longest_runs, option, read, records_of, simple, text, write,
)

BIN, HERE = TOP / "bin", TOP / "tests/converters"
SOCAT = (HERE / "session.socat").read_text()

# The session, told by its messages: GO asks for one info, and comes in two pieces.
GO = option(7, bytes(4) + struct.pack(">HH", 1, 3))
SESSION = text([
    greeting(), client_flags(), option(8), answer(8, 1), (GO[0], GO[1][:-2]), (GO[0], GO[1][-2:]),
    answer(7, 3, export_info(flags=0x0DED)), answer(7, 1), write(1, 0, b"hello"), simple(1), read(2, 0, 5),
    content(2, 0, b"hello", DONE),
]).decode()

LOG = "2026/11/23 10:29:25.000249 socat[4711] N listening on LEN=16 AF=2 127.0.0.1:10810\n"


def swapped():
    """The recording of a socat whose connecting address stands first."""
    return SOCAT.translate(str.maketrans("<>", "><"))


LINES = SOCAT.splitlines(keepends=True)

SOCAT_TAKEN = {
    "as recorded": SOCAT,
    "with lines of its log": LOG + SOCAT.replace("> 2026", LOG + "> 2026", 3),
}

# What the reason has to name.
SOCAT_REFUSED = {
    "nothing": ("", "never connected"),
    "its log alone": (LOG, "never connected"),
    "no greeting": ("".join(LINES[2:6]), "the server sent nothing"),
    "another server's bytes": (SOCAT.replace(" 4e 42 44", " 48 54 54", 1), "began with 485454"),
    "the sides exchanged": (swapped(), "listening address"),
    "a block without its bytes": ("".join(LINES[:3] + LINES[4:]), "line 4: not hexadecimal"),
    "a block that is missing": ("".join(LINES[:2] + LINES[4:]), "line 4: byte 4 where 0 is next"),
    "a block that is short": (SOCAT.replace(" 00 00 00 03\n", " 00 00 00\n", 1), "line 4: 3 bytes where 4"),
    "an end in a block": ("".join(LINES[:-1]), "ends in a block"),
    "recorded with -v": (SOCAT.replace(" 00 00 00 03\n", "....\n", 1), "without -v"),
    "two connections": (SOCAT + SOCAT, "a second connection"),
    "another text": ("GET / HTTP/1.1\n", "no line of socat"),
    "a length of 4,300 digits": (LINES[0].replace("length=", "length=" + "1" * 4300) + LINES[1], "line 1: no line of socat"),
    "a place of 5,000 digits": (LINES[0].replace("from=", "from=" + "1" * 5000) + LINES[1], "line 1: no line of socat"),
}

PCAP_TAKEN = {
    "as recorded": PCAP,
    "each packet twice": pcap_of([frame for frame in FRAMES for _ in range(2)]),
    "sent again at the end": pcap_of(FRAMES + [frame for frame in FRAMES if has_data(frame)]),
    "without the heads of Ethernet": raw(),
    "numbers that pass 2^32": numbered_from(2**32 - 30),
    "numbers that begin at 0": numbered_from(0),
    "numbers of which the first is the last": numbered_from(2**32 - 1),
    "the client's end before its last bytes": moved(ENDS[True], LASTS[True]),
    "the server's end before its last bytes": moved(ENDS[False], LASTS[False]),
    "each end twice": pcap_of(FRAMES + [FRAMES[at] for at in ENDS.values()]),
    "a reply noted before its request": moved(LASTS[False], LASTS[True]),
    "a keep-alive of the client": pcap_of(FRAMES + [keep_alive(FRAMES[LASTS[True]])]),
    "a keep-alive of the server": pcap_of(FRAMES + [keep_alive(FRAMES[LASTS[False]])]),
    "the first packet twice": with_again(0, 1),
    "the second packet twice": with_again(1, 2),
    "the second packet again behind the greeting": with_again(1, FIRST_DATA + 1),
    "the first two packets again at the end": pcap_of(FRAMES + FRAMES[:2]),
}

PCAP_REFUSED = {
    "no packet": (HEAD, "never connected"),
    "no pcap file": (b"S 00\n", "no pcap file"),
    "an empty file": (b"", "no pcap file"),
    "without the first packet": (without(0), "began after the connection"),
    "without the second packet": (without(1), "first packets are missing"),
    "a connection without bytes": (pcap_of(FRAMES[:3]), "never connected"),
    "a cut packet": (pcap_of(FRAMES[:-1] + [cut(FRAMES[-1], 4)]), "was cut from"),
    "a file that was cut off": (PCAP[:-3], "the file ends in packet 23"),
    "a head that was cut off": (PCAP + bytes(5), "the file ends in packet 24"),
    "two connections": (pcap_of(FRAMES + of_other_ports()), "2 connections"),
    "a second opening": (pcap_of(FRAMES + [changed(FRAMES[0], TCP + 7)]), "2 connections"),
    "a second answer to the opening": (pcap_of(FRAMES + [changed(FRAMES[1], TCP + 7)]), "2 connections"),
    "other bytes sent again": (pcap_of(FRAMES + [changed(FRAMES[FIRST_DATA], -1)]),
                               f"packet 24: byte 18 of the server is another one than in packet {FIRST_DATA + 1}"),
    "another last byte, with one before it": (pcap_of(FRAMES + [changed(FRAMES[LASTS[True]], -1)]),
                                              "of the client is another one than"),
    "an end before bytes that came": (pcap_of(FRAMES + [changed(FRAMES[FIRST_DATA], TCP + 13)]),
                                      "the server ended before its byte"),
    "bytes behind an end": (pcap_of(FRAMES[:FIRST_DATA] + [changed(FRAMES[FIRST_DATA], TCP + 13)] + FRAMES[FIRST_DATA + 1 :]),
                            "the server ended before its byte"),
    "a packet whose length lies": (PCAP + bytes(8) + b"\xff" * 8, "packet 24 has a length of 4294967295 bytes"),
    "a TCP head of no length": (pcap_of([FRAMES[0][: TCP + 12] + b"\0" + FRAMES[0][TCP + 13 :]]),
                                "packet 1: its TCP head has 0 bytes"),
    "another link": (pcap_of(FRAMES, HEAD[:20] + struct.pack("<I", 105)), "link type 105"),
}


class Conversion:
    """A script, and its runs on files in a folder."""

    def __init__(self, name, folder):
        self.name, self.path = name, Path(folder) / name

    def run(self, recording, *words, limit=None, stdout=subprocess.PIPE):
        """A run over a recording; `limit` is the memory that it may take, in KiB."""
        self.path.write_bytes(recording)
        command = [sys.executable, str(BIN / self.name), *words, str(self.path)]
        if limit is not None:
            command = ["sh", "-c", f'ulimit -v {limit}; exec "$@"', "sh", *command]
        done = subprocess.run(command, stdout=stdout, stderr=subprocess.PIPE, text=True, timeout=60)
        return done.returncode, done.stdout, done.stderr

    def takes(self, tally, name, recording, *words):
        tally.want(f"{self.name}: {name}", self.run(recording, *words), (0, SESSION, ""))

    def refuses(self, tally, name, recording, reason, *words):
        status, out, err = self.run(recording, *words)
        tally.want(f"{self.name}: {name}", (status, out), (1, ""))
        tally.holds(f"{self.name}: {name}: says why", err.startswith(f"{self.name}: ") and reason in err, err)


def words(tally):
    for name in ("socat-to-capture", "pcap-to-capture"):
        command = [sys.executable, str(BIN / name)]
        helped = subprocess.run([*command, "--help"], capture_output=True, text=True, timeout=60)
        tally.want(f"{name} --help", (helped.returncode, helped.stderr), (0, ""))
        for part in (f"    {name} session.", "exit status:", "  3  ", "  4  out of memory\n"):
            tally.holds(f"{name} --help has {part}", part in helped.stdout, helped.stdout)
        wrong = subprocess.run([*command, "a", "b"], capture_output=True, text=True, timeout=60)
        tally.want(f"{name} of two files", (wrong.returncode, wrong.stdout), (2, ""))
        tally.holds(f"{name} of two files: usage", wrong.stderr.startswith(f"usage: {name} "), wrong.stderr)
        for path, reason in (("/nonexistent/file", "No such file or directory"), ("/tmp", "Is a directory")):
            missing = subprocess.run([*command, path], capture_output=True, text=True, timeout=60)
            found = missing.returncode, missing.stdout, missing.stderr
            tally.want(f"{name} of {path}", found, (3, "", f"{name}: {path}: {reason}\n"))


def closed_pipe():
    """A pipe to write to that nobody reads."""
    reads, writes = os.pipe()
    os.close(reads)
    return writes


def outputs(tally, name, path):
    """An output that is full, closed, or that nobody reads."""
    command = [sys.executable, str(BIN / name)]
    for asked, told in ((path, "what was written is no whole capture"), ("--help", "the help is not whole")):
        for before, output, reason in (
            ([], os.open("/dev/full", os.O_WRONLY), "No space left on device"),
            ([], closed_pipe(), "Broken pipe"),
            (["sh", "-c", 'exec "$@" >&-', "sh"], os.open(os.devnull, os.O_WRONLY), "Bad file descriptor"),
        ):
            done = subprocess.run([*before, *command, asked], stdout=output, stderr=subprocess.PIPE, text=True, timeout=60)
            os.close(output)
            wanted = (3, f"{name}: standard output: {reason}; {told}\n")
            tally.want(f"{name} {asked}: {reason}", (done.returncode, done.stderr), wanted)


def memory(tally, socat, pcap):
    """Recordings of more bytes than there is memory."""
    size = 1 << 25
    block = f"> 2026/11/23 10:29:25.000249  length={size} from=0 to={size - 1}\n"
    packet = simulated_tcp.Packet("S", 0, bytes(60_000), 16, 0)
    many = simulated_tcp.pcap_of([packet._replace(place=at * 60_000) for at in range(600)], {"C": 0, "S": 0})
    for script, recording in ((socat, block.encode() + b" 00" * size + b"\n"), (pcap, many)):
        wanted = (4, "", f"{script.name}: out of memory; what was written is no whole capture\n")
        tally.want(f"{script.name} in 40 MB", script.run(recording, limit=40_000), wanted)


def loaded(name):
    """A script as a module, for runs in this process."""
    script, places = ModuleType(name), list(sys.path)
    script.__file__ = str(BIN / name)
    SourceFileLoader(name, str(BIN / name)).exec_module(script)
    sys.path[:] = places
    return script


def judged(script, connection, packets):
    """What is wrong with the conversion of a connection's packets, and the sides of its bytes."""
    (stream,) = script.connections(io.BytesIO(connection.pcap(packets)))
    try:
        records = script.records_of(stream)
    except script.Refused as reason:
        return str(reason), ""
    sides = "".join(side * len(data) for side, data in records)
    for side, peer in connection.peers.items():
        if b"".join(data for one, data in records if one == side) != peer.sent:
            return f"bytes of {side}", sides
    return simulated_tcp.broken_ties(connection.ties, sides), sides


def generated(tally):
    """Connections whose packets were lost, repeated and reordered, also in the file; and files that miss one of their packets."""
    script = loaded("pcap-to-capture")
    for seed in range(200):
        connection = simulated_tcp.Connection(seed)
        packets = connection.packets()
        wanted = [], simulated_tcp.in_order(packets)
        tally.want(f"connection {seed}", judged(script, connection, packets), wanted)
        tally.want(f"connection {seed}, shuffled", judged(script, connection, connection.shuffled(packets))[0], [])
        del packets[connection.dice.randrange(4, len(packets))]
        wrong = judged(script, connection, packets)[0]
        tally.holds(f"connection {seed}, without a packet", not wrong or "are missing: packets were dropped" in wrong, wrong)


def crossed(tally, pcap):
    """A request and a reply that were under way together, and of which the file has only what was sent again, each acknowledging
    the other: neither can be wanted before the other."""
    hello = simulated_tcp.Packet("S", 0, b"NBDMAGICIHAVEOPT\0\3", 16, 0)
    opening = [hello._replace(side="C", place=-1, data=b"", flags=2, acknowledged=None),
               hello._replace(place=-1, data=b"", flags=18)]
    flags = simulated_tcp.Packet("C", 0, b"\0\0\0\3", 16, 18)
    asked, told = flags._replace(place=4, data=b"asked", acknowledged=22), hello._replace(place=18, data=b"told", acknowledged=9)
    lines = [f"S {hello.data.hex()}\n", "C 00000003\n", f"C {asked.data.hex()}\n", f"S {told.data.hex()}\n"]
    backward = lines[:2] + lines[:1:-1]
    for name, packets, wanted in (("the client's first", [asked, told], lines), ("the server's first", [told, asked], backward)):
        found = pcap.run(simulated_tcp.pcap_of([*opening, hello, flags, *packets], {"C": 7, "S": 8}))
        tally.want(f"crossed, {name}", found, (0, "".join(wanted), ""))


def at_size(tally, pcap):
    """A packet that is late by 20,000 others, each of which is acknowledged."""
    front = simulated_tcp.Packet("S", 0, b"NBDMAGIC", 16, 0)
    packets = [front._replace(place=-1, data=b"", flags=18), front]
    for at in range(20_000):
        packets += [front._replace(place=9 + at, data=b"x"), front._replace(side="C", data=b"", acknowledged=8)]
    opening = front._replace(side="C", place=-1, data=b"", flags=2, acknowledged=None)
    packets = [opening, *packets, front._replace(place=8, data=b"y")]
    begun = time.monotonic()
    found = pcap.run(simulated_tcp.pcap_of(packets, {"C": 7, "S": 2**32 - 9}))
    tally.want("a gap of 20,000 packets", found, (0, f"S {b'NBDMAGIC'.hex()}\nS 79{'78' * 20_000}\n", ""))
    tally.holds("a gap of 20,000 packets, seconds", time.monotonic() - begun < 20, time.monotonic() - begun)


def run(tally):
    words(tally)
    with tempfile.TemporaryDirectory(prefix="nbdcheck-") as folder:
        socat, pcap = Conversion("socat-to-capture", folder), Conversion("pcap-to-capture", folder)
        for name, recording in SOCAT_TAKEN.items():
            socat.takes(tally, name, recording.encode())
        for name, (recording, reason) in SOCAT_REFUSED.items():
            socat.refuses(tally, name, recording.encode(), reason)
        for name, recording in PCAP_TAKEN.items():
            pcap.takes(tally, name, recording)
        for name, (recording, reason) in PCAP_REFUSED.items():
            pcap.refuses(tally, name, recording, reason)
        for at in range(FIRST_DATA, LAST_DATA + 1):
            if has_data(FRAMES[at]):
                pcap.refuses(tally, f"without packet {at + 1}", without(at), "are missing")
        status, out, err = pcap.run(exchanged())
        tally.want("two packets exchanged", (status, err), (0, ""))
        tally.want("two packets exchanged: bytes", longest_runs(records_of(out.encode())),
                   longest_runs(records_of(SESSION.encode())))
        both = pcap_of(FRAMES + of_other_ports())
        for stream in ("0", "1"):
            pcap.takes(tally, f"stream {stream} of two", both, "--stream", stream)
            pcap.takes(tally, f"stream {stream} of two on the same ports", PCAP + numbered_from(5)[24:], "--stream", stream)
        pcap.refuses(tally, "stream 2 of two", both, "no connection 2: there are 2", "--stream", "2")
        outputs(tally, socat.name, HERE / "session.socat")
        outputs(tally, pcap.name, HERE / "session.pcap")
        memory(tally, socat, pcap)
        crossed(tally, pcap)
        at_size(tally, pcap)
    generated(tally)
