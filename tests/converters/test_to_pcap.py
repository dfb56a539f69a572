"""capture-to-pcap: each packet of what it writes, what pcap-to-capture reads of it again, and what tshark says of it."""

import os
import shutil
import struct
import subprocess
import sys
from importlib.machinery import SourceFileLoader
from types import ModuleType

from built import TOP, Ended, Room
from commands.said import fault, hint_of
from messages import begun, longest_runs, read, records_of, simple, text, write

NAME = "capture-to-pcap"
SCRIPT, BACK = str(TOP / "bin" / NAME), str(TOP / "bin/pcap-to-capture")
SESSION = text(begun() + [write(1, 0, b"\xab\xcd"), simple(1), read(2, 0, 4), simple(2, b"\xab\xcd\0\0")])
# A WRITE in one line that no packet holds, and many lines in a row of one side.
LARGE = text(begun() + [write(1, 0, bytes(range(256)) * 1000), *(read(2, 0, at) for at in range(9))])
# The most bytes of a packet beside the heads of IP and TCP.
MOST = 65_495
FIN, SYN, PSH, ACK = 1, 2, 8, 16

# Lines that docs/nbdcheck.1 has under "Capture", and what of them is a capture without remarks and empty lines.
TAKEN = {
    "capital digits": (b"S aBCdEF\n", b"S abcdef\n"),
    "remarks and empty lines": (b"\n# C 00\n#\nS 00\n\n", b"S 00\n"),
    "a line without bytes": (b"C \nS 00\nC \n", b"S 00\n"),
    "nothing": (b"", b""),
    "a remark of 3 MB": (b"#" * 3_000_000 + b"\nS 00\n", b"S 00\n"),
}
REFUSED = {
    "a half byte": (b"S 00\nC 0\n", 2),
    "no line end": (b"S 00\nC 00", 2),
    "no digits and no line end": (b"S 00\nC ", 2),
    "a remark without a line end": (b"S 00\n# 00", 2),
    "two spaces": (b"C  00\n", 1),
    "no space": (b"\n\nC00\n", 3),
    "a side alone": (b"C\n", 1),
    "a small letter": (b"c 00\n", 1),
    "a space between digits": (b"C 00 00\n", 1),
    "a space at the end": (b"C 00 \n", 1),
    "a carriage return": (b"C 00\r\n", 1),
    "a carriage return alone": (b"\r\n", 1),
    "a letter": (b"S 00\nS 0g\n", 2),
    "a digit of another alphabet": ("C ٠٠\n".encode(), 1),
    "a space before the side": (b" C 00\n", 1),
    "an odd digit behind a packet": (b"C " + b"0" * (2 * MOST + 1) + b"\n", 1),
    "no line end behind a packet": (b"C " + b"0" * (2 * MOST), 1),
    "a bad line behind many": (b"S 00\n" * 100_000 + b"S\n", 100_001),
}


def run_script(*words, script=SCRIPT, stdout=subprocess.PIPE, before=(), **how):
    command = [*before, sys.executable, script, *map(str, words)]
    done = subprocess.run(command, stdout=stdout, stderr=subprocess.PIPE, timeout=60, **how)
    return Ended(done.returncode, done.stdout, done.stderr)


def frames(pcap):
    """The packets of a pcap file of big numbers: their seconds, microseconds and bytes."""
    at = 24
    while at < len(pcap):
        seconds, micros, taken, sent = struct.unpack(">IIII", pcap[at : at + 16])
        assert taken == sent
        yield seconds, micros, pcap[at + 16 : at + 16 + taken]
        at += 16 + taken


def is_summed(data):
    """Whether the sum of the 16-bit numbers, with what is carried, has all bits (RFC 1071)."""
    total = sum(struct.unpack(f">{(len(data) + 1) // 2}H", data + bytes(len(data) % 2)))
    while total >> 16:
        total = (total & 0xFFFF) + (total >> 16)
    return total == 0xFFFF


def segment(frame):
    """The side, numbers, flags and bytes of a packet whose heads are right, or what is wrong."""
    ip, tcp = frame[14:34], frame[34:]
    ports = struct.unpack(">HH", tcp[:4])
    pseudo = ip[12:20] + struct.pack(">HH", 6, len(tcp))
    is_right = (frame[12:14], ip[0], ip[9], struct.unpack(">H", ip[2:4])[0]) == (b"\x08\0", 0x45, 6, 20 + len(tcp))
    sums = is_summed(ip), is_summed(pseudo + tcp), ip[10:12] != b"\xff\xff", tcp[16:18] != b"\xff\xff"
    if not is_right or not all(sums) or 10809 not in ports:
        return ports, is_right, sums
    number, acknowledged = struct.unpack(">II", tcp[4:12])
    return "C" if ports[1] == 10809 else "S", number, acknowledged, tcp[13], tcp[4 * (tcp[12] >> 4) :]


def wanted_of(records):
    """What the packets of these records have to be, with the numbers from 0 on."""
    cut = [(side, data[at : at + MOST]) for side, data in records for at in range(0, len(data), MOST)]
    told = [("C", SYN, b""), ("S", SYN | ACK, b""), ("C", ACK, b"")]
    row = 0
    for at, (side, data) in enumerate(cut):
        told.append((side, PSH | ACK, data))
        row = row + 1 if at and cut[at - 1][0] == side else 1
        if row % 2 == 0:
            told.append(("S" if side == "C" else "C", ACK, b""))
    told += [("C", FIN | ACK, b""), ("S", FIN | ACK, b""), ("C", ACK, b"")]
    count, wanted = {"C": 0, "S": 0}, []
    for side, flags, data in told:
        other = count["S" if side == "C" else "C"]
        wanted.append((side, count[side], other if flags & ACK else 0, flags, data))
        count[side] += len(data) + bool(flags & (SYN | FIN))
    return wanted


def packets(tally, room):
    """Each packet: its heads, numbers, checksums and time."""
    for name, capture in (("a session", SESSION), ("large lines", LARGE), ("nothing", b"")):
        found = run_script(room.put("capture", capture))
        tally.want(f"{name}, status", (found.status, found.err), (0, b""))
        tally.want(f"{name}, head", found.out[:24], struct.pack(">IHHiIII", 0xA1B2C3D4, 2, 4, 0, 0, 1 << 18, 1))
        told = list(frames(found.out))
        tally.want(f"{name}, packets", [segment(frame) for _, _, frame in told], wanted_of(records_of(capture)))
        tally.want(f"{name}, times", [(seconds, micros) for seconds, micros, _ in told], [(0, at) for at in range(len(told))])


def sums(tally):
    """A checksum that is 0, and numbers and a time that pass the ends of their fields."""
    script = ModuleType(NAME)
    SourceFileLoader(NAME, SCRIPT).exec_module(script)
    found = [script.checksum(data) for data in (b"", b"\xff\xff", b"\x12\x34\xed\xcb", b"\x01")]
    tally.want("checksums", found, [0, 0, 0, 0xFEFF])
    for byte in range(0x10000):
        frame = script.Connection().packet("C", ACK, struct.pack(">H", byte))[16:]
        if frame[50:52] == b"\0\0":
            tally.want("a checksum of 0", segment(frame)[0], "C")
            break
    connection = script.Connection()
    connection.ends["C"][0].next, connection.count = 2**32 - 2, 2_999_999
    told = b"".join(connection.packet(side, ACK, data) for side, data in (("C", b"abc"), ("S", b""), ("C", b"d")))
    told = list(frames(bytes(24) + told))
    numbers = [segment(frame)[1:3] for _, _, frame in told]
    tally.want("numbers that pass 2^32", numbers, [(2**32 - 2, 0), (0, 1), (1, 0)])
    tally.want("times that pass a second", [(seconds, micros) for seconds, micros, _ in told], [(2, 999_999), (3, 0), (3, 1)])


def back(tally, room):
    """The sessions of examples/, and a large line, as pcap-to-capture reads them again."""
    captures = {path.name: path.read_bytes() for path in sorted((TOP / "examples").glob("*.cap")) if not path.is_symlink()}
    for name, capture in {**captures, "large lines": LARGE}.items():
        made = run_script(room.put("capture", capture))
        tally.want(f"{name} to pcap", (made.status, made.err), (0, b""))
        found = run_script(room.put("pcap", made.out), script=BACK)
        tally.want(f"{name} and back", (found.status, found.err), (0, b""))
        tally.want(f"{name} and back, bytes", longest_runs(records_of(found.out)), longest_runs(records_of(capture)))


def lines(tally, room):
    """Lines that are taken, and that are refused by their number as nbdcheck refuses them."""
    for name, (capture, plain) in TAKEN.items():
        wanted = run_script(room.put("plain", plain))
        found = run_script(room.put("capture", capture))
        tally.want(name, found, wanted)
        tally.want(f"{name}: status", (found.status, found.err), (0, b""))
        judged = room.show(capture)
        tally.want(f"{name}: nbdcheck", judged, room.show(plain))
        tally.want(f"{name}: nbdcheck takes it", (judged.status in (0, 1), judged.err), (True, hint_of(capture)))
    for name, (capture, number) in REFUSED.items():
        found = run_script(room.put("capture", capture))
        tally.want(name, (found.status, found.out), (3, b""))
        is_line = found.err.startswith(f"{NAME}: line {number}: ".encode()) and found.err.count(b"\n") == 1
        tally.holds(f"{name}: says where", is_line and found.err.endswith(b"\n"), found.err)
        tally.want(f"{name}: nbdcheck", room.show(capture), fault(f"capture line {number}"))


def outputs(tally, capture):
    """An output that is full, closed, or that nobody reads."""
    reads, writes = os.pipe()
    os.close(reads)
    for output, before, reason in (
        (os.open("/dev/full", os.O_WRONLY), [], "No space left on device"),
        (writes, [], "Broken pipe"),
        (os.open(os.devnull, os.O_WRONLY), ["sh", "-c", 'exec "$@" >&-', "sh"], "Bad file descriptor"),
    ):
        for asked, told in ((capture, "what was written is no whole pcap file"), ("--help", "the help is not whole")):
            wanted = Ended(3, None, f"{NAME}: standard output: {reason}; {told}\n".encode())
            tally.want(f"{asked}: {reason}", run_script(asked, stdout=output, before=before), wanted)
        os.close(output)


def words(tally, room):
    """Help, malformed words, inputs that cannot be read and outputs that cannot be written, a pipe, and little memory."""
    found = run_script("--help")
    tally.want("--help", (found.status, found.err), (0, b""))
    for part in (b"usage: capture-to-pcap ", b"\n    capture-to-pcap session.cap > ", b"exit status:\n  0  ",
                 b"\n  4  out of memory\n"):
        tally.holds(f"--help has {part}", part in found.out, found.out)
    for asked in ([], ["a", "b"], ["--start", "zero", "a"]):
        found = run_script(*asked)
        tally.want(f"{asked}", (found.status, found.out), (2, b""))
        tally.holds(f"{asked}: usage", found.err.startswith(b"usage: capture-to-pcap "), found.err)
    for path, reason in ((room.path("none"), "No such file or directory"), (room.folder, "Is a directory")):
        tally.want(f"{path}", run_script(path), Ended(3, b"", f"{NAME}: {path}: {reason}\n".encode()))
    capture = room.put("capture", SESSION)
    outputs(tally, capture)
    whole = run_script(capture)
    tally.want("through a pipe", run_script("/dev/stdin", input=SESSION), whole)
    tally.want("a bad line through a pipe", run_script("/dev/stdin", input=SESSION + b"C"),
               Ended(3, b"", f"{NAME}: line 10: neither C nor S and a space, nor a remark, nor empty\n".encode()))
    long = room.put("long", text(begun() + [write(1, 0, bytes(1 << 25))]))
    found = run_script(long, before=["sh", "-c", 'ulimit -v 40000; exec "$@"', "sh"])
    tally.want("a line of 64 MiB in 40 MB", (found.status, found.err, len(found.out) > 1 << 25), (0, b"", True))


def followed(pcap):
    """The bytes of the two sides, as tshark follows them."""
    words = ["tshark", "-r", pcap, "-q", "-z", "follow,tcp,raw,0"]
    told = subprocess.run(words, capture_output=True, text=True, check=True, timeout=60).stdout
    told = [line for line in told.split("Node 1: ")[1].splitlines()[1:] if line and not line.startswith("=")]
    return [("S" if line.startswith("\t") else "C", bytes.fromhex(line.strip())) for line in told]


def shown(pcap, pick):
    """The packets that tshark picks, with the checksums looked at."""
    words = ["tshark", "-r", pcap, "-o", "tcp.check_checksum:TRUE", "-o", "ip.check_checksum:TRUE", "-Y", pick]
    return subprocess.run(words, capture_output=True, text=True, check=True, timeout=60).stdout.splitlines()


def wireshark(tally, room):
    """What tshark says: no packet that is malformed or out of turn, no bad checksum, the same bytes, and NBD's messages."""
    if not shutil.which("tshark"):
        print("to_pcap: skipped what needs tshark, which is not installed here")
        return
    for name, capture in (("a session", SESSION), ("large lines", LARGE)):
        made = run_script(room.put("capture", capture))
        pcap = room.put("pcap", made.out)
        wrong = shown(pcap, "_ws.malformed || tcp.analysis.flags || _ws.expert.severity > 0x400000")
        tally.want(f"tshark: {name}, malformed", wrong, [])
        good = shown(pcap, 'tcp.checksum.status == "Good" && ip.checksum.status == "Good"')
        tally.want(f"tshark: {name}, right checksums", len(good), len(list(frames(made.out))))
        tally.want(f"tshark: {name}, bytes", longest_runs(followed(pcap)), longest_runs(records_of(capture)))
    pcap = room.put("pcap", run_script(room.put("capture", SESSION)).out)
    told = [line.split(" NBD ")[1].split(" ", 1)[1] for line in shown(pcap, "nbd")]
    tally.want("tshark: messages", told, ["Write Request  Offset:0x0 Length:2", "Write Response  Error:0",
                                          "Read Request  Offset:0x0 Length:4", "Read Response  Error:0"])


def run(tally):
    sums(tally)
    with Room() as room:
        for part in (packets, back, lines, words, wireshark):
            part(tally, room)
