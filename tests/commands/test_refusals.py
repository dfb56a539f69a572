"""Each growth of memory refused in turn, and each read and each write failing once, in the built program.

refuse.c is loaded into the program and refuses or fails one thing. How many ranges contents have where memory is refused, which
no output tells, is asked by a test of the library, which is run in the same way.
"""

import itertools
import os
import re
import subprocess
import tempfile
from pathlib import Path

from built import TOP, Ended, Room
from cases.statuses import MIXED, MIXED_ORDER
from explain.orderless import ORDERLESS
from messages import begun, read, simple, text
from sessions.test_cuts import SESSIONS

# The most refusals that are tried of one run: a run that meets no refusal comes before.
MOST = 100_000
# The test of contents, and the program that has it.
LIBRARY = "tests::ranges::split_and_join"
LIBRARY_TESTS = TOP / "crates/nbdcheck_first/out/nbdcheck_first_tests"

# What each command writes where nothing is refused; other tests have it word for word.
WRITES = {
    "check": rb"yes requests \d+ answered \d+ improper 0\n",
    "explain": rb"(yes|no content) [^\n]*\n([^\n]+\n)*",
    "order": rb"(\d+\n)+",
    "contents": rb"size \d+\n((zero|unknown|data) [^\n]+\n)+|agrees known \d+ unknown \d+\n",
    "show": rb"([CS] [^\n]+\n)+ok\n",
    "lint": rb"((should|hint) at byte [^\n]+\n)+lint must 0 should \d+ hint \d+\n|(\{[^\n]+\}\n)+",
    "make": rb"([CS] ([0-9a-f]{2})+\n)+",
}

# Runs in which the pieces of a READ are sorted.
SORTED = ("check chunks", "check over an image", "explain over an image", "check over a text", "contents chunks",
          "contents against a file")

# Runs in which payloads come into more room than they need, and how many: they are cut down to it.
CUT = {"check statuses": 2, "lint statuses": 2}


class Refusing(Room):
    """Runs of the program in which one thing is refused."""

    def __enter__(self):
        # Files in memory may not be loaded into a program everywhere.
        self.made = tempfile.TemporaryDirectory(prefix="nbdcheck-")
        self.library = f"{self.made.name}/refuse.so"
        source = str(TOP / "tests/commands/refuse.c")
        subprocess.run(["cc", "-O2", "-shared", "-fPIC", "-o", self.library, source], check=True)
        return self

    def __exit__(self, *fault):
        self.made.cleanup()
        super().__exit__(*fault)

    def refused(self, words, what, **how):
        """The answer of a run in which this is refused, and whether anything was."""
        mark = Path(self.path("mark"))
        mark.unlink(missing_ok=True)
        env = {"LD_PRELOAD": self.library, "REFUSE": what, "REFUSE_MARK": str(mark)}
        found = self.run(*words, env=env, **how)
        return found, mark.exists()

    def each(self, words, what, **how):
        """The answers where the first, second, .. is refused, and at last that of a run without a refusal."""
        for number in range(1, MOST):
            found, is_refused = self.refused(words, f"{what} {number}", **how)
            yield number, found, is_refused
            if not is_refused:
                return


def sample():
    """A recorded session with structured replies."""
    return (TOP / "examples/nbdkit-memory-libnbd-sr.cap").read_bytes()


def runs(room):
    """Runs of each command: a name, its words, its answer, and how much of its output are whole lines of messages."""
    chunks, again = SESSIONS[2], SESSIONS[4]
    order = (TOP / "examples/nbdkit-memory-libnbd-sr.ord").read_bytes()
    captures = (("chunks", text(chunks.records), chunks.order), ("a cookie used again", text(again.records), again.order),
                ("a recorded session", sample(), order))
    for name, capture, numbers in captures:
        paths = [room.put(f"{name}.cap", capture), room.put(f"{name}.ord", numbers)]
        words = ["check", *paths, "--start", "zero"]
        yield f"check {name}", words, room.run(*words), 0
    image = room.put("zeroes", bytes(8))
    words = ["check", room.path("chunks.cap"), room.path("chunks.ord"), "--start", f"image:{image}"]
    yield "check over an image", words, room.run(*words), 0
    mixed = [room.put("statuses.cap", text(MIXED)), room.put("statuses.ord", MIXED_ORDER.encode())]
    words = ["check", *mixed, "--start", "zero", "--profile", "wide"]
    yield "check statuses", words, room.run(*words), 0
    for name, capture in (("a negotiation", text(begun())), ("a recorded session", sample())):
        words = ["show", room.put(f"{name}.cap", capture)]
        shown = room.run(*words)
        yield f"show {name}", words, shown, len(shown.out.removesuffix(b"ok\n"))
    captures = [room.path(f"{name}.cap") for name in ("chunks", "a recorded session")]
    for capture in captures:
        for words in (["show", "--names", capture], ["order", "--arrival", capture]):
            told = room.run(*words)
            # All numbers are there before one is written.
            yield " ".join(words), words, told, 0 if words[0] == "order" else len(told.out.removesuffix(b"ok\n"))
    for name, words in (("a recorded session", ["lint", captures[1], "--level", "hint"]),
                        ("statuses", ["lint", room.path("statuses.cap"), "--level", "hint", "--json"])):
        # All lines are there before one is written.
        yield f"lint {name}", words, room.run(*words), 0
    misread = room.put("misread.cap", (TOP / "examples/write-read-wrong-byte.cap").read_bytes())
    words = ["explain", misread, room.put("misread.ord", b"1\n2\n"), "--start", "zero"]
    yield "explain a wrong byte", words, room.run(*words), 0
    words = ["explain", room.path("chunks.cap"), room.path("chunks.ord"), "--start", f"image:{image}"]
    yield "explain over an image", words, room.run(*words), 0
    chunks, held = room.path("chunks.cap"), "contents:" + room.put("held", b"size 8\nzero 0 8\n")
    written = room.put("written", bytes(4) + b"\x0a\x0b\x0c\x0d")
    for name, words in (
        ("check over a text", ["check", chunks, room.path("chunks.ord"), "--start", held]),
        ("contents chunks", ["contents", chunks, room.path("chunks.ord"), "--start", "zero"]),
        ("contents without an order", ["contents", chunks, "--start", held]),
        ("contents against a file",
         ["contents", chunks, room.path("chunks.ord"), "--start", held, "--against", written]),
    ):
        # All is known before a line is written.
        yield name, words, room.run(*words), 0
    for name, session in (("a wrong byte", "no-source-overwritten"), ("parts", "found-in-parts")):
        words = ["explain", room.put(f"{session}.cap", text(ORDERLESS[session].records)), "--start", "zero"]
        yield f"explain {name} without an order", words, room.run(*words), 0
    scripts = (("two messages", b"S greeting flags=3\nC client-flags flags=3\n"), ("a recorded session", shown.out))
    for name, script in scripts:
        words = ["make", room.put(f"{name}.script", script)]
        made = room.run(*words)
        yield f"make {name}", words, made, len(made.out)


def inputs(words):
    """What a run reads, one after the other."""
    if words[0] == "make":
        return ["script"]
    start, against = words[words.index("--start") + 1] if "--start" in words else "", "--against" in words
    files = sum(os.path.isfile(word) for word in words[1:]) - against
    return ["capture", "order"][:files] + ([start.partition(":")[0]] if ":" in start else []) + ["against"] * against


def is_prefix(found, whole):
    return whole.startswith(found)


def looks_again(whole):
    """Whether a capture is looked at once more behind the answer, which is a no: its sides may be exchanged. That may fail."""
    return whole.status == 1


def growths(tally, room, name, words, whole, most):
    hinted = 0
    for number, found, is_refused in room.each(words, "alloc"):
        told = f"{name}, growth {number}"
        if not is_refused:
            tally.want(told, found, whole)
            tally.holds(f"{name} grows", number > 1, number)
        elif found == whole:
            hinted += 1
        else:
            tally.want(told, (found.status, found.err), (4, b"fault memory\n"))
            tally.holds(told, is_prefix(found.out, whole.out[:most]), found.out[-80:])
    # The standard library makes room for the words of the command line by a hint, and where that is refused without it; so does
    # its sort, where a READ has several pieces. A payload that is not cut down keeps its room. Behind a no the capture is looked at
    # once more, with three growths. No other refusal is without a consequence.
    wanted = 1 + (name in SORTED) + CUT.get(name, 0) + 3 * looks_again(whole)
    tally.want(f"{name}, growths without a consequence", hinted, wanted)


def reads(tally, room, name, words, whole):
    wanted = [f"fault {what} read\n".encode() for what in inputs(words)]
    for what in ("read", "read-again"):
        told, behind = [], 0
        for number, found, is_refused in room.each(words, what):
            if is_refused and found == whole:
                behind += 1
            elif is_refused:
                tally.want(f"{name}, {what} {number}", (found.status, found.out), (3, b""))
                told.append(found.err)
            else:
                tally.want(f"{name}, {what} {number}", found, whole)
        # The inputs are read one after the other.
        tally.want(f"{name}, {what}", [fault for fault, _ in itertools.groupby(told)], wanted)
        tally.want(f"{name}, {what} behind the answer", behind, 1 if looks_again(whole) else 0)
    found, _ = room.refused(words, "bytes 1")
    tally.want(f"{name}, a byte at a time", found, whole)


def writes(tally, room, name, words, whole):
    for what in ("write", "write-again", "write-none"):
        for number, found, is_refused in room.each(words, what):
            if is_refused:
                tally.want(f"{name}, {what} {number}", (found.status, found.err), (3, b"fault write\n"))
                tally.holds(f"{name}, {what} {number}", is_prefix(found.out, whole.out), found.out[-80:])
                tally.holds(f"{name}, {what} {number}, not all", found.out != whole.out, len(found.out))
            else:
                tally.want(f"{name}, {what} {number}", found, whole)
    size = len(whole.out)
    # A long output is cut off at some of its bytes.
    rooms = range(size) if size < 1024 else range(0, size, size // 256)
    for count in rooms:
        found, _ = room.refused(words, f"room {count}")
        tally.want(f"{name}, room for {count}", found, Ended(3, whole.out[:count], b"fault write\n"))
    found, is_refused = room.refused(words, f"room {size}")
    tally.want(f"{name}, room for all", (found, is_refused), (whole, False))


def library(tally, room):
    """The library's test, with each growth refused in turn."""
    if not LIBRARY_TESTS.exists():
        tally.holds(f"{LIBRARY_TESTS} was built: `rt ci` at the top does, or `rt test` in its crate", False)
        return
    refused = 0
    for number, found, is_refused in room.each([LIBRARY], "alloc", program=str(LIBRARY_TESTS)):
        tally.holds(f"{LIBRARY}, growth {number}", found.status == 0 and b"test result: ok" in found.out, found)
        refused += is_refused
    tally.holds(f"{LIBRARY} grows", refused > 0, refused)


def silent_lines(tally, room):
    """Remarks and empty lines take no memory, however long they are."""
    order, capture = room.put("order", b"1\n"), text([*begun(), read(1, 0, 1), simple(1, b"\0")])
    remarked = capture.replace(b"\n", b"\n\n#" + b"x" * 10_000 + b"\n#\n")
    counts = []
    for name, data in (("plain", capture), ("remarked", remarked)):
        words = ["check", room.put(f"{name}.cap", data), order, "--start", "zero"]
        counts.append(sum(1 for _ in room.each(words, "alloc")))
    tally.want("growths of a capture with remarks", counts[1], counts[0])


def run(tally):
    with Refusing() as room:
        for name, words, whole, most in runs(room):
            tally.want(name, (whole.status, whole.err), (int("wrong" in name), b""))
            tally.holds(f"{name}, output", re.fullmatch(WRITES[words[0]], whole.out), whole.out[-80:])
            growths(tally, room, name, words, whole, most)
            reads(tally, room, name, words, whole)
            writes(tally, room, name, words, whole)
        for words, status, out, err in (
            (["--help"], 0, b"Usage: nbdcheck ", b""),
            (["check", "--help"], 0, b"Usage: nbdcheck check ", b""),
            (["check"], 2, b"", b"error: "),
            (["check", "capture", "order", "--start", "none"], 2, b"", b"fault start\n"),
        ):
            name, whole = " ".join(words), room.run(*words)
            tally.want(name, (whole.status, whole.err[: len(err)]), (status, err))
            tally.holds(f"{name}, output", out in whole.out if out else whole.out == b"", whole)
            tally.holds(f"{name}, nothing else", status == 2 or whole.err == b"", whole.err)
            growths(tally, room, name, words, whole, 0)
        library(tally, room)
        silent_lines(tally, room)
