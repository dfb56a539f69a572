"""The command `order` of the built program: what it writes of sessions with an order and of those without one."""

import random
import re
import subprocess

from bench_order import Shape
from built import PROGRAM, TOP, Ended, Room
from cases.contexts import ONE_CONTEXT, TWO_CONTEXTS
from cases.outside import CHUNKED
from commands.said import EMPTY, SEARCHED, fault, on_a_terminal
from messages import TRIM, begun, content, done, extents, failed, read, request, simple, status, text, told_last, write

# Sessions of examples/ for which `check` has another answer than that with an order which explains them.
OTHERS = {
    "nbdkit-python-whole": b"yes requests 16 answered 16 improper 0\n",
    "nbdkit-split": b"no content request 3 offset 39000 in any order\n",
    "qemunbd-by-chunk": b"no content request 1 offset 8192 in any order\n",
    "write-atomically": b"yes requests 2 answered 2 improper 0\n",
    "write-half-served": b"yes requests 2 answered 2 improper 0\n",
    "write-read-late-order": b"yes requests 2 answered 2 improper 0\n",
    "write-read-wrong-byte": b"no content request 2 offset 1 in any order\n",
}
# They have an order in parts, and none of whole requests.
IN_PARTS = ("nbdkit-python-parts", "nbdkit-python-whole", "write-atomically", "write-half-served", "write-in-parts")


def got(cookie, offset, data):
    """The reply to a READ with structured replies."""
    return [content(cookie, offset, data), done(cookie)]


def open_writes(*reads):
    """Two WRITEs of one byte, READs of it while both are open, with the byte that each got, and then the replies."""
    records = begun(True) + [write(1, 0, b"a"), write(2, 0, b"b")]
    for cookie, byte in enumerate(reads, 3):
        records += [read(cookie, 0, 1), *got(cookie, 0, byte)]
    return text(records + [simple(1), simple(2)])


# Requests 3, 4 and 5 read a, b and a: one of the two WRITEs would have to be served twice.
NO_ORDER = open_writes(b"a", b"b", b"a")
# Request 3 read the first byte of one WRITE and the second of the other.
TORN = text(begun(True) + [write(1, 0, b"aa"), write(2, 0, b"bb"), simple(1), simple(2), read(3, 0, 2), *got(3, 0, b"ab")])
# Request 1 read what nobody wrote; from an unknown start it may have been there.
ALONE = text(begun() + [read(1, 3, 1), simple(1, b"x")])
# The only WRITE of the byte is still open when it is read.
WHILE_OPEN = text(begun(True) + [write(1, 0, b"a"), read(2, 0, 1), *got(2, 0, b"a"), simple(1)])
# The only WRITE of the byte came before another one of it, which came before the READ.
OVERWRITTEN = text(begun() + [write(1, 0, b"a"), simple(1), write(2, 0, b"b"), simple(2), read(3, 0, 1), simple(3, b"a")])
# The READ was answered before the WRITE of its byte came.
BEFORE = text(begun() + [read(1, 0, 1), simple(1, b"a"), write(2, 0, b"a"), simple(2)])


def zero(cookie, offset=0, length=8):
    """A BLOCK_STATUS whose range is called zero, and the reply to it."""
    return [status(cookie, offset, length), told_last(cookie, 1, (length, 2))]


OPEN_WRITE, SHUT_WRITE = [write(1, 0, b"aa")], [write(1, 0, b"aa"), simple(1)]
GOT_A = [read(2, 0, 1), *got(2, 0, b"a")]
# Sessions with statuses in the profile wide, from a start of zeroes: what `order` says, or None where there is an order, whether
# that is in parts.
WITH_STATUSES = {
    "a status behind a write": (SHUT_WRITE + zero(2), b"no status request 2 offset 0 in any order\n"),
    "a status behind a write, of its second byte": (SHUT_WRITE + zero(2, 1, 1), b"no status request 2 offset 1 in any order\n"),
    "a status beside a write": (SHUT_WRITE + zero(2, 2, 6), None, False),
    "a status while a write is open": (OPEN_WRITE + zero(2) + [simple(1)], None, False),
    "a status behind a write that failed": (OPEN_WRITE + [simple(1, error=5)] + zero(2), None, False),
    "a status behind a write that is not answered": (OPEN_WRITE + zero(2), None, False),
    "a status that does not call it zero": (SHUT_WRITE + [status(2, 0, 8), told_last(2, 1, (2, 1), (6, 2))], None, False),
    "a status that calls the second byte zero":
        (SHUT_WRITE + [status(2, 0, 8), told_last(2, 1, (1, 0), (7, 2))], b"no status request 2 offset 1 in any order\n"),
    "zeroes behind the range": (SHUT_WRITE + [status(2, 4, 2), told_last(2, 1, (9, 2))], None, False),
    "a status that fails": (SHUT_WRITE + [status(2, 0, 8), extents(2, 1, (8, 2)), failed(2)], None, False),
    "a status behind a READ of what an open write wrote":
        (OPEN_WRITE + GOT_A + zero(3) + [simple(1)], b"no order explains requests 2 3 at offset 0\n"),
    "a status behind a READ of the other byte": (OPEN_WRITE + GOT_A + zero(3, 1, 1) + [simple(1)], None, True),
    "a status of both bytes before the READ": (OPEN_WRITE + zero(2) + [read(3, 0, 1), *got(3, 0, b"a"), simple(1)], None, False),
    "a READ of what was written, where a status called it zero":
        (SHUT_WRITE + zero(2) + [read(3, 0, 2), *got(3, 0, b"aa")], b"no status request 2 offset 0 in any order\n"),
    "a READ of another byte where a status called it zero":
        (zero(1) + [read(2, 3, 1), *got(2, 3, b"a")], b"no content request 2 offset 3 in any order\n"),
}
# The same with two contexts in force.
WITH_TWO = {
    "the first message calls it zero":
        (SHUT_WRITE + [status(2, 0, 8), extents(2, 1, (8, 2)), told_last(2, 2, (8, 0))], b"no status request 2 offset 0 in any order\n"),
    "the second message calls it zero": (SHUT_WRITE + [status(2, 0, 8), extents(2, 2, (8, 2)), told_last(2, 1, (8, 2))], None, False),
}
ODD_WRITE = [write(1, 1, b"aaa")]
# Requests outside of block sizes, of which the least is 2 and the largest 4: an order is looked for as for any other request.
WITH_SIZES = {
    "an odd READ behind an odd WRITE": (ODD_WRITE + [simple(1), read(2, 1, 3), *got(2, 1, b"aaa")], None, False),
    "an odd READ behind an odd WRITE gives its first two bytes":
        (ODD_WRITE + [simple(1), read(2, 1, 3), *got(2, 1, b"aa\0")], b"no content request 2 offset 3 in any order\n"),
    "an odd READ while an odd WRITE is open": (ODD_WRITE + [read(2, 1, 3), *got(2, 1, b"\0\0\0"), simple(1)], None, False),
    "an odd READ gives half of an odd WRITE": (ODD_WRITE + [read(2, 1, 3), *got(2, 1, b"aa\0"), simple(1)], None, True),
    "a READ longer than the largest gives half of such a WRITE":
        ([write(1, 0, b"a" * 6), read(2, 0, 6), *got(2, 0, b"aaa\0\0\0"), simple(1)], None, True),
    "three odd READs while two odd WRITEs are open":
        ([write(1, 1, b"a"), write(2, 1, b"b"), *(one for cookie, byte in ((3, b"a"), (4, b"b"), (5, b"a"))
                                                  for one in (read(cookie, 1, 1), *got(cookie, 1, byte))), simple(1), simple(2)],
         b"no order explains requests 3 4 5 at offset 1\n"),
}
# A WRITE is seen while it is open, and then not.
SEEN_ONCE = [write(1, 0, b"a"), read(2, 0, 1), *got(2, 0, b"a"), read(3, 0, 1), *got(3, 0, b"\0"), simple(1)]
EARLY = [read(1, 0, 1), *got(1, 0, b"a"), write(2, 0, b"b")]
TRIMMED, READ_A = [request(TRIM, 1, 0, 8), simple(1)], [read(3, 0, 1), *got(3, 0, b"a")]
# READs in the profile base, from each of these starts.
WITH_READS = {
    "a write that was answered is not seen":
        (SHUT_WRITE + [read(2, 0, 1), *got(2, 0, b"\0")], ("zero", "unknown"), b"no content request 2 offset 0 in any order\n"),
    "a write is seen and then not": (SEEN_ONCE, ("zero",), b"no order explains requests 2 3 at offset 0\n"),
    "a write is seen and then not, where nothing was known": (SEEN_ONCE, ("unknown",), None, False),
    "a write came after the read": (EARLY, ("zero",), b"no content request 1 offset 0 in any order\n"),
    "a write came after the read, where nothing was known": (EARLY, ("unknown",), None, False),
    "a TRIM is overwritten":
        (TRIMMED + [write(2, 0, b"b"), simple(2)] + READ_A, ("zero", "unknown"), b"no content request 3 offset 0 in any order\n"),
    "a TRIM may come after the write": (TRIMMED[:1] + [write(2, 0, b"b"), simple(1), simple(2)] + READ_A, ("zero",), None, False),
    "a TRIM before the read": (TRIMMED + READ_A, ("zero",), None, False),
    "a write that is not answered": ([write(1, 0, b"b")] + READ_A, ("zero",), None, False),
    "a write that failed": ([write(1, 0, b"b"), simple(1, error=5)] + READ_A, ("zero",), None, False),
    "a read that failed": ([read(1, 2, 2), failed(1)], ("zero",), None, False),
    "a read that failed behind its bytes": ([read(1, 2, 2), content(1, 2, b"ab"), failed(1)], ("zero",), None, False),
    "a read that was not answered": ([read(1, 2, 2), content(1, 2, b"ab")], ("zero",), None, False),
}


def examples(tally, room):
    """The sessions of examples/: what is found explains them."""
    folder = TOP / "examples"
    for capture in sorted(folder.glob("*.cap")):
        start = capture.with_suffix(".start").read_text().strip().replace("image:", f"image:{folder}/")
        line = OTHERS.get(capture.stem, capture.with_suffix(".out").read_bytes())
        found = room.run("order", capture, "--start", start)
        if line.startswith(b"no"):
            tally.want(f"order {capture.name}", found, Ended(1, line, b""))
            continue
        tally.want(f"order {capture.name}", (found.status, found.err), (0, b""))
        judged = room.run("check", capture, room.put("order", found.out), "--start", start)
        tally.want(f"order and check {capture.name}", judged, Ended(0, line, b""))
        has_parts = any(b" " in entry for entry in found.out.splitlines())
        tally.want(f"parts of {capture.name}", has_parts, capture.stem in IN_PARTS)
        whole = room.run("order", capture, "--start", start, "--whole")
        if capture.stem in IN_PARTS:
            tally.want(f"order --whole {capture.name}", whole, Ended(5, b"no order of whole requests found\n", b""))
        else:
            tally.want(f"order --whole {capture.name}", whole, found)
    by_chunk = folder / "qemunbd-by-chunk.cap"
    found = room.run("order", by_chunk, "--start", f"image:{by_chunk.with_suffix('.img')}", "--profile", "wide")
    tally.want("order of a READ by chunk in wide", found, Ended(0, by_chunk.with_suffix(".ord").read_bytes(), b""))


def lines(tally, room):
    """The line of each answer, and its status."""
    for name, capture, asked, wanted in (
        ("nothing", b"", [], Ended(0, b"", EMPTY)),
        ("no request", text(begun()), [], Ended(0, b"", b"")),
        ("a refused byte", b"C 00\n", [], Ended(1, b"no at byte 1: OutOfTurn\n", b"")),
        ("cut off", b"S 4e\n", [], Ended(1, b"no at byte 1: Unfinished\n", b"")),
        ("a bad line", b"C 0\n", [], fault("capture line 1")),
        ("unknown start", ALONE, [], Ended(0, b"1\n", b"")),
        ("zero start", ALONE, ["--start", "zero"], Ended(1, b"no content request 1 offset 3 in any order\n", b"")),
        ("while the WRITE is open", WHILE_OPEN, ["--start", "zero"], Ended(0, b"1\n2\n", b"")),
        ("overwritten", OVERWRITTEN, [], Ended(1, b"no content request 3 offset 0 in any order\n", b"")),
        ("before", BEFORE, ["--start", "zero"], Ended(1, b"no content request 1 offset 0 in any order\n", b"")),
        ("before, unknown start", BEFORE, [], Ended(0, b"1\n2\n", b"")),
        ("three READs", NO_ORDER, ["--start", "zero"], Ended(1, b"no order explains requests 3 4 5 at offset 0\n", b"")),
        ("three READs, --whole", NO_ORDER, ["--start", "zero", "--whole"],
         Ended(1, b"no order explains requests 3 4 5 at offset 0\n", b"")),
        ("torn, --whole", TORN, ["--start", "zero", "--whole"], Ended(5, b"no order of whole requests found\n", b"")),
        ("one step", NO_ORDER, ["--start", "zero", "--steps", "1"],
         Ended(5, b"gave up: too many steps at request 3 offset 0\n", b"")),
        ("no state", NO_ORDER, ["--start", "zero", "--states", "0"],
         Ended(5, b"gave up: too many states at request 3 offset 0\n", b"")),
        ("a number", ALONE, ["--steps", "x"], fault("limit", 2)),
        ("a negative number", ALONE, ["--states=-1"], fault("limit", 2)),
        ("2^64", ALONE, ["--steps", str(2**64)], fault("limit", 2)),
        ("a start", ALONE, ["--start", "zeroes"], fault("start", 2)),
    ):
        found = room.run("order", room.put("capture", capture), *asked)
        tally.want(f"order: {name}", found, wanted)
        if found.status in (1, 5):
            judged = room.run("check", room.put("capture", TORN), room.put("written", found.out))
            tally.want(f"order: {name}, its line as an order", judged, Ended(3, b"", b"fault order line 1\n" + SEARCHED))
    page = " ".join((TOP / "docs/nbdcheck.1").read_text().split())
    tally.holds("the manual page says what decides", "holds an order only where the status is 0." in page)
    torn = room.put("torn", TORN)
    found = room.run("order", torn, "--start", "zero")
    tally.want("torn", (found.status, found.err, b" 0 1\n" in found.out), (0, b"", True))
    yes = Ended(0, b"yes requests 3 answered 3 improper 0\n", b"")
    tally.want("torn and judged", room.run("check", torn, room.put("found", found.out), "--start", "zero"), yes)


def looked_for(tally, room, name, records, line, in_parts, *words):
    """What `order` says of a session, or that it finds an order, in parts or not, which `check` accepts."""
    capture = room.put("capture", text(records))
    found = room.run("order", capture, *words)
    if line is not None:
        tally.want(f"order: {name}", found, Ended(1, line, b""))
        return
    tally.want(f"order: {name}", (found.status, found.err), (0, b""))
    judged = room.run("check", capture, room.put("found", found.out), *words)
    tally.want(f"order: {name}, judged", (judged.status, judged.err), (0, b""))
    tally.want(f"order: {name}, in parts", [any(b" " in entry for entry in found.out.splitlines())], in_parts)


def reads(tally, room):
    """Sessions in which a READ has a byte that is wrong in any order, and those that a change, a failure or the start explains."""
    for name, (messages, starts, line, *in_parts) in WITH_READS.items():
        for start in starts:
            looked_for(tally, room, f"{name}, {start}", begun(True) + messages, line, in_parts, "--start", start)


def statuses(tally, room):
    """Sessions in which a status calls bytes zero, or with requests outside of block sizes."""
    for begins, table in ((ONE_CONTEXT, WITH_STATUSES), (TWO_CONTEXTS, WITH_TWO), (CHUNKED, WITH_SIZES)):
        for name, (messages, line, *in_parts) in table.items():
            looked_for(tally, room, name, begins + messages, line, in_parts, "--start", "zero", "--profile", "wide")
    alone = room.put("capture", text(ONE_CONTEXT + zero(1)))
    unknown = room.run("order", alone, "--profile", "wide")
    tally.want("order: zeroes from an unknown start", unknown, Ended(0, b"1\n", b""))
    image = room.put("image", bytes(5) + b"\7" + bytes(2))
    found = room.run("order", alone, "--start", f"image:{image}", "--profile", "wide")
    tally.want("order: zeroes from an image", found, Ended(1, b"no status request 1 offset 5 in any order\n", b""))
    left_out = room.run("order", alone, "--start", "zero")
    tally.want("order: a status in base", left_out, Ended(1, b"no at byte 121: OutOfProfile\n", b""))


def files(tally, room):
    """Images, files that cannot be opened, an output that takes nothing, and a pipe."""
    capture, none = room.put("capture", ALONE), room.path("none")
    image = room.put("image", b"abcxefgh")
    tally.want("an image", room.run("order", capture, "--start", f"image:{image}"), Ended(0, b"1\n", b""))
    other = room.put("other", b"abcdefgh")
    line = Ended(1, b"no content request 1 offset 3 in any order\n", b"")
    tally.want("another image", room.run("order", capture, "--start", f"image:{other}"), line)
    for size in (7, 9):
        short = room.put("short", bytes(size))
        wanted = Ended(1, f"no image {size} size 8\n".encode(), b"")
        tally.want(f"an image of {size} bytes", room.run("order", capture, "--start", f"image:{short}"), wanted)
    tally.want("no capture", room.run("order", none, "--start", f"image:{none}"), fault("capture read"))
    tally.want("no image", room.run("order", capture, "--start", f"image:{none}"), fault("image read"))
    tally.want("a full device", room.run("order", capture, stdout="/dev/full"), fault("write"))
    piped = 'set -o pipefail; "$0" order "$1" --start zero | "$0" check "$1" /dev/stdin --start zero'
    words = ["/bin/bash", "-c", piped, PROGRAM, room.put("torn", TORN)]
    found = subprocess.run(words, stdin=subprocess.DEVNULL, capture_output=True, timeout=60)
    yes = (0, b"yes requests 3 answered 3 improper 0\n", b"")
    tally.want("through a pipe", (found.returncode, found.stdout, found.stderr), yes)
    limited = ["-c", 'ulimit -v 24576; exec "$@"', "sh", PROGRAM, "order", room.put("long", text(begun() + [write(1, 0, bytes(1 << 24))]))]
    tally.want("24 MiB", room.run(*limited, program="/bin/sh"), fault("memory", 4))


def long_search():
    """A session of 3,000 requests on 4 KiB, 64 at a time, of ranges that overlap."""
    records = Shape(3_000, 64, 4_096, most=1_024).records(random.Random(3_000_064))
    return text(begun(size=4_096) + [(side.decode(), data) for side, data in records])


def terminals(tally, room):
    """A long search says on a terminal how far it is, and takes that away; a short one says nothing. Which file could not be opened."""
    long = room.put("long", long_search())
    yes = Ended(0, b"yes requests 3000 answered 3000 improper 0\n", b"")
    found = on_a_terminal(room, "order", long, "--start", "zero")
    told = re.fullmatch(rb"(\r\x1b\[Kround \d+: \d+ searches of ranges)+\r\x1b\[K", found.err)
    tally.holds("a long search on a terminal", told, found.err[-80:])
    judged = room.run("check", long, room.put("order", found.out), "--start", "zero")
    tally.want("what a long search found", (found.status, judged), (0, yes))
    quiet = room.run("order", long, "--start", "zero")
    judged = room.run("check", long, room.put("order", quiet.out), "--start", "zero")
    tally.want("a long search without a terminal", (quiet.status, quiet.err, judged), (0, b"", yes))
    capture, none = room.put("torn", TORN), room.path("none")
    found = on_a_terminal(room, "order", capture, "--start", "zero")
    judged = room.run("check", capture, room.put("order", found.out), "--start", "zero")
    yes = Ended(0, b"yes requests 3 answered 3 improper 0\n", b"")
    tally.want("a short search on a terminal", (found.status, found.err, judged), (0, b"", yes))
    why = f"{none}: No such file or directory (os error 2)\n".encode()
    tally.want("no file on a terminal", on_a_terminal(room, "order", none), Ended(3, b"", b"fault capture read\n" + why))


def run(tally):
    with Room() as room:
        for part in (examples, lines, reads, statuses, files, terminals):
            part(tally, room)
