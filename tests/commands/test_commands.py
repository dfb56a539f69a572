"""The commands of the built program: their words, lines, faults and exit statuses."""

import subprocess

from built import PROGRAM, TOP, Ended, Room
from commands.said import CAPTURE, EMPTY, FOUND, LF, MADE, SCRIPT, YES, fault, sides
from messages import answer, begun, option, read, simple, text

COMMANDS = "check", "explain", "order", "contents", "show", "lint", "make"
NAMED_GREETING = b"S greeting, NBD_FLAG_FIXED_NEWSTYLE NBD_FLAG_NO_ZEROES (0x3)\n"


def examples(tally, room):
    """The sessions of examples/, and what `show` says of them, made and shown again."""
    folder = TOP / "examples"
    for capture in sorted(folder.glob("*.cap")):
        order, start = capture.with_suffix(".ord"), capture.with_suffix(".start").read_text().strip()
        start = start.replace("image:", f"image:{folder}/")
        line = capture.with_suffix(".out").read_bytes()
        status = 0 if line.startswith(b"yes") else 1
        found = room.run("check", capture, order, "--start", start)
        tally.want(capture.name, found, Ended(status, line, b""))
        shown = room.run("show", capture)
        is_wire = line.startswith(b"no at byte")
        last = line if is_wire else b"ok\n"
        tally.want(f"show {capture.name}", (shown.status, shown.err), (int(is_wire), b""))
        tally.holds(f"show {capture.name}", shown.out.endswith(b"\n" + last), shown.out[-80:])
        lines = shown.out.removesuffix(last)
        made = room.make(lines)
        tally.want(f"make {capture.name}", (made.status, made.err), (0, b""))
        # Whole messages of which none is refused: of a session that is accepted all of its bytes, else those before the fault.
        has_all = sides(made.out) == sides(capture.read_bytes())
        is_front = all(whole.startswith(part) for part, whole in zip(sides(made.out), sides(capture.read_bytes())))
        tally.holds(f"make {capture.name}, bytes", is_front and (is_wire or has_all), made.out[-80:])
        tally.want(f"show of make {capture.name}", room.show(made.out), Ended(0, lines + b"ok\n", b""))


def words(tally, room):
    """Help, the version, and words that have no form."""
    for asked in (["--help"], ["--version"], *([name, "--help"] for name in COMMANDS)):
        found = room.run(*asked)
        tally.want(f"{asked}", (found.status, found.err), (0, b""))
        tally.holds(f"{asked}", b"nbdcheck" in found.out, found.out)
        if asked == ["--version"]:
            # The version of the manual page's first line.
            tally.want("--version", found.out, b"nbdcheck 0.1.0\n")
        if len(asked) == 2:
            example = b"Example:\n  nbdcheck " + asked[0].encode()
            tally.holds(f"{asked} has an example", example in found.out, found.out)
    for asked in ([], ["judge"], ["check"], ["check", "c"], ["show"], ["make"], ["show", "c", "d"],
                  ["make", "c", "d"], ["check", "c", "o", "--begin", "zero"], ["check", "c", "o", "--start"],
                  ["order", "c", "--arrival", "--start", "zero"], ["order", "c", "--arrival", "--whole"],
                  ["order", "c", "--arrival", "--steps", "9"], ["order", "c", "--states", "9", "--arrival"],
                  ["explain", "c", "o", "--steps", "9"], ["explain", "c", "--states", "9", "o"],
                  ["contents"], ["contents", "c", "o", "d"], ["contents", "c", "--against"], ["contents", "c", "--arrival"],
                  ["check", "c", "o", "--against", "d"]):
        found = room.run(*asked)
        tally.want(f"{asked}", (found.status, found.out), (2, b""))
        tally.holds(f"{asked} says why", found.err.startswith(b"error: ") and found.err.endswith(b"\n"), found.err)
    with open("/dev/full", "wb") as full:
        for asked, status in ((["check"], 2), (["show", room.path("none")], 3)):
            done = subprocess.run([PROGRAM, *asked], stdout=subprocess.PIPE, stderr=full)
            tally.want(f"{asked} 2>/dev/full", (done.returncode, done.stdout), (status, b""))
        done = subprocess.run([PROGRAM, "--help"], stdout=full, stderr=subprocess.PIPE)
        tally.want("--help >/dev/full", (done.returncode, done.stderr), (3, b"fault write\n"))


def paths(tally, room):
    """Paths are text: one that is not UTF-8 is refused wherever it stands, also where there is such a file."""
    good, order, odd = room.put("good", CAPTURE), room.put("order", b"1\n"), room.path("caf\udce9")
    with open(odd, "wb") as file:
        file.write(CAPTURE)
    for name, asked in (
        ("check, the capture", ["check", odd, order]),
        ("check, the order", ["check", good, odd]),
        ("check, the image", ["check", good, order, "--start", f"image:{odd}"]),
        ("explain, the capture", ["explain", odd]),
        ("explain, the capture, with an order", ["explain", odd, order]),
        ("explain, the order", ["explain", good, odd]),
        ("explain, the image", ["explain", good, "--start", f"image:{odd}"]),
        ("check, the text of contents", ["check", good, order, "--start", f"contents:{odd}"]),
        ("contents, the capture", ["contents", odd]),
        ("contents, the order", ["contents", good, odd]),
        ("contents, the file", ["contents", good, "--against", odd]),
        ("order", ["order", odd]),
        ("order, the image", ["order", good, "--start", f"image:{odd}"]),
        ("order --arrival", ["order", "--arrival", odd]),
        ("show", ["show", odd]),
        ("show --names", ["show", "--names", odd]),
        ("make", ["make", odd]),
    ):
        wanted = Ended(2, b"", b"error: a word of the command line is not UTF-8\n")
        tally.want(f"{name}: a path that is not UTF-8", room.run(*asked), wanted)


def starts(tally, room):
    """The four forms of a start, the default, and words that are none of them."""
    capture, order = room.put("capture", FOUND), room.put("order", b"1\n")
    image = "image:" + room.put("image", b"\x07" + bytes(7))
    held, zeroes = (f"contents:{room.put(name, line)}" for name, line in (
        ("held", b"size 8\ndata 0 07\nunknown 1 7\n"), ("zeroes", b"size 8\nzero 0 8\n")))
    wrong = Ended(1, b"no content request 1 offset 0\n", b"")
    for start, wanted in ((None, Ended(0, YES, b"")), ("unknown", Ended(0, YES, b"")), ("zero", wrong),
                          (image, Ended(0, YES, b"")), (held, Ended(0, YES, b"")), (zeroes, wrong), (f"image:{room.put('short', b'123456789')}",
                          Ended(1, b"no image 9 size 8\n", b""))):
        asked = [] if start is None else ["--start", start]
        tally.want(f"--start {start}", room.run("check", capture, order, *asked), wanted)
    for start in ("", "zeros", "Zero", "unknown ", "image", "images:x", "IMAGE:x", "contents", "content:x", "Contents:x"):
        # No file has these names: none is opened before the start is judged.
        found = room.run("check", room.path("none"), room.path("none"), "--start", start)
        tally.want(f"--start '{start}'", found, fault("start", 2))
    for kind in ("image", "contents"):
        tally.want(f"no path, {kind}", room.run("check", capture, order, "--start", f"{kind}:"), fault(f"{kind} read"))


def profiles(tally, room):
    """The two profiles, the default, and words that are neither; each command that takes the option."""
    granted = begun()[:2] + [option(9, bytes(8)), answer(9, 1)]
    capture, order = room.put("capture", text(granted)), room.put("order", b"")
    stopped, yes = b"no at byte 66: OutOfProfile\n", b"yes requests 0 answered 0 improper 0\n"
    # The status and the first line in the profile base, and those in wide.
    for asked, base, wide in (
        (["check", capture, order], (1, stopped), (0, yes)),
        (["explain", capture, order], (1, stopped), (0, yes)),
        (["explain", capture], (1, stopped), (0, yes)),
        (["contents", capture, order], (1, stopped), (1, b"no export\n")),
        (["contents", capture], (1, stopped), (1, b"no export\n")),
        (["order", capture], (1, stopped), (0, b"")),
        (["order", capture, "--arrival"], (1, b""), (0, b"")),
        (["show", capture], (1, b"S greeting flags=3\n"), (0, b"S greeting flags=3\n")),
        (["show", capture, "--names"], (1, NAMED_GREETING), (0, NAMED_GREETING)),
    ):
        for profile, wanted in ((None, base), ("base", base), ("wide", wide)):
            found = room.run(*asked, *([] if profile is None else ["--profile", profile]))
            first = found.out.partition(LF)
            tally.want(f"{asked[0]} {asked[2:]} --profile {profile}", (found.status, first[0] + first[1]), wanted)
        for profile in ("", "Wide", "base ", "wider"):
            # No file has this name: none is opened before the profile is judged.
            words = [room.path("none") if word == capture else word for word in asked]
            found = room.run(*words, "--profile", profile)
            tally.want(f"{asked[0]} {asked[2:]} --profile '{profile}'", found, fault("profile", 2))
    last = room.run("show", capture, "--names", "--profile", "wide").out.splitlines()[-3:]
    tally.want("names of contexts", last, [b"C NBD_OPT_LIST_META_CONTEXT (9), 8 bytes of data",
                                           b"S reply to NBD_OPT_LIST_META_CONTEXT (9): NBD_REP_ACK (1), 0 bytes of data", b"ok"])
    tally.want("a start and a profile that are none", room.run("check", "c", "o", "--start", "x", "--profile", "x"), fault("start", 2))
    for asked in (["make", "s", "--profile", "base"], ["check", "c", "o", "--profile"], ["show", "c", "--profile", "base", "--profile", "wide"]):
        found = room.run(*asked)
        tally.want(f"{asked}", (found.status, found.out, found.err[:7]), (2, b"", b"error: "))


def lines(tally, room):
    """A line of each verdict, and of each text fault."""
    late = text(begun() + [read(1, 0, 1), simple(1, b"\0"), read(2, 0, 1), simple(2, b"\0")])
    for name, capture, order, wanted in (
        ("yes", CAPTURE, b"1\n", Ended(0, YES, b"")),
        ("nothing", b"", b"", Ended(0, b"yes requests 0 answered 0 improper 0\n", EMPTY)),
        ("wire", b"C 00\n", b"", Ended(1, b"no at byte 1: OutOfTurn\n", b"")),
        ("order", late, b"2\n1\n", Ended(1, b"no order entry 1: Late\n", b"")),
        ("content", FOUND, b"1\n", Ended(1, b"no content request 1 offset 0\n", b"")),
        ("a half byte", b"C 0\n", b"", fault("capture line 1")),
        ("no line end", b"S 00\nC 00", b"", fault("capture line 2")),
        ("a leading zero", CAPTURE, b"01\n", fault("order line 1")),
        ("an empty line", CAPTURE, b"1\n\n", fault("order line 2")),
        ("2^64", CAPTURE, b"18446744073709551616\n", fault("order line 1")),
        ("both", b"C 0\n", b"x\n", fault("capture line 1")),
        ("a bad line behind a refused byte", b"C 00\nX\n", b"", fault("capture line 2")),
        ("a bad order after a refused byte", b"C 00\n", b"x\n", fault("order line 1")),
    ):
        tally.want(name, room.check(capture, order), wanted)
    tally.want("show", room.show(MADE), Ended(0, SCRIPT + b"ok\n", b""))
    refused = SCRIPT + b"no at byte 23: Unfinished\n"
    tally.want("show of a refused one", room.show(MADE + b"C 49\n"), Ended(1, refused, b""))
    tally.want("show of a bad line", room.show(MADE + b"C 4\n"), fault("capture line 3"))
    tally.want("make", room.make(b"# remark\n\n" + SCRIPT + b"ok\n"), Ended(0, MADE, b""))
    short = b"C request flags=0 command=0 cookie=2 offset=0 length=4 payload=00\n"
    tally.want("make of a bad line", room.make(SCRIPT + short), fault("script line 3"))
    tally.want("make of a no", room.make(b"no at byte 1: OutOfTurn\n"), fault("script line 1"))


def run(tally):
    with Room() as room:
        for part in (examples, words, paths, starts, profiles, lines):
            part(tally, room)
