"""`explain`, `show` and `order --arrival` of the built program: what they write, word for word.

explained/NAME.txt has what `explain` writes of the session NAME of refused.py, judged.py and orderless.py, and NAME.why of examples/ what
it writes of that recording; each was judged against docs/PROFILE.md and the session's bytes.
"""

from built import TOP, Ended, Room
from commands.said import fault
from explain.judged import JUDGED
from explain.orderless import ORDERLESS
from explain.refused import WIRE
from explain.told import EXPLAINED, WRITTEN, ending, first_line, numbers_of, profile_of, searched, start_of
from messages import text


def sessions(tally, room):
    for name, session in {**WIRE, **JUDGED}.items():
        capture, order = room.put(f"{name}.cap", text(session.records)), room.put(f"{name}.ord", session.order.encode())
        profile = profile_of(session)
        words = [capture, order, "--start", start_of(room, name, session.start), *profile]
        wanted = (EXPLAINED / f"{name}.txt").read_bytes()
        line, status = first_line(wanted), 0 if wanted.startswith(b"yes") else 1
        tally.want(f"check {name}", room.run("check", *words), Ended(status, line, b""))
        tally.want(f"explain {name}", room.run("explain", *words), Ended(status, wanted, b""))
        last = line if name in WIRE else b"ok\n"
        shown = room.run("show", capture, *profile)
        tally.want(f"show {name}", ending(shown), Ended(int(name in WIRE), last, b""))
        searched(tally, room, name, [capture, *words[2:]])
        arrival = b"".join(b"%d\n" % number for number in numbers_of(session.records))
        ended = Ended(1, b"", b"no order: the session was refused\n") if name in WIRE else Ended(0, arrival, b"")
        tally.want(f"order {name}", room.run("order", capture, "--arrival", *profile), ended)
        named = room.run("show", capture, "--names", *profile)
        tally.want(f"names of {name}", ending(named), Ended(int(name in WIRE), last, b""))
        tally.want(f"names of {name}, lines", named.out.count(b"\n"), shown.out.count(b"\n"))


def orderless(tally, room):
    for name, session in ORDERLESS.items():
        capture = room.put(f"{name}.cap", text(session.records))
        words = [capture, "--start", start_of(room, name, session.start), *profile_of(session)]
        wanted = (EXPLAINED / f"{name}.txt").read_bytes()
        status = 0 if wanted.startswith(b"yes") else 1
        tally.want(f"explain {name}", room.run("explain", *words), Ended(status, wanted, b""))
        searched(tally, room, name, words)


def limited(tally, room):
    """A search that comes to its limit says at which request, and which limit to raise."""
    session = ORDERLESS["found-in-parts"]
    words = [room.put("limited.cap", text(session.records)), "--start", "zero"]
    for what, limit in (("steps", "1"), ("states", "0")):
        found = room.run("explain", *words, f"--{what}", limit)
        tally.want(f"{what}: status", (found.status, found.err), (5, b""))
        front, end = f"gave up: too many {what} at request ".encode(), f"more --{what}\n".encode()
        tally.holds(f"{what}: words", found.out.startswith(front) and found.out.endswith(end), found.out)
        tally.want(f"{what} that is no number", room.run("explain", *words, f"--{what}", "x"), Ended(2, b"", b"fault limit\n"))


def examples(tally, room):
    folder = TOP / "examples"
    for capture in sorted(folder.glob("*.cap")):
        start = capture.with_suffix(".start").read_text().strip().replace("image:", f"image:{folder}/")
        line, why = capture.with_suffix(".out").read_bytes(), capture.with_suffix(".why").read_bytes()
        searched(tally, room, capture.name, [capture, "--start", start])
        found = room.run("explain", capture, capture.with_suffix(".ord"), "--start", start)
        tally.want(f"explain {capture.name}", found, Ended(0 if line.startswith(b"yes") else 1, why, b""))
        tally.holds(f"explain {capture.name} begins as check", why.startswith(line), why)
        wide = capture.with_suffix(".wide")
        if wide.exists():
            words = [capture, "--start", start, "--profile", "wide"]
            searched(tally, room, f"{capture.name} in wide", words)
            told = room.run("explain", capture, capture.with_suffix(".ord"), *words[1:])
            tally.holds(f"explain {capture.name} in wide begins as check", told.out.startswith(wide.read_bytes()), told.out)
            whole = EXPLAINED / f"{capture.stem}-in-wide.txt"
            if whole.exists():
                tally.want(f"explain {capture.name} in wide", told, Ended(0, whole.read_bytes(), b""))
    by_chunk = folder / "qemunbd-by-chunk.cap"
    found = room.run("explain", by_chunk, "--start", f"image:{by_chunk.with_suffix('.img')}")
    tally.holds("explain of a READ by chunk says that wide has an order", (
        found.status == 1 and b"no content request 1 offset 8192 in any order\n" in found.out
        and b"\nwide: an order explains the session in the profile wide, " in found.out), found)


def faults(tally, room):
    """The inputs' faults are those of `check` and `show`."""
    good, bad, none = room.put("good", text(WRITTEN)), room.put("bad", b"C 0\n"), room.path("none")
    order, wrong = room.put("order", b"1\n2\n"), room.put("wrong", b"x\n")
    image, no_start = fault("image read"), fault("start", 2)
    for words, wanted in (
        ([none, order], fault("capture read")), ([good, none], fault("order read")), ([bad, order], fault("capture line 1")),
        ([good, wrong], fault("order line 1")), ([bad, wrong], fault("capture line 1")), ([none, none], fault("capture read")),
        ([good, order, "--start", f"image:{none}"], image), ([good, order, "--start", "none"], no_start),
    ):
        for command in ("check", "explain"):
            tally.want(f"{command} {words}", room.run(command, *words), wanted)
    for capture, wanted in ((none, "capture read"), (bad, "capture line 1"), (room.folder, "capture read")):
        for words in (["show"], ["explain"], ["show", "--names"], ["order", "--arrival"]):
            tally.want(f"{words} {capture}", room.run(*words, capture), fault(wanted))
    for words, wanted in (([good, "--start", f"image:{none}"], image), ([bad, "--start", f"image:{none}"], image),
                          ([good, "--start", "none"], no_start)):
        for command in ("explain", "order"):
            tally.want(f"{command} {words}", room.run(command, *words), wanted)
    for words in (["order"], ["explain"], ["explain", good, order, order], ["order", good, "--arrival", order]):
        found = room.run(*words)
        tally.want(f"{words}", (found.status, found.out, found.err[:7]), (2, b"", b"error: "))


def run(tally):
    with Room() as room:
        for part in (sessions, orderless, limited, examples, faults):
            part(tally, room)
