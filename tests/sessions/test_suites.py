"""Sessions of the suites of libnbd, nbdkit, qemu, nbd-server and rust-nbd, and of programs of Debian 13: the line of `check` in both
profiles, and what the reader of orders and contents (served.py) says of them.

suites.tar.xz has their captures, and suites.tsv a line for each:

  file, suite, test, server    the capture, and what was run
  edge                         the program in whose process the session was recorded, or `relay` for one between the two
  start                        what the export held at first
  wide, base                   the line that is wanted in each profile
  order                        the order of service; empty for that of arrival, `none` where the lines are those of `explain` without one
  whole, cut                   of a recording that breaks off in a message: how many bytes stand before it, and the line of these
  today, why                   of a session whose wanted line is not the one of today: that line, and the reason; where base is
                               OutOfProfile it is the line of wide alone

A wanted line is the one that the reader says, which is written from the rules and shares no code with the program; here both are asked.
That of a session without an order is argued by hand: its WRITE was answered before its READ came, and the READ returned older bytes. Where
the program's line becomes another one, what is wanted stays, and `today` takes the line. A line in `today` that the program no longer says
is a failure too.
"""

import csv
import re
import tarfile
from collections import namedtuple

from built import TOP, Ended, Room
from messages import front, longest_runs, one_by_one, records_of, text
from models import served

RECORDED = TOP / "tests/sessions"
PROFILES = "base", "wide"
COUNTED = re.compile(r"yes requests (\d+) ")
SEARCHED = "none"


def sessions():
    """The rows of the table."""
    with open(RECORDED / "suites.tsv", newline="") as file:
        names, *rows = csv.reader(file, delimiter="\t", quoting=csv.QUOTE_NONE)
    Session = namedtuple("Session", names)
    return [Session(*row) for row in rows]


def captures():
    """The captures by their names."""
    with tarfile.open(RECORDED / "suites.tar.xz") as packed:
        return {member.name: packed.extractfile(member).read() for member in packed}


def order_of(session, wanted):
    """The order text: that of the table, or the numbers of as many requests as the wanted line has."""
    if session.order not in ("", SEARCHED):
        return session.order.replace(" ", "\n") + "\n"
    counted = COUNTED.match(wanted)
    return "".join(f"{number}\n" for number in range(1, int(counted[1]) + 1)) if counted else ""


def ended(line):
    return Ended(int(line.startswith("no ")), f"{line}\n".encode(), b"")


def first_line(told):
    return told._replace(out=told.out[: told.out.find(b"\n") + 1])


def line_of_today(session, profile):
    """The line that is asked for now."""
    is_left_out = profile == "base" and session.base.endswith(": OutOfProfile")
    return session.today if session.today and not is_left_out else getattr(session, profile)


def asked(room, session, capture, order, profile):
    """What the program says of a session."""
    if session.order == SEARCHED:
        words = ["--start", session.start, "--profile", profile]
        return first_line(room.run("explain", room.put("capture", capture), *words))
    return room.check(capture, order.encode(), session.start, profile)


def judged(tally, room, session, capture):
    """A session as it was recorded, and in wide also as records of one byte and as longest runs."""
    for profile in PROFILES:
        name, wanted, now = f"{session.file}, {profile}", getattr(session, profile), line_of_today(session, profile)
        order = order_of(session, wanted)
        tally.want(name, asked(room, session, capture, order, profile), ended(now))
        if profile == "wide":
            for way in (one_by_one, longest_runs):
                told = asked(room, session, text(way(records_of(capture))), order, profile)
                tally.want(f"{name}, {way.__name__}", told, ended(now))
        if session.order != SEARCHED:
            found = served.line(records_of(capture), order, session.start, profile)
            tally.want(f"{name}: a reader", found, f"{now}\n")


def cut_off(tally, room, session, capture):
    """A session without the message that its recording breaks off in."""
    records, order = front(records_of(capture), int(session.whole)), order_of(session, session.cut)
    for profile in PROFILES:
        name = f"{session.file} up to byte {session.whole}, {profile}"
        tally.want(name, room.check(text(records), order.encode(), session.start, profile)[:2], ended(session.cut)[:2])
        tally.want(f"{name}: a reader", served.line(records, order, session.start, profile), f"{session.cut}\n")


def run(tally):
    told, packed = sessions(), captures()
    tally.want("the captures and the table", sorted(packed), [session.file for session in told])
    with Room() as room:
        for session in told:
            tally.holds(f"{session.file}: each line of today has a reason", (session.today == "") == (session.why == ""))
            judged(tally, room, session, packed[session.file])
            if session.cut:
                cut_off(tally, room, session, packed[session.file])
