"""Sessions cut off behind each byte, with each byte inverted, and with large numbers.

Each is run as it stands, as records of one byte and as longest one-sided runs; the answers are the same. In long sessions not
every byte is tried, but the first NEAR ones, some SOME beside the ends of records, and some SOME of all;
`test_program.py cuts.at_each_byte` tries each.
"""

import multiprocessing
from dataclasses import dataclass, field
from itertools import accumulate

from built import TOP, Room, Tally
from commands.said import hint_of
from messages import (
    ERROR, TRIM, WRITE, begun, chunk, client_flags, content, cut, damaged, done, front,
    greeting, hole, longest_runs, one_by_one, option, records_of, read, request, simple, text, write,
)

MOST, LENGTH = 2**64 - 1, 2**32 - 1
# How many places one process tries at a time.
STEP = 64
# A session of more bytes is long.
LONG, NEAR, SOME = 1024, 400, 150


def spread(places):
    """Some SOME of these places, from the first to the last."""
    return places[:: -(-len(places) // SOME)]


@dataclass
class Session:
    name: str
    records: list
    order: bytes = b"1\n2\n"
    start: str = "zero"
    # The records, by number, that do not end their message.
    begin: set = field(default_factory=set)
    # Whether its messages are known here, so that it is told where a cut leaves one open.
    known: bool = True
    accepted: bool = True

    def size(self):
        return sum(len(data) for _, data in self.records)

    def places(self, each):
        """The places that are tried."""
        whole = list(range(self.size()))
        if each or len(whole) <= LONG:
            return whole
        ends = list(accumulate(len(data) for _, data in self.records))
        beside = [place for end in ends for place in (end - 1, end) if place < len(whole)]
        return sorted({*whole[:NEAR], *spread(beside), *spread(whole)})

    def is_open(self, count):
        """Whether a message is open behind so many bytes."""
        begun_by = set()
        for number, (side, data) in enumerate(self.records):
            if count < len(data):
                return count > 0 or bool(begun_by)
            count -= len(data)
            (begun_by.add if number in self.begin else begun_by.discard)(side)
            if count == 0:
                return bool(begun_by)
        return bool(begun_by)


WRITE_HEAD, WRITE_TAIL = cut(write(1, 4, b"\xab"), 28)

WRITE_READ = Session(
    "write, then read",
    begun() + [write(1, 0, b"\xab\xcd"), simple(1), read(2, 0, 4), simple(2, b"\xab\xcd\0\0")],
)

SESSIONS = [
    WRITE_READ,
    Session(
        "a read served before the write is answered",
        begun() + [write(1, 0, b"\xab\xcd"), read(2, 0, 2), simple(2, b"\xab\xcd"), simple(1)],
    ),
    Session(
        "chunks",
        begun(structured=True)
        + [write(1, 4, b"\x0a\x0b\x0c\x0d"), done(1), read(2, 0, 8)]
        + [content(2, 4, b"\x0a\x0b\x0c\x0d"), hole(2, 0, 4), done(2)],
    ),
    Session(
        "an export by its name, padded",
        [greeting(), client_flags(1), option(1, b"disk")]
        + [("S", (8).to_bytes(8, "big") + b"\0\x6d" + bytes(124)), read(1, 0, 1), simple(1, b"\0")],
        order=b"1\n",
    ),
    Session(
        "a cookie used again while the payload comes",
        begun() + [read(1, 0, 1), WRITE_HEAD, simple(1, b"\0"), WRITE_TAIL, simple(1)],
        begin={6},
    ),
    Session(
        "replies after the disconnect",
        begun()
        + [write(1, 0, b"\xab"), read(2, 4, 1), request(2, 9, 0, 0), simple(2, b"\0"), simple(1)],
    ),
]

# Of the first session: the line behind so many bytes, wherever no message is open.
CLOSED = {count: "no order entry 1: NoSuchRequest" for count in (0, 18, 22, 44, 76, 96)}
CLOSED.update({count: "no order entry 2: NoSuchRequest" for count in (126, 142)})
CLOSED[170] = "yes requests 2 answered 1 improper 0"
CLOSED[190] = "yes requests 2 answered 2 improper 0"

# Of the first session: the line where this byte, counted from 1, is inverted.
DAMAGED = {
    1: "no at byte 18: BadMagic",
    18: "no at byte 18: NotFixedNewstyle",
    96: "no at byte 96: BadReplyPayload",
    97: "no at byte 124: BadMagic",
    126: "no content request 2 offset 1",
    142: "no at byte 142: UnknownCookie",
    178: "no at byte 190: BadMagic",
    186: "no at byte 186: UnknownCookie",
    190: "no content request 2 offset 3",
}

# Numbers at the ends of their fields: a name, the records, the line with the order 1 (or none).
LARGE = [
    ("an option of which no data came", [greeting(), client_flags(), option(3, length=LENGTH)], b"",
     "no at byte 38: Unfinished"),
    ("a write of which no byte came", begun() + [request(WRITE, 1, MOST, LENGTH)], b"1\n",
     "no at byte 124: Unfinished"),
    ("a read past all exports fails", begun() + [read(1, MOST, LENGTH), simple(1, error=22)], b"1\n",
     "yes requests 1 answered 1 improper 1"),
    ("a reply of which no byte came", begun() + [read(1, 0, LENGTH), simple(1)], b"1\n",
     "no at byte 140: Unfinished"),
    ("a trim that is not answered", begun() + [request(TRIM, 1, MOST, LENGTH)], b"1\n",
     "yes requests 1 answered 0 improper 1"),
    ("a hole past all exports", begun(True) + [read(1, 0, 8), hole(1, MOST, LENGTH)], b"1\n",
     "no at byte 192: BadContent"),
    ("a message longer than its chunk",
     begun(True) + [read(1, 0, 8), chunk(1, ERROR, b"\0\0\0\5\xff\xff", 1)], b"1\n",
     "no at byte 186: BadChunk"),
]


def examples():
    """The sessions of examples/, each once: a link to a capture is the same session with another order."""
    folder = TOP / "examples"
    for capture in sorted(folder.glob("*.cap")):
        if capture.is_symlink():
            continue
        start = capture.with_suffix(".start").read_text().strip()
        yield Session(
            capture.stem,
            records_of(capture.read_bytes()),
            order=capture.with_suffix(".ord").read_bytes(),
            start=start.replace("image:", f"image:{folder}/"),
            known=False,
            accepted=capture.with_suffix(".out").read_text().startswith("yes"),
        )


def digits(records):
    """The capture of the records as records of one byte: five letters a byte."""
    return text(one_by_one(records))


def answers(room, session, records, bytewise):
    """What is answered of the records in three ways, as a set."""
    ways = (text(records), bytewise, text(longest_runs(records)))
    return {room.check(way, session.order, session.start) for way in ways}


def line_of(found):
    return found.out.decode().removesuffix("\n")


def is_told(found, hint=b""):
    """Whether an answer is a verdict's line with its status, beside a hint and nothing else."""
    line = found.out.decode()
    is_line = line.endswith("\n") and line.count("\n") == 1 and found.err == hint
    return is_line and found.status == (0 if line.startswith("yes ") else 1)


def cut_off(tally, room, session, count, bytewise):
    name = f"{session.name}, {count} bytes"
    found = answers(room, session, front(session.records, count), bytewise[: 5 * count])
    tally.holds(name, len(found) == 1 and all(is_told(it, hint_of(bytewise[:count])) for it in found), found)
    line, unfinished = line_of(found.pop()), f"no at byte {count}: Unfinished"
    if session.known:
        tally.want(f"{name}, is open", line == unfinished, session.is_open(count))
    if session.accepted:
        tally.holds(name, line == unfinished or not line.startswith("no at byte"), line)
    if session.name == WRITE_READ.name and not session.is_open(count):
        tally.want(name, line, CLOSED.get(count))


def invert(tally, room, session, at, bytewise):
    name = f"{session.name}, byte {at + 1} inverted"
    first, last = 5 * at + 2, 5 * at + 4
    other = b"%02x" % (int(bytewise[first:last], 16) ^ 0xFF)
    whole = bytewise[:first] + other + bytewise[last:]
    found = answers(room, session, damaged(session.records, at), whole)
    tally.holds(name, len(found) == 1 and all(map(is_told, found)), found)
    if session.name == WRITE_READ.name and at + 1 in DAMAGED:
        tally.want(name, line_of(found.pop()), DAMAGED[at + 1])


def some(work):
    """A part of the work: a session and some of its places."""
    session, places = work
    tally, bytewise = Tally(), digits(session.records)
    with Room() as room:
        for place in places:
            cut_off(tally, room, session, place, bytewise)
            invert(tally, room, session, place, bytewise)
        if places[0] == 0:
            cut_off(tally, room, session, session.size(), bytewise)
    return tally.passed, tally.failed


def parts(sessions, each):
    for session in sessions:
        places = session.places(each)
        for first in range(0, len(places), STEP):
            yield session, places[first : first + STEP]


def run(tally, each=False):
    sessions = [*SESSIONS, *examples()]
    with multiprocessing.Pool() as pool:
        for passed, failed in pool.imap_unordered(some, parts(sessions, each)):
            tally.add(passed, failed)
    with Room() as room:
        for name, records, order, line in LARGE:
            found = answers(room, Session(name, records, order), records, digits(records))
            tally.want(name, {line_of(one) for one in found}, {line})
            tally.holds(name, all(map(is_told, found)), found)


def at_each_byte(tally):
    run(tally, each=True)
