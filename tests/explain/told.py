"""What the tests of `explain` share: how their sessions begin, and what is asked of each answer."""

from collections import namedtuple

from built import TOP
from cases import extended_messages as extended
from messages import FLAGS, answer, begun, context, option, queries, read, simple, write

EXPLAINED = TOP / "tests/explain/explained"

Session = namedtuple("Session", "records order start profile", defaults=("", "zero", "base"))

GO = [*FLAGS, option(7, bytes(6))]
ASKED = [*begun(), read(1, 0, 4)]
CHUNKED = [*begun(structured=True), read(1, 0, 4)]

# A negotiation that lists metadata contexts, and one that then sets one.
LISTED = [*FLAGS, option(8), answer(8, 1), option(9, queries(b"")), answer(9, 4, b"\0\0\0\0base:allocation"), answer(9, 1)]
ALLOCATION = b"\0\0\0\1base:allocation"
SELECTING = [*LISTED, option(10, queries(b"", b"base:allocation")), answer(10, 4, ALLOCATION), answer(10, 1)]
SELECTED = [*SELECTING, *begun()[2:]]
SELECTED_TWO = [
    *LISTED, option(10, queries(b"", b"base:allocation", b"a:\xff")), answer(10, 4, ALLOCATION), context(2, b"a:\xff"), answer(10, 1),
    *begun()[2:],
]
# A WRITE of two bytes, then a READ of four, each answered before the next.
WRITTEN = [*begun(), write(1, 0, b"\xab\xcd"), simple(1), read(2, 0, 4), simple(2, b"\xab\xcd\0\0")]
MISREAD = WRITTEN[:-1] + [simple(2, b"\xab\xce\0\0")]


def extended_session(*messages):
    """A session with extended headers: 132 bytes before these messages."""
    return extended.BEGUN + extended.spoken(messages)


def filtered(*messages):
    """A session with extended headers and two contexts: 304 bytes before these messages."""
    return extended.TWO_CONTEXTS + extended.spoken(messages)


def start_of(room, name, start):
    """The start's word; `image:N` stands for an image of N bytes: 0, 1, 2 and so on, and `contents:N` for N zeroes."""
    kind, _, size = start.partition(":")
    if kind == "contents":
        return "contents:" + room.put(f"{name}.contents", f"size {size}\nzero 0 {size}\n".encode())
    return f"image:{room.put(f'{name}.image', bytes(range(int(size))))}" if kind == "image" else start


def profile_of(session):
    """The words that name its profile: none for that which is meant without them."""
    return [] if session.profile == "base" else ["--profile", session.profile]


def first_line(told):
    return told.partition(b"\n")[0] + b"\n"


def ending(found):
    """A run with the last line of its output alone."""
    return found._replace(out=found.out[found.out[:-1].rfind(b"\n") + 1 :])


def status_of(line):
    """The exit status of `order` with this line, where it is one of those that say why there is no order."""
    return next((status for front, status in ((b"no ", 1), (b"gave up: ", 5)) if line.startswith(front)), 0)


def searched(tally, room, name, words):
    """Without an order the status is that of `order`, and the first line its own, or that of `check` on the order that it writes."""
    found, told = room.run("order", *words), room.run("explain", *words)
    line = found.out
    tally.want(f"order {name}", (found.status, found.err), (status_of(line), b""))
    if found.status == 0:
        judged = room.run("check", words[0], room.put("found.ord", found.out), *words[1:])
        line = judged.out
        tally.want(f"order and check {name}", (judged.status, line[:4], judged.err), (0, b"yes ", b""))
        count, parts = found.out.count(b"\n"), sum(b" " in entry for entry in found.out.splitlines())
        entries = f"\nentries: {count}, of which {parts} are parts\n".encode()
        tally.holds(f"explain {name} without an order, entries", entries in told.out, told.out)
    tally.want(f"explain {name} without an order", (told.status, told.err), (found.status, found.err))
    tally.holds(f"explain {name} without an order begins as order", told.out.startswith(line), told.out)


def numbers_of(records):
    """The numbers of the requests in records of which each is a message: all from the client but the negotiation and DISC."""
    asked = [data for _, data in records if data[:4] in (b"\x25\x60\x95\x13", extended.REQUEST) and data[6:8] != b"\0\2"]
    return range(1, len(asked) + 1)


def told_of(tally, name, found):
    """What `explain` says, of which the status and standard error are as its first line wants it."""
    tally.want(f"{name}, status", (found.status, found.err), (int(not found.out.startswith(b"yes ")), b""))
    return found.out.decode()
