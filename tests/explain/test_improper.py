"""What `explain` lists behind a yes: the requests that the client should not have sent, each with its places and its reasons.

As many are listed as the line counts, on the sessions of cases/ whose requests are improper or outside of block sizes; of requests
at random each line is the one that a model of its own has. test_explain.py has more reasons.
"""

import random
import re

from built import Ended, Room
from cases import extended, offers, outside, sizes
from messages import CACHE, READ, TRIM, WRITE, WRITE_ZEROES, request, simple, text

COUNTED = re.compile(r"yes requests (\d+) answered \d+ improper (\d+)")
LISTED = re.compile(r"improper: (\d+) of (\d+) requests?")
REQUEST = re.compile(r"message: \S+( \d+)? #(\d+), .*; bytes \d+ to \d+")
NAMES = {READ: "READ", WRITE: "WRITE", TRIM: "TRIM", CACHE: "CACHE", WRITE_ZEROES: "WRITE_ZEROES"}
# The least, the preferred and the largest block size.
SIZES = (1, 512, 8), (2, 512, 8), (4, 4096, 4), (8, 512, 2**32 - 1)
SIZE = 64
# So many requests are listed.
MOST = 10


def behind(tally, name, found):
    """The lines behind a yes, which counts so many requests and so many of them as improper."""
    first, *lines = found.out.decode().splitlines()
    counted = COUNTED.fullmatch(first)
    tally.want(f"{name}, status", (found.status, found.err, bool(counted)), (0, b"", True))
    return (*map(int, counted.groups()), lines) if counted else (0, 0, lines)


def agree(tally, name, found):
    """As many requests are listed as are counted, in their order, and each has a reason."""
    count, improper, lines = behind(tally, name, found)
    if not improper:
        tally.want(name, lines, [])
        return
    listed = LISTED.fullmatch(lines.pop(0))
    tally.want(f"{name}, how many", listed and tuple(map(int, listed.groups())), (improper, count))
    if improper > MOST:
        tally.want(f"{name}, more", lines.pop(), f"improper: {improper - MOST} more")
    numbers = [int(told[2]) for told in map(REQUEST.fullmatch, lines) if told]
    tally.want(f"{name}, listed", (len(numbers), numbers), (min(improper, MOST), sorted(set(numbers))))
    kinds = "".join("m" if REQUEST.fullmatch(line) else "w" if line.startswith("wrong: ") else "?" for line in lines)
    tally.holds(f"{name}, reasons", re.fullmatch(r"(mw+)+", kinds), lines)


def counted(tally, room):
    """Sessions with block sizes or extended headers in each profile, and a request of each type with each flag on exports that offer it
    and do not."""
    for told in sizes.TABLE + outside.TABLE + extended.TABLE:
        capture, order = room.put("told.cap", text(told.records)), room.put("told.ord", told.order.encode())
        start = told.start if isinstance(told.start, str) else f"image:{room.put('image', told.start)}"
        for profile, line in (("base", told.base), ("wide", told.wide)):
            if line.startswith("yes"):
                found = room.run("explain", capture, order, "--start", start, "--profile", profile)
                agree(tally, f"{told.name}, --profile {profile}", found)
    order = room.put("one.ord", b"1\n")
    for name, capture, _ in offers.offers():
        agree(tally, name, room.run("explain", room.put("offer.cap", text(capture)), order))


def bytes_of(count):
    return f"{count} byte" + "s" * (count != 1)


def reasons(command, offset, length, numbers):
    """Why a request is past the end of an export of SIZE bytes, and outside of these block sizes, if there are some."""
    if offset + length > SIZE:
        yield f"its range passes the end of the export of {SIZE} bytes by {bytes_of(offset + length - SIZE)}"
    if not numbers:
        return
    least, _, largest = numbers
    named = f"outside of the block sizes {'/'.join(map(str, numbers))}: its"
    for what, number in (("offset", offset), ("length", length)):
        if number % least:
            yield f"{named} {what} is no multiple of {least}"
    if command in (READ, WRITE) and length > largest:
        yield f"{named} length is more than {largest}"


def at_random(tally, room):
    """Requests that all fail, on an export whose client accepted block sizes."""
    rng = random.Random(24)
    for turn in range(120):
        numbers = rng.choice(SIZES)
        records = list(sizes.begun(*numbers, size=SIZE))
        listed = {"base": [], "wide": []}
        count = rng.randint(1, 30)
        for number in range(1, count + 1):
            command, offset, length = rng.choice(list(NAMES)), rng.randrange(SIZE + 4), rng.randrange(14)
            offset, length = rng.choice(((offset, length), (offset // 8 * 8, length), (offset // 8 * 8, 8), (0, 0)))
            first = sum(len(data) for _, data in records) + 1
            asked = request(command, number, offset, length, bytes(length) if command == WRITE else b"")
            records += [asked, simple(number, error=22)]
            part = f", {bytes_of(length)} at {offset}" if offset or length else ""
            told = f"message: {NAMES[command]} #{number}, cookie {number:#x}{part}; bytes {first} to {first + len(asked[1]) - 1}"
            for profile, in_force in (("base", None), ("wide", numbers)):
                wrong = [f"wrong: {reason}" for reason in reasons(command, offset, length, in_force)]
                listed[profile] += [[told, *wrong]] if wrong else []
        order = room.put("random.ord", b"".join(b"%d\n" % number for number in range(1, count + 1)))
        capture = room.put("random.cap", text(records))
        for profile, lines in listed.items():
            wanted = [f"yes requests {count} answered {count} improper {len(lines)}"]
            if lines:
                wanted.append(f"improper: {len(lines)} of {count} request" + "s" * (count != 1))
            wanted += [line for one in lines[:MOST] for line in one]
            if len(lines) > MOST:
                wanted.append(f"improper: {len(lines) - MOST} more")
            found = room.run("explain", capture, order, "--start", "zero", "--profile", profile)
            tally.want(f"at random {turn}, {profile}", found, Ended(0, "".join(f"{line}\n" for line in wanted).encode(), b""))


def run(tally):
    with Room() as room:
        counted(tally, room)
        at_random(tally, room)
