#!/usr/bin/env python3
"""Times nbdcheck on sessions on large exports, and on READs that are answered in many pieces.

    bench/bench_large.py [-r RUNS] [-n SCALE] [--hexdec PROGRAM] [SHAPE ..]

The scattered shapes are n requests of 4 KiB at random places of an export of 1 TiB. The others are a
READ of 4 GiB - 1, the most that a request can ask for: n of them, each answered by one hole, or one that is
answered by n holes, or by n bytes with a hole after each, in ascending, descending and random order.
The columns are those of bench/bench_extents.py. Not part of the gate. With --list the shapes are listed.
"""
import random

from bench_extents import PAGE, READ, TRIM, WRITE, WRITE_ZEROES, Shape, content, hole, main, reply, request

TERABYTE = 1 << 40
SLOTS = TERABYTE // len(PAGE)
LONGEST = (1 << 32) - 1
ZEROES = bytes(len(PAGE))


def scattered_writes(count):
    draw = random.Random(1)
    for i in range(count):
        offset = draw.randrange(SLOTS) * len(PAGE)
        yield request(WRITE, i + 1, offset, len(PAGE), PAGE), [reply(i + 1)]


def scattered_reads(count):
    draw = random.Random(2)
    for i in range(count):
        offset = draw.randrange(SLOTS) * len(PAGE)
        yield request(READ, i + 1, offset, len(PAGE)), [reply(i + 1, ZEROES)]


def scattered_requests(count):
    """A WRITE, a READ of its page, and then a TRIM or a WRITE_ZEROES of another."""
    draw = random.Random(3)
    offset = 0
    for i in range(count):
        if i % 3 != 1:
            offset = draw.randrange(SLOTS) * len(PAGE)
        if i % 3 == 0:
            yield request(WRITE, i + 1, offset, len(PAGE), PAGE), [reply(i + 1)]
        elif i % 3 == 1:
            yield request(READ, i + 1, offset, len(PAGE)), [reply(i + 1, PAGE)]
        else:
            yield request(TRIM if i % 2 else WRITE_ZEROES, i + 1, offset, len(PAGE)), [reply(i + 1)]


def one_hole(count):
    for i in range(count):
        yield request(READ, i + 1, 0, LONGEST), [hole(i + 1, 0, LONGEST)]


def ascending(places):
    return places


def descending(places):
    return places[::-1]


def at_random(places):
    return random.Random(4).sample(places, len(places))


def pieces(arrange, has_bytes):
    """One READ in as many holes, or in as many bytes with a hole after each."""

    def session(count):
        length = LONGEST // count
        ends = [*range(length, length * count, length), LONGEST]
        places = []
        for first, end in zip([0, *ends], ends):
            if has_bytes:
                places += [(first, None), (first + 1, end - first - 1)]
            else:
                places.append((first, end - first))
        answers = []
        for i, (offset, size) in enumerate(arrange(places)):
            done = i == len(places) - 1
            answers.append(content(1, offset, bytes(1), done) if size is None else hole(1, offset, size, done))
        yield request(READ, 1, 0, LONGEST), answers

    return session


ORDERS = {"asc": ascending, "desc": descending, "rand": at_random}

SHAPES = {
    "writes": Shape(5000, scattered_writes, size=TERABYTE),
    "reads": Shape(5000, scattered_reads, size=TERABYTE),
    "requests": Shape(5000, scattered_requests, size=TERABYTE),
    "one_hole": Shape(50000, one_hole, structured=True, size=TERABYTE),
    **{
        f"{name}_{order}": Shape(100000, pieces(arrange, name == "bytes"), structured=True, size=TERABYTE)
        for name in ("holes", "bytes")
        for order, arrange in ORDERS.items()
    },
}

if __name__ == "__main__":
    main(SHAPES, __doc__)
