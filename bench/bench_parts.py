#!/usr/bin/env python3
"""Times nbdcheck on orders that serve requests in parts of one byte.

    bench/bench_parts.py [-r RUNS] [-n SCALE] [--hexdec PROGRAM] [SHAPE ..]

One WRITE of n bytes, one READ of n bytes that is answered by one piece, one that is answered by n pieces of a byte, and a WRITE with
a READ of the same bytes, each byte of which is read after it was written. Each is served in ascending, descending and random order.
The columns are those of bench/bench_extents.py. Not part of the gate. With --list the shapes are listed.
"""
import random

from bench_extents import READ, WRITE, Shape, content, main, reply, request
from bench_large import ORDERS, TERABYTE

BYTES = random.Random(5).randbytes(1_000_000)


def one_write(count):
    yield request(WRITE, 1, 0, count, BYTES[:count]), [reply(1)]


def one_read(count):
    yield request(READ, 1, 0, count), [content(1, 0, bytes(count))]


def read_in_pieces(count):
    last = count - 1
    yield request(READ, 1, 0, count), [content(1, i, b"\0", i == last) for i in range(count)]


def write_and_read(count):
    """Both are asked before the first reply."""
    yield request(WRITE, 1, 0, count, BYTES[:count]), []
    yield request(READ, 2, 0, count), [content(2, 0, BYTES[:count]), done(1)]


def done(cookie):
    """The last chunk of a reply without content."""
    return bytes.fromhex("668e33ef00010000") + cookie.to_bytes(8, "big") + bytes(4)


def parts(arrange, requests):
    def entries(count):
        for offset in arrange(range(count)):
            for k in requests:
                yield f"{k} {offset} 1"

    return entries


def shape(count, session, requests, arrange, structured=True):
    return Shape(count, session, structured=structured, size=TERABYTE, entries=parts(arrange, requests))


SHAPES = {
    f"{name}_{order}": make(arrange)
    for order, arrange in ORDERS.items()
    for name, make in {
        "write": lambda arrange: shape(250_000, one_write, [1], arrange, False),
        "read": lambda arrange: shape(250_000, one_read, [1], arrange),
        "pieces": lambda arrange: shape(100_000, read_in_pieces, [1], arrange),
        "both": lambda arrange: shape(100_000, write_and_read, [1, 2], arrange),
    }.items()
}

if __name__ == "__main__":
    main(SHAPES, __doc__)
