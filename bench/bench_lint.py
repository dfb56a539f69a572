#!/usr/bin/env python3
"""Times `nbdcheck lint` beside `nbdcheck show` on long sessions: bench/bench_lint.py [-n SCALE] [SHAPE ..]

Each shape is run at n, 2n and 4n; printed are the processor times of both in seconds, that of `lint` over that of `show`, its ratio to half
as many (2 and a little more where the time grows as n log n), and the memory at its peak in MB. SCALE is n in per cent (100). The program is
crates/nbdcheck/out/nbdcheck, or what the environment names as NBDCHECK.
"""

import argparse
import os
import struct
import subprocess
import sys
import tempfile
from pathlib import Path

TOP = Path(__file__).resolve().parent.parent
sys.path.insert(0, str(TOP / "tests"))

from messages import (
    CHUNKS, DONE, ERROR_OFFSET, GO, INFO, TRIM, ack, answer, asking, begun, chunk, content, context, error, extents, failed,
    go_data, granted, option, queries, read, request, setting, simple, status, text,
)

PROGRAM = os.environ.get("NBDCHECK", str(TOP / "crates/nbdcheck/out/nbdcheck"))
SIZE = 1 << 40


def served(count):
    """Requests, each answered before the next."""
    yield from begun(size=SIZE)
    for cookie in range(count):
        yield read(cookie, cookie * 512, 512)
        yield simple(cookie, bytes(512))


def failing(count):
    """The same, each with a breach of several rules."""
    yield from begun(structured=True, size=SIZE)
    for cookie in range(count):
        yield request(TRIM, cookie, SIZE, 0)
        yield failed(cookie, 12)


def outstanding(count):
    """All requests, and then all replies."""
    yield from begun(size=SIZE)
    for cookie in range(count):
        yield request(TRIM, cookie, 0, 512)
    for cookie in range(count):
        yield simple(cookie)


def pieces(count):
    """One READ, in pieces with errors between them."""
    yield from begun(structured=True, size=SIZE)
    yield read(1, 0, 2 * count)
    for place in range(count):
        yield content(1, 2 * place, b"a")
        yield chunk(1, ERROR_OFFSET, struct.pack(">IHQ", 5, 0, 2 * place + 1))
    yield chunk(1, 0, flags=DONE)


def options(count):
    """LISTs and INFOs of other exports, which are refused."""
    yield from CHUNKS
    for number in range(count):
        yield option(INFO, go_data(b"%d" % number))
        yield error(INFO, 0x80000006)


def listings(count):
    """LIST_META_CONTEXT for base:, again and again, of which each tells one context more."""
    yield from CHUNKS
    for number in range(count):
        yield option(9, queries(b"", b"base:"))
        yield context(0, b"base:%d" % (number % 40), 9)
        yield ack(9)


def named(count):
    """The same twice, of an export whose name has as many bytes as it has contexts."""
    yield from CHUNKS
    for _ in range(2):
        yield option(9, queries(b"x" * count, b"base:"))
        for number in range(count):
            yield context(0, b"base:%d" % number, 9)
        yield ack(9)


def selected(count):
    """One SET_META_CONTEXT with many queries, of which each gets its context."""
    yield from CHUNKS
    yield setting(*[b"base:%d" % number for number in range(count)])
    for number in range(count):
        yield context(number, b"base:%d" % number)
    yield ack(10)


def asked(count):
    """One GO that asks for many infos, and gets many."""
    yield from CHUNKS
    yield asking(*[number % 65535 for number in range(min(count, 65535))])
    for number in range(count):
        yield answer(GO, 3, struct.pack(">HI", 9, number))
    yield error(GO, 0x80000006)


def told(count):
    """Statuses of 64 extents."""
    yield from [*CHUNKS, *granted()]
    yield from begun(size=SIZE)[2:]
    for cookie in range(count):
        yield status(cookie, 0, 64 * 512)
        yield extents(cookie, 1, *[(512, number % 2) for number in range(64)], flags=DONE)


SHAPES = {"served": (250000, served), "failing": (100000, failing), "outstanding": (25000, outstanding), "pieces": (25000, pieces),
          "options": (25000, options), "listings": (25000, listings), "named": (25000, named), "selected": (25000, selected),
          "asked": (16000, asked), "told": (10000, told)}


def timed(*words):
    """The processor seconds of a run, and its peak of memory in MB."""
    with open(os.devnull, "wb") as nothing:
        child = subprocess.Popen([PROGRAM, *words], stdout=nothing)
        _, status, used = os.wait4(child.pid, 0)
    return used.ru_utime + used.ru_stime, used.ru_maxrss / 1024


def main():
    words = argparse.ArgumentParser(description=__doc__, formatter_class=argparse.RawDescriptionHelpFormatter)
    words.add_argument("-n", type=int, default=100)
    words.add_argument("shapes", nargs="*", default=list(SHAPES))
    given = words.parse_args()
    print("shape            n     show     lint  lint/show  ratio    MB of show, lint")
    for name in given.shapes:
        first, make = SHAPES[name]
        before = None
        for times in (1, 2, 4):
            count = first * times * given.n // 100
            with tempfile.NamedTemporaryFile(dir="/dev/shm") as capture:
                for record in make(count):
                    capture.write(text([record]))
                capture.flush()
                shown, shown_room = timed("show", capture.name, "--profile", "wide")
                linted, room = timed("lint", capture.name, "--level", "hint")
            ratio = f"{linted / before:5.2f}" if before else "     "
            print(f"{name:11} {count:7} {shown:8.2f} {linted:8.2f} {linted / shown:9.2f}   {ratio}  {shown_room:8.0f} {room:8.0f}", flush=True)
            before = linted


if __name__ == "__main__":
    main()
