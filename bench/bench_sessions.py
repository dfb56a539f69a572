#!/usr/bin/env python3
"""Times nbdcheck on sessions of every kind, with zeroes and with random bytes, against a decoder of hex.

    bench/bench_sessions.py [-r RUNS] [-n SCALE] --hexdec PROGRAM [SHAPE ..]

Each shape is checked at n and 2n, each RUNS times (5); SCALE is n in per cent (100). A line has the best
processor time, r, which is that time over the one of `PROGRAM decode CAPTURE` in the same run, the memory
at its peak, and P, which is that memory over the bytes that the capture holds. PROGRAM is one that reads
the capture and decodes the hex of each line. Of memory 14 MiB are the program's own.

The program is crates/nbdcheck/out/nbdcheck, or what the environment names as NBD; `./nbdcheck` at the
top builds it. Not part of the gate. With --list the shapes are listed.
"""
import argparse
import multiprocessing
import os
import random
import sys
import tempfile

from bench_extents import READ, SIZE, TOP, WRITE, negotiation, number, reply, request, timed

FLUSH = 3
GO, LIST = 7, 3


def zeroes(length):
    return lambda: bytes(length)


def at_random(length):
    draw = random.Random(1)
    pool = draw.randbytes(SIZE) + draw.randbytes(length)
    return lambda: (lambda first: pool[first : first + length])(draw.randrange(SIZE))


def reads(length, outstanding, fill):
    """READs of so many bytes, so many of them sent before the first is answered."""

    def session(count):
        data = fill(length)
        for first in range(0, count, outstanding):
            group = range(first, min(first + outstanding, count))
            for i in group:
                yield b"C", request(READ, i + 1, i * length % (SIZE - length + 1), length)
            for i in group:
                yield b"S", reply(i + 1, data())

    return session


def writes(length, fill):
    def session(count):
        data = fill(length)
        for i in range(count):
            yield b"C", request(WRITE, i + 1, i * length % (SIZE - length + 1), length, data())
            yield b"S", reply(i + 1)

    return session


def flushes(arrange):
    """All FLUSHes are outstanding when the first is answered."""

    def session(count):
        for i in range(count):
            yield b"C", request(FLUSH, i + 1, 0, 0)
        for i in arrange(range(count)):
            yield b"S", reply(i + 1)

    return session


def shuffled(places):
    return random.Random(2).sample(places, len(places))


def one_byte_a_line(count):
    for side, data in reads(512, 1, zeroes)(count):
        for i in range(len(data)):
            yield side, data[i : i + 1]


def choice(option, data=b""):
    return b"IHAVEOPT" + number(option, 4) + number(len(data), 4) + data


def answer(option, kind, data=b""):
    return bytes.fromhex("0003e889045565a9") + number(option, 4) + number(kind, 4) + number(len(data), 4) + data


def listed(count):
    yield b"C", choice(LIST)
    for _ in range(count):
        yield b"S", answer(LIST, 2, number(4, 4) + b"disk")
    yield b"S", answer(LIST, 1)


def go_errors(count):
    for _ in range(count):
        yield b"C", choice(GO, bytes(6))
        yield b"S", answer(GO, 0x80000006)


def silent(line):
    def session(count):
        for _ in range(count):
            yield line, None

    return session


def requests_of(session):
    """What the order is to name: a request is a client's line of 28 bytes or more."""
    return session not in (listed, go_errors) and not session.__qualname__.startswith("silent")


# The count of the smaller session, and its lines after the negotiation; of `listed` and `go_errors` they
# stand before GO.
SHAPES = {
    **{
        f"read_{name}_{outstanding}_{kind}": (count, reads(length, outstanding, fill))
        for name, length, count in (("4k", 4096, 10000), ("512", 512, 50000), ("1", 1, 100000))
        for outstanding in (1, 32)
        for kind, fill in (("zeroes", zeroes), ("random", at_random))
    },
    **{
        f"write_{name}_{kind}": (count, writes(length, fill))
        for name, length, count in (("4k", 4096, 10000), ("64k", 65536, 1000))
        for kind, fill in (("zeroes", zeroes), ("random", at_random))
    },
    "outstanding": (100000, flushes(list)),
    "outstanding_reversed": (100000, flushes(lambda places: places[::-1])),
    "outstanding_shuffled": (100000, flushes(shuffled)),
    "one_byte_a_line": (4000, one_byte_a_line),
    "listed": (200000, listed),
    "go_errors": (200000, go_errors),
    "empty_records": (1000000, silent(b"C \n")),
    "comments": (1000000, silent(b"# a comment of some length\n")),
}


def generate(session, count, base, held):
    """Writes the capture and its order, and says how many bytes the capture holds."""
    total = 0
    lines = list(negotiation(SIZE, False))
    before, after = (lines[:2], lines[2:]) if session in (listed, go_errors) else (lines, [])
    with open(base + ".cap", "wb", buffering=1 << 20) as capture:
        for part in (before, session(count), after):
            for side, data in part:
                capture.write(side if data is None else side + b" " + data.hex().encode() + b"\n")
                total += len(data or b"")
    with open(base + ".ord", "w") as order:
        if requests_of(session):
            order.writelines(f"{k}\n" for k in range(1, count + 1))
    held.value = total


def measure(session, count, options, folder):
    base = os.path.join(folder, "session")
    # In a process of its own: what a process used before it began another counts as that one's memory.
    context = multiprocessing.get_context("fork")
    held = context.Value("q", 0)
    writer = context.Process(target=generate, args=(session, count, base, held))
    writer.start()
    writer.join()
    words = [options.program, "check", base + ".cap", base + ".ord", "--start", "unknown"]
    took, memory, wrote = timed(words, options.runs)
    decoded, _, _ = timed([options.hexdec, "decode", base + ".cap"], options.runs)
    return took, took / decoded, memory, memory * (1 << 20) / max(held.value, 1), wrote


def main():
    parser = argparse.ArgumentParser(description=__doc__, formatter_class=argparse.RawDescriptionHelpFormatter)
    parser.add_argument("-r", dest="runs", type=int, default=5)
    parser.add_argument("-n", dest="scale", type=int, default=100, help="n in per cent")
    parser.add_argument("--hexdec")
    parser.add_argument("--list", action="store_true")
    parser.add_argument("shapes", nargs="*", metavar="SHAPE")
    options = parser.parse_args()
    options.program = os.environ.get("NBD", os.path.join(TOP, "crates/nbdcheck/out/nbdcheck"))
    if options.list:
        print(*SHAPES, sep="\n")
        return
    unknown = [name for name in options.shapes if name not in SHAPES]
    if unknown:
        sys.exit(f"no such shape: {' '.join(unknown)}")
    if not options.hexdec:
        sys.exit("--hexdec PROGRAM is what the times are compared with")
    with tempfile.TemporaryDirectory() as folder:
        for name in options.shapes or SHAPES:
            smallest, session = SHAPES[name]
            for count in (smallest * options.scale // 100, 2 * smallest * options.scale // 100):
                took, ratio, memory, held, wrote = measure(session, count, options, folder)
                print(f"{name:22} {count:8} {took:7.3f} s r {ratio:5.2f} {memory:8.1f} MiB P {held:5.1f}  {wrote}", flush=True)


if __name__ == "__main__":
    main()
