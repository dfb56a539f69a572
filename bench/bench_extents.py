#!/usr/bin/env python3
"""Times nbdcheck on sessions that change and read the contents of an export by ranges, and ask for statuses of them.

    bench/bench_extents.py [-r RUNS] [-n SCALE] [--hexdec PROGRAM] [SHAPE ..]

Each shape is a session of n requests on an export of 1 MiB. It is checked at n, 2n and 4n requests,
each RUNS times (3), and the best processor time is printed, with the time for each request, the
memory at its peak and the ratio to half as many: 2 and a little more where the time grows as n log n. SCALE is n in per cent (100).
PROGRAM, where one is given, is run as `PROGRAM decode CAPTURE`; a program that only reads the
capture's hex is the yardstick, and `/hex` is the time over its time.

`statuses` is n requests of BLOCK_STATUS of 4 KiB, `statuses_written` and `statuses_zeroed` are n of the whole export behind 100,000
changes, which n does not count. They are checked in the profile wide.

The program is crates/nbdcheck/out/nbdcheck, or what the environment names as NBD; `./nbdcheck` at the
top builds it. Not part of the gate. With --list the shapes are listed.
"""
import argparse
import multiprocessing
import os
import random
import subprocess
import sys
import tempfile
import typing
from pathlib import Path

TOP = Path(__file__).resolve().parent.parent
SIZE = 1 << 20
FLAGS = 0x006D
READ, WRITE, TRIM, WRITE_ZEROES, BLOCK_STATUS = 0, 1, 4, 6, 7
ALLOCATION = b"base:allocation"
HOLE_AND_ZERO = 3
BYTE = b"x"
PAGE = b"x" * 4096


def number(value, length):
    return value.to_bytes(length, "big")


class Shape(typing.NamedTuple):
    """The count of its smallest session, and its session of so many: a request and its reply messages, one
    after the other; and the lines of its order, where it is not that of the requests. `contexts` puts base:allocation
    in force."""

    count: int
    session: typing.Callable
    structured: bool = False
    start: str = "zero"
    size: int = SIZE
    entries: typing.Callable = None
    contexts: bool = False


def negotiation(size, structured, contexts=False):
    """Lines up to transmission, with structured replies and the context base:allocation, whose id is 1, where they are wanted."""
    option, answer = b"IHAVEOPT", bytes.fromhex("0003e889045565a9")
    info = number(0, 2) + number(size, 8) + number(FLAGS, 2)
    yield b"S", b"NBDMAGIC" + option + number(3, 2)
    yield b"C", number(3, 4)
    if structured:
        yield b"C", option + number(8, 4) + number(0, 4)
        yield b"S", answer + number(8, 4) + number(1, 4) + number(0, 4)
    if contexts:
        query = bytes(4) + number(1, 4) + number(len(ALLOCATION), 4) + ALLOCATION
        yield b"C", option + number(10, 4) + number(len(query), 4) + query
        yield b"S", answer + number(10, 4) + number(4, 4) + number(4 + len(ALLOCATION), 4) + number(1, 4) + ALLOCATION
        yield b"S", answer + number(10, 4) + number(1, 4) + number(0, 4)
    yield b"C", option + number(7, 4) + number(6, 4) + bytes(6)
    yield b"S", answer + number(7, 4) + number(3, 4) + number(12, 4) + info
    yield b"S", answer + number(7, 4) + number(1, 4) + number(0, 4)


def request(command, cookie, offset, length, payload=b""):
    head = number(0x25609513, 4) + number(0, 2) + number(command, 2) + number(cookie, 8)
    return head + number(offset, 8) + number(length, 4) + payload


def reply(cookie, data=b""):
    return number(0x67446698, 4) + number(0, 4) + number(cookie, 8) + data


def chunk(cookie, kind, data, done):
    head = number(0x668E33EF, 4) + number(done, 2) + number(kind, 2) + number(cookie, 8)
    return head + number(len(data), 4) + data


def content(cookie, offset, data, done=True):
    return chunk(cookie, 1, number(offset, 8) + data, done)


def hole(cookie, offset, length, done=True):
    return chunk(cookie, 2, number(offset, 8) + number(length, 4), done)


def told(cookie, length, flags):
    """A status of one extent."""
    return chunk(cookie, 5, number(1, 4) + number(length, 4) + number(flags, 4), True)


def ascending(i, count, slots):
    return i


def descending(i, count, slots):
    return count - 1 - i


def scattered(i, count, slots, draw=random.Random(1)):
    return draw.randrange(slots)


def splitting(i, count, slots):
    """Every second place, from the middle to both sides: each write splits a range."""
    return slots // 2 + (i if i % 2 else -i)


def writes(place, data):
    slots = SIZE // len(data)

    def session(count):
        for i in range(count):
            offset = place(i, count, slots) % slots * len(data)
            yield request(WRITE, i + 1, offset, len(data), data), [reply(i + 1)]

    return session


def whole(command):
    def session(count):
        for i in range(count):
            yield request(command, i + 1, 0, SIZE), [reply(i + 1)]

    return session


def alternating(count):
    """WRITE_ZEROES and TRIM of the whole export, with a write of one byte behind each."""
    draw = random.Random(2)
    for i in range(count):
        if i % 2:
            yield request(WRITE, i + 1, draw.randrange(SIZE), 1, BYTE), [reply(i + 1)]
        else:
            yield request(TRIM if i % 4 else WRITE_ZEROES, i + 1, 0, SIZE), [reply(i + 1)]


def holes(count):
    for i in range(count):
        yield request(READ, i + 1, 0, SIZE), [hole(i + 1, 0, SIZE)]


def holes_over(command, data=b""):
    """Changes of every second byte, and then as many READs of the whole export as a hole."""

    def session(count):
        changes = count // 2
        for i in range(count):
            if i < changes:
                yield request(command, i + 1, 2 * i % SIZE, 1, data), [reply(i + 1)]
            else:
                yield request(READ, i + 1, 0, SIZE), [hole(i + 1, 0, SIZE)]

    return session


def holes_between(count):
    """WRITEs of a byte 0 anywhere, and a READ of the whole export as a hole behind each."""
    draw = random.Random(4)
    for i in range(count):
        if i % 2:
            yield request(READ, i + 1, 0, SIZE), [hole(i + 1, 0, SIZE)]
        else:
            yield request(WRITE, i + 1, draw.randrange(SIZE), 1, b"\0"), [reply(i + 1)]


def reads(data, first=None):
    """READs of the whole export, behind a write of one byte where there is one."""

    def session(count):
        for i in range(count):
            if first is not None and i == 0:
                yield request(WRITE, 1, first, 1, BYTE), [reply(1)]
            else:
                yield request(READ, i + 1, 0, SIZE), [reply(i + 1, data)]

    return session


def statuses(count):
    """One behind the other, of 4 KiB each, of which every second is called zero."""
    for i in range(count):
        offset = i * len(PAGE) % SIZE
        yield request(BLOCK_STATUS, i + 1, offset, len(PAGE)), [told(i + 1, len(PAGE), HOLE_AND_ZERO * (i % 2))]


RANGES = 100000


def statuses_over(commands, data, flags):
    """Changes of 100,000 bytes, which do not touch, and then statuses of the whole export, each of one extent."""

    def session(count):
        for i in range(RANGES):
            yield request(commands[i % len(commands)], i + 1, i * (SIZE // RANGES), 1, data), [reply(i + 1)]
        for i in range(RANGES, RANGES + count):
            yield request(BLOCK_STATUS, i + 1, 0, SIZE), [told(i + 1, SIZE, flags)]

    return session


MIDDLE = SIZE // 2
WRITTEN = bytes(MIDDLE) + BYTE + bytes(SIZE - MIDDLE - 1)
IMAGE = random.Random(3).randbytes(SIZE)
PLACES = {
    "ascending": ascending,
    "descending": descending,
    "scattered": scattered,
    "splitting": splitting,
}

SHAPES = {
    **{f"{name}_1": Shape(100000, writes(place, BYTE)) for name, place in PLACES.items()},
    **{f"{name}_4k": Shape(5000, writes(place, PAGE)) for name, place in PLACES.items()},
    "alternating": Shape(50000, alternating),
    "whole_zeroes": Shape(50000, whole(WRITE_ZEROES)),
    "whole_trim": Shape(50000, whole(TRIM)),
    "whole_holes": Shape(50000, holes, structured=True),
    "holes_zeroed": Shape(50000, holes_over(WRITE_ZEROES), structured=True, start="unknown"),
    "holes_written": Shape(50000, holes_over(WRITE, b"\0"), structured=True, start="unknown"),
    "holes_trimmed": Shape(50000, holes_over(TRIM), structured=True),
    "holes_between": Shape(50000, holes_between, structured=True, start="unknown"),
    "holes_image": Shape(50000, holes, structured=True, start="zeroes"),
    "statuses": Shape(250000, statuses, structured=True, contexts=True),
    "statuses_written": Shape(1000, statuses_over([WRITE], BYTE, 0), structured=True, contexts=True),
    "statuses_zeroed": Shape(1000, statuses_over([TRIM, WRITE_ZEROES], b"", HOLE_AND_ZERO), structured=True, contexts=True),
    "read_zeroes": Shape(16, reads(bytes(SIZE))),
    "read_one_byte": Shape(16, reads(WRITTEN, MIDDLE)),
    "read_image": Shape(16, reads(IMAGE), start="image"),
}


def generate(shape, count, base):
    asked = 0
    with open(base + ".cap", "wb") as capture:
        for side, data in negotiation(shape.size, shape.structured, shape.contexts):
            capture.write(side + b" " + data.hex().encode() + b"\n")
        for question, answers in shape.session(count):
            asked += 1
            capture.write(b"C " + question.hex().encode() + b"\n")
            for answer in answers:
                capture.write(b"S " + answer.hex().encode() + b"\n")
    with open(base + ".ord", "w") as order:
        lines = shape.entries(count) if shape.entries else range(1, asked + 1)
        order.writelines(f"{line}\n" for line in lines)
    with open(base + ".img", "wb") as image:
        image.write(bytes(SIZE) if shape.start == "zeroes" else IMAGE)


def timed(words, runs):
    """The best processor time of some runs, the most memory in MiB, and what the last one wrote."""
    best, most = None, 0
    for _ in range(runs):
        with tempfile.TemporaryFile() as out:
            process = subprocess.Popen(words, stdout=out, stderr=subprocess.STDOUT)
            _, _, usage = os.wait4(process.pid, 0)
            out.seek(0)
            wrote = out.read().decode(errors="replace")
        took = usage.ru_utime + usage.ru_stime
        best = took if best is None else min(best, took)
        most = max(most, usage.ru_maxrss / 1024)
    return best, most, wrote.strip().split("\n")[0]


def measure(shape, count, options, folder):
    base = os.path.join(folder, "session")
    # In a process of its own: what a process used before it began another counts as that one's memory.
    writer = multiprocessing.get_context("fork").Process(target=generate, args=(shape, count, base))
    writer.start()
    writer.join()
    start = f"image:{base}.img" if shape.start in ("image", "zeroes") else shape.start
    words = [options.program, "check", base + ".cap", base + ".ord", "--start", start]
    words += ["--profile", "wide"] if shape.contexts else []
    took, memory, answer = timed(words, options.runs)
    hex_took = None
    if options.hexdec:
        hex_took, _, _ = timed([options.hexdec, "decode", base + ".cap"], options.runs)
    return took, hex_took, memory, answer


def report(name, shape, options, folder):
    before = None
    smallest = max(shape.count * options.scale // 100, 2)
    for count in (smallest, 2 * smallest, 4 * smallest):
        took, hex_took, memory, answer = measure(shape, count, options, folder)
        ratio = f"{took / before:5.2f}" if before else "    -"
        over = f"{took / hex_took:6.2f} /hex" if hex_took else ""
        each = f"{took / count * 1e6:9.2f} us"
        print(f"{name:16} {count:8} {took:7.3f} s {each} {ratio} {over} {memory:8.1f} MiB  {answer}", flush=True)
        before = took


def main(shapes, doc):
    parser = argparse.ArgumentParser(description=doc, formatter_class=argparse.RawDescriptionHelpFormatter)
    parser.add_argument("-r", dest="runs", type=int, default=3)
    parser.add_argument("-n", dest="scale", type=int, default=100, help="n in per cent")
    parser.add_argument("--hexdec")
    parser.add_argument("--list", action="store_true")
    parser.add_argument("shapes", nargs="*", metavar="SHAPE")
    options = parser.parse_args()
    options.program = os.environ.get("NBD", os.path.join(TOP, "crates/nbdcheck/out/nbdcheck"))
    unknown = [name for name in options.shapes if name not in shapes]
    if unknown:
        sys.exit(f"no such shape: {' '.join(unknown)}")
    if options.list:
        print(*shapes, sep="\n")
        return
    with tempfile.TemporaryDirectory() as folder:
        for name in options.shapes or shapes:
            report(name, shapes[name], options, folder)


if __name__ == "__main__":
    main(SHAPES, __doc__)
