#!/usr/bin/env python3
"""Times `nbdcheck order` on sessions of a server with threads, beside `nbdcheck check` with the order that it found.

    bench/bench_order.py [-r RUNS] [NAME ..]

In each session up to `window` requests are outstanding, half of them READs and half WRITEs. The server takes each at a random moment
between its arrival and its reply, and replies in random order. Of each shape in which many requests contend for few bytes there is
one more session with a stale byte: one READ returns at one offset what stood there before the last WRITE. In the last ones READs of
the whole export come back as holes while WRITEs of single bytes are outstanding, of which some leave another byte. Without NAME all shapes
are run; a NAME takes those whose names begin so. The columns: requests, seconds of `order`, the time over that of `check`, memory of
`order` at its peak, its exit status (0 an order, 1 a proved no, 5 gave up), entries that serve a part, and what it or `check` said.
The program is that of bench/bench_extents.py. Not part of the gate.
"""
import argparse
import os
import random
import subprocess
import tempfile
import typing

from bench_extents import BLOCK_STATUS, HOLE_AND_ZERO, READ, TOP, WRITE, negotiation, number, reply, request, timed

MIB = 1 << 20


class Task:
    def __init__(self, command, offset, data):
        self.command, self.offset, self.data, self.is_served = command, offset, data, False


class Shape(typing.NamedTuple):
    """A session of so many requests: blocks of `block` bytes, or, without one, ranges of 1 to `most` bytes anywhere, of so many
    different bytes. With `stale` one READ behind the half of them gets an old byte, with `lie` the byte 0 where there is another one.
    With `late` the first request is a READ of all that is answered last, with `lost` a WRITE of all that is never carried out."""

    count: int
    window: int
    size: int
    block: int = 0
    most: int = 0
    letters: int = 256
    stale: bool = False
    lie: bool = False
    late: bool = False
    lost: bool = False

    def draw_range(self, dice):
        if self.block:
            return dice.randrange(self.size // self.block) * self.block, self.block
        length = dice.randint(1, min(self.most, self.size))
        return dice.randrange(self.size - length + 1), length

    def draw_bytes(self, dice, length):
        return dice.randbytes(length) if self.letters == 256 else bytes(dice.randrange(self.letters) for _ in range(length))

    def records(self, dice):
        """Its lines behind the negotiation."""
        export, before, open_tasks, asked = bytearray(self.size), bytearray(self.size), {}, 0
        stale, lie = self.stale, self.lie
        if self.late:
            yield b"C", request(READ, self.count + 1, 0, self.size)
        if self.lost:
            yield b"C", request(WRITE, self.count + 2, 0, self.size, dice.randbytes(self.size))
        while asked < self.count or open_tasks:
            if asked < self.count and len(open_tasks) < self.window and (not open_tasks or dice.random() < 0.6):
                asked += 1
                offset, length = self.draw_range(dice)
                if dice.random() < 0.5:
                    open_tasks[asked] = Task(READ, offset, bytes(length))
                    yield b"C", request(READ, asked, offset, length)
                else:
                    open_tasks[asked] = Task(WRITE, offset, self.draw_bytes(dice, length))
                    yield b"C", request(WRITE, asked, offset, length, open_tasks[asked].data)
                continue
            cookie = dice.choice(list(open_tasks))
            task = open_tasks[cookie]
            end = task.offset + len(task.data)
            if not task.is_served:
                task.is_served = True
                if task.command == WRITE:
                    before[task.offset:end], export[task.offset:end] = export[task.offset:end], task.data
                else:
                    data = export[task.offset:end]
                    if stale and asked > self.count // 2 and data != before[task.offset:end]:
                        at = next(i for i in range(len(data)) if data[i] != before[task.offset + i])
                        data[at], stale = before[task.offset + at], False
                    if lie and asked > self.count // 2 and any(data):
                        data[next(i for i in range(len(data)) if data[i])], lie = 0, False
                    task.data = bytes(data)
            if dice.random() < 0.5:
                del open_tasks[cookie]
                yield b"S", reply(cookie, task.data if task.command == READ else b"")
        if self.late:
            yield b"S", reply(self.count + 1, bytes(self.size))

    def lines(self):
        yield from negotiation(self.size, False)
        yield from self.records(random.Random(self.count * 1000 + self.window))


class Holes(typing.NamedTuple):
    """WRITEs of single bytes, which are answered last, and between them as many READs of the whole export that come back as one hole.
    So many of the WRITEs leave 1 in place of 0, so that the READs were served before them."""

    count: int
    wrong: int

    def lines(self):
        yield from negotiation(MIB, True)
        for i in range(self.count):
            yield b"C", request(WRITE, i + 1, i * (MIB // self.count), 1, bytes([i < self.wrong]))
        for cookie in range(self.count + 1, 2 * self.count + 1):
            yield b"C", request(READ, cookie, 0, MIB)
            hole = number(0, 8) + number(MIB, 4)
            yield b"S", bytes.fromhex("668e33ef00010002") + number(cookie, 8) + number(len(hole), 4) + hole
        for i in range(self.count):
            yield b"S", done(i + 1)


class Statuses(typing.NamedTuple):
    """WRITEs of single zeroes, each answered before the next comes, and as many statuses that call all zero. Then one byte is written,
    and a last status calls that zero too. It is of the profile wide."""

    count: int

    def lines(self):
        yield from negotiation(MIB, True, True)
        half = self.count // 2
        for i in range(half):
            yield b"C", request(WRITE, i + 1, i * (MIB // half), 1, bytes(1))
            yield b"S", done(i + 1)
        for i in range(half, self.count - 1):
            yield from told_zero(i + 1)
        yield b"C", request(WRITE, self.count, MIB // 2, 1, b"\1")
        yield b"S", done(self.count)
        yield from told_zero(self.count + 1)


class Turns(typing.NamedTuple):
    """4 KiB of which every second byte was written, and READs of all of it while a WRITE to its first byte is outstanding, which none of
    them sees. Each READ meets 4,096 ranges: what a step costs at most is seen here."""

    count: int

    def lines(self):
        yield from negotiation(4096, False)
        for i in range(2048):
            yield b"C", request(WRITE, i, 2 * i + 1, 1, b"\1")
            yield b"S", reply(i)
        yield b"C", request(WRITE, 2048, 0, 1, b"\2")
        for i in range(self.count):
            yield b"C", request(READ, 2049 + i, 0, 4096)
            yield b"S", reply(2049 + i, b"\0\1" * 2048)
        yield b"S", reply(2048)


def done(cookie):
    return bytes.fromhex("668e33ef00010000") + number(cookie, 8) + number(0, 4)


def told_zero(cookie):
    """A status of all, which is called zero."""
    yield b"C", request(BLOCK_STATUS, cookie, 0, MIB)
    extent = number(1, 4) + number(MIB, 4) + number(HOLE_AND_ZERO, 4)
    yield b"S", bytes.fromhex("668e33ef00010005") + number(cookie, 8) + number(len(extent), 4) + extent


def growing(name, shape, counts):
    """Sessions of which each has more requests than the one before."""
    return {f"{name} {count}": shape._replace(count=count) for count in counts}


def with_stale(name, shape):
    return {name: shape, name + " stale": shape._replace(stale=True)}


LARGE, MIDDLE = (8_000, 16_000, 32_000, 64_000), (6_000, 12_000, 24_000, 64_000)
# Overlapping ranges of a good server: in each many requests contend.
WIDE = Shape(0, 64, 64 * 1024, most=4096)
SHAPES = {
    **with_stale("1 KiB 2000", Shape(2_000, 64, 1024, most=256)),
    **with_stale("1 KiB 5000", Shape(5_000, 64, 1024, most=256)),
    **with_stale("4 KiB 3000", Shape(3_000, 64, 4096, most=1024)),
    **with_stale("block", Shape(2_000, 128, 512, block=512)),
    **{key: shape for letters in (2, 4, 16, 256)
       for key, shape in with_stale(f"byte of {letters}", Shape(3_000, 256, 1, block=1, letters=letters)).items()},
    **{f"1 MiB {kind} {window}": Shape(100_000, window, MIB, **how)
       for kind, how in (("aligned", {"block": 512}), ("anywhere", {"most": 1024})) for window in (1, 16, 64)},
    **growing("hot byte, one lie,", Shape(0, 16, 1, block=1, lie=True), LARGE),
    **growing("hot block, one lie,", Shape(0, 16, 512, block=512, lie=True), LARGE),
    **growing("statuses", Statuses(0), LARGE),
    **growing("64 KiB", WIDE, MIDDLE),
    **growing("64 KiB, one lie,", WIDE._replace(lie=True), MIDDLE),
    **growing("64 KiB, one late,", WIDE._replace(late=True), MIDDLE),
    **growing("64 KiB, one lost,", WIDE._replace(lost=True), MIDDLE),
    **{f"holes {wrong}": Holes(1_000, wrong) for wrong in (1, 100, 1_000)},
    "turns": Turns(2_000),
}


def measure(program, folder, name, shape, runs):
    capture, order = os.path.join(folder, "session.cap"), os.path.join(folder, "session.ord")
    with open(capture, "wb") as file:
        for side, data in shape.lines():
            file.write(side + b" " + data.hex().encode() + b"\n")
    rest = ["--start", "zero"] + (["--profile", "wide"] if isinstance(shape, Statuses) else [])
    words = [program, "order", capture, *rest]
    took, memory, answer = timed(words, runs)
    with open(order, "wb") as file:
        status = subprocess.run(words, stdout=file, check=False).returncode
    over, said, parts = "", answer, 0
    if status == 0:
        checked, _, said = timed([program, "check", capture, order, *rest], runs)
        over = f"{took / checked:6.2f}"
        with open(order, "rb") as file:
            parts = sum(line.count(b" ") == 2 for line in file)
    print(f"{name:20}{shape.count:8} {took:8.3f} s {over:>6} {memory:8.1f} MiB {status:3} {parts:8} {said[:70]}", flush=True)


def main():
    parser = argparse.ArgumentParser(description=__doc__, formatter_class=argparse.RawDescriptionHelpFormatter)
    parser.add_argument("-r", dest="runs", type=int, default=1)
    parser.add_argument("names", nargs="*")
    options = parser.parse_args()
    program = os.environ.get("NBD", os.path.join(TOP, "crates/nbdcheck/out/nbdcheck"))
    with tempfile.TemporaryDirectory() as folder:
        for name, shape in SHAPES.items():
            if not options.names or any(name.startswith(one) for one in options.names):
                measure(program, folder, name, shape, options.runs)


if __name__ == "__main__":
    main()
