#!/usr/bin/env python3
"""The memory that inputs take whose lengths lie: heads, extended ones too, that name 4294967295 bytes and send none or few, and an order
of ten million entries on a small capture.

Prints, of each, the bytes that came (the capture's text, its bytes, the order's text), the peak memory of `check` and what it
answered. The peak is to stay within 16 MiB and four times the bytes that came, of the session's bytes and of the order's text; an
order of single digits takes 17 times, since an entry has 32 bytes in memory where its line has two, and one of seven digits six
times. Memory below some 10 MiB is not seen: the Python that starts the program takes it.
"""

import sys
from itertools import chain
from pathlib import Path

sys.path.append(str(Path(__file__).resolve().parent.parent / "tests"))
from built import Room, Tally, build
from cases.extended_messages import BEGUN, asked, head_of, reads, spoken
from messages import (
    LIST, OFFSET_DATA, PAYLOAD_LEN, SERVER_NAME, TRIM, WRITE, answer, begun, chunk, client_flags, greeting, option, read, request,
    simple, text, write,
)

LENGTH, MANY = 2**32 - 1, 1_000_000
MIB = 2**20


def head(message):
    """A message whose length field, the last of its head, names 4294967295 bytes."""
    side, data = message
    return side, data[:-4] + LENGTH.to_bytes(4, "big")


def inputs():
    """Names, captures, orders and the lines that are wanted."""
    lying = head(option(3))
    flags = [greeting(), client_flags()]
    many = f"no at byte {22 + 16 * MANY}: Unfinished"
    yield "an option, no data", flags + [lying], b"", "no at byte 38: Unfinished"
    yield "a million such options", flags + [lying] * MANY, b"", many
    yield "a million such options, one record", flags + [(lying[0], lying[1] * MANY)], b"", many
    yield "an answer, no data", flags + [option(3), head(answer(LIST, SERVER_NAME))], b"", "no at byte 58: Unfinished"
    yield "a write, no data", begun() + [request(WRITE, 1, 0, LENGTH)], b"", "no at byte 124: Unfinished"
    reply, sent = [read(1, 0, LENGTH), simple(1)], [read(1, 0, 8), head(chunk(1, OFFSET_DATA))]
    yield "a reply to a read, no data", begun() + reply, b"1\n", "no at byte 140: Unfinished"
    yield "a chunk, no data", begun(True) + sent, b"1\n", "no at byte 180: Unfinished"
    small = begun() + [write(1, 0, b"\xab\xcd"), simple(1), read(2, 0, 4), simple(2, b"\xab\xcd\0\0")]
    yield "an order of 10^7 digits", small, b"1\n2\n" * 5_000_000, "no order entry 3: Twice"
    numbers = b"".join(b"%d\n" % (number + 1) for number in range(10_000_000))
    yield "an order of 10^7 numbers", small, numbers, "no order entry 3: NoSuchRequest"


def extended_inputs():
    """The same with extended headers."""
    write_head, trim_head = (asked(command, 1, 0, LENGTH, PAYLOAD_LEN) for command in (WRITE, TRIM))
    yield "an extended write, no data", [*BEGUN, write_head], b"", "no at byte 164: Unfinished"
    yield "an extended trim, no data", [*BEGUN, trim_head], b"", "no at byte 164: Unfinished"
    yield "an extended chunk, no data", BEGUN + spoken([reads(1, 0, 8), head_of(1, LENGTH)]), b"1\n", "no at byte 196: Unfinished"


def run(tally):
    print(f"{'input':36}{'text':>12}{'bytes':>12}{'order':>12}{'peak KiB':>10}{'most KiB':>10}")
    with Room() as room:
        told = chain(((*one, "base") for one in inputs()), ((*one, "wide") for one in extended_inputs()))
        for name, records, order, line, profile in told:
            capture, size = text(records), sum(len(data) for _, data in records)
            paths = room.put("capture", capture), room.put("order", order)
            said, status, peak = room.measured("check", *paths, "--start", "zero", "--profile", profile)
            times = 17 if "digits" in name else 6 if "numbers" in name else 4
            most = (16 * MIB + times * (size + len(order))) // 1024
            print(f"{name:36}{len(capture):12}{size:12}{len(order):12}{peak:10}{most:10}  {said.strip()}")
            tally.want(name, (status, said), (1, line + "\n"))
            tally.holds(f"{name}, memory", peak <= most, peak)


if __name__ == "__main__":
    build()
    told = Tally()
    run(told)
    print(f"{told.passed} passed, {told.failed} failed")
    raise SystemExit(told.failed != 0)
