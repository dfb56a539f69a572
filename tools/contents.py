#!/usr/bin/env python3
"""What a session leaves on its export, by a reader of its own that shares no code with the program: it says what
`nbdcheck contents` says, in its lines and with its exit statuses, and is what the tests compare that with.

    tools/contents.py CAPTURE [ORDER] [--start START] [--profile P] [--against IMAGE]

With an order: what this order leaves. Without one: what is left in every order that explains the session, as far as
arrivals, replies and later READs show it. It is slow: for sessions of some hundred requests.
"""

import argparse
import os
import re
import sys
from bisect import bisect
from itertools import islice, pairwise
from pathlib import Path

sys.path.append(str(Path(__file__).resolve().parent.parent / "tests"))
from messages import READ, TRIM, WRITE, WRITE_ZEROES, records_of
from models import served, transmitted
from models.served import ZEROES

YES, NO, FAULT = 0, 1, 3
# The largest export, and the piece at whose ends data is cut.
MOST, PIECE = 2**63 - 1, 32
NUMBER = "(0|[1-9][0-9]{0,18})"
SIZE = re.compile(f"size {NUMBER}")
RANGE = re.compile(f"(zero|unknown) {NUMBER} {NUMBER}")
DATA = re.compile(f"data {NUMBER} ((?:[0-9a-fA-F]{{2}})+)")


class BadLine(Exception):
    """A text is no contents text; this is the number of its first bad line."""


class Contents:
    """What is known of an export: its size, and ranges that cover it one behind the other, each with what stands in it:
    bytes, ZEROES, or None where that is unknown."""

    def __init__(self, size, ranges=()):
        self.size, self.ranges = size, [each for each in ranges if each[0] < each[1]]
        self.ends = [end for _, end, _ in self.ranges]

    def between(self, begin, end):
        """The parts of a range, and what stands in them."""
        for first, last, held in islice(self.ranges, bisect(self.ends, begin), None):
            if first >= end:
                return
            here, there = max(begin, first), min(end, last)
            yield here, there, held[here - first : there - first] if held else held

    def byte(self, offset):
        """The byte at an offset, or None."""
        ((_, _, held),) = self.between(offset, offset + 1)
        return held[0] if held else held

    def known(self):
        """How many bytes are known."""
        return sum(end - begin for begin, end, held in self.ranges if held is not None)


def contents_of(start, size):
    """A start as contents: `zero`, `unknown`, the bytes of an image, or contents."""
    if isinstance(start, Contents):
        return start
    held = {"zero": ZEROES, "unknown": None}[start] if isinstance(start, str) else start
    return Contents(size, [(0, size, held)])


# Texts.


def range_of(line, at):
    """The range that begins at an offset, as a line has it, and what stands in it."""
    if told := RANGE.fullmatch(line):
        begin, length, held = int(told[2]), int(told[3]), ZEROES if told[1] == "zero" else None
    elif told := DATA.fullmatch(line):
        begin, held = int(told[1]), bytes.fromhex(told[2])
        length = len(held)
    else:
        return None
    return (begin, begin + length, held) if begin == at and length > 0 else None


def parsed(text):
    """The contents of a text."""
    *lines, rest = text.decode("latin-1").split("\n")
    size, at, ranges = None, 0, []
    for number, line in enumerate(lines, 1):
        if not line or line.startswith("#"):
            continue
        if size is None:
            told = SIZE.fullmatch(line)
            size = int(told[1]) if told else MOST + 1
            if size > MOST:
                raise BadLine(number)
            continue
        told = range_of(line, at)
        if told is None or told[1] > size:
            raise BadLine(number)
        at = told[1]
        ranges.append(told)
    if rest or size is None or at < size:
        raise BadLine(len(lines) + 1)
    return Contents(size, ranges)


def pieces(contents):
    """Where the printed form begins and ends a piece, and what stands there: known bytes are cut at each multiple of
    32, and are ZEROES where all are zero."""
    stops = {0, contents.size}
    for begin, end, held in contents.ranges:
        first = begin - begin % PIECE
        if held:
            stops.update(range(first, end + PIECE, PIECE))
        # (of a long range of zeroes only the pieces at its ends have other bytes too)
        stops.update((first, first + PIECE, end - end % PIECE, end - end % PIECE + PIECE))
    both = pairwise(contents.ranges)
    stops.update(begin for (_, _, before), (begin, _, held) in both if (before is None) != (held is None))
    for begin, end in pairwise(sorted(stop for stop in stops if stop <= contents.size)):
        parts = list(contents.between(begin, end))
        if parts[0][2] is None:
            yield begin, end, None
        elif not any(held and any(held) for _, _, held in parts):
            yield begin, end, ZEROES
        else:
            yield begin, end, b"".join(held or bytes(last - first) for first, last, held in parts)


def printed(contents):
    """The one printed form."""
    joined = []
    for begin, end, held in pieces(contents):
        if joined and not held and joined[-1][2] == held:
            begin = joined.pop()[0]
        joined.append((begin, end, held))
    lines = [f"data {begin} {held.hex()}" if held else f"{'unknown' if held is None else 'zero'} {begin} {end - begin}"
             for begin, end, held in joined]
    return "".join(f"{line}\n" for line in [f"size {contents.size}", *lines]).encode()


# What a session leaves.


def changes_of(told):
    """The requests that change a byte of the export, with their numbers."""
    return [(number, one) for number, one in enumerate(told.sent, 1)
            if one.command in (WRITE, TRIM, WRITE_ZEROES) and one.offset < min(one.end, told.found.size)]


def left(told, order, start, profile):
    """What an order leaves that explains the session: what is found from behind its last entry. A change that no reply
    has finished may be carried out later: its range is unknown, whatever the order has of it."""
    service = served.Service(told.sent, told.found, order, start, profile)
    found = sorted(service.before(len(service.entries), 0, told.found.size), key=lambda each: each[0])
    for _, one in changes_of(told):
        if not one.has_ended:
            found = [part for begin, end, held in found for part in without(begin, end, held, one)]
    return Contents(told.found.size, found)


def without(begin, end, held, one):
    """A range, of which the part that a request changes is unknown."""
    here, there = min(max(begin, one.offset), end), max(min(end, one.end), begin)
    if here >= there:
        return [(begin, end, held)]
    before, behind = held and held[: here - begin], held and held[there - begin :]
    return [(begin, here, before), (here, there, None), (there, end, behind)]


def given(one):
    """The ranges that a READ was given, where it succeeded, with their bytes."""
    return [(begin, end, data) for begin, end, data in one.given if one.command == READ and one.succeeded()]


def sure(told, start):
    """What each order leaves that explains the session."""
    size, changes = told.found.size, changes_of(told)
    before = contents_of(start, size)
    reads = [(number, *part) for number, one in enumerate(told.sent, 1) for part in given(one)]
    stops = {0, size}
    stops.update(stop for _, one in changes for stop in (one.offset, one.end))
    stops.update(stop for _, begin, end, _ in reads for stop in (begin, end))
    found = []
    for begin, end in pairwise(sorted(stop for stop in stops if stop <= size)):
        here = [(number, one) for number, one in changes if one.holds(begin)]
        found += [(begin, end, sure_of(here, reads, begin, end))] if here else before.between(begin, end)
    return Contents(size, found)


def sure_of(changes, reads, begin, end):
    """What stands in a range that lies in each of these changes, and in a READ wholly or not at all. A change was not
    the last where its first reply began before another one came. Where several may have been, a READ tells that came
    behind the first reply to each."""
    if not all(one.has_ended for _, one in changes):
        return None
    newest = max(number for number, _ in changes)
    last = [one for _, one in changes if one.known >= newest]
    if any(one.command == TRIM or one.has_failed for one in last):
        return None
    if len(last) == 1:
        return last[0].data[begin - last[0].offset : end - last[0].offset] if last[0].command == WRITE else ZEROES
    for number, first, behind, data in reversed(reads):
        if first <= begin and end <= behind and number > max(one.known for _, one in changes):
            return ZEROES if data is None else data[begin - first : end - first]
    return None


def against(contents, image):
    """The status and the line where a file is compared, which is agreed with or not."""
    if len(image) != contents.size:
        return NO, f"no against {len(image)} size {contents.size}\n".encode()
    places = []
    for begin, end, held in contents.ranges:
        if held is not None and image[begin:end] != (held or bytes(end - begin)):
            places.append(begin + served.first_other(held, image[begin:end], end - begin))
    if places:
        return NO, f"no against offset {min(places)}\n".encode()
    return YES, f"agrees known {contents.known()} unknown {contents.size - contents.known()}\n".encode()


def said(records, order, start, profile, image=None):
    """The exit status and the standard output of `contents`; where no order is given it is None. The start is `zero`,
    `unknown`, the bytes of an image, or contents."""
    told = transmitted.judge(records, profile)
    line = served.refused(told, start) if order is None else served.line(records, order, start, profile)
    if line and line.startswith("no "):
        return NO, line.encode()
    if not told.found.entered:
        return NO, b"no export\n"
    found = sure(told, start) if order is None else left(told, order, start, profile)
    return (YES, printed(found)) if image is None else against(found, image)


# The command line.


def start_of(word):
    """The start that a word names."""
    kind, _, path = word.partition(":")
    if kind == "contents":
        return parsed(Path(path).read_bytes())
    return Path(path).read_bytes() if kind == "image" else word


def main():
    parser = argparse.ArgumentParser(description=__doc__, formatter_class=argparse.RawDescriptionHelpFormatter)
    for word in ("capture", "order"):
        parser.add_argument(word, nargs="?" if word == "order" else None)
    for word, value in (("start", "unknown"), ("profile", "base"), ("against", None)):
        parser.add_argument(f"--{word}", default=value)
    words = parser.parse_args()
    if words.against is not None and not os.access(words.against, os.R_OK):
        print("fault against read", file=sys.stderr)
        return FAULT
    records, order = records_of(Path(words.capture).read_bytes()), words.order and Path(words.order).read_text()
    try:
        start = start_of(words.start)
    except BadLine as line:
        print(f"fault contents line {line}", file=sys.stderr)
        return FAULT
    image = None if words.against is None else Path(words.against).read_bytes()
    status, out = said(records, order, start, words.profile, image)
    sys.stdout.buffer.write(out)
    return status


if __name__ == "__main__":
    sys.exit(main())
