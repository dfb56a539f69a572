"""Sessions with metadata contexts, with block sizes, and with extended headers, beside what cases/ says of them: where their messages end,
what readers of their own say (models/), and recorded sessions in both profiles. The readers are tried on the other cases too.
"""

import re
from pathlib import Path

from built import TOP, Room
from cases import damaged, errors, extended, extended_places, offers, outside, sizes, statuses, zeroes
from cases.contexts import ONE_CONTEXT, STATUS_TABLE, TWO_CONTEXTS
from cases.selections import NEGOTIATION_TABLE
from messages import (
    ALLOCATION, DEPTH, REQ_ONE, ack, allocation, asking, context, failed, front, listing, longest_runs, one_by_one, records_of,
    setting, status, text, told_last,
)
from messages import damaged as inverted
from messages import sizes as block_sizes
from models import served, transmitted
from sessions import test_cases

WITH_CONTEXTS = STATUS_TABLE + NEGOTIATION_TABLE + statuses.TABLE + zeroes.TABLE
WITH_SIZES = sizes.TABLE + outside.TABLE
TABLE = WITH_CONTEXTS + WITH_SIZES + errors.TABLE + extended.TABLE
PROFILES = "base", "wide"
CHUNK, REQUEST, ANNOUNCED = bytes.fromhex("668e33ef"), bytes.fromhex("25609513"), bytes.fromhex("0000000e0003")
EXTENDED = bytes.fromhex("21e41c71"), bytes.fromhex("6e8a278c")
# Words that stand in the bytes below.
WORDS = {
    "IHAVEOPT": "49484156454f5054", "ANSWER": "0003e889045565a9", "ALLOCATION": "626173653a616c6c6f636174696f6e",
    "DEPTH": "71656d753a616c6c6f636174696f6e2d6465707468", "REQUEST": "25609513", "CHUNK": "668e33ef",
    "EXTENDED_REQUEST": "21e41c71", "EXTENDED_CHUNK": "6e8a278c",
}
# Messages, and their bytes by hand.
BYTES = [
    (setting(ALLOCATION), "IHAVEOPT 0000000a 0000001b 00000000 00000001 0000000f ALLOCATION"),
    (allocation(1), "ANSWER 0000000a 00000004 00000013 00000001 ALLOCATION"),
    (ack(), "ANSWER 0000000a 00000001 00000000"),
    (setting(), "IHAVEOPT 0000000a 00000008 00000000 00000000"),
    (setting(ALLOCATION, DEPTH), "IHAVEOPT 0000000a 00000034 00000000 00000002 0000000f ALLOCATION 00000015 DEPTH"),
    (context(2, DEPTH), "ANSWER 0000000a 00000004 00000019 00000002 DEPTH"),
    (listing(b"base:"), "IHAVEOPT 00000009 00000011 00000000 00000001 00000005 626173653a"),
    (status(1, 0, 8), "REQUEST 0000 0007 0000000000000001 0000000000000000 00000008"),
    (status(1, 0, 4, REQ_ONE), "REQUEST 0008 0007 0000000000000001 0000000000000000 00000004"),
    (told_last(1, 1, (8, 3)), "CHUNK 0001 0005 0000000000000001 0000000c 00000001 00000008 00000003"),
    (told_last(1, 1, (3, 0), (5, 2)),
     "CHUNK 0001 0005 0000000000000001 00000014 00000001 00000003 00000000 00000005 00000002"),
    (failed(1), "CHUNK 0001 8001 0000000000000001 00000006 00000016 0000"),
    (asking(3), "IHAVEOPT 00000007 00000008 00000000 0001 0003"),
    (block_sizes(2, 512, 4), "ANSWER 00000007 00000003 0000000e 0003 00000002 00000200 00000004"),
    *extended_places.BYTES,
]
# Where messages of sessions end, by hand: the last of these is the session's end.
ENDS = {
    "a hole that reads as zeroes": (18, 22, 38, 58, 101, 140, 160, 182, 214, 234, 262, 294),
    "the 7 stands behind the zeroes": (262, 302),
    "zeroes after a write": (264, 292, 324, 340),
    "a write was answered before the status was asked": (264, 280, 308, 340),
    "zeroes after a TRIM": (280, 308, 324, 352, 384),
    "a status makes no byte known": (262, 294, 322, 358),
    "the last extent passes the range": (262, 302),
    "the second extent begins where the first ends": (262, 302),
    "the first extent begins where the range does": (262, 302),
    "extents that are shorter than the range": (262, 294),
    "a READ is answered by a status": (262, 294),
    "one extent": (262, 294),
    "REQ_ONE on a READ": (262, 288),
    "bit 1 of another context is no zero": (126, 165, 210, 230, 304, 332, 364, 396),
    "a status that fails is not compared": (364, 390),
    "a chunk without content ends the reply": (364, 396, 416),
    "a status of no bytes fails": (262, 288),
    "a status of no bytes succeeds without a context": (262, 282),
    "a status of no bytes has no zeroes": (262, 294),
    "one extent of a status of no bytes": (262, 294),
    "a status past all exports fails behind its extents": (262, 302, 328),
    "no context was asked for, and a status is answered": (160, 192),
    "the contexts are of another export, and a status is answered": (105, 144, 164, 238, 266, 298),
    "a second selection asks for nothing": (160, 184, 204, 278, 306, 338),
    "a second selection fails": (160, 203, 242, 262, 336, 364, 396),
    "the context of a second selection": (336, 364, 396),
    "what is listed is not selected": (91, 130, 150, 224, 252, 284),
    "an export that EXPORT_NAME names": (105, 144, 164, 184, 194, 222, 254),
    "a context without structured replies": (22, 65, 104, 124),
    "a context without structured replies, and an error answers a status": (198, 226, 242),
    "structured replies behind the context": (140, 160, 234, 262, 294),
    "the server refuses contexts": (65, 85),
    "a list of contexts": (65, 104, 124),
    "a context, though no query asked for one": (58, 82, 102),
    "one id for two contexts": (126, 165, 210),
    "a list of all contexts, each with the id 0": (82, 121, 166, 186),
    "a byte behind the query": (102, 141),
    "the name of an export in place of a context": (101, 121),
    "served before the write": (262, 291, 323, 339),
    "a part of a status that passes the export": (262, 288),
    "sizes: a READ inside": (18, 22, 46, 80, 112, 132, 160, 180),
    "sizes: a READ that is improper and outside succeeds": (160, 178),
    "sizes: GO that did not ask is told them": (44, 78, 110, 130, 158, 175),
    "sizes: INFO is told them, and GO does not ask": (46, 80, 112, 132, 154, 186, 206, 234, 251),
    "sizes: INFO is told them, and EXPORT_NAME enters": (132, 148, 158, 186, 203),
    "sizes: a GO fails that was told them, and the next is not": (46, 80, 100, 124, 156, 176, 204, 221),
    "sizes: the second announcement counts": (46, 80, 114, 146, 166, 194, 211),
    "sizes: 2 512 5 are announced": (46, 80, 112, 132),
    "sizes: a BLOCK_STATUS inside": (160, 184, 218, 250, 270, 298, 330),
}


def ends_of(records):
    places, at = [], 0
    for _, data in records:
        at += len(data)
        places.append(at)
    return places


def messages(tally):
    for (_, data), words in BYTES:
        digits = "".join(WORDS.get(word, word) for word in words.split())
        tally.want(words, data.hex(), digits)
    tally.want("one context", ends_of(ONE_CONTEXT)[-1], 234)
    tally.want("two contexts", ends_of(TWO_CONTEXTS)[-1], 304)
    known = {told.name: ends_of(told.records) for told in TABLE}
    tally.want("names", len(known), len(TABLE))
    ends = ENDS | {name: places for name, places in extended_places.ENDS.items() if name in known}
    tally.want("ends of sessions with extended headers", len(ends), len(ENDS) + len(extended_places.PLACES))
    for name, places in ends.items():
        tally.holds(f"{name}: ends", set(places) <= set(known[name]) and places[-1] == known[name][-1], known[name])


def place_of(line):
    return int(line.split()[3].rstrip(":")) if line.startswith("no at byte") else None


def want(tally, name, line, records, profile, order="1\n", start="zero"):
    """A line against the readers."""
    if line.startswith("fault order"):
        found = transmitted.line(records, profile)
        tally.holds(f"{name}, {profile}: {line}", found.startswith("yes"), found)
    else:
        tally.want(f"{name}, {profile}", served.line(records, order, start, profile), line)


def differ_by_sizes(base, wide):
    """Whether two lines differ by what block sizes may change: an announcement is refused, or more requests count as improper."""
    counts = [re.fullmatch(r"(yes requests \d+ answered \d+) improper (\d+)\n", line) for line in (base, wide)]
    if not all(counts):
        return wide.endswith(": BadReplyPayload\n") and (place_of(base) or place_of(wide)) >= place_of(wide)
    return counts[0][1] == counts[1][1] and int(counts[0][2]) < int(counts[1][2])


def differ_by_errors(base, wide):
    """Whether base refuses a chunk of an error that it does not know, and wide does not refuse it."""
    return base.endswith(": BadChunk\n") and place_of(wide) != place_of(base)


def may_differ(told):
    """Whether the two lines of a case differ by what the profiles say otherwise."""
    if told in errors.TABLE:
        return differ_by_errors(told.base, told.wide)
    return told in WITH_SIZES and differ_by_sizes(told.base, told.wide)


def lines(tally):
    """What the table says against what the readers say, and against itself."""
    for told in TABLE:
        for way in (list, one_by_one, longest_runs):
            for profile, line in zip(PROFILES, (told.base, told.wide)):
                want(tally, told.name, line, way(told.records), profile, told.order, told.start)
        # Where base follows the session, wide says the same, but of block sizes and of errors that base does not know.
        if "OutOfProfile" not in told.base and not may_differ(told):
            tally.want(f"{told.name}: both profiles", told.base, told.wide)
        for line in (told.base, told.wide):
            tally.holds(f"{told.name}: {line}", (place_of(line) or 0) <= ends_of(told.records)[-1])


def readers(tally):
    """The readers against the other cases, which have no context: they say the same in both profiles."""
    for profile in PROFILES:
        for table in test_cases.TABLES:
            for case in table.CASES + table.REFUSED:
                want(tally, case.name, case.want, case.capture, profile, case.order, case.start)
        for name, capture, is_proper in offers.offers():
            line = f"yes requests 1 answered 1 improper {0 if is_proper else 1}\n"
            want(tally, name, line, capture, profile)
        session = damaged.SESSION
        for count in range(191):
            is_open = damaged.ORDER, f"no at byte {count}: Unfinished\n"
            order, line, whole = damaged.ENDS.get(count, (*is_open, is_open[1]))
            want(tally, f"{count} bytes", line, front(session, count), profile, order)
            want(tally, f"{count} bytes, the whole order", whole, front(session, count), profile, damaged.ORDER)
        for place, line in damaged.DAMAGED.items():
            want(tally, f"byte {place} damaged", line, inverted(session, place - 1), profile, damaged.ORDER)


def numbers_in(data):
    """Where numbers of 32 bits stand in a message that a mistake is made in, and which ones may stand there: in a status chunk the id, a
    length, or flags; in an announcement the block sizes; in a request the low half of the offset, and the length; with an extended header
    each half of the offset and of the length."""
    if data[:4] == CHUNK and data[6:8] == b"\0\5":
        return range(20, len(data), 4), (0, 1, 2, 4, 2**31, 2**32 - 4, 2**32 - 1)
    if data[16:22] == ANNOUNCED:
        return (22, 26, 30), (0, 1, 2, 3, 4, 256, 511, 512, 513, 1024, 65535, 65536, 2**17, 2**31, 2**32 - 2, 2**32 - 1)
    if data[:4] in EXTENDED:
        return (16, 20, 24, 28), (0, 1, 2, 4, 8, 2**31, 2**32 - 1)
    if data[:4] == REQUEST:
        return (20, 24), (0, 1, 2, 3, 4, 5, 6, 7, 8, 9, 2**32 - 2, 2**32 - 1)
    return (), ()


def numbers_at_their_ends(records):
    """Sessions in which one number of a message is another."""
    for number, (side, data) in enumerate(records):
        places, values = numbers_in(data)
        for at in places:
            for value in values:
                changed = data[:at] + value.to_bytes(4, "big") + data[at + 4 :]
                yield f"{value} at {at} of {number}", [*records[:number], (side, changed), *records[number + 1 :]]


def mistakes(records):
    """A session as it stands, cut behind each byte, with each byte inverted, and with other numbers."""
    size = ends_of(records)[-1]
    yield "as it stands", records
    for count in range(size):
        yield f"{count} bytes", front(records, count)
        yield f"byte {count + 1} damaged", inverted(records, count)
    yield from numbers_at_their_ends(records)


def damages(tally, room):
    """A session with statuses, one with block sizes, and one with extended headers, with a mistake: `check` in `wide`, in two ways of
    cutting it, against the readers."""
    for word, session, order in (("statuses", statuses.DAMAGED, statuses.MIXED_ORDER), ("sizes", outside.DAMAGED, outside.ORDER),
                                 ("extended headers", extended.DAMAGED, extended.DAMAGED_ORDER)):
        for name, records in mistakes(session):
            found = room.check(text(records), order.encode(), "zero", profile="wide")
            tally.want(f"{word}, {name}", found.out.decode(), served.line(records, order, "zero", "wide"))
            again = room.check(text(one_by_one(records)), order.encode(), "zero", profile="wide")
            tally.want(f"{word}, {name}, byte by byte", again, found)


def wanted(capture, is_whole):
    """The lines of a recorded session in `base` and in `wide`. Of the sessions of another folder NAME.out is the one in `wide`."""
    line, told = capture.with_suffix(".out").read_text(), capture.with_suffix(".wide")
    if not is_whole:
        return line, told.read_text() if told.exists() else line
    base = transmitted.line(records_of(capture.read_bytes()), "base")
    is_of_bytes = base.startswith("no") or line.startswith(("yes", "no at byte"))
    return base if is_of_bytes else line, line


def start_of(capture):
    """The start of a recorded session by its name; unknown bytes where its image is not there."""
    kind, _, image = capture.with_suffix(".start").read_text().strip().partition(":")
    if not image:
        return kind
    return f"image:{capture.parent / image}" if (capture.parent / image).exists() else "unknown"


def bytes_of(start):
    """The same as the reader takes it."""
    return Path(start.removeprefix("image:")).read_bytes() if start.startswith("image:") else start


def recorded(tally, room, folder, is_whole):
    for capture in sorted(Path(folder).glob("*.cap")):
        start = start_of(capture)
        base, wide = wanted(capture, is_whole)
        order, data = capture.with_suffix(".ord").read_bytes(), capture.read_bytes()
        for profile, line in (("wide", wide), ("base", base), (None, base)):
            name = f"{capture.name}, --profile {profile}"
            for form, text in test_cases.forms(data).items():
                if form in ("", ", as longest runs") or len(data) < 10000:
                    tally.want(f"{name}{form}", room.check(text, order, start, profile=profile), test_cases.ended(line))


def examples(tally):
    """The lines of the sessions of examples/ against what the readers say."""
    for capture in sorted((TOP / "examples").glob("*.cap")):
        records, lines_of = records_of(capture.read_bytes()), wanted(capture, is_whole=False)
        order, start = capture.with_suffix(".ord").read_text(), bytes_of(start_of(capture))
        for profile, line in zip(PROFILES, lines_of):
            want(tally, capture.name, line, records, profile, order, start)
        is_told = capture.with_suffix(".wide").exists()
        tally.want(f"{capture.name}: has a line of its own in wide", is_told, lines_of[0] != lines_of[1])


def run(tally):
    for part in (messages, lines, readers, examples):
        part(tally)
    with Room() as room:
        recorded(tally, room, TOP / "examples", is_whole=False)
        damages(tally, room)
