"""Of sessions at random: how many bytes of a READ differ from what the export held, or are called zero and are not, as a model of its
own has them."""

import random

from built import Room
from explain.told import SELECTING, start_of, told_of
from messages import DONE, TRIM, WRITE, WRITE_ZEROES, begun, content, done, extents, hole, read, request, simple, status, text, write


# A session of an export: what its requests are (command, offset, bytes or length, whether it succeeded), and the pieces of its one READ
# (offset, bytes or the length of a hole), which is its last request and is asked for all of the export.
def drawn(rng, size):
    changes = []
    for _ in range(rng.randrange(12)):
        offset = rng.randrange(size)
        length = rng.randint(1, size - offset)
        command = rng.choice((WRITE, WRITE, WRITE, WRITE_ZEROES, TRIM))
        data = bytes(rng.choice(b"\0\1\2") for _ in range(length))
        changes.append((command, offset, data, rng.random() < 0.9))
    ends = sorted({0, size, *(rng.randint(0, size) for _ in range(rng.randrange(4)))})
    return changes, list(zip(ends, ends[1:]))


def bytes_left(changes, start):
    """What the export holds at last: a byte, or None where it is not known."""
    held = list(start)
    for command, offset, data, succeeded in changes:
        left = {WRITE: data, WRITE_ZEROES: bytes(len(data)), TRIM: [None] * len(data)}[command]
        held[offset : offset + len(data)] = left if succeeded else [None] * len(data)
    return held


def changing(changes):
    """The records of changes, each of which is answered before the next."""
    records = []
    for number, (command, offset, data, succeeded) in enumerate(changes, 1):
        payload = data if command == WRITE else b""
        records += [request(command, number, offset, len(data), payload), simple(number, error=0 if succeeded else 5)]
    return records


def session_of(changes, came, pieces, rng, size):
    """The records, in which each request is answered before the next; a piece of zeroes may be a hole."""
    records = [*begun(structured=True, size=size), *changing(changes)]
    number = len(changes) + 1
    records.append(read(number, 0, size))
    for first, end in rng.sample(pieces, len(pieces)):
        part = bytes(came[first:end])
        is_hole = not any(part) and rng.random() < 0.7
        records.append(hole(number, first, end - first) if is_hole else content(number, first, part))
    return [*records, done(number)], number


def row(values):
    return " ".join(".." if value is None else f"{value:02x}" for value in values)


def differing(tally, room):
    """Random sessions of one READ with wrong bytes: how many they are, the first and the last of them, and sixteen beside what the
    export held, as the session's own model has them."""
    rng = random.Random(20)
    for turn in range(150):
        size = rng.choice((1, 5, 17, 40))
        changes, pieces = drawn(rng, size)
        start, kept = rng.choice((("zero", [0] * size), ("unknown", [None] * size), (f"image:{size}", list(range(size)))))
        held = bytes_left(changes, kept)
        came = [value if value is not None and rng.random() < 0.7 else rng.randrange(3) for value in held]
        for first, end in pieces:
            if rng.random() < 0.4:
                came[first:end] = bytes(end - first)
        records, number = session_of(changes, came, pieces, rng, size)
        order = "".join(f"{k}\n" for k in range(1, number + 1)).encode()
        found = room.run("explain", room.put("drawn.cap", text(records)), room.put("drawn.ord", order), "--start",
                         start_of(room, "drawn", start))
        told = told_of(tally, f"differing {turn}", found)
        compared(tally, f"differing {turn}", told, bytes_of(size), "came    ", came, held)


def bytes_of(count):
    return f"{count} byte" + "s" * (count != 1)


def compared(tally, name, told, among, label, came, held):
    """What is told of the bytes that came, None where none did, beside what the export held, None where that is not known; the offset
    of the first that is wrong, if there is one."""
    wrong = [offset for offset, (one, other) in enumerate(zip(came, held)) if None not in (one, other) and one != other]
    if not wrong:
        tally.holds(f"{name}: yes", told.startswith("yes "), told)
        return None
    places = f"at offset {wrong[0]}" if len(wrong) == 1 else f"from offset {wrong[0]} to {wrong[-1]}"
    shown = slice(wrong[0], wrong[0] + 16)
    wanted = (f"\ndiffer: {len(wrong)} of {among}, {places}\nfrom offset {wrong[0]}:\n  {label} {row(came[shown])}\n"
              f"  expected {row(held[shown])}\n")
    tally.holds(f"{name}: {wanted}", wanted in told, told)
    return wrong[0]


def called_zero(tally, room):
    """The same of random sessions of one BLOCK_STATUS, of which the last descriptor may pass the range: the descriptor that calls the
    first wrong byte zero, and its places, too."""
    rng = random.Random(22)
    for turn in range(150):
        size = rng.choice((1, 5, 17, 40))
        changes, pieces = drawn(rng, size)
        start, kept = rng.choice((("zero", [0] * size), ("unknown", [None] * size), (f"image:{size}", list(range(size)))))
        first = rng.randrange(size)
        parts = [(max(at, first), end, rng.randrange(4)) for at, end in pieces if end > first]
        called = [None] * size
        for at, end, flags in parts:
            called[at:end] = [0 if flags & 2 else None] * (end - at)
        lengths = [(end - at, flags) for at, end, flags in parts]
        lengths[-1] = (lengths[-1][0] + rng.choice((0, 0, 3)), lengths[-1][1])
        number = len(changes) + 1
        records = [*SELECTING, *begun(size=size)[2:], *changing(changes), status(number, first, size - first)]
        before = sum(len(data) for _, data in records)
        records.append(extents(number, 1, *lengths, flags=DONE))
        order = "".join(f"{k}\n" for k in range(1, number + 1)).encode()
        found = room.run("explain", room.put("called.cap", text(records)), room.put("called.ord", order), "--start",
                         start_of(room, "called", start), "--profile", "wide")
        told = told_of(tally, f"called zero {turn}", found)
        among = f"{bytes_of(called.count(0))} called zero"
        wrong = compared(tally, f"called zero {turn}", told, among, "called  ", called, bytes_left(changes, kept))
        if wrong is None:
            continue
        place = next(k for k, (at, end, _) in enumerate(parts) if at <= wrong < end)
        at = before + 25 + 8 * place
        wanted = (f"\ncalled zero: offset {wrong}, in {bytes_of(lengths[place][0])} at {parts[place][0]}, descriptor {place + 1} of "
                  f"{len(parts)} of base:allocation (1); bytes {at} to {at + 7}\n")
        tally.holds(f"called zero {turn}: {wanted}", wanted in told, told)


def large(tally, room):
    """A READ of 100,000 bytes of which each other byte has a WRITE of its own, in as many pieces: the last byte is wrong."""
    count = 50000
    records = begun(structured=True, size=2 * count)
    for number in range(1, count + 1):
        records += [write(number, 2 * number - 2, b"\1"), simple(number)]
    number = count + 1
    records.append(read(number, 0, 2 * count))
    records += [content(number, 2 * k, b"\1\0" if k < count - 1 else b"\1\2") for k in range(count)]
    capture, order = room.put("large", text([*records, done(number)])), b"".join(b"%d\n" % k for k in range(1, number + 1))
    told = told_of(tally, "large", room.run("explain", capture, room.put("large.ord", order), "--start", "zero"))
    tally.holds("large", "\ndiffer: 1 of 100000 bytes, at offset 99999\n" in told, told)


def run(tally):
    with Room() as room:
        for part in (differing, called_zero, large):
            part(tally, room)
