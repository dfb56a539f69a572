"""Sessions at random that are cut where no request is outstanding: the whole, and its two parts, of which the second
has a negotiation of its own that leads to the same."""

import random
from collections import namedtuple
from itertools import pairwise

from contents import Contents
from messages import front, longest_runs
from models import negotiated
from models.extending import extended
from models.served import ZEROES
from orders.small_sessions import BY_CHUNK, PAST, SMALL, session, session_by_chunk

# A session in two parts: their records and those of the whole, the entries of the order of the whole, each a number
# with an offset and a length, or None; how many requests the first part has, the start, and the profile.
Split = namedtuple("Split", "first second whole entries count start profile")
SIZES = 2, 4, 9, 40, 70
WIDE = SMALL._replace(statuses=20)
SHAPES = {"base": SMALL._replace(past=10), "statuses": WIDE, "by chunk": BY_CHUNK, "extended": WIDE,
          "extended by chunk": BY_CHUNK}
# In a hundred, how many orders are changed, so that most of them explain nothing.
CHANGED = 30


def start_of(dice, held, size):
    """The start, of which an image and contents have what is held."""
    kind = dice.choice(("zero", "unknown", "image", "contents"))
    if kind in ("zero", "unknown"):
        return kind
    held[:] = bytes(dice.choice((0, 0, 1, 2)) for _ in held)
    if kind == "image":
        return bytes(held[:size])
    stops = [0, *sorted(dice.sample(range(1, size), min(2, size - 1))), size]
    ranges = [(begin, end, bytes(held[begin:end])) for begin, end in pairwise(stops)]
    return Contents(size, [(*ends, dice.choice((None, data if any(data) else ZEROES))) for *ends, data in ranges])


def entry(one, begin, length, size):
    """An entry of what was served, within the export; of all that a request has, its number alone."""
    if begin is None or (begin, length) == (one.offset, one.length):
        return one.number, None
    return one.number, (begin, min(begin + length, size) - begin)


def part(dice, name, size, held, shape):
    """The records of a part, its requests, and the entries of an order."""
    log, is_by_chunk = [], "by chunk" in name
    records, asked = (session_by_chunk if is_by_chunk else session)(dice, shape, held, log)
    entries = [entry(asked[number - 1], begin, length, size) for number, begin, length in log]
    return records, asked, [each for each in entries if each[1] is None or each[1][1] > 0]


def is_answered(asked):
    return all(one.before is not None for one in asked)


def negotiation(records):
    """What stands before the transmission, as longest runs, and how many bytes that is."""
    behind = negotiated.read(records, "wide").behind
    return longest_runs(front(records, behind)), behind


def rest(records, count):
    """The records behind so many bytes."""
    found = []
    for side, data in records:
        found.append((side, data[count:]))
        count = max(0, count - len(data))
    return found


def changed(dice, entries):
    """An order with a mistake, mostly."""
    entries, at, other = list(entries), dice.randrange(len(entries)), dice.randrange(len(entries))
    how = dice.randrange(3)
    if how == 0:
        entries[at], entries[other] = entries[other], entries[at]
    elif how == 1:
        del entries[at]
    else:
        entries.insert(other, entries[at])
    return entries


def split(name, seed):
    """A session at random, in two parts."""
    dice, shape = random.Random(f"split {name} {seed}"), SHAPES[name]
    size = dice.choice(SIZES[:2] if "by chunk" in name else SIZES)
    is_past, shape = shape.past, shape._replace(size=size, requests=dice.randint(2, shape.requests))
    held = bytearray(size + (PAST if is_past else 0))
    start = start_of(dice, held, size)
    begun, first = bytes(held), None
    while first is None or not is_answered(first[1]):
        held[:] = begun
        first = part(dice, name, size, held, shape._replace(unanswered=0))
    between, second = bytes(held), None
    while second is None or negotiation(first[0])[0] != negotiation(second[0])[0]:
        held[:] = between
        second = part(dice, name, size, held, shape)
    return joined(dice, name, first, second, start)


def joined(dice, name, first, second, start):
    count = len(first[1])
    entries = [*first[2], *((count + number, range_) for number, range_ in second[2])]
    if entries and dice.randrange(100) < CHANGED:
        entries = changed(dice, entries)
    parts = [first[0], second[0], first[0] + rest(second[0], negotiation(second[0])[1])]
    if name.startswith("extended") and negotiated.read(first[0], "wide").structured:
        parts = [extended(records) for records in parts]
    return Split(*parts, entries, count, start, "base" if name == "base" else "wide")


def order(entries, before=0):
    """The text of an order, of requests behind so many."""
    lines = ([number - before] if part is None else [number - before, *part] for number, part in entries)
    return "".join(f"{' '.join(map(str, line))}\n" for line in lines)
