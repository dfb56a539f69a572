"""`order` of sessions at random, against a search of all orders here: an order exactly where there is one, and each is judged here.

The search here is tried by itself on sessions by hand (`test_program.py search.by_hand`), and on those by chunk against the model of `check`
(`search.by_model`).
"""

import random
import re
from itertools import accumulate

from built import Room
from messages import BLOCK_STATUS, READ, TRIM, WRITE, WRITE_ZEROES, text
from models.served import line as model
from orders.small_sessions import BY_CHUNK, SHAPES, Asked, moments, session, session_by_chunk

SESSIONS, SESSIONS_BY_CHUNK = 400, 20_000
# How many orders at random are tried of a session that has none.
IN_VAIN = 200
ONE_REQUEST = re.compile(rb"no (content|status) request (\d+) offset (\d+) in any order\n")
MORE_REQUESTS = re.compile(rb"no order explains requests (\d+(?: \d+)+) at offset (\d+)\n")


def is_held(one, dues, served):
    """Whether a request that is not served was due before this one came."""
    return any(due <= one.number and number not in served for number, due in dues.items())


def order_at(asked, offset, byte):
    """An order of the requests of a byte, by their numbers; None where there is none: tries all."""
    acts = [(one, act) for one in asked if (act := one.act_at(offset)) is not None]
    dues = {one.number: due for one, _ in acts if (due := one.due_at(offset)) is not None}
    seen, left = set(), [((), byte)]
    while left:
        order, now = left.pop()
        served = frozenset(order)
        if (served, now) in seen:
            continue
        seen.add((served, now))
        if dues.keys() <= served:
            return order
        for one, (reads, own) in acts:
            if one.number in served or is_held(one, dues, served):
                continue
            if not reads:
                left.append(((*order, one.number), own))
            elif now is None or now == own:
                left.append(((*order, one.number), now))
    return None


def has_order(asked, offset, byte):
    return order_at(asked, offset, byte) is not None


def order_in_parts(asked, known):
    """An order of a session by chunk, of an order of each byte; None where a byte has none."""
    slots = []
    for offset, byte in enumerate(known):
        order = order_at(asked, offset, byte)
        if order is None:
            return None
        slots += [(slot, number, offset) for slot, number in zip(accumulate(order, max), order)]
    # (what does nothing is served when it comes)
    slots += [(one.number, one.number, at) for one in asked for at in one.due if at is None or one.act_at(at) is None]
    return written((number, at) for _, number, at in sorted(slots, key=lambda slot: slot[0]))


def written(services):
    """The text of an order: numbers, each with an offset, or None of a request without a byte."""
    return "".join(f"{number}\n" if at is None else f"{number} {at} 1\n" for number, at in services)


def entries(order):
    """The entries of an order text: the number of a request, and the offset and the length of a part, or None."""
    words = (list(map(int, line.split())) for line in order.decode().splitlines())
    return [(number, tuple(part) or None) for number, *part in words]


def explains(order, asked, start):
    """Whether an order serves each answered request whole, none late and none twice, and gives each READ its bytes."""
    held, left = list(start), {one.number: set(range(one.offset, one.offset + one.length)) for one in asked}
    for number, part in entries(order):
        one = asked[number - 1]
        offsets = range(one.offset, one.offset + one.length) if part is None else range(part[0], part[0] + part[1])
        if any(other.before is not None and other.before <= number and left[other.number] for other in asked):
            return False
        for offset in offsets:
            if offset not in left[number]:
                return False
            left[number].remove(offset)
            if act := one.act_at(offset):
                reads, own = act
                if reads and held[offset] not in (None, own):
                    return False
                if not reads:
                    held[offset] = own
    return not any(one.before is not None and left[one.number] for one in asked)


def refuted_alone(asked, known):
    """The least number of a request that reads a byte which it has in no order of the changes, and the least such offset; None where
    there is no such request."""
    changes = [one for one in asked if not one.reads]
    for one in asked:
        for offset, byte in enumerate(known):
            if one.reads and one.act_at(offset) is not None and not has_order([*changes, one], offset, byte):
                return one.number, offset
    return None


def refutes(line, asked, known):
    """Whether a line names requests that read, of which one has a wrong byte at its offset in each order: where one of them has it
    whatever the others read, the least of these and its least offset."""
    least = refuted_alone(asked, known)
    if alone := ONE_REQUEST.fullmatch(line):
        word, numbers, offset = alone[1], {int(alone[2])}, int(alone[3])
        if least != (min(numbers), offset) or (word == b"status") != (asked[min(numbers) - 1].command == BLOCK_STATUS):
            return False
    elif least is None and (several := MORE_REQUESTS.fullmatch(line)):
        numbers, offset = set(map(int, several[1].split())), int(several[2])
    else:
        return False
    acts = {one.number: one.act_at(offset) for one in asked}
    if not all(acts[number] is not None and acts[number][0] for number in numbers):
        return False
    return not has_order([one for one in asked if not one.reads or one.number in numbers], offset, known[offset])


def start_of(room, seed, size):
    """The start by its name, the bytes that the server has, and those that are known."""
    kind = seed % 3
    image = bytes(at % 2 for at in range(size)) if kind == 2 else bytes(size)
    name = ("unknown", "zero", f"image:{room.put('image', image)}")[kind]
    return name, bytearray(image), [None] * size if kind == 0 else list(image)


def counted(tally, room, label, words, order, asked, shape):
    """The line of `check` with an order that was found: the requests outside of the block sizes count as improper in `wide` alone."""
    answered, outside = sum(one.before is not None for one in asked), sum(one.is_outside(shape.block) for one in asked)
    profiles = {"wide": outside} if shape.statuses else {"wide": outside, "base": 0}
    for profile, count in profiles.items():
        found = room.run("check", words[0], room.put("order", order), *words[1:], "--profile", profile)
        line = f"yes requests {len(asked)} answered {answered} improper {count}\n".encode()
        tally.want(f"{label}: the line in {profile}", (found.status, found.out), (0, line))


def try_one(tally, room, name, shape, seed):
    """What sort of order was found, or the first two words of what was said in its place."""
    dice = random.Random(f"{name} {seed}")
    start, held, known = start_of(room, seed, shape.size)
    records, asked = session(dice, shape, held)
    words = [room.put("capture", text(records)), "--start", start]
    ended = room.run("order", *words, *(["--profile", "wide"] if shape.statuses or shape.block else []))
    has_all = all(has_order(asked, offset, known[offset]) for offset in range(shape.size))
    label = f"{name}, seed {seed}"
    tally.want(f"{label}: status", (ended.status, ended.err), (0 if has_all else 1, b""))
    if ended.status == 0:
        tally.holds(f"{label}: the order", explains(ended.out, asked, known), ended.out)
        if shape.block:
            counted(tally, room, label, words, ended.out, asked, shape)
    else:
        tally.holds(f"{label}: the line", refutes(ended.out, asked, known), ended.out)
    return sort_of(ended)


def sort_of(ended):
    if ended.status == 0:
        return "whole" if all(part is None for _, part in entries(ended.out)) else "in parts"
    return b" ".join(ended.out.split()[:2]).decode()


def by_chunk(room, seed):
    """The dice, the start by its name, the bytes that are known, the records and the requests of a session by chunk."""
    dice = random.Random(f"by chunk {seed}")
    start, held, known = start_of(room, seed, dice.randint(2, 4))
    return dice, start, known, *session_by_chunk(dice, BY_CHUNK, held)


def judged(records, order, start, known):
    """The first two words of the model's line."""
    return " ".join(model(records, order, bytes(known) if start.startswith("image") else start, "wide").split()[:2])


def try_by_chunk(tally, room, seed):
    """What `try_one` answers; here the model judges the order."""
    _, start, known, records, asked = by_chunk(room, seed)
    ended = room.run("order", room.put("capture", text(records)), "--start", start, "--profile", "wide")
    label = f"by chunk, seed {seed}"
    tally.want(f"{label}: status", (ended.status, ended.err), (0 if all(has_order(asked, *it) for it in enumerate(known)) else 1, b""))
    if ended.status == 0:
        tally.want(f"{label}: the order", judged(records, ended.out, start, known), "yes requests")
    else:
        tally.holds(f"{label}: the line", refutes(ended.out, asked, known), ended.out)
    return sort_of(ended)


def by_model(tally):
    """The search of sessions by chunk: to an order that it finds the model says yes, and where it finds none, to none at random."""
    with Room() as room:
        for seed in range(SESSIONS_BY_CHUNK):
            dice, start, known, records, asked = by_chunk(room, seed)
            order = order_in_parts(asked, known)
            orders = [written(moments(dice, BY_CHUNK, asked)) for _ in range(IN_VAIN)] if order is None else [order]
            found = {judged(records, one, start, known) for one in orders}
            wanted = {"no order", "no content", "no status"} if order is None else {"yes requests"}
            tally.holds(f"by chunk, seed {seed}, by the model", found <= wanted, found)


def asked_by_hand(*requests):
    """Requests of one byte: what they are, their byte, the number of the request before which they were answered, and what else."""
    return [Asked(number, command, 0, bytes([byte]), before=before, **how[0] if how else {})
            for number, (command, byte, before, *how) in enumerate(requests, 1)]


FAILS, TOLD = {"fails": True}, {"zeroes": [0]}
# One byte, which is 0 at first unless the name says so: the requests, and whether they have an order.
BY_HAND = {
    "a write that was answered before the status came": ([(WRITE, 1, 2), (BLOCK_STATUS, 0, 3, TOLD)], False),
    "a write that was under way together with it": ([(WRITE, 1, 3), (BLOCK_STATUS, 0, 3, TOLD)], True),
    "a write behind it": ([(BLOCK_STATUS, 0, 2, TOLD), (WRITE, 1, 3)], True),
    "a write that was not answered": ([(WRITE, 1, None), (BLOCK_STATUS, 0, 3, TOLD)], True),
    "a write that failed": ([(WRITE, 1, 2, FAILS), (BLOCK_STATUS, 0, 3, TOLD)], True),
    "a write of zero": ([(WRITE, 0, 2), (BLOCK_STATUS, 0, 3, TOLD)], True),
    "a TRIM behind a write": ([(WRITE, 1, 2), (TRIM, 0, 3), (BLOCK_STATUS, 0, 4, TOLD)], True),
    "a WRITE_ZEROES behind a write": ([(WRITE, 1, 2), (WRITE_ZEROES, 0, 3), (BLOCK_STATUS, 0, 4, TOLD)], True),
    "a status that does not call it zero": ([(WRITE, 1, 2), (BLOCK_STATUS, 0, 3)], True),
    "a status that fails": ([(WRITE, 1, 2), (BLOCK_STATUS, 0, 3, {**FAILS, **TOLD})], True),
    "a status that is not answered": ([(WRITE, 1, 2), (BLOCK_STATUS, 0, None, TOLD)], True),
    "a status between two READs of what was written":
        ([(WRITE, 1, 5), (READ, 1, 3), (BLOCK_STATUS, 0, 4, TOLD), (READ, 1, 5)], False),
    "the same, behind two writes":
        ([(WRITE, 1, 7), (WRITE, 1, 7), (WRITE_ZEROES, 0, 7), (READ, 1, 5), (BLOCK_STATUS, 0, 6, TOLD), (READ, 1, 7)], True),
    "a status before a READ, where nothing is known": ([(BLOCK_STATUS, 0, 2, TOLD), (READ, 7, 3)], True),
    "the byte is a 7": ([(BLOCK_STATUS, 0, 2, TOLD)], False),
}


def by_hand(tally):
    """The search of all orders and the judge of an order, on sessions by hand."""
    for name, (requests, has_one) in BY_HAND.items():
        asked, byte = asked_by_hand(*requests), None if "nothing is known" in name else 7 if "is a 7" in name else 0
        tally.want(f"by hand, {name}", has_order(asked, 0, byte), has_one)
        if len(asked) == 2 and asked[0].before == 2:
            tally.want(f"by hand, {name}, judged", explains(b"1\n2\n", asked, [byte]), has_one)
    wide = [Asked(1, WRITE, 0, b"\1\1", before=4), Asked(2, BLOCK_STATUS, 0, bytes(2), before=4, zeroes=[0, 1])]
    for order, is_right in ((b"2\n1\n", True), (b"1\n2\n", False), (b"2 0 1\n1\n2 1 1\n", False),
                            (b"2 1 1\n1 0 1\n2 0 1\n1 1 1\n", False), (b"2 0 1\n1 0 1\n2 1 1\n1 1 1\n", True), (b"2 0 1\n1\n", False)):
        tally.want(f"by hand, {order}", explains(order, wide, [0, 0]), is_right)
    late = asked_by_hand((WRITE, 1, 2), (BLOCK_STATUS, 0, 3, TOLD))
    for line, is_right in ((b"no status request 2 offset 0 in any order\n", True), (b"no content request 2 offset 0 in any order\n", False),
                           (b"no status request 1 offset 0 in any order\n", False), (b"no status request 2 offset 0\n", False)):
        tally.want(f"by hand, {line}", refutes(line, late, [0]), is_right)
    between = asked_by_hand(*BY_HAND["a status between two READs of what was written"][0])
    for numbers, is_right in ((b"2 3 4", True), (b"2 3", True), (b"3 4", False), (b"2 4", False)):
        tally.want(f"by hand, {numbers}", refutes(b"no order explains requests %s at offset 0\n" % numbers, between, [0]), is_right)


def run(tally):
    by_hand(tally)
    with Room() as room:
        for name, shape in SHAPES.items():
            answers = {try_one(tally, room, name, shape, seed) for seed in range(SESSIONS)}
            wanted = {"whole"} | ({"in parts"} if shape.size > 1 else set()) | ({"no content"} if shape.wrong else set())
            wanted |= {"no status"} if shape.wrong and shape.statuses else set()
            tally.want(f"{name}: kinds", answers - {"no order"}, wanted)
        answers = {try_by_chunk(tally, room, seed) for seed in range(SESSIONS_BY_CHUNK)}
        tally.want("by chunk: kinds", answers - {"no order"}, {"whole", "in parts", "no content", "no status"})
