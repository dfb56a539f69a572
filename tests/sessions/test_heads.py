"""Sessions with structured replies, said again with extended headers (extending.py): `check` has the same line of both in `wide`. They are
those of cases/, of examples/, and small ones at random, whose messages are cut in two, and between whose halves the other side speaks.

`test_program.py heads.by_model` asks the readers of models/ alone.
"""

import random
from pathlib import Path

from built import Room
from messages import longest_runs, one_by_one, text
from models import served
from models.extending import can_be_extended, extended, says_the_same
from orders.small_sessions import BY_CHUNK, SHAPES, session, session_by_chunk
from sessions import test_cases
from sessions.test_cuts import SESSIONS, examples

# So many sessions at random of each kind.
SMALL, SMALL_BY_CHUNK = 60, 1200


def known_sessions():
    """Sessions with their names, orders and starts."""
    tables = [test_cases.IN_PROFILES, *(table.CASES for table in test_cases.TABLES)]
    for case in (case for table in tables for case in table):
        if case.profile != "base" and not case.want.startswith("fault"):
            yield case.name, case.capture, case.order, case.start
    for one in (*SESSIONS, *examples()):
        start = Path(one.start[6:]).read_bytes() if one.start.startswith("image:") else one.start
        yield one.name, one.records, one.order.decode(), start


def sessions_at_random():
    """The same, served as they came."""
    for name, shape in SHAPES.items():
        for seed in range(SMALL):
            yield f"{name}, seed {seed}", *session(random.Random(f"{name} {seed}"), shape, bytearray(shape.size))
    for seed in range(SMALL_BY_CHUNK):
        yield f"by chunk, seed {seed}", *session_by_chunk(random.Random(f"by chunk {seed}"), BY_CHUNK, bytearray(3))


def sessions():
    yield from known_sessions()
    for name, records, asked in sessions_at_random():
        yield name, records, "".join(f"{one.number}\n" for one in asked), "zero"


def run(tally, has_program=True):
    count = 0
    with Room() as room:
        for name, records, order, start in sessions():
            if not (can_be_extended(records) and says_the_same(records)):
                continue
            line, count = served.line(records, order, start, "wide"), count + 1
            for is_flagged in (True, False):
                said = extended(records, is_flagged)
                tally.want(f"{name}, with extended headers: a reader", served.line(said, order, start, "wide"), line)
                if has_program:
                    judge(tally, room, f"{name}, with extended headers", said, order, start, line)
    tally.holds("sessions that were said again", count > 1000, count)


def judge(tally, room, name, records, order, start, line):
    """The line of `check`."""
    start = start if isinstance(start, str) else f"image:{room.put('image', start)}"
    for way in (one_by_one, longest_runs):
        tally.want(f"{name}, {way.__name__}", room.check(text(way(records)), order.encode(), start, profile="wide"), test_cases.ended(line))


def by_model(tally):
    run(tally, has_program=False)
