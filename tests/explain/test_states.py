"""The states of `no order explains` on sessions at random: they show what they are said to show, as a reader with a pencil can see."""

import random
import re

from built import Room
from explain.orderless import alternating
from explain.told import SELECTED, start_of, told_of
from messages import BLOCK_STATUS, DONE, READ, TRIM, WRITE, WRITE_ZEROES, begun, chunk, extents, request, simple, text

PARTY = re.compile(r"(?m)^(change|read): \w+ #(\d+), .*; served after byte (\d+) (?:and before byte (\d+)|or never); "
                   r"(?:left|got) (?:([0-9a-f]{2})\b|a byte)")
STATE = re.compile(r"(?m)^state (\d+): (.*) served(?:; next (.*))?$")
ONE = re.compile(r"[A-Z_]+ #(\d+) \(([0-9a-f]{2}|any)\)")
# So many states are told.
MOST = 24


class Pencil:
    """What a reader of `no order explains` has: each request's byte, and who was served before whom."""

    def __init__(self, told):
        start = re.search(r"(?m)^start: ([0-9a-f]{2}) ", told)
        self.start = start[1] if start else "any"
        parties = [(kind, int(number), int(after), int(before or 0), byte or "any") for kind, number, after, before, byte in PARTY.findall(told)]
        self.bytes = {number: byte for _, number, _, _, byte in parties}
        self.changes = [number for kind, number, *_ in parties if kind == "change"]
        self.reads = [number for kind, number, *_ in parties if kind == "read"]
        self.order = {(one, other) for _, one, _, before, _ in parties for _, other, after, _, _ in parties if before and before < after}

    def next(self, served):
        """The requests that are not served, and before which no other one is that is not."""
        left = [one for one in (*self.changes, *self.reads) if one not in served]
        return [one for one in left if not any((other, one) in self.order for other in left)]

    def may_hold(self, served, byte):
        """Whether no READ could be served where the offset holds this byte."""
        return not any(byte in ("any", self.bytes[one]) for one in self.next(served) if one in self.reads)

    def is_served(self, trail):
        """Whether these can be served one after the other, and each READ gets its byte."""
        byte = self.start
        for at, one in enumerate(trail):
            if one not in self.next(trail[:at]) or one in self.reads and byte not in ("any", self.bytes[one]):
                return False
            byte = self.bytes[one] if one in self.changes else byte
        return True

    def leads(self, served, change, other):
        """Whether a change leads from what is served to another state."""
        changes, reads = set(self.changes), set(self.reads)
        return (set(other) & changes == set(served) & changes | {change} and set(served) & reads <= set(other)
                and self.may_hold(other, self.bytes[change]))


def numbers_in(pencil, words):
    """The requests in these words, each with its byte."""
    found = [(int(number), byte) for number, byte in ONE.findall(words or "")]
    return [number if pencil.bytes.get(number) == byte else (number, byte) for number, byte in found]


def follow(tally, name, told):
    """Sees that what is told shows that no order serves all READs; how many states there are."""
    pencil = Pencil(told)
    states = [(int(number), numbers_in(pencil, words), numbers_in(pencil, following)) for number, words, following in STATE.findall(told)]
    more = re.search(r"(?m)^states: (\d+) more$", told)
    trails = [trail for _, trail, _ in states]
    tally.want(f"{name}: numbers", [number for number, _, _ in states], list(range(1, len(states) + 1)))
    tally.want(f"{name}: how many", (len(states) <= MOST, bool(more) <= (len(states) == MOST), bool(states)), (True, True, True))
    tally.holds(f"{name}: the first", not set(trails[0]) & set(pencil.changes) and pencil.may_hold(trails[0], pencil.start), told)
    for number, trail, following in states:
        tally.holds(f"{name}: state {number} is come to", pencil.is_served(trail), told)
        tally.want(f"{name}: next to state {number}", following, pencil.next(trail))
        tally.holds(f"{name}: state {number} is not the last", set(pencil.reads) - set(trail), told)
        for change in following if not more else ():
            if change in pencil.changes:
                is_led = any(pencil.leads(trail, change, other) for other in trails)
                tally.holds(f"{name}: state {number} by #{change}", is_led, told)
    return len(states)


def refuted(tally, room):
    """Of sessions at random that no order explains: their states show it."""
    rng, counts = random.Random(21), []
    for turn in range(600):
        start = rng.choice(("zero", "zero", "unknown"))
        found = room.run("explain", room.put("race.cap", text(race(rng, rng.randint(3, 6)))), "--start", start)
        told = told_of(tally, f"refuted {turn}", found)
        if told.startswith("no order explains"):
            counts.append(follow(tally, f"refuted {turn}", told))
    tally.holds("refuted: some by several states", len(counts) > 10 and max(counts) > 4, counts)
    ends = {(False, True): 0, (True, False): 0, (True, True): 0}
    for turn in range(2000):
        start = rng.choice(("zero", "image:8", "unknown"))
        capture = room.put("race.cap", text(race(rng, rng.randint(3, 6), is_wide=True)))
        found = room.run("explain", capture, "--start", start_of(room, "race", start), "--profile", "wide")
        told = told_of(tally, f"refuted with statuses {turn}", found)
        if told.startswith("no order explains"):
            kinds = tuple(f"\n{kind}: " in told for kind in ("read", "status"))
            ends[kinds] += 1
            rules = tuple(f"\nsection: proto.md, \"{section}\"\n" in told for section in ("Request types", "Metadata querying"))
            tally.want(f"refuted with statuses {turn}, rules", rules, kinds)
            follow(tally, f"refuted with statuses {turn}", as_reads(tally, f"refuted with statuses {turn}", told))
    tally.holds("refuted with statuses: some are of both", ends[True, True] > 5, ends)
    # Of more than 24 states the first ones; of more than 64 requests none.
    for count, states in ((6, 13), (12, MOST), (15, MOST), (16, 0)):
        name = f"refuted, {4 * count + 1} requests"
        told = told_of(tally, name, room.run("explain", room.put("long.cap", text(alternating(count))), "--start", "zero"))
        unknown, more = "\nstates: not told of more than 64 requests\n", f"\nstates: {2 * count + 1 - MOST} more\n"
        tally.want(f"{name}: how much is told", (unknown in told, more in told), (not states, states == MOST))
        if states:
            tally.want(f"{name}: how many states", follow(tally, name, told), states)


def as_reads(tally, name, told):
    """What is told, with each BLOCK_STATUS that calls the offset zero as a READ that got 00. Each is called by its own type."""
    types = {number: kind for kind, number in re.findall(r"(?m)^(?:change|read|status): (\w+) #(\d+)", told)}
    for line in told.split("\n"):
        named = re.findall(r"([A-Z_]+) #(\d+)", line)
        tally.want(f"{name}: {line}, types", [(types[number], number) for _, number in named], named)
    tally.holds(f"{name}: what each did", not re.search(r"READ #\d+[^#\n]* called it|BLOCK_STATUS #\d+[^#\n]* got", told), told)
    return told.replace("\nstatus: ", "\nread: ").replace("called it zero", "got 00").replace("BLOCK_STATUS", "READ")


def race(rng, count, is_wide=False):
    """Changes of one byte at one offset and READs of it, in flight together, whose READs get any byte; some changes fail, and
    some requests are never answered. In the profile wide some of the READs are BLOCK_STATUSes, which call the byte zero or not."""
    records, waiting = list(SELECTED) if is_wide else begun(), []
    at = int(is_wide)
    for number in range(1, 2 * count + 1):
        command = rng.choice((READ, READ, READ, WRITE, WRITE, WRITE, rng.choice((WRITE, WRITE_ZEROES, TRIM))))
        value = bytes([rng.randint(0, 2)])
        if is_wide and command == READ:
            command = rng.choice((READ, BLOCK_STATUS))
        records.append(request(command, number, at, 1, value if command == WRITE else b""))
        error = 5 if command not in (READ, BLOCK_STATUS) and rng.random() < 0.05 else 0
        waiting.append(reply_to(command, number, at, value, error, is_wide))
        while len(waiting) > 2 or waiting and rng.random() < 0.4:
            records.append(waiting.pop(rng.randrange(len(waiting))))
    return records + (waiting if rng.random() < 0.7 else [])


def reply_to(command, number, at, value, error, is_wide):
    """The one message of the reply to a request of one byte, which got this byte; a BLOCK_STATUS calls 00 zero."""
    if command == BLOCK_STATUS:
        return extents(number, 1, (1, 2 * (value == b"\0")), flags=DONE)
    if command == READ and is_wide:
        return chunk(number, 1, at.to_bytes(8, "big") + value, flags=DONE)
    return simple(number, value if command == READ else b"", error)


def run(tally):
    with Room() as room:
        refuted(tally, room)
