"""`contents`, what a session leaves on its export, and the start `contents:PATH`, against the reader of
tools/contents.py, which shares no code with the program: the sessions and texts of contents.jsonl, small sessions with
all their orders, sessions that are cut in two (splits.py), recorded ones that came one after another (chains.tar.xz),
and files.

`contents.many` asks 3,000 small sessions and 20,000 in two parts. `contents.by_model` and `contents.many_by_model` ask
the reader alone: whether some order leaves otherwise what it prints without one, whether two parts leave what the whole
leaves, and whether each recorded session is a yes.
"""

import json
import os
import random
import subprocess
import tarfile
from itertools import combinations, permutations
from pathlib import Path

import contents
from built import TOP, Ended, Room
from commands.said import fault, hint_of
from contents import Contents, parsed, printed
from messages import begun, longest_runs, one_by_one, records_of, simple, text, write
from models import served, transmitted
from orders.small_sessions import SMALL, session
from sessions import splits

HERE = TOP / "tests/sessions"
# How many small sessions and how many in two parts of each shape are tried, and in `many`.
SMALL_SESSIONS, SPLITS = 300, 60
MANY_SMALL, MANY_SPLITS = 3_000, 4_000
# In a hundred, how many of the bytes are printed without an order that all orders leave.
PRINTED = 95
YES, NO = 0, 1
# Whose line has the number of a request, and not of an entry.
OF_REQUEST = "Missing", "NotCovered"
# What becomes of a session in two parts.
KINDS = "yes", "not split", "no before", "no order", "no content", "no status"


class Asker:
    """What the reader says of sessions; where there is a room to run it in, the program has to say the same."""

    def __init__(self, tally, room=None):
        self.tally, self.room = tally, room

    def start(self, start):
        """A start as a word."""
        if isinstance(start, Contents):
            return f"contents:{self.room.put('start', printed(start))}"
        return start if isinstance(start, str) else f"image:{self.room.put('start', start)}"

    def run(self, command, records, order, start, profile, *words):
        files = [self.room.put("capture", text(records))]
        files += [] if order is None else [self.room.put("order", order.encode())]
        return self.room.run(command, *files, "--start", self.start(start), "--profile", profile, *words)

    def contents(self, name, records, order, start, profile):
        """The status and the text, or the line."""
        wanted = contents.said(records, order, start, profile)
        if self.room:
            found = self.run("contents", records, order, start, profile)
            self.tally.want(f"{name}, contents", found, Ended(*wanted, b""))
        return wanted

    def check(self, name, records, order, start, profile):
        """The line of `check`."""
        line = served.line(records, order, start, profile)
        if self.room:
            wanted = Ended(NO if line.startswith("no ") else YES, line.encode(), b"")
            self.tally.want(f"{name}, check", self.run("check", records, order, start, profile), wanted)
        return line


# Sessions and texts as data.


def rows():
    return [json.loads(line) for line in (HERE / "contents.jsonl").read_text().splitlines()]


def said_of(row, profile):
    """What the reader says of a row: its status and its line or text."""
    records = records_of(row["capture"].encode())
    try:
        start = start_of(row)
    except contents.BadLine as line:
        return 3, f"fault contents line {line}\n"
    if row["against"] == "absent":
        return 3, "fault against read\n"
    if row["command"] == "check":
        line = served.line(records, row["order"], start, profile)
        return NO if line.startswith("no ") else YES, line
    image = None if row["against"] is None else bytes.fromhex(row["against"])
    status, out = contents.said(records, row["order"], start, profile, image)
    return status, out.decode()


def start_of(row):
    if isinstance(row["start"], str):
        return row["start"]
    ((kind, value),) = row["start"].items()
    return parsed(value.encode()) if kind == "contents" else bytes.fromhex(value)


def words_of(room, row, profile):
    """The words behind the capture."""
    words, start, against = [], row["start"], row["against"]
    if row["order"] is not None:
        words.append(room.put("order", row["order"].encode()))
    if not isinstance(start, str):
        ((kind, value),) = start.items()
        start = f"{kind}:{room.put('start', value.encode() if kind == 'contents' else bytes.fromhex(value))}"
    words += ["--start", start, "--profile", profile]
    if against == "absent":
        words += ["--against", room.path(against)]
    elif against is not None:
        words += ["--against", room.put("against", bytes.fromhex(against))]
    return words


def try_rows(tally, room):
    for row in rows():
        wanted, records = (row["status"], f"{row['want']}\n"), records_of(row["capture"].encode())
        for profile in row["profiles"]:
            name = f"{row['name']}, {profile}"
            tally.want(f"{name}: a reader", said_of(row, profile), wanted)
            for way in (list, one_by_one, longest_runs) if room else ():
                capture = text(way(records))
                found = room.run(row["command"], room.put("capture", capture), *words_of(room, row, profile))
                line = wanted[1].encode()
                ended = Ended(3, b"", line) if wanted[0] == 3 else Ended(wanted[0], line, hint_of(capture))
                tally.want(f"{name}, {way.__name__}", found, ended)


def printed_again(tally):
    """What was printed is read again as the same, and two texts of one contents are printed alike."""
    example = (TOP / "docs/CHAINS.md").read_text().split("## The text")[1].split("```\n")[1].encode()
    tally.want("the text of docs/CHAINS.md", printed(parsed(example)), example)
    for seed in range(300):
        dice, size = random.Random(f"text {seed}"), random.Random(seed).choice((1, 31, 32, 33, 70, 200))
        held = [dice.choice((None, None, 0, 0, 0, dice.randrange(256))) for _ in range(size)]
        stops = sorted({0, size, *dice.choices(range(size), k=8)})
        forms = []
        for cuts in (range(size + 1), stops):
            parts = [(begin, end, held[begin:end]) for begin, end in zip(cuts, cuts[1:])]
            lines = [f"size {size}", *(line for part in parts for line in lines_of(dice, *part))]
            forms.append(printed(parsed("".join(f"{line}\n" for line in lines).encode())))
        tally.want(f"text {seed}: printed alike", forms[0], forms[1])
        tally.want(f"text {seed}: printed again", printed(parsed(forms[0])), forms[0])
        found = parsed(forms[0])
        tally.want(f"text {seed}: the bytes", [found.byte(at) for at in range(size)], held)


def lines_of(dice, begin, end, held):
    """Lines that say what stands in a range, one for each run of unknown bytes or of known ones."""
    at = begin
    while at < end:
        is_known = held[at - begin] is not None
        stop = next((to for to in range(at, end) if (held[to - begin] is not None) != is_known), end)
        run = held[at - begin : stop - begin]
        if not is_known:
            yield f"unknown {at} {stop - at}"
        elif not any(run) and dice.randrange(2):
            yield f"zero {at} {stop - at}"
        else:
            yield f"data {at} {bytes(run).hex().upper() if dice.randrange(2) else bytes(run).hex()}"
        at = stop


# All orders of small sessions.


def explaining(told, start, profile):
    """All orders of whole requests that explain a session."""
    answered = [number for number, one in enumerate(told.sent, 1) if one.known is not None]
    others = [number for number, one in enumerate(told.sent, 1) if one.known is None]
    for count in range(len(others) + 1):
        for named in combinations(others, count):
            for numbers in permutations([*answered, *named]):
                order = "".join(f"{number}\n" for number in numbers)
                service = served.Service(told.sent, told.found, order, start, profile)
                if not service.order_fault() and not service.wrong():
                    yield order


def bytes_of(found):
    return [found.byte(offset) for offset in range(found.size)]


def try_small(ask, seed):
    """A small session with all its orders: how many bytes all of them leave, how many of these are printed without an
    order, and how many orders there are."""
    dice = random.Random(f"contents {seed}")
    # (of more letters fewer changes leave the same byte, which without an order is not seen)
    shape = SMALL._replace(requests=dice.randint(2, 5), size=dice.randint(2, 8), letters=9, past=5)
    shape = shape._replace(statuses=10 if seed % 2 else 0)
    profile, start = "wide" if seed % 2 else "base", ("zero", "unknown")[seed // 2 % 2]
    records, _ = session(dice, shape, bytearray(shape.size + splits.PAST))
    told, name = transmitted.judge(records, profile), f"small session {seed}"
    orders = list(explaining(told, start, profile))
    sure = contents.sure(told, start)
    lefts = [contents.left(told, order, start, profile) for order in orders]
    ask.contents(f"{name}, no order", records, None, start, profile)
    for order in dice.sample(orders, min(2, len(orders))):
        ask.contents(f"{name}, order {order.split()}", records, order, start, profile)
    every = [set(held) for held in zip(*map(bytes_of, lefts))]
    known = bytes_of(sure)
    wrong = [at for at, held in enumerate(every) if known[at] is not None and held != {known[at]}]
    ask.tally.want(f"{name}: bytes that an order leaves otherwise", wrong, [])
    common = [at for at, held in enumerate(every) if len(held) == 1 and None not in held]
    return len(common), sum(known[at] is not None for at in common), len(orders)


def small(ask, count):
    found = [try_small(ask, seed) for seed in range(count)]
    common, shown, orders = map(sum, zip(*found))
    ask.tally.holds("orders of small sessions", orders > 5 * count, orders)
    ask.tally.holds("bytes that all orders leave", common > count, common)
    ask.tally.holds("of these printed without an order", 100 * shown >= PRINTED * common, (shown, common))


# Sessions in two parts.


def moved(line, before, entries):
    """A line of the second part, as it is said of the whole: requests and entries have other numbers there."""
    words = line.split()
    if words[:2] in (["no", "content"], ["no", "status"]):
        return f"no {words[1]} request {int(words[3]) + before} offset {words[5]}\n"
    if words[:2] == ["no", "order"]:
        behind = before if words[4] in OF_REQUEST else entries
        return f"no order entry {int(words[3].rstrip(':')) + behind}: {words[4]}\n"
    return None


def knows_less(less, more):
    """Whether all that is known is known with the same byte there."""
    return all(one is None or one == other for one, other in zip(bytes_of(less), bytes_of(more)))


def try_split(ask, name, seed):
    """A session in two parts against the whole; what became of it."""
    tally, one = ask.tally, splits.split(name, seed)
    label, order = f"split {name} {seed}", splits.order(one.entries)
    whole = ask.check(f"{label}, whole", one.whole, order, one.start, one.profile)
    is_first = [number <= one.count for number, _ in one.entries]
    size = sum(is_first)
    if not all(is_first[:size]):
        tally.holds(f"{label}: an order that cannot be split", whole.startswith("no order"), whole)
        return "not split"
    orders = splits.order(one.entries[:size]), splits.order(one.entries[size:], one.count)
    first = ask.check(f"{label}, first", one.first, orders[0], one.start, one.profile)
    if first.startswith("no "):
        tally.holds(f"{label}: the whole too", whole.startswith("no "), (first, whole))
        return "no before"
    left = parsed(ask.contents(f"{label}, first", one.first, orders[0], one.start, one.profile)[1])
    second = ask.check(f"{label}, second", one.second, orders[1], left, one.profile)
    if second.startswith("no "):
        tally.want(f"{label}: the whole says the same", whole, moved(second, one.count, size))
        return " ".join(second.split()[:2])
    tally.want(f"{label}: the whole", whole.split()[0], "yes")
    left_behind(ask, label, one, order, orders, left)
    return "yes"


def left_behind(ask, label, one, order, orders, left):
    """What a chain leaves and what the whole leaves, with an order and without one."""
    tally = ask.tally
    chain = ask.contents(f"{label}, second", one.second, orders[1], left, one.profile)
    whole = ask.contents(f"{label}, whole", one.whole, order, one.start, one.profile)
    tally.want(f"{label}: what is left", chain, whole)
    sure = parsed(ask.contents(f"{label}, first, no order", one.first, None, one.start, one.profile)[1])
    tally.holds(f"{label}: what is left without an order", knows_less(sure, left))
    line = ask.check(f"{label}, second, from no order", one.second, orders[1], sure, one.profile)
    tally.want(f"{label}: from what is left without an order", line.split()[0], "yes")
    chain = parsed(ask.contents(f"{label}, second, no order", one.second, None, sure, one.profile)[1])
    all_of_it = parsed(ask.contents(f"{label}, whole, no order", one.whole, None, one.start, one.profile)[1])
    tally.holds(f"{label}: a chain without orders", knows_less(chain, all_of_it))
    tally.holds(f"{label}: the whole without an order", knows_less(all_of_it, parsed(whole[1])))


def in_two_parts(ask, count):
    for name in splits.SHAPES:
        found = {kind: 0 for kind in KINDS}
        for seed in range(count):
            found[try_split(ask, name, seed)] += 1
        ask.tally.holds(f"splits {name}: kinds", found["yes"] > count // 4 and found["not split"] > 0, found)
        is_many = count >= MANY_SPLITS
        ask.tally.holds(f"splits {name}: all kinds", not is_many or all(found[kind] for kind in KINDS[:-1]), found)


# Recorded sessions that came one after another.


def chains():
    """The captures of each chain, by its name."""
    found = {}
    with tarfile.open(HERE / "chains.tar.xz") as packed:
        members = [member for member in packed if member.isfile()]
        for member in sorted(members, key=lambda one: int(Path(one.name).stem)):
            found.setdefault(Path(member.name).parent.name, []).append(records_of(packed.extractfile(member).read()))
    return found


def recorded(ask):
    """Each session is a yes from what the one before left, with the order in which its requests came and without."""
    stale, found = 0, chains()
    for name, sessions in found.items():
        with_order = without = "zero"
        for number, records in enumerate(sessions, 1):
            label = f"chain {name}, session {number}"
            order = "".join(f"{one}\n" for one in range(1, transmitted.judge(records, "wide").requests + 1))
            stale += served.line(records, order, "zero", "wide").startswith("no content")
            for start in (with_order, without):
                ask.tally.want(label, ask.check(label, records, order, start, "wide").split()[0], "yes")
            if ask.room:
                explained = ask.run("explain", records, None, without, "wide")
                ask.tally.want(f"{label}, explain", (explained.status, explained.out.split()[0]), (YES, b"yes"))
            with_order = parsed(ask.contents(label, records, order, with_order, "wide")[1])
            without = parsed(ask.contents(f"{label}, no order", records, None, without, "wide")[1])
        ask.tally.holds(f"chain {name}: what is known", without.known() <= with_order.known())
    ask.tally.want("chains and sessions", (len(found), sum(map(len, found.values()))), (6, 92))
    ask.tally.holds("sessions that are no from zeroes", stale > 0, stale)


# Files.


WRITTEN = begun() + [write(1, 0, b"\xab\xcd"), simple(1)]


def files(tally, room):
    """Which file is opened and read when: capture, order, start, and the file to compare with; all are opened before
    any is read."""
    good, order, bad = room.put("good", text(WRITTEN)), room.put("order.ord", b"1\n"), room.put("bad", b"C 0\n")
    late, agrees = room.put("late", b"2\n"), room.put("agrees", b"\xab\xcd" + bytes(6))
    none, folder, held = room.path("none"), room.folder, room.put("held", b"size 8\nzero 0 8\n")
    for files, start, against, what in (
        ([none, none], none, none, "capture read"),
        ([good, none], none, none, "order read"),
        ([bad, order], none, none, "contents read"),
        ([bad, order], held, none, "against read"),
        ([bad], held, none, "against read"),
        ([bad, folder], folder, folder, "capture line 1"),
        ([good, folder], folder, folder, "order read"),
        ([good, order], folder, folder, "contents read"),
        ([good, order], "", agrees, "contents read"),
        ([good, order], bad, folder, "contents line 1"),
        ([good, order], held, folder, "against read"),
        ([good], held, folder, "against read"),
    ):
        found = room.run("contents", *files, "--start", f"contents:{start}", "--against", against)
        tally.want(f"contents {files} {start} {against}", found, fault(what))
    refused = room.run("contents", good, late, "--start", f"contents:{held}", "--against", folder)
    tally.want("a file that is not read", refused, Ended(NO, b"no order entry 1: NoSuchRequest\n", b""))
    full = room.run("contents", good, order, stdout="/dev/full")
    tally.want("contents to a full device", full, fault("write"))


def starts(tally, room):
    """The start is taken by every command that takes one."""
    capture, order = room.put("good", text(WRITTEN)), room.put("order.ord", b"1\n")
    held, bad = room.put("held", b"size 8\nzero 0 8\n"), room.put("bad", b"size 8\nzero 0 9\n")
    other = room.put("other", b"size 9\nunknown 0 9\n")
    for words in (["check", capture, order], ["explain", capture, order], ["explain", capture], ["order", capture],
                  ["contents", capture, order], ["contents", capture]):
        found = room.run(*words, "--start", f"contents:{held}")
        tally.want(f"{words}: status", (found.status, found.err), (YES, b""))
        tally.want(f"{words}: a bad line", room.run(*words, "--start", f"contents:{bad}"), fault("contents line 2"))
        found = room.run(*words, "--start", f"contents:{other}")
        tally.want(f"{words}: another size", (found.status, found.out.split(b"\n")[0]), (NO, b"no image 9 size 8"))
        found = room.run(*words, "--start", f"contents:{room.path('none')}")
        tally.want(f"{words}: no file", found, fault("contents read"))


def compared(tally, room):
    """Files of other sizes: a regular one is not read; others are."""
    capture, large = room.put("good", text(WRITTEN)), room.path("large")
    with open(large, "wb") as file:
        file.truncate(1 << 40)
    for path, line in ((large, f"no against {1 << 40} size 8"), ("/dev/null", "no against 0 size 8")):
        found = room.run("contents", capture, "--start", "zero", "--against", path)
        tally.want(f"against {path}", found, Ended(NO, f"{line}\n".encode(), b""))
    os.mkfifo(room.path("fifo"))
    for data, ended in ((b"\xab\xcd" + bytes(6), Ended(YES, b"agrees known 8 unknown 0\n", b"")),
                        (b"\xab\xcd" + bytes(7), Ended(NO, b"no against 9 size 8\n", b""))):
        with subprocess.Popen(["/bin/sh", "-c", 'cat "$1" > "$2"', "sh", room.put("piped", data), room.path("fifo")]):
            found = room.run("contents", capture, "--start", "zero", "--against", room.path("fifo"))
            tally.want(f"against a pipe of {len(data)} bytes", found, ended)


def by_model(tally, small_sessions=SMALL_SESSIONS, of_each=SPLITS):
    ask = Asker(tally)
    try_rows(tally, None)
    printed_again(tally)
    small(ask, small_sessions)
    in_two_parts(ask, of_each)
    recorded(ask)


def many_by_model(tally):
    by_model(tally, MANY_SMALL, MANY_SPLITS)


def many(tally):
    with Room() as room:
        small(Asker(tally, room), MANY_SMALL)
        in_two_parts(Asker(tally, room), MANY_SPLITS)


def run(tally):
    printed_again(tally)
    with Room() as room:
        ask = Asker(tally, room)
        for part in (try_rows, files, starts, compared):
            part(tally, room)
        small(ask, SMALL_SESSIONS)
        in_two_parts(ask, SPLITS)
        recorded(ask)
