"""Long messages and lines, many records and chunks, many READs as holes and statuses over many changes, many statuses and what they
cost, exports of no byte and of as many as there may be, the memory that READs of an image take, what `show` lets go,
what many changes leave, and long texts of contents.
"""

import random
import re
import resource
import subprocess
from pathlib import Path

from built import Ended, PROGRAM, Room
from messages import (
    ACK, BLOCK_STATUS, CHUNKS, DONE, LIST_META_CONTEXT, OFFSET_HOLE, READ, SET_META_CONTEXT, TRIM, WRITE, WRITE_ZEROES, answer, begun, chunk,
    client_flags, content, context, done, extents, go, granted, greeting, one_by_one, option, queries, read, request, simple,
    status, text, write,
)

# The largest export (docs/PROFILE.md).
LIMIT = 2**63 - 1
MIB = 2**20
# The contexts, statuses or extents of the smallest session of each kind.
TOLD = 20_000
# The changes and the READs or statuses of the smallest session of holes, and what a run may take beside what grows, in seconds.
HOLES, APART = 20_000, 0.5
# What changes each second byte there, the start, and what is asked of all bytes.
KINDS = (
    (WRITE_ZEROES, "unknown", READ), (WRITE, "unknown", READ), (TRIM, "zero", READ), (WRITE, "image", READ),
    (WRITE, "unknown", BLOCK_STATUS), (TRIM, "zero", BLOCK_STATUS),
)


def yes(requests, answered, improper):
    return Ended(0, f"yes requests {requests} answered {answered} improper {improper}\n".encode(), b"")


def no(line):
    return Ended(1, line.encode() + b"\n", b"")


def fault(what):
    return Ended(3, b"", f"fault {what}\n".encode())


def long_messages(tally, room):
    """A WRITE of 2 MiB that its export does not hold, and an option with as many bytes of data."""
    data = bytes(range(256)) * (2 * MIB // 256)
    records = begun() + [request(WRITE, 1, 0, len(data), data), simple(1, error=22)]
    tally.want("a write of 2 MiB", room.check(text(records), b"1\n"), yes(1, 1, 1))
    tally.want("its bytes one by one", room.check(text(one_by_one(records)), b"1\n"), yes(1, 1, 1))
    shown = room.show(text(records))
    line = f"C request flags=0 command=1 cookie=1 offset=0 length={len(data)} payload={data.hex()}\n".encode()
    is_shown = line in shown.out and shown.out.endswith(b"\nok\n")
    tally.want("show of a write of 2 MiB", (shown.status, is_shown, shown.err), (0, True, b""))
    made = room.make(shown.out)
    tally.want("make of a write of 2 MiB", (made.status, made.out == text(records), made.err), (0, True, b""))
    capture, order = room.put("long", text(records)), room.put("order", b"1\n")
    told = room.run("explain", capture, order)
    first = sum(len(data) for _, data in begun()) + 1
    reason = (
        "improper: 1 of 1 request\n"
        f"message: WRITE #1, cookie 0x1, {len(data)} bytes at 0; bytes {first} to {first + 27 + len(data)}\n"
        f"wrong: its range passes the end of the export of 8 bytes by {len(data) - 8} bytes\n"
    )
    wanted = yes(1, 1, 1)
    tally.want("explain of a write of 2 MiB", told, wanted._replace(out=wanted.out + reason.encode()))
    named = room.run("show", "--names", capture)
    tally.want("names of a write of 2 MiB", (named.status, named.out.endswith(b"\nok\n"), named.err), (0, True, b""))
    records = [greeting(), client_flags(), option(3, data), answer(3, 2**31 + 3, data)]
    tally.want("an option of 2 MiB", room.check(text(records), b""), yes(0, 0, 0))
    # The last byte of the message is missing.
    count = sum(len(data) for _, data in records) - 1
    side, last = records[-1]
    found = room.check(text([*records[:-1], (side, last[:-1])]), b"")
    tally.want("an answer of 2 MiB, cut", found, no(f"no at byte {count}: Unfinished"))


def many_chunks(tally, room):
    """70,000 chunks of one byte, as the replies to 70 READs and to one."""
    data = bytes(byte % 251 for byte in range(70_000))
    for size in (1000, 70_000):
        records = begun(structured=True, size=MIB)
        records += [write(1, 0, data), done(1)]
        reads = range(len(data) // size)
        for number in reads:
            first, cookie = number * size, number + 2
            records.append(read(cookie, first, size))
            records += [content(cookie, at, data[at : at + 1]) for at in range(first, first + size)]
            records.append(done(cookie))
        count = len(reads) + 1
        order = b"".join(b"%d\n" % (number + 1) for number in range(count))
        name = f"70,000 chunks, {count - 1} reads"
        tally.want(name, room.check(text(records), order), yes(count, count, 0))
        wrong = [*records[:-2], content(count, 69_999, b"\xff"), done(count)]
        found = room.check(text(wrong), order)
        tally.want(f"{name}, the last byte wrong", found, no(f"no content request {count} offset 69999"))
    records = begun() + [("C", b""), ("S", b"")] * 35_000 + [read(1, 0, 4), simple(1, bytes(4))]
    tally.want("70,000 records without bytes", room.check(text(records), b"1\n"), yes(1, 1, 0))


def a_million(tally, room):
    """A million FLUSHes, each answered before the next, as many entries of an order, and a script of as many messages: no growth is
    told as out of memory."""
    count, nothing = 10**6, "0" * 24
    lines = (f"C 2560951300000003{cookie:016x}{nothing}\nS 6744669800000000{cookie:016x}\n" for cookie in range(count))
    capture, numbers = text(begun()) + "".join(lines).encode(), b"".join(b"%d\n" % number for number in range(1, count + 1))
    tally.want("a million requests and entries", room.check(capture, numbers), yes(count, count, 0))
    tally.want("a million requests, their numbers", room.run("order", "--arrival", room.put("million", capture)), Ended(0, numbers, b""))
    script, made = b"C client-flags flags=3\n" * count, b"C 00000003\n" * count
    tally.want("a million messages of a script", room.make(script), Ended(0, made, b""))


def holes(count, command, asked):
    """Changes of each second byte, a WRITE to zero, so many, and then as many READs of all of these bytes, each answered by one
    hole, or as many statuses of them, each answered by one extent of zeroes."""
    is_status = asked == BLOCK_STATUS
    records = CHUNKS + granted() + go(size=4 * count) if is_status else begun(structured=True, size=4 * count)
    for cookie in range(1, count + 1):
        records += [request(command, cookie, 2 * cookie - 2, 1, b"\0" if command == WRITE else b""), done(cookie)]
    whole = bytes(8) + (2 * count).to_bytes(4, "big")
    for cookie in range(count + 1, 2 * count + 1):
        reply = extents(cookie, 1, (2 * count, 2), flags=DONE) if is_status else chunk(cookie, OFFSET_HOLE, whole, DONE)
        records += [request(asked, cookie, 0, 2 * count), reply]
    return text(records)


def costs(tally, room, name, wanted, *words):
    """The processor time of a run, the less of two; of `wanted` the standard output may be None."""
    seconds = []
    for _ in range(2):
        before = resource.getrusage(resource.RUSAGE_CHILDREN)
        found = room.run(*words)
        after = resource.getrusage(resource.RUSAGE_CHILDREN)
        tally.want(name, found if wanted.out is not None else found._replace(out=None), wanted)
        seconds.append(after.ru_utime + after.ru_stime - before.ru_utime - before.ru_stime)
    return min(seconds)


def costs_of_holes(tally, room):
    """READs as holes, and statuses, over many changes cost no more than eight times as much where there are four times as many of
    both."""
    for kind in KINDS:
        measured = [costs_of(tally, room, times * HOLES, *kind) for times in (1, 2, 4)]
        for command in measured[0]:
            one, two, four = (costs[command] for costs in measured)
            name = f"{command} of holes over changes {kind}"
            tally.holds(f"{name}, twice as many", two <= 4 * one + APART, (one, two, four))
            tally.holds(f"{name}, four times as many", four <= 8 * one + APART, (one, two, four))


def costs_of(tally, room, changes, change, start, asked):
    """What each command costs on holes over so many changes."""
    profile = ["--profile", "wide"] if asked == BLOCK_STATUS else []
    count, image = 2 * changes, room.put("holes.image", bytes(4 * changes))
    numbers = b"".join(b"%d\n" % number for number in range(1, count + 1))
    capture, order = room.put("holes.cap", holes(changes, change, asked)), room.put("holes.ord", numbers)
    return {
        command: costs(tally, room, f"{command}, {count} requests on holes, {change}, {start}, {asked}", wanted, command, *words,
                       "--start", f"image:{image}" if start == "image" else start, *profile)
        for command, words, wanted in (("check", [capture, order], yes(count, count, 0)),
                                       ("explain", [capture, order], yes(count, count, 0)),
                                       ("order", [capture], Ended(0, numbers, b"")))
    }


def selecting(count, size):
    """A negotiation in which so many contexts come in force, with the ids from 0 on."""
    told = [context(number, b"x:%d" % number) for number in range(count)]
    setting = [option(SET_META_CONTEXT, queries(b"", b"x:")), *told, answer(SET_META_CONTEXT, ACK)]
    begin = begun(structured=True, size=size)
    return [*begin[:4], *setting, *begin[4:]]


def statuses(kind, count):
    """Sessions with so many extents in a chunk, extents of which every second is called zero, contexts in force, statuses
    outstanding together, or statuses one by one; and how many requests they have."""
    if kind == "extents":
        return [*selecting(1, count), status(1, 0, count), extents(1, 0, *[(1, 0)] * count, flags=DONE)], 1
    if kind == "zeroes":
        zeroes = extents(1, 1, *[(1, 2), (1, 0)] * (count // 2), flags=DONE)
        return [*CHUNKS, *granted(), *go(size=count), status(1, 0, count), zeroes], 1
    if kind == "contexts":
        chunks = [extents(1, number, (1, 0)) for number in reversed(range(count))]
        return [*selecting(count, 8), status(1, 0, 8), *chunks, done(1)], 1
    asked = [status(cookie, 0, count) for cookie in range(count)]
    told = [extents(cookie, 0, (count, 0), flags=DONE) for cookie in range(count)]
    if kind == "outstanding":
        return [*selecting(1, count), *asked, *told], count
    return [*selecting(1, count), *(message for pair in zip(asked, told) for message in pair)], count


def costs_of_statuses(tally, room):
    """Statuses cost no more than eight times as much where there are four times as many extents, contexts, or requests."""
    for kind in ("extents", "zeroes", "contexts", "outstanding", "one by one"):
        seconds = []
        for times in (1, 2, 4):
            records, count = statuses(kind, times * TOLD)
            capture = room.put("statuses.cap", text(records))
            order = room.put("statuses.ord", b"".join(b"%d\n" % number for number in range(1, count + 1)))
            words = ["check", capture, order, "--start", "zero", "--profile", "wide"]
            seconds.append(costs(tally, room, f"statuses, {kind}, {times} times", yes(count, count, 0), *words))
        one, two, four = seconds
        tally.holds(f"statuses, {kind}, twice as many", two <= 4 * one + APART, seconds)
        tally.holds(f"statuses, {kind}, four times as many", four <= 8 * one + APART, seconds)


def many_contexts(tally, room):
    """A thousand contexts in force, of which the last in the reply is left out, told twice, or told in its place."""
    count = 1000
    begin = [*selecting(count, 8), status(1, 0, 8), *(extents(1, number, (8, 0)) for number in range(count - 1))]
    size = sum(len(data) for _, data in begin)
    for last, wanted in (
        ([extents(1, count - 1, (8, 0), flags=DONE)], yes(1, 1, 0)),
        ([extents(1, count - 1, (8, 0)), done(1)], yes(1, 1, 0)),
        ([done(1)], no(f"no at byte {size + 20}: IncompleteStatus")),
        ([extents(1, 0, (8, 0), flags=DONE)], no(f"no at byte {size + 32}: BadContent")),
        ([extents(1, count, (8, 0), flags=DONE)], no(f"no at byte {size + 32}: BadContent")),
    ):
        tally.want("a thousand contexts", room.check(text([*begin, *last]), b"1\n", profile="wide"), wanted)


def exports(tally, room):
    """Exports of no byte, of one MiB, and of as many bytes as there may be."""
    empty = begun(size=0)
    found = room.check(text(empty + [read(1, 0, 0), simple(1)]), b"1\n")
    tally.want("a read of nothing", found, yes(1, 1, 0))
    found = room.check(text(empty + [read(1, 0, 1), simple(1, error=22)]), b"1\n")
    tally.want("a read of an export without bytes", found, yes(1, 1, 1))
    none, one = room.put("none", b""), room.put("one", b"\0")
    tally.want("an image without bytes", room.check(text(empty), b"", f"image:{none}"), yes(0, 0, 0))
    found = room.check(text(empty), b"", f"image:{one}")
    tally.want("an image of one byte", found, no("no image 1 size 0"))
    last, data = LIMIT - 1, b"\xab"
    largest = begun(size=LIMIT) + [write(1, last, data), simple(1), read(2, last, 1)]
    tally.want("the last byte", room.check(text([*largest, simple(2, data)]), b"1\n2\n"), yes(2, 2, 0))
    found = room.check(text([*largest, simple(2, b"\xac")]), b"1\n2\n")
    tally.want("another last byte", found, no(f"no content request 2 offset {last}"))
    found = room.check(text(begun(size=LIMIT + 1)), b"")
    tally.want("a byte too many", found, no("no at byte 96: ExportTooLarge"))
    image = bytes(range(256)) * (MIB // 256)
    start = f"image:{room.put('image', image)}"
    whole = text(begun(size=MIB) + [read(1, 0, MIB), simple(1, image)])
    tally.want("a read of 1 MiB", room.check(whole, b"1\n", start), yes(1, 1, 0))
    found = room.check(whole, b"1\n", "zero")
    tally.want("a read of 1 MiB of zeroes", found, no("no content request 1 offset 1"))


def reads_of(image, is_structured, length):
    """READs of all of an image, a range after the other, each in one chunk or simple reply."""
    reply = (lambda *one: content(*one, flags=DONE)) if is_structured else (lambda cookie, _, data: simple(cookie, data))
    parts = [(at // length + 1, at, image[at : at + length]) for at in range(0, len(image), length)]
    asked = (message for cookie, at, data in parts for message in (read(cookie, at, length), reply(cookie, at, data)))
    return text([*begun(structured=is_structured, size=len(image)), *asked])


def memory_of_images(tally, room):
    """What is read of an image stands in memory once, and so does the image: `explain` takes hardly more than `check` does."""
    image = random.Random(1).randbytes(48 * MIB)
    start = ["--start", f"image:{room.put('image', image)}"]
    for is_structured in (False, True):
        count = len(image) // 2**16
        capture = room.put("images.cap", reads_of(image, is_structured, 2**16))
        order = room.put("images.ord", b"".join(b"%d\n" % number for number in range(1, count + 1)))
        said, status, least = room.measured("check", capture, order, *start)
        tally.want("check of an image", (said, status), (yes(count, count, 0).out.decode(), 0))
        tally.holds("memory of check", least < 1.15 * 2 * len(image) / 1024, least)
        for words in (["explain", capture, order], ["explain", capture], ["order", capture]):
            _, status, peak = room.measured(*words, *start)
            tally.want(f"{words} of an image", status, 0)
            tally.holds(f"memory of {words}", peak < 1.3 * least, (peak, least))


def memory_of_show(tally, room):
    """`show` keeps no payload that it printed: behind 9 of 10 READs it holds less than a third of what it held before the first."""
    image = random.Random(2).randbytes(48 * MIB)
    capture = room.put("show.cap", reads_of(image, True, MIB))
    # (each payload is a piece of memory of its own, which the system has back when it goes)
    env = {"MALLOC_MMAP_THRESHOLD_": str(2**16)}
    with subprocess.Popen([PROGRAM, "show", capture], stdout=subprocess.PIPE, env=env) as shown:
        for _ in range(9 * len(image) // 10 // MIB * 2):
            shown.stdout.readline()
        told = Path(f"/proc/{shown.pid}/status").read_text()
        now, peak = (int(re.search(rf"{name}:\s+(\d+) kB", told).group(1)) for name in ("VmRSS", "VmHWM"))
        tally.want("the end of show", shown.stdout.read().endswith(b"\nok\n"), True)
    tally.holds("memory of show before the first line", peak > len(image) / 1024, peak)
    tally.holds("memory of show near its end", now < peak / 3, (now, peak))


def contexts_of_a_long_name(tally, room):
    """20,000 contexts of an export whose name has as many bytes, told twice for `base:`: `lint` does not keep the name with each."""
    count = 20_000
    told = [context(0, b"base:%d" % number, LIST_META_CONTEXT) for number in range(count)]
    asked = [option(LIST_META_CONTEXT, queries(b"x" * count, b"base:")), *told, answer(LIST_META_CONTEXT, ACK)]
    capture = room.put("named.cap", text([*CHUNKS, *asked, *asked]))
    _, status, peak = room.measured("lint", capture, "--profile", "wide")
    # A string of more than 4,096 bytes breaks a must (proto.md, "Conventions").
    tally.want("lint of contexts of a long name", status, 1)
    tally.holds("lint of contexts of a long name: memory", peak < 64 * 1024, peak)


def scattered(count, size):
    """So many changes at random places, 16 of them outstanding together."""
    dice, asked, records = random.Random("scattered"), [], begun(size=size)
    for cookie in range(1, count + 1):
        command = dice.choice((WRITE, WRITE, WRITE, WRITE_ZEROES, TRIM))
        length = dice.randint(1, 300) if command == WRITE else dice.randint(1, 2**16)
        data = dice.randbytes(length) if command == WRITE else b""
        records.append(request(command, cookie, dice.randrange(size - length), length, data))
        asked.append(cookie)
        if len(asked) == 16:
            records += [simple(one) for one in asked]
            asked = []
    return text(records + [simple(one) for one in asked])


def costs_of_contents(tally, room):
    """What 100,000 changes of an export of 1 GiB leave: hardly more processor time and memory than `check` takes."""
    count = 100_000
    capture = room.put("scattered.cap", scattered(count, 2**30))
    order = room.put("scattered.ord", b"".join(b"%d\n" % number for number in range(1, count + 1)))
    words = ["check", capture, order, "--start", "zero"]
    *_, memory = room.measured(*words)
    for told in (["contents", capture, order, *words[3:]], ["contents", capture, *words[3:]]):
        pairs = []
        # Both in turn and the least of each, since what else the machine does can double a run of half a second.
        while len(pairs) < 10 and not is_near(pairs):
            least = costs(tally, room, "check of scattered changes", yes(count, count, 0), *words)
            pairs.append((costs(tally, room, f"{told}", Ended(0, None, b""), *told), least))
        tally.holds(f"{told}: seconds", is_near(pairs), pairs)
        *_, peak = room.measured(*told)
        tally.holds(f"{told}: memory", peak <= 1.2 * memory, (peak, memory))


def is_near(pairs):
    """Whether the least seconds of `contents` are at most half as many again as the least of `check`, but for a tenth of one."""
    return bool(pairs) and min(seconds for seconds, _ in pairs) <= 1.5 * min(least for _, least in pairs) + APART / 5


def held_in_pieces(length):
    """A contents text of about so many bytes, a line for each piece of 32 bytes, and the size that it tells."""
    data = random.Random("pieces").randbytes(MIB)
    size, lines, told = 0, [], 0
    while told < length:
        lines.append(f"data {size} {data[size % MIB : size % MIB + 32].hex()}\n")
        size, told = size + 32, told + len(lines[-1])
    return f"size {size}\n{''.join(lines)}".encode(), size


def held_in_a_line(length):
    """The same in one line."""
    size = length // 2
    return f"size {size}\ndata 0 {'5a' * size}\n".encode(), size


def costs_of_texts(tally, room):
    """A contents text of 64 MiB is read in no more than eight times the seconds that one of 16 MiB takes."""
    for held in (held_in_pieces, held_in_a_line):
        seconds = []
        for length in (16 * MIB, 64 * MIB):
            told, size = held(length)
            capture, order = room.put("texts.cap", text(begun(size=size))), room.put("texts.ord", b"")
            start = ["--start", f"contents:{room.put('texts.con', told)}"]
            name = f"{held.__name__}, {length} bytes"
            seconds.append(costs(tally, room, name, yes(0, 0, 0), "check", capture, order, *start))
            if held is held_in_pieces:
                tally.holds(f"{name}, written", room.run("contents", capture, *start).out == told)
        tally.holds(f"{held.__name__}: four times as many", seconds[1] <= 8 * seconds[0] + APART, seconds)


def long_lines(tally, room):
    """Bad lines of a MiB, and remarks that are as long."""
    good = text(begun())
    for name, line in (("an odd digit", b"C " + b"0" * (MIB + 1)), ("no side", b"X" * MIB),
                       ("no digit at the end", b"S " + b"0" * (MIB - 1) + b"x"), ("a space", b" " * MIB)):
        found = room.check(good + line + b"\n", b"")
        tally.want(f"capture, {name}", found, fault("capture line 6"))
        tally.want(f"show, {name}", room.show(good + line + b"\n"), fault("capture line 6"))
    found = room.check(good + b"C " + b"0" * MIB, b"")
    tally.want("capture, no line end", found, fault("capture line 6"))
    found = room.check(good + b"#" * MIB + b"\n", b"")
    tally.want("a remark of 1 MiB", found, yes(0, 0, 0))
    tally.want("an order line of 1 MiB", room.check(good, b"1" * MIB + b"\n"), fault("order line 1"))
    for name, line in (("digits", b"C option id=3 payload=" + b"0" * (MIB + 1)),
                       ("a number", b"C option id=" + b"1" * MIB + b" payload="), ("words", b"ok " * MIB)):
        tally.want(f"script, {name}", room.make(b"ok\n" + line + b"\n"), fault("script line 2"))


def run(tally):
    with Room() as room:
        for part in (long_messages, many_chunks, a_million, costs_of_holes, costs_of_statuses, many_contexts, exports,
                     memory_of_images, memory_of_show, contexts_of_a_long_name, costs_of_contents, costs_of_texts, long_lines):
            part(tally, room)
