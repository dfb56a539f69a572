"""Contents of several connections that overlap in time, or with --apart: which are compared beside the changes of others, and which two
requests meet where they are not."""

import json
import random
from collections import namedtuple

from messages import (BLOCK_STATUS, CACHE, CLIENT, FLUSH, PAYLOAD_LEN, TRIM, WRITE_ZEROES, ack, begun, by_name, client_flags, entered,
                      extended_request, go, go_data, granted, greeting, option, read, request, simple, status, told_last, write)
from record.recorded_ends import GOOD, Ends, of_side, run_parts
from recorder.ranges import Range, meetings, ranges_of
from recorder.requests import Requests

YES = "yes requests {0} answered {0} improper 0, compared alone"
NOT = "ok, contents not compared: "
EXPORT = begun(size=16)
CHUNKS = begun(True, size=16)


def written(cookie, offset, data, error=0):
    return [write(cookie, offset, data), simple(cookie, error=error)]


def got(cookie, offset, data):
    return [read(cookie, offset, len(data)), simple(cookie, data)]


def done(command, cookie, offset, length):
    """A request without a payload, and success."""
    return [request(command, cookie, offset, length), simple(cookie)]


def meets(own, kind, other, other_kind, at, connection=2):
    return f"{NOT}request {own}, a {kind}, meets request {other} of connection {connection}, a {other_kind}, at offset {at}"


# Each of these changes the offsets 0 and 1, and reads 0 to 3.
FIRST = EXPORT + written(1, 0, b"ab") + got(2, 0, b"ab\0\0")
# Two sessions on one export, and what is said of each.
PAIRS = {
    "ranges apart": (FIRST, EXPORT + written(1, 8, b"cd") + got(2, 8, b"cd\0\0"), YES.format(2), YES.format(2)),
    "ranges that touch": (FIRST, EXPORT + got(1, 4, bytes(4)) + written(2, 4, b"cd"), YES.format(2), YES.format(2)),
    "a range that ends before": (EXPORT + written(1, 8, b"ab") + got(2, 8, b"ab"), EXPORT + written(1, 6, b"cd"), YES.format(2),
                                 YES.format(1)),
    "a byte that is read": (FIRST, EXPORT + written(1, 3, b"c"), meets(2, "READ", 1, "WRITE", 3), YES.format(1)),
    "a byte that both change": (FIRST, EXPORT + written(1, 4, b"c") + written(2, 1, b"cd"), meets(1, "WRITE", 2, "WRITE", 1),
                                meets(2, "WRITE", 1, "WRITE", 1, 1)),
    "a change inside of a range": (EXPORT + got(1, 0, bytes(16)), EXPORT + written(1, 7, b"c"), meets(1, "READ", 1, "WRITE", 7),
                                   "yes requests 1 answered 1 improper 0"),
    "a range inside of a change": (EXPORT + got(1, 7, b"\0"), EXPORT + written(1, 0, bytes(16)), meets(1, "READ", 1, "WRITE", 7),
                                   "yes requests 1 answered 1 improper 0"),
    "reads of the same bytes": (FIRST, EXPORT + got(1, 4, bytes(4)) + got(2, 8, bytes(4)), "yes requests 2 answered 2 improper 0",
                                YES.format(2)),
    "TRIM": (FIRST, EXPORT + done(TRIM, 1, 2, 9), meets(2, "READ", 1, "TRIM", 2), YES.format(1)),
    "WRITE_ZEROES": (FIRST, EXPORT + done(WRITE_ZEROES, 1, 1, 1), meets(1, "WRITE", 1, "WRITE_ZEROES", 1),
                     meets(1, "WRITE_ZEROES", 1, "WRITE", 1, 1)),
    "FLUSH and CACHE": (FIRST, EXPORT + done(FLUSH, 1, 0, 0) + done(CACHE, 2, 0, 16), "yes requests 2 answered 2 improper 0",
                        YES.format(2)),
    "a WRITE that failed": (FIRST, EXPORT + written(1, 3, b"c", error=5), meets(2, "READ", 1, "WRITE", 3), YES.format(1)),
    "a WRITE without a reply": (FIRST, EXPORT + [write(1, 3, b"c")], meets(2, "READ", 1, "WRITE", 3),
                                "yes requests 1 answered 0 improper 0, compared alone"),
    "a WRITE without a byte": (FIRST, EXPORT + written(1, 1, b""), "yes requests 2 answered 2 improper 0", YES.format(1)),
    "a WRITE past the end": (FIRST, EXPORT + written(1, 2, bytes(15), error=28), meets(2, "READ", 1, "WRITE", 2),
                             "yes requests 1 answered 1 improper 1, compared alone"),
    "a type of its own": (FIRST, EXPORT + [request(9, 1, 8, 1), simple(1, error=22)],
                          f"{NOT}request 1, a WRITE, meets request 1 of connection 2, of type 9, at offset 0",
                          f"{NOT}request 1, of type 9, meets request 1 of connection 1, a WRITE, at offset 0"),
    "another name": (FIRST, [*EXPORT[:2], *go(b"b", size=16), *written(1, 8, b"c")],
                     f"{NOT}request 1 of connection 2, a WRITE, is to an export of another name",
                     f"{NOT}request 1 of connection 1, a WRITE, is to an export of another name"),
    "the same name by EXPORT_NAME": (FIRST, [*EXPORT[:2], option(1), entered(size=16), *written(1, 8, b"c")], YES.format(2), YES.format(1)),
    "another name that is only read": (FIRST, [*EXPORT[:2], *go(b"b", size=16), *got(1, 8, b"\0")], "yes requests 2 answered 2 improper 0",
                                       f"{NOT}request 1 of connection 1, a WRITE, is to an export of another name"),
    "no request": (FIRST, EXPORT, "yes requests 2 answered 2 improper 0", "yes requests 0 answered 0 improper 0"),
}


def played(folder, name, sessions, *asked, is_one_by_one=True):
    """A recording of connections that play these sessions, one behind the other with --apart, or side by side: its status,
    and its lines."""
    with Ends(folder, name, "--start", "zero", *(["--apart"] if is_one_by_one else []), *asked) as ends:
        if is_one_by_one:
            for records in sessions:
                client, server = ends.both()
                ends.play(client, server, records)
                client.close(), server.close()
        else:
            pairs = [ends.both() for _ in sessions]
            for at in range(max(map(len, sessions))):
                for pair, records in zip(pairs, sessions):
                    ends.play(*pair, records[at : at + 1])
            [end.close() for pair in pairs for end in pair]
        code, out, err = ends.interrupt()
    return code, out, err


def answers(out, count):
    """The line of each connection, without its number, and the last line."""
    lines = out.splitlines()
    said = [line.partition(": ")[2] for line in lines if line.startswith("connection ")]
    return said[:count], lines[-1]


def counted(compared, apart):
    return f"connections {compared + apart}: compared {compared}, not compared {apart}, empty 0, not judged 0"


def pairs(tally, folder):
    """Two connections, in either order, one behind the other and side by side."""
    for number, (name, (first, second, *wanted)) in enumerate(PAIRS.items()):
        not_compared = sum(line.startswith(NOT) for line in wanted)
        for how in (True, False):
            code, out, err = played(folder, f"p{number}{how}", (first, second), is_one_by_one=how)
            tally.want(f"{name}, {how}", (code, answers(out, 2), err), (0, (wanted, counted(2 - not_compared, not_compared)), ""))
        code, out, _ = played(folder, f"r{number}", (second, first))
        turned = [line.replace("of connection 1", "of connection 0").replace("of connection 2", "of connection 1")
                  .replace("of connection 0", "of connection 2") for line in reversed(wanted)]
        tally.want(f"{name}, turned round", (code, answers(out, 2)[0]), (0, turned))


def wrong(tally, folder):
    """A server that returns one wrong byte to one of two connections: a no of that one."""
    false = EXPORT + written(1, 8, b"cd") + got(2, 8, b"cD\0\0")
    stale = EXPORT + got(1, 8, b"\0\1\0\0")
    for name, second, line in (("a WRITE that is lost", false, "no content request 2 offset 9 in any order"),
                               ("a byte that nobody wrote", stale, "no content request 1 offset 9 in any order")):
        code, out, err = played(folder, name, (FIRST, second))
        alone = YES.format(2) if second is false else "yes requests 2 answered 2 improper 0"
        tally.want(name, (code, answers(out, 2)), (1, ([alone, f"{line}, compared alone"], counted(2, 0))))
    code, out, _ = played(folder, "meets", (FIRST, EXPORT + written(1, 0, b"c") + got(2, 0, b"C")))
    tally.want("a wrong byte where they meet", (code, answers(out, 2)[0][1]), (0, meets(1, "WRITE", 1, "WRITE", 0, 1)))


def half(tally, folder):
    """A WRITE of which the head came alone may have changed its range; of a session that breaks off in it the answer is a no."""
    head = (CLIENT, write(1, 3, b"cd")[1][:-2])
    code, out, _ = played(folder, "half", (FIRST, EXPORT + [head]))
    tally.want("half a WRITE", (code, answers(out, 2)[0][0]), (1, meets(2, "READ", 1, "WRITE", 3)))


def statuses(tally, folder):
    """A status counts as a READ of its range; what it says of bytes behind this is not compared."""
    asks = CHUNKS[:-3] + granted() + CHUNKS[-3:] + [status(1, 4, 4), told_last(1, 1, (8, 3))]
    for name, at, wanted in (("in its range", 7, meets(1, "BLOCK_STATUS", 1, "WRITE", 7)), ("behind its range", 8, YES.format(1)),
                             ("before its range", 3, YES.format(1))):
        code, out, _ = played(folder, name, (asks, EXPORT + written(1, at, b"c")))
        tally.want(f"a change {name}", (code, answers(out, 2)[0][0]), (0, wanted))


def strange(tally, folder):
    """Bytes that are no message may change all; an order is of one connection."""
    code, out, _ = played(folder, "strange", (FIRST, EXPORT + [(CLIENT, b"\x16\3\1" + bytes(40))]))
    lines = answers(out, 2)[0]
    tally.want("no message", (code, lines[0]), (1, f"{NOT}connection 2 has bytes that are no message of the protocol"))
    tally.holds("no message: its own line", lines[1].endswith("this connection has bytes that are no message of the protocol"), lines)
    order = f"{folder}/order"
    with open(order, "w") as file:
        file.write("1\n2\n")
    code, out, _ = played(folder, "ordered", (FIRST, EXPORT + got(1, 8, bytes(1))), "--order", order)
    tally.want("--order", (code, answers(out, 2)[0]),
               (0, [f"{NOT}the order is of one connection, and connection {number} has requests too" for number in (2, 1)]))


def reports(tally, folder):
    """What --strict refuses, JSON and JUnit's XML have the two requests, and that a connection was compared alone."""
    second = EXPORT + written(1, 3, b"c")
    line = meets(2, "READ", 1, "WRITE", 3).removeprefix("ok, ")
    code, out, _ = played(folder, "strict", (FIRST, second), "--strict")
    tally.want("--strict", (code, f"strict: {line}" in out.splitlines()), (7, True))
    code, out, _ = played(folder, "json", (FIRST, second), "--format", "json")
    found = [[each[name] for name in ("result", "compared", "alone", "meeting", "strict", "text")]
             for each in map(json.loads, out.splitlines())]
    meeting = {"request": 2, "connection": 2, "other_request": 1, "offset": 3}
    tally.want("JSON", found, [["not compared", False, False, meeting, [line], [line]], ["compared", True, True, None, [], []]])
    code, out, _ = played(folder, "junit", (FIRST, second), "--strict", "--format", "junit")
    tally.holds("JUnit", f'<failure message="strict: {line}"' in out and "improper 0, compared alone\n" in out, out)


def of_many(tally, folder):
    """Three connections: each is said to meet one that it meets, and only another one."""
    sessions = [EXPORT + written(1, at, b"ab") for at in (0, 8, 1)]
    code, out, _ = played(folder, "three", sessions)
    first, third = meets(1, "WRITE", 1, "WRITE", 1, 3), meets(1, "WRITE", 1, "WRITE", 1, 1)
    tally.want("three", (code, answers(out, 3)), (0, ([first, YES.format(1), third], counted(1, 2))))


def heads(tally, _):
    """Names and heads are taken from the client's bytes however these are cut; a filter counts up to the end of the export."""
    long = [extended_request(BLOCK_STATUS, 1, 5, 12, bytes(12), flags=PAYLOAD_LEN), extended_request(TRIM, 2, 2**63, 2**63),
            extended_request(BLOCK_STATUS, 3, 7, 2)]
    ranges = [(5, 2**64, 7, 1), (2**63, 2**64, 4, 2), (7, 9, 7, 3)]
    for name, records, export, wanted in (
        ("GO", [greeting(), client_flags(), *go(b"disk"), *GOOD[-4:]], b"disk", [(1, 3, 1, 1), (0, 4, 0, 2)]),
        ("a second GO", [greeting(), client_flags(), option(7, go_data(b"none")), *go(b"x" * 4096)], b"x" * 4096, []),
        ("EXPORT_NAME", [greeting(), client_flags(), *by_name(b"disk")], b"disk", []),
        ("INFO alone", [greeting(), client_flags(), option(6, go_data(b"disk")), ack(6)], None, []),
        ("extended heads", [*begun(), *long], b"", ranges),
    ):
        sent = of_side(records, CLIENT)
        for size in (1, 7, len(sent)):
            requests = Requests()
            for at in range(0, len(sent), size):
                requests.feed(sent[at : at + size])
            held = namedtuple("Held", "requests number")(requests, 3)
            tally.want(f"{name} in pieces of {size}", (requests.name, [tuple(each)[:4] for each in ranges_of(held)]), (export, wanted))


def found_of(ranges):
    """By each connection the least request that touches what another one changes, compared range by range."""
    found = {}
    for own in ranges:
        if any(other.connection != own.connection and other.kind == 1 and max(own.begin, other.begin) < min(own.end, other.end)
               for other in ranges):
            found[own.connection] = min(found.get(own.connection, own.request), own.request)
    return found


def at_random(tally, _):
    """The sweep against a comparison of all pairs."""
    dice = random.Random(20261128)
    counts = [0, 0]
    for _ in range(4000):
        size, connections = dice.choice((6, 20, 300)), dice.choice((1, 2, 3, 5))
        most, ranges = dice.choice((1, 2, 8)), []
        for number in range(dice.randrange(14)):
            begin = dice.randrange(size)
            kind = dice.choice((0, 0, 1))
            ranges.append(Range(begin, begin + dice.randint(1, most), kind, number + 1, dice.randint(1, connections)))
        met, wanted = meetings(ranges), found_of(ranges)
        is_right = all(own.connection != other.connection and other.kind == 1 and max(own.begin, other.begin) < min(own.end, other.end)
                       for own, other in met.values())
        if not is_right or {number: each.own.request for number, each in met.items()} != wanted:
            tally.holds("meetings at random", False, (ranges, met, wanted))
        counts[bool(wanted)] += 1
    tally.holds("meetings at random: both answers", min(counts) > 1000, counts)


PARTS = (pairs, wrong, half, statuses, strange, reports, of_many, heads, at_random)


def run(tally):
    run_parts(tally, PARTS)
