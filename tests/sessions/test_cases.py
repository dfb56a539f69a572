"""Sessions as data, in cases/, with the answer that the protocol's rules want. Of `check`: a capture, an order, a start, and
the line. Of `show` and `make`: a capture or a script, and the lines or the fault.

Each capture is run as it stands, as records of one byte, as the longest records of one side, and with empty records; the
answers are the same.
"""

from built import Ended, Room
from cases import (
    bad_lines, by_chunk, chunks, contents, contexts, damaged, errors, extended, infos, large_exports, large_numbers, makes,
    negotiation, offers, orders, outside, parts, pieces, refused_negotiation, selections, shows, sizes, statuses, transmission,
    verdicts, zeroes,
)
from commands.said import hint_of
from messages import begun, front, longest_runs, one_by_one, read, records_of, simple, text
from messages import damaged as inverted

TABLES = (
    chunks, contents, infos, large_exports, large_numbers, negotiation, orders, parts, pieces, refused_negotiation,
    transmission, verdicts,
)
IN_PROFILES = [
    case for table in (contexts, selections, statuses, zeroes, sizes, outside, by_chunk, errors, extended) for case in table.CASES
]
# A READ of one byte with the cookie 9, and its reply.
ONE_MORE_READ = [read(9, 0, 1), simple(9, b"\0")]


def with_empty_records(records):
    """The same with a record without bytes of each side before each record, and after all."""
    between = [("C", b""), ("S", b"")]
    return [it for record in records for it in (*between, record)] + [("S", b"")]


def forms(capture):
    """The same bytes in other records, by the name of the form."""
    records = records_of(capture)
    return {
        "": capture,
        ", byte by byte": text(one_by_one(records)),
        ", as longest runs": text(longest_runs(records)),
        ", with empty records": text(with_empty_records(records)),
    }


def ended(line, hint=b""):
    """A run that answers this line, with a hint, or has this fault."""
    if line.startswith("fault"):
        return Ended(3, b"", line.encode())
    return Ended(0 if line.startswith("yes") else 1, line.encode(), hint)


def try_case(tally, room, case, capture):
    start = case.start if isinstance(case.start, str) else f"image:{room.put('image', case.start)}"
    for form, data in forms(capture).items():
        found = room.check(data, case.order.encode(), start, profile=case.profile)
        tally.want(f"{case.name}{form}", found, ended(case.want, hint_of(data)))


def checks(tally, room):
    """Each case of a refused session is also tried with a READ and its reply behind what refused it."""
    for table in TABLES:
        for case in table.CASES + table.REFUSED:
            try_case(tally, room, case, text(case.capture))
        for case in table.REFUSED:
            longer = case._replace(name=f"{case.name}, and one more READ")
            try_case(tally, room, longer, text([*case.capture, *ONE_MORE_READ]))


def in_profiles(tally, room):
    """Sessions with metadata contexts, block sizes or extended headers in each profile; what the wider one refuses also with a READ and
    its reply."""
    for case in IN_PROFILES:
        try_case(tally, room, case, text(case.capture))
        if case.profile == "wide" and case.want.startswith("no at byte") and "Unfinished" not in case.want:
            longer = case._replace(name=f"{case.name}, and one more READ")
            try_case(tally, room, longer, text([*case.capture, *ONE_MORE_READ]))


def malformed(tally, room):
    for capture, order, fault in bad_lines.BAD_LINES:
        tally.want(f"{capture!r} {order!r}", room.check(capture.encode("latin-1"), order.encode("latin-1")), ended(fault))


def proper_requests(tally, room):
    for name, capture, is_proper in offers.offers():
        line = f"yes requests 1 answered 1 improper {0 if is_proper else 1}\n"
        tally.want(name, room.check(text(capture), b"1\n"), ended(line))


def cut_sessions(tally, room):
    records = damaged.SESSION
    for count in range(191):
        is_open = damaged.ORDER, f"no at byte {count}: Unfinished\n"
        order, line, whole = damaged.ENDS.get(count, (*is_open, is_open[1]))
        for form, data in forms(text(front(records, count))).items():
            for entries, wanted in ((order, line), (damaged.ORDER, whole)):
                tally.want(f"{count} bytes{form}", room.check(data, entries.encode()), ended(wanted, hint_of(data)))


def damaged_sessions(tally, room):
    records = damaged.SESSION
    for place, line in damaged.DAMAGED.items():
        for form, data in forms(text(inverted(records, place - 1))).items():
            tally.want(f"byte {place} damaged{form}", room.check(data, damaged.ORDER.encode()), ended(line))


def shown_lines(tally, room):
    for status, cases in ((0, shows.ACCEPTED), (1, shows.REFUSED)):
        for case in cases:
            for form, data in forms(text(case.capture)).items():
                tally.want(f"{case.name}{form}", room.show(data), Ended(status, "".join(case.want).encode(), hint_of(data)))
    for case in statuses.SHOWN + extended.SHOWN:
        for form, data in forms(text(case.capture)).items():
            tally.want(f"{case.name}{form}", room.show(data, profile="wide"), Ended(0, "".join(case.want).encode(), b""))
    for behind, fault in shows.BAD_TEXTS:
        tally.want(f"show of {behind!r}", room.show(text(begun()) + behind.encode()), Ended(3, b"", fault.encode()))


def made_captures(tally, room):
    for script, capture in makes.MADE + extended.MADE:
        tally.want(f"make of {script!r}", room.make(script.encode()), Ended(0, capture.encode(), b""))
    for script, fault in makes.BAD_SCRIPTS + extended.BAD_SCRIPTS:
        tally.want(f"make of {script!r}", room.make(script.encode()), Ended(3, b"", fault.encode()))
    tally.want("make of one record a message", room.make(room.show(text(begun())).out), Ended(0, text(begun()), b""))
    refused = room.show(text([*begun(), read(1, 0, 1), read(1, 0, 1)])).out
    tally.want("make of a refusal", room.make(refused), Ended(3, b"", b"fault script line 7\n"))


def made_again(tally, room):
    """What is made of the lines of a session is the session."""
    sessions = [(session, text(session), None) for session in makes.SESSIONS]
    sessions += [(told.name, text(told.records), "wide") for told in extended.TABLE if not told.wide.startswith("no at byte")]
    for name, capture, profile in sessions:
        shown = room.show(capture, profile=profile)
        tally.want(f"show of {name}", (shown.status, shown.out[-3:], shown.err), (0, b"ok\n", hint_of(capture)))
        made = room.make(shown.out)
        bytes_of = [one_by_one(records_of(it)) for it in (made.out, capture)]
        tally.want(f"make of what was shown of {name}", (made.status, made.err, bytes_of[0]), (0, b"", bytes_of[1]))


def run(tally):
    with Room() as room:
        for part in (checks, in_profiles, malformed, proper_requests, cut_sessions, damaged_sessions):
            part(tally, room)
        for part in (shown_lines, made_captures, made_again):
            part(tally, room)
