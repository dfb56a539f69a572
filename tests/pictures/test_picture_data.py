"""nbdcheck-picture: what the data of its pages say of small sessions, by hand and as `explain` has it."""

import io
import re

from built import Room
from cases import contexts, extended, extended_messages, offers, outside, selections, sizes, statuses
from explain.judged import JUDGED
from explain.told import EXPLAINED, start_of
from lint.test_lint import parted, sessions
from messages import CLIENT, DONE, ERROR, FLUSH, begun, chunk, content, cut, done, read, request, simple, status, text, write
from picture.places import Places
from picture.session import FAILURE, Session
from pictures.drawn import CROSSED, EXTENDED, HUGE, WRITTEN, data_of, run_script, session

# A byte that was written is called zero.
FALSE_ZERO = [*contexts.ONE_CONTEXT, write(1, 1, b"\7"), simple(1), status(2, 0, 8), contexts.told_last(2, 1, (8, 2))]
FIRST, SECOND = cut(write(2, 4, b"wxyz"), 10)
# Ten bytes of a WRITE, the reply to the READ before it, and the WRITE's other 22 bytes.
MIXED = [*begun(), read(1, 0, 4), FIRST, simple(1, bytes(4)), SECOND, simple(2)]


def places(tally, room):
    """Each message's first and last byte, and the lanes, by hand."""
    data = session(room, CROSSED, "1 0 1\n2\n1 1 1\n")
    messages = data["messages"]
    tally.want("sides", messages["sides"], "SCCSSCCSS")
    # 18, 4, 16 + 6, 20 + 12 and 20 bytes of negotiation; 28 + 2, 28, 16 + 2 and 16.
    tally.want("first bytes, as steps", messages["firsts"], [1, 18, 4, 22, 32, 20, 30, 28, 18])
    tally.want("from the first byte to the last", messages["spans"], [17, 3, 21, 31, 19, 29, 27, 17, 15])
    tally.want("requests of messages", messages["requests"], [0, 0, 0, 0, 0, 1, 2, 2, 1])
    asked = data["requests"]
    tally.want("requests", [asked[key] for key in ("commands", "offsets", "lengths", "results", "improper")],
               [[1, 0], [0, 0], [2, 2], "11", []])
    tally.want("lanes", (data["lanes"], asked["lanes"]), (2, [0, 1]))
    tally.want("bytes, size, start", (data["bytes"], data["unread"], data["size"], data["start"]), (188, 0, 8, "zero"))
    # The first part between 126, where the WRITE is whole, and 154, the READ at 154, the second part between that and 172.
    tally.want("services", data["services"], {"requests": [1, 2, 1], "offsets": [0, None, 1], "lengths": [1, None, 1],
                                              "at": [140, 154, 163]})
    tally.want("the order's source", data["source"], "given")
    mixed = session(room, MIXED, "1\n2\n")
    # In the order in which they are complete: the READ, its reply, the WRITE that had begun before it, the WRITE's reply.
    tally.want("mixed: first bytes, as steps", mixed["messages"]["firsts"][5:], [20, 38, -10, 52])
    tally.want("mixed: from the first byte to the last", mixed["messages"]["spans"][5:], [27, 19, 51, 15])
    tally.want("mixed: lanes", (mixed["lanes"], mixed["requests"]["lanes"]), (2, [0, 1]))


def breaches(tally, room):
    """The rules that `lint` tells: of three sessions of its own tests the lines, and the places of the messages by hand."""
    wanted = {"length-0.a": [7], "option-after-shutdown.a": [4], "disc-unanswered.a": [9], "length-0.b": []}
    for row in sessions():
        if row["name"] not in wanted:
            continue
        found = session(room, row["capture"].encode(), None, "unknown", "wide")["breaches"]
        lines = [parted(line) for line in row["lines"] if line.startswith(("must ", "should "))]
        tally.want(f"breaches of {row['name']}", [
            (each["level"], str(each["byte"]), each["side"], each["rule"], each["text"], each["section"]) for each in found],
            [line[:6] for line in lines])
        tally.want(f"breaches of {row['name']}: messages", [each["message"] for each in found], wanted[row["name"]])
    # In base the grant of a context ends what is read, and the rules with it.
    found = session(room, [*contexts.ONE_CONTEXT, read(1, 0, 0), simple(1)], None, "unknown")["breaches"]
    tally.want("breaches in base", [each["rule"] for each in found], [])


def extended_headers(tally, room):
    """Headers of 32 bytes, and a length that a browser cannot hold, by hand."""
    data = session(room, HUGE.records, f"1 0 {extended_messages.LARGEST}\n2\n", HUGE.start, "wide")
    messages, asked = data["messages"], data["requests"]
    tally.want("extended headers: sides", messages["sides"], "SCCSCSSCSCS")
    # 18, 4, 16, 20, 16 + 6, 20 + 12 and 20 bytes of negotiation; 32, 32, 32 and 32 + 9.
    tally.want("extended headers: first bytes, as steps", messages["firsts"], [1, 18, 4, 16, 20, 22, 32, 20, 32, 32, 32])
    tally.want("extended headers: from the first byte to the last", messages["spans"], [17, 3, 15, 19, 21, 31, 19, 31, 31, 31, 40])
    tally.want("extended headers: requests of messages", messages["requests"], [0, 0, 0, 0, 0, 0, 0, 1, 1, 2, 2])
    tally.want("extended headers: requests", [asked[key] for key in ("commands", "offsets", "lengths", "results", "improper")],
               [[6, 0], [0, "9223372036854775806"], ["9223372036854775807", 1], "11", []])
    tally.want("extended headers: services", data["services"], {
        "requests": [1, 2], "offsets": [0, None], "lengths": ["9223372036854775807", None], "at": [164, 228]})
    for name, wanted in (
        ("all of the largest export is zeroed, and its last byte is wrong", {
            "kind": "content", "place": 269, "requests": [2], "offset": "9223372036854775806", "expected": 1, "wrote": 1,
            "bytes": [[2, "01"]]}),
        ("a WRITE without the flag, and a READ gives a wrong byte",
         {"kind": "content", "place": 272, "requests": [2], "offset": 1, "expected": 1, "wrote": 1, "bytes": [[1, "cd"], [2, "ce"]]}),
        ("the offset of a piece is 0 in place of 4",
         {"kind": "place", "fault": "BadReplyOffset", "place": 205, "messages": [["S", 165, 205, 1]]}),
        ("TRIM with too long a payload", {"kind": "place", "fault": "OutOfProfile", "place": 164, "messages": [["C", 133, 164, 0]]}),
        ("a chunk with too long a payload",
         {"kind": "place", "fault": "OutOfProfile", "place": 196, "messages": [["S", 165, 196, 1]]}),
        ("a chunk with the longest length for an unknown cookie",
         {"kind": "place", "fault": "OutOfProfile", "place": 196, "messages": [["S", 165, 196, 0]]}),
        ("a chunk with the longest payload, of which no byte came",
         {"kind": "place", "fault": "Unfinished", "place": 196, "messages": [["S", 165, 196, 1]]}),
        ("a simple reply", {"kind": "place", "fault": "BadMagic", "place": 168, "messages": [["S", 165, 168, 0]]}),
    ):
        told = EXTENDED[name]
        tally.want(f"extended headers: guilt: {name}", guilt_of(session(room, told.records, told.order, told.start, "wide")), wanted)


def lanes(tally, room):
    for name, records, wanted in (
        ("one after the other", WRITTEN, (1, [0, 0])),
        ("a lane that is free again", [*begun(), read(1, 0, 1), read(2, 0, 1), simple(1, b"\0"), read(3, 0, 1)], (2, [0, 1, 0])),
        ("an open reply keeps its lane", [*begun(), read(1, 0, 1), read(2, 0, 1), simple(2, b"\0"), read(3, 0, 1)], (2, [0, 1, 1])),
        ("none", begun(), (0, [])),
        ("nothing", [], (0, [])),
    ):
        ended = run_script(room.put("s.cap", text(records)), "--start", "zero")
        data = data_of(ended.out.decode())
        tally.want(f"lanes: {name}", (ended.status, data["lanes"], data["requests"]["lanes"]), (0, *wanted))
        tally.want(f"lanes: {name}: what nbdcheck says beside it", data["said"].encode(), b"" if records else
                   room.run("show", room.path("s.cap")).err)


def results(tally, room):
    failed = [*begun(structured=True), read(1, 0, 2), content(1, 0, b"\0"), chunk(1, ERROR, b"\0\0\0\5\0\0", DONE),
              request(9, 2, 0, 0), simple(2, error=22), request(FLUSH, 3, 0, 0), simple(3), read(4, 7, 2)]
    data = session(room, failed, "1\n2\n3\n")
    tally.want("results", (data["requests"]["results"], data["requests"]["improper"]), ("2210", [2, 4]))
    large = session(room, [*begun(size=2**63 - 1), read(1, 2**63 - 2, 1), simple(1, b"\0")], "1\n")
    tally.want("a number that a browser cannot hold", (large["size"], large["requests"]["offsets"]),
               ("9223372036854775807", ["9223372036854775806"]))
    found = session(room, CROSSED)
    tally.want("an order that is found", (found["source"], len(found["services"]["at"])), ("found", 3))


def proper_requests(tally, room):
    """Each command with each flag, and each flag of an export."""
    for name, capture, is_proper in offers.offers():
        data = text(capture)
        shown = Session(Places(io.BytesIO(data)), None)
        for line in room.show(data).out.splitlines():
            shown.add(line)
        tally.want(name, [(one.is_improper, one.result) for one in shown.requests], [(not is_proper, FAILURE)])


def proper_in_profiles(tally, room):
    """Requests on block status, outside of block sizes, and with extended headers, in the sessions of both profiles that are accepted."""
    for told in contexts.STATUS_TABLE + selections.NEGOTIATION_TABLE + statuses.TABLE + sizes.TABLE + outside.TABLE + extended.TABLE:
        for profile, line in (("base", told.base), ("wide", told.wide)):
            if not line.startswith("yes"):
                continue
            data = text(told.records)
            shown = Session(Places(io.BytesIO(data)), None, profile == "wide")
            for one in room.show(data, profile=profile).out.splitlines():
                shown.add(one)
            tally.want(f"{told.name}, {profile}", sum(one.is_improper for one in shown.requests), int(line.split()[-1]))


def guilt_of(data):
    """What is marked, without what is nothing."""
    return {key: value for key, value in data["guilt"].items() if value is not None and value != []}


def guilt(tally, room):
    """What is marked, by hand: each capture, order, and what the page's data say of the answer."""
    two = [*begun(), write(1, 0, b"\1"), write(2, 0, b"\2"), simple(1), simple(2), read(3, 0, 1), simple(3, b"\1"), read(4, 0, 1),
           simple(4, b"\2")]
    half = [*begun(), cut(read(1, 0, 4), 10)[0], cut(simple(1), 3)[0]]
    for name, records, order, wanted in (
        ("yes", WRITTEN, "1\n2\n", {"kind": "yes"}),
        ("a wrong byte", [*WRITTEN[:-1], simple(2, b"\xab\xce\0\0")], "1\n2\n",
         {"kind": "content", "place": 188, "requests": [2], "offset": 1, "expected": 1, "wrote": 1, "bytes": [[1, "cd"], [2, "ce"]]}),
        ("in any order", [*WRITTEN[:-1], simple(2, b"\xab\xce\0\0")], None,
         {"kind": "any", "place": 188, "requests": [2], "offset": 1, "bytes": [[1, "cd"], [2, "ce"]]}),
        ("of several", two, None, {"kind": "none", "requests": [3, 4], "bytes": [[1, "01"], [2, "02"], [3, "01"], [4, "02"]]}),
        ("late", WRITTEN, "2\n1\n", {"kind": "order", "fault": "Late", "entry": 1}),
        ("missing", WRITTEN, "1\n", {"kind": "order", "fault": "Missing", "requests": [2]}),
        ("no such request", WRITTEN, "7\n1\n2\n", {"kind": "order", "fault": "NoSuchRequest", "entry": 1}),
        # Behind 124 bytes a reply's 16: its head; its four bytes of data are not read.
        ("a refused reply", [*begun(), read(1, 0, 4), simple(9, b"1234")], "1\n",
         {"kind": "place", "fault": "UnknownCookie", "place": 140, "messages": [["S", 125, 140, 0]]}),
        # 132 bytes, a READ of 28, content of 32, and DONE of 20.
        ("a refused end", [*begun(structured=True), read(1, 0, 8), content(1, 0, b"abcd"), done(1)], "1\n",
         {"kind": "place", "fault": "IncompleteRead", "place": 212, "messages": [["S", 193, 212, 1]]}),
        ("cut off on both sides", half, "", {"kind": "place", "fault": "Unfinished", "place": 109,
                                             "messages": [["C", 97, 106, 0], ["S", 107, 109, 0]]}),
        ("out of turn", [(CLIENT, b"x")], "", {"kind": "place", "fault": "OutOfTurn", "place": 1, "messages": [["C", 1, 1, 0]]}),
    ):
        wanted = dict(wanted, **({"offset": 0} if name == "of several" else {}))
        tally.want(f"guilt: {name}", guilt_of(session(room, records, order)), wanted)
    for order in ("1\n2\n", None):
        found = session(room, FALSE_ZERO, order, "zero", "wide")["guilt"]
        named = {key: found[key] for key in ("kind", "requests", "offset", "place", "bytes")}
        wanted = {"kind": "status", "requests": [2], "offset": 1, "place": None, "bytes": [[1, "07"]]}
        tally.want("guilt: a false zero", {**named, "bytes": found["bytes"][:1]}, wanted)
    unread = session(room, [*begun(), read(1, 0, 4), simple(9, b"1234")], "1\n")
    tally.want("behind a refusal", (unread["bytes"], unread["unread"]), (140, 4))


def in_words(tally, room):
    """The byte that came and the write that was expected, as `explain` was judged to tell them."""
    came = re.compile(r"^came: (..) for offset (\d+),.* byte (\d+)$", re.MULTILINE)
    wrote = re.compile(r"^expected: (..), (?:by \w+ #(\d+),.* served by entry (\d+)|.*)$", re.MULTILINE)
    for name, (records, order, start, profile) in JUDGED.items():
        told = (EXPLAINED / f"{name}.txt").read_text()
        if not told.startswith("no content "):
            continue
        data = session(room, records, order, start_of(room, name, start), profile)
        byte, offset, place = came.search(told).groups()
        _, number, entry = wrote.search(told).groups()
        found, [read_it] = data["guilt"], data["guilt"]["requests"]
        tally.want(f"{name}: what came", (dict(found["bytes"])[read_it], found["offset"], found["place"]), (byte, int(offset), int(place)))
        tally.want(f"{name}: what was expected", (found["expected"], found["wrote"]),
                   (number and int(number), entry and int(entry)))
        tally.want(f"{name}: in words", data["explained"], told)


def run(tally):
    with Room() as room:
        for part in (places, breaches, extended_headers, lanes, results, proper_requests, proper_in_profiles, guilt, in_words):
            part(tally, room)
