"""`--json` of `check`, `explain`, `order`, `contents` and `show`: an object a line, which says what the line says
(docs/json.md)."""

import json
import re

from built import Room
from explain.judged import JUDGED
from explain.orderless import ORDERLESS
from explain.refused import WIRE
from explain.told import profile_of, start_of
from messages import begun, simple, text, write
from sessions.test_cases import IN_PROFILES, TABLES

OUTSIDE = ("OutOfProfile", "ExportTooLarge")
# What a verdict's line says, by its forms; the name of a number is that of its group.
VERDICTS = [
    ("ok", None, re.compile("ok")),
    ("yes", None, re.compile(r"yes requests (?P<requests>\d+) answered (?P<answered>\d+) improper (?P<improper>\d+)")),
    ("no", "session", re.compile(r"no at byte (?P<byte>\d+): (?P<fault>\w+)")),
    ("no", "image", re.compile(r"no image (?P<image>\d+) size (?P<size>\d+)")),
    ("no", "order", re.compile(r"no order entry (?P<request>\d+): (?P<fault>Missing|NotCovered)")),
    ("no", "order", re.compile(r"no order entry (?P<entry>\d+): (?P<fault>\w+)")),
    ("no", "content", re.compile(r"no content request (?P<request>\d+) offset (?P<offset>\d+)(?P<any> in any order)?")),
    ("no", "status", re.compile(r"no status request (?P<request>\d+) offset (?P<offset>\d+)(?P<any> in any order)?")),
    ("no", "requests", re.compile(r"no order explains requests (?P<wrong>[\d ]+) at offset (?P<offset>\d+)(?P<any>)")),
    ("agrees", None, re.compile(r"agrees known (?P<known>\d+) unknown (?P<unknown>\d+)")),
    ("no", "against", re.compile(r"no against offset (?P<offset>\d+)")),
    ("no", "against", re.compile(r"no against (?P<image>\d+) size (?P<size>\d+)")),
    ("no", "export", re.compile("no export")),
    ("open", "whole", re.compile("no order of whole requests found")),
    ("open", "search", re.compile(r"gave up: (?P<reason>[a-z ]+) at request (?P<request>\d+) offset (?P<offset>\d+)")),
]
# What is the same in each session is told in words alone, and so are rows of bytes.
IN_WORDS = {"rule", "section", "broken by", "assumes", "shows", "misses", "stronger", "further", "wide", "perhaps", "open", "order",
            "came", "expected", "called", "C", "S"}
# Numbers of a rule, which are the same in each session and are told in words alone.
OF_RULES = (
    "of 64 bits", "at most 4294967295 bytes", "more than 9223372036854775807 bytes (2^63 - 1)", "of 2 bytes each", "of 4 bytes each",
    "which has 4 bytes", "which have 6 bytes", "a length of 8 bytes", "its error is 0", "has size 0", "has length 0", "has bit 15",
    "count of queries, 4 bytes", "length of the name, 4 bytes", "length of the next, 4 bytes", "info on block sizes has 14 bytes",
    "info on the export has 12 bytes", "block size is 0", "is above 65536", "is below 512", "power of 2", "a hole has 12 bytes",
    "descriptors of 16 bytes", "an id of 4 bytes", "a descriptor of 8 bytes",
)
FIXED = re.compile("|".join(map(re.escape, OF_RULES)))
TOKEN = re.compile(r"0x[0-9a-f]+|\b\d+\b")


def value_of(name, word):
    if name == "wrong":
        return [int(number) for number in word.split(" ")]
    return word if name in ("fault", "reason") else int(word)


def verdict_of(line):
    """The object of a verdict's line, without its format, or None."""
    for verdict, kind, form in VERDICTS:
        if found := form.fullmatch(line):
            named = {name: word for name, word in found.groupdict().items() if name != "any"}
            told = {"verdict": verdict, **({"kind": kind} if kind else {}), **{name: value_of(name, word) for name, word in named.items()}}
            if found.groupdict().get("any") is not None:
                told["any_order"] = True
            return {"line": line, **told, "judged": verdict != "open" and named.get("fault") not in OUTSIDE}
    return None


def message_of(line):
    """The object of a message's line of `show`."""
    side, kind, *fields = line.split(" ")
    told = {"side": {"C": "client", "S": "server"}[side], "message": kind}
    for name, word in (field.split("=") for field in fields):
        told[name] = word if name == "payload" else hex(int(word)) if name == "cookie" else int(word)
    return told


def entry_of(line):
    return dict(zip(("request", "offset", "length"), map(int, line.split(" "))))


def held_of(line):
    """The object of a line of a contents text."""
    kind, *values = line.split(" ")
    names = {"size": ("size",), "data": ("offset", "bytes")}.get(kind, ("offset", "length"))
    return {"holds": kind, **{name: value if name == "bytes" else int(value) for name, value in zip(names, values)}}


def objects_of(found):
    """The objects that a run printed, without the format of the first one."""
    objects = [json.loads(line) for line in found.out.decode().split("\n")[:-1]]
    formats = [each.pop("format", None) for each in objects]
    return objects if formats[:1] in ([1], []) and not any(formats[1:]) else f"formats {formats}"


def flat(values):
    return [each for value in values for each in (value if isinstance(value, list) else [value])]


def compare_words(tally, name, line, told):
    """The words are those of the line, and its numbers are those of the object."""
    label = line.split()[0] if line.startswith("  ") else re.split(r": | \d", line)[0]
    fact = told.get("fact")
    tally.want(f"{name}: {line[:40]}: words", (fact, told["line"]), (label, line))
    numbers = {key: value for key, value in told.items() if key not in ("fact", "line")}
    if fact in IN_WORDS and not numbers:
        return
    found = [str(each) for each in flat(numbers.values())]
    wanted = TOKEN.findall(FIXED.sub("", line))
    tally.want(f"{name}: {line[:40]}: numbers", sorted(token for token in wanted if token not in found), [])
    tally.holds(f"{name}: {line[:40]}: no others", all(each in line for each in found), (line, told))


def compare_named(tally, name, line, told):
    """The same of a message in words."""
    tally.want(f"{name}: {line[:40]}: words", (told["side"][0].upper(), told["text"]), (line[0], line[2:]))
    found = [str(each) for each in flat(value for key, value in told.items() if key not in ("side", "text", "result"))]
    tally.want(f"{name}: {line[:40]}: numbers", sorted(token for token in TOKEN.findall(line) if token not in found), [])
    ends = {": success": "success", ": pending": "pending"}
    result = next((word for end, word in ends.items() if line.endswith(end)), "failure" if ": failure, " in line else None)
    tally.want(f"{name}: {line[:40]}: result", told.get("result"), result)


def both(room, *words):
    """A run in words and one in objects; they end alike."""
    return room.run(*words), room.run(*words, "--json")


def same_end(tally, name, one, other):
    tally.want(f"{name}: status and standard error", (other.status, other.err), (one.status, one.err))


def told(tally, room, name, words):
    """`explain`: the verdict, and a fact for each line behind it."""
    one, other = both(room, "explain", *words)
    same_end(tally, name, one, other)
    lines, objects = one.out.decode().split("\n")[:-1], objects_of(other)
    tally.want(f"{name}: how many objects", len(objects), len(lines))
    tally.want(f"{name}: verdict", objects[:1], [verdict_of(lines[0])])
    for line, each in list(zip(lines, objects))[1:]:
        compare_words(tally, name, line, each)


def plain(tally, room, name, command, words, of_line):
    """A command whose lines have the same members as its objects."""
    one, other = both(room, command, *words)
    same_end(tally, f"{command} {name}", one, other)
    wanted = [verdict_of(line) or of_line(line) for line in one.out.decode().split("\n")[:-1]]
    tally.want(f"{command} {name}: objects", objects_of(other), wanted)


def named(tally, room, name, words):
    one, other = both(room, "show", "--names", *words)
    same_end(tally, f"names of {name}", one, other)
    lines, objects = one.out.decode().split("\n")[:-1], objects_of(other)
    tally.want(f"names of {name}: how many objects", len(objects), len(lines))
    tally.want(f"names of {name}: the end", objects[-1:], [verdict_of(lines[-1])])
    for line, each in list(zip(lines, objects))[:-1]:
        compare_named(tally, name, line, each)


def explained(tally, room):
    """The sessions of `explain`, with an order and without."""
    for name, session in {**WIRE, **JUDGED, **ORDERLESS}.items():
        capture, profile = room.put(f"{name}.cap", text(session.records)), profile_of(session)
        start = ["--start", start_of(room, name, session.start), *profile]
        if name not in ORDERLESS:
            words = [capture, room.put(f"{name}.ord", session.order.encode()), *start]
            told(tally, room, name, words)
            plain(tally, room, name, "check", words, verdict_of)
            plain(tally, room, name, "contents", words, held_of)
        told(tally, room, f"{name} without an order", [capture, *start])
        plain(tally, room, f"{name} without an order", "contents", [capture, *start], held_of)
        plain(tally, room, name, "order", [capture, *start], entry_of)
        plain(tally, room, f"{name} by arrival", "order", [capture, "--arrival", *profile], entry_of)
        plain(tally, room, name, "show", [capture, *profile], message_of)
        named(tally, room, name, [capture, *profile])


def cases(tally, room):
    """All sessions of tests/cases/."""
    for case in [case for table in TABLES for case in table.CASES + table.REFUSED] + IN_PROFILES:
        start = case.start if isinstance(case.start, str) else f"image:{room.put('image', case.start)}"
        profile = [] if case.profile is None else ["--profile", case.profile]
        capture, order = room.put("case.cap", text(case.capture)), room.put("case.ord", case.order.encode())
        if case.want.startswith("fault"):
            continue
        words = [capture, order, "--start", start, *profile]
        plain(tally, room, case.name, "check", words, verdict_of)
        plain(tally, room, case.name, "show", [capture, *profile], message_of)
        told(tally, room, case.name, words)
        named(tally, room, case.name, [capture, *profile])


def against(tally, room):
    """What `contents` says of a file."""
    capture = room.put("written.cap", text([*begun(), write(1, 0, b"\xab\xcd"), simple(1)]))
    for data in (b"\xab\xcd" + bytes(6), b"\xab\xce" + bytes(6), bytes(9)):
        words = [capture, "--start", "zero", "--against", room.put("against", data)]
        plain(tally, room, f"against {data}", "contents", words, held_of)
    plain(tally, room, "of no export", "contents", [room.put("listed.cap", text(begun()[:2]))], held_of)


def faults(tally, room):
    """A fault is told as ever, and no object is."""
    for words in (["check", room.put("bad", b"X 00\n"), room.put("o", b"")], ["show", room.path("nothing")], ["explain", room.path("nothing")],
                  ["order", room.put("cut", b"S 0")], ["contents", room.put("cut", b"S 0")]):
        one, other = both(room, *words)
        tally.want(f"{words[0]}: a fault", (other.status, other.out, other.err), (one.status, b"", one.err))


PARTS = (explained, cases, against, faults)


def run(tally):
    with Room() as room:
        for part in PARTS:
            part(tally, room)
