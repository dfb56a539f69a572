"""`lint`: sessions that just break a rule and that just do not, as they stand, byte by byte and as longest runs; its words, and JSON.

sessions.jsonl has a session a line: `name` (of the rule that it is for, and a letter), `profile`, `level`, `capture`, and what is
printed, `lines` and `status`. edges.py, option_edges.py and request_edges.py have more of them, with the rules that they break.
"""

import json
import re
from collections import Counter
from pathlib import Path

from built import Ended, Room
from commands.said import fault, hint_of
from lint import edges as other_edges, option_edges, request_edges
from lint.edges import ENDED
from messages import begun, client_flags, greeting, longest_runs, one_by_one, records_of, text

HERE = Path(__file__).parent
LEVELS = ("must", "should", "hint")
LINE = re.compile(r'(must|should|hint) at byte (\d+): (client|server): ([a-z0-9-]+): (.*) \("([^"]+)"\)(?: \((\d+) more\))?')
ROWS = [*other_edges.ROWS, *option_edges.ROWS, *request_edges.ROWS]
ENDINGS = {"ended-without-disconnect", "abort-unanswered", "disc-unanswered"}


def sessions():
    return [json.loads(line) for line in (HERE / "sessions.jsonl").read_text().splitlines()]


def lint(room, capture, *words, profile="wide", level="should"):
    return room.run("lint", room.put("capture", capture), "--profile", profile, "--level", level, *words)


def cuts(capture):
    """The same session as it stands, byte by byte, and as longest runs."""
    records = records_of(capture)
    return (capture, text(one_by_one(records)), text(longest_runs(records)))


def parted(line):
    found = LINE.fullmatch(line)
    return found.groups() if found else (None,) * 7


def lines_of(found):
    return found.out.decode().splitlines()


def rows(tally, room):
    """Each session, however it is cut."""
    for row in sessions():
        capture = row["capture"].encode()
        wanted = Ended(row["status"], "".join(f"{line}\n" for line in row["lines"]).encode(), hint_of(capture))
        for number, records in enumerate(cuts(capture)):
            found = lint(room, records, profile=row["profile"], level=row["level"])
            tally.want(f"lint {row['name']}, cut {number}", found, wanted)


def broken_by(room, records):
    """The rules that a session breaks, each with how many messages broke it; a refusal is told by its line."""
    found = Counter()
    for line in lines_of(lint(room, text(records), level="hint"))[:-1]:
        _, _, _, rule, _, _, more = parted(line)
        found[rule or line] += 1 + int(more or 0)
    return found


def edges(tally, room):
    """Sessions at the edges of the rules. How a capture ends is asked of some alone."""
    for name, records, wanted in ROWS:
        found = broken_by(room, records)
        tally.want(f"lint: {name}", {rule: count for rule, count in found.items() if rule not in ENDINGS}, wanted)
    for name, records, wanted in ENDED:
        tally.want(f"lint, the end: {name}", dict(broken_by(room, records)), wanted)
    names = Counter(name for name, _, _ in ROWS)
    tally.want("sessions of one name", {name for name, count in names.items() if count > 1}, set())


def without(row, rule):
    """The lines of a session, and its status, where a rule is as if it was none."""
    kept = [line for line in row["lines"][:-1] if parted(line)[3] != rule]
    counts = Counter(parted(line)[0] for line in kept)
    told = LEVELS[: LEVELS.index(row["level"]) + 1]
    refused = any(line.startswith("no at byte") for line in kept)
    last = "lint " + " ".join(f"{level} {counts[level]}" for level in told)
    return kept + [last], int(counts["must"] > 0 or refused)


def allowed(tally, room):
    """Each rule is taken out: the session that breaks it is told without it, and others as they were."""
    seen = set()
    for row in sessions():
        for rule in {parted(line)[3] for line in row["lines"][:-1]} - {None}:
            seen.add(rule)
            lines, status = without(row, rule)
            found = lint(room, row["capture"].encode(), "--allow", rule, profile=row["profile"], level=row["level"])
            tally.want(f"lint {row['name']} --allow {rule}", (found.status, lines_of(found)), (status, lines))
            tally.holds(f"lint {row['name']} without {rule}", lines != row["lines"], lines)
    seen |= {rule for _, _, wanted in ROWS for rule in wanted}
    names = {line.split(" ")[2] for line in lines_of(room.run("lint", "--list"))}
    tally.want("rules without a session that breaks them", names - seen, set())
    tally.want("rules that are not listed", seen - names, set())


def levels(tally, room):
    """Down to each level: those lines alone, and a last line that counts them."""
    for row in sessions():
        for level in LEVELS[: LEVELS.index(row["level"])]:
            told = LEVELS[: LEVELS.index(level) + 1]
            kept = [line for line in row["lines"][:-1] if parted(line)[0] in (*told, None)]
            counts = Counter(parted(line)[0] for line in kept)
            last = "lint " + " ".join(f"{one} {counts[one]}" for one in told)
            found = lint(room, row["capture"].encode(), profile=row["profile"], level=level)
            tally.want(f"lint {row['name']} --level {level}", (found.status, lines_of(found)), (row["status"], kept + [last]))


def as_json(line):
    """What an object says of a line."""
    if refusal := re.fullmatch(r"no at byte (\d+): (\w+)", line):
        return {"refusal": refusal[2], "byte": int(refusal[1])}
    if line.startswith("lint "):
        words = line.split(" ")[1:]
        return {"lint": {level: int(count) for level, count in zip(words[::2], words[1::2])}}
    level, place, side, rule, said, section, more = parted(line)
    return {"level": level, "byte": int(place), "side": side, "rule": rule, "text": said, "section": section, "more": int(more or 0)}


def objects(tally, room):
    """The same lines as objects, with the message's line in `show`, the request, and the lines of proto.md."""
    listed = dict(line.split(" ", 3)[2:] for line in lines_of(room.run("lint", "--list")))
    for row in sessions():
        capture = row["capture"].encode()
        found = lint(room, capture, "--json", profile=row["profile"], level=row["level"])
        said = [json.loads(line) for line in lines_of(found)]
        shown = lines_of(room.show(capture, profile=row["profile"]))
        for one in said:
            if "rule" not in one:
                continue
            message, request, lines = one.pop("message"), one.pop("request"), one.pop("lines")
            tally.want(f"lint {row['name']} --json: the lines of {one['rule']}", lines, listed[one["rule"]])
            if one["rule"] not in ENDINGS:
                tally.want(f"lint {row['name']} --json: the side of message {message}", shown[message - 1][0], one["side"][0].upper())
            wanted = re.search(r"request (\d+) \(", one["text"])
            if one["rule"] != "allocation-flags":
                tally.want(f"lint {row['name']} --json: the request", request, int(wanted[1]) if wanted else None)
        tally.want(f"lint {row['name']} --json", (found.status, said), (row["status"], list(map(as_json, row["lines"]))))


def words(tally, room):
    """The rules that are listed; words that have no form; what cannot be read or written."""
    listed = room.run("lint", "--list")
    tally.want("lint --list", (listed.status, listed.err), (0, b""))
    rules = [line.split(" ", 3) for line in lines_of(listed)]
    tally.want("lint --list: levels", Counter(rule[0] for rule in rules), {"must": 33, "should": 35, "hint": 8})
    tally.want("lint --list: sides", {rule[1] for rule in rules}, {"client", "server", "both"})
    tally.want("lint --list: names", len({rule[2] for rule in rules}), 76)
    capture = room.put("capture", text(begun()))
    for asked, wanted in (
        (["lint", capture, "--level", "musts"], fault("level", 2)),
        (["lint", capture, "--allow", "no-such-rule"], fault("rule", 2)),
        (["lint", capture, "--allow", "enomem", "--allow", ""], fault("rule", 2)),
        (["lint", capture, "--profile", "wider"], fault("profile", 2)),
        (["lint"], fault("capture", 2)),
        (["lint", room.path("none")], fault("capture read")),
        (["lint", room.put("bad", b"C 0\n")], fault("capture line 1")),
    ):
        tally.want(f"{asked}", room.run(*asked), wanted)
    for asked in (["lint", capture, "--list"], ["lint", "--list", "--json"], ["lint", "--list", "--level", "must"],
                  ["lint", "--list", "--profile", "base"], ["lint", "--list", "--allow", "enomem"], ["lint", capture, "--start", "zero"], ["lint", capture, "--level"],
                  ["lint", capture, capture], ["lint", capture, "--json", "--json"]):
        found = room.run(*asked)
        tally.want(f"{asked}", (found.status, found.out, found.err[:7]), (2, b"", b"error: "))
    for asked in (["lint", capture], ["lint", capture, "--json"], ["lint", "--list"]):
        tally.want(f"{asked} >/dev/full", room.run(*asked, stdout="/dev/full"), Ended(3, b"", b"fault write\n"))
    several = text([greeting(7), client_flags(3)])
    tally.want("a must, told", room.run("lint", room.put("c", several)).status, 1)
    tally.want("a must, allowed", room.run("lint", room.put("c", several), "--allow", "enomem", "--allow", "handshake-flags").status, 0)


def profiles(tally, room):
    """In the profile base a session is read as far as that goes."""
    row = next(row for row in sessions() if row["name"] == "context-name.a")
    found = lint(room, row["capture"].encode(), profile="base")
    tally.want("lint --profile base", (found.status, lines_of(found)[-1]), (1, "lint must 0 should 0"))
    tally.want("lint --profile base: the refusal", lines_of(found)[0].split(": ")[1], "OutOfProfile")


def run(tally):
    with Room() as room:
        for part in (rows, edges, allowed, levels, objects, words, profiles):
            part(tally, room)
