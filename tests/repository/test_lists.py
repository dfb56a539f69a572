"""The lists of tests in crates/nbd_wire/specs/protocol against the must-fail edits and docs/PROFILE.md: of each line there is an edit that
leaves its test out, and of each two lines that follow one another an edit that exchanges them, unless they exclude each other."""

import re

from built import TOP

SPECS = TOP / "crates/nbd_wire/specs/protocol"
# The files that hold lists, in the order of docs/PROFILE.md.
FILES = ("Decisions", "Negotiation", "Transmission")
HEADER = re.compile(r"abbrev pub (\w+) :")
LINE = re.compile(r"(?:    |\w+ .*= )(\w+) when ")

# The lists whose first lines are tested behind the last line of a list, where a message has passed that.
BEHIND = {
    "magic_fault": ["greeting_fault", "answer_fault", "request_fault"],
    "greeting_fault": [],
    "client_flags_fault": [],
    "export_fault": ["padding_fault"],
    "padding_fault": [],
    "answer_fault": ["abort_fault", "success_fault"],
    "ack_fault": ["info_fault"],
    "abort_fault": ["ack_fault"],
    "info_fault": [],
    "success_fault": ["ack_fault"],
    "payload_fault": [],
    "request_fault": ["cookie_fault"],
    "cookie_fault": [],
    "simple_fault": ["simple_last_fault"],
    "simple_last_fault": [],
    "chunk_head_fault": ["none_fault", "content_fault"],
    "offset_fault": [],
    "piece_fault": ["finish_fault"],
    "failure_fault": ["offset_fault"],
    "status_fault": ["finish_fault"],
    "content_fault": ["offset_fault"],
    "none_fault": ["finish_fault"],
    "finish_fault": ["offset_fault"],
}
# Lines that follow one another and of which one excludes the other, and why.
APART = {
    ("export_fault ExportTooLarge", "padding_fault BadExport"): "the zeroes come behind the head",
    ("success_fault BadReplyKind", "ack_fault BadReplyPayload"): "each option takes an ACK",
    ("abort_fault BadReplyKind", "ack_fault BadReplyPayload"): "one is of no ACK, the other of an ACK",
    ("request_fault BadDisconnect", "cookie_fault CookieInUse"): "one is of a DISC, the other of no DISC",
    ("simple_fault UnknownCookie", "simple_fault SimpleForbidden"): "one is of no request, the other of a request",
}
# The first line of a list behind another where the reply to a request can have no hit of an earlier one.
FIRST = {("piece_fault", "finish_fault"): 0, ("status_fault", "finish_fault"): 1, ("none_fault", "finish_fault"): 0}


def lists():
    """Of each list its clauses, of each clause the faults of its lines, in their order."""
    found, name = {}, ""
    for file in FILES:
        for line in (SPECS / f"{file}.antt").read_text().split("\n"):
            name = header[1] if (header := HEADER.match(line)) else name
            if name and line.startswith(f"{name} "):
                found.setdefault(name, []).append([])
            if test := LINE.match(line):
                found[name][-1].append(test[1])
    return {name: [faults for faults in clauses if faults] for name, clauses in found.items() if any(clauses)}


def neighbours(found):
    """Each two lines of which the second is tested behind the first."""
    pairs = []
    for name, clauses in found.items():
        for faults in clauses:
            pairs += [(f"{name} {one}", f"{name} {other}") for one, other in zip(faults, faults[1:])]
        for behind in BEHIND.get(name, ()):
            last = clauses[-1][-1]
            firsts = [faults[FIRST.get((name, behind), 0)] for faults in found[behind]]
            pairs += [(f"{name} {last}", f"{behind} {first}") for first in firsts]
    # (the clauses of one list are of one message, with and without a request)
    both = [(one, other) for one, other in APART if one.split()[0] == other.split()[0] and (one, other) not in pairs]
    return pairs + both


def word(line):
    """A line as it stands in the name of an edit."""
    name, fault = line.split()
    return f"{name}_{re.sub(r'(?<=[a-z])(?=[A-Z])', '_', fault).lower()}"


def run(tally):
    found = lists()
    edits = {path.stem for path in TOP.glob("crates/*/must-fail/*.edit")}
    tally.want("the lists of tests", sorted(found), sorted(BEHIND))
    lines = [f"{name} {fault}" for name, clauses in found.items() for faults in clauses for fault in faults]
    tally.want("no fault stands twice in a list", sorted(set(lines)), sorted(lines))
    for line in lines:
        tally.holds(f"an edit leaves {line} out", any(edit.startswith(f"{word(line)}_left_out") for edit in edits))
    pairs = neighbours(found)
    tally.want("lines apart that are neighbours", [pair for pair in APART if pair not in pairs], [])
    for one, other in pairs:
        if (one, other) not in APART:
            tally.holds(f"an edit tests {other} before {one}", f"{word(other)}_before_{word(one)}" in edits)
    page = (TOP / "docs/PROFILE.md").read_text()
    told = re.findall(r"(?m)^\| (?:[^|]*\| )?`(\w+)` \| (\w+) \|", page)
    tally.want("the lists of docs/PROFILE.md", [f"{name} {fault}" for name, fault in told], lines)
