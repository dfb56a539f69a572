"""What nbdcheck-record tells of the rules that `nbdcheck lint` has, and of a side that it saw close first."""

import json
import xml.etree.ElementTree as xml
from pathlib import Path

from built import PROGRAM
from lint.test_lint import sessions
from messages import ABORT, ACK, CLIENT, DISC, TRIM, answer, begun, option, read, records_of, request, simple
from record.recorded_ends import GOOD, NONE, Ends, run_parts

SESSIONS = {row["name"]: row for row in sessions()}
# Sessions that end without DISC, behind ABORT, and behind DISC with a request outstanding; and one with two breaches and DISC.
NO_DISC, NO_ACK, NO_REPLY = (records_of(SESSIONS[f"{name}.a"]["capture"].encode())
                             for name in ("ended-without-disconnect", "abort-unanswered", "disc-unanswered"))
LEAVES = request(DISC, 9, 0, 0)
# A server that breaks a must: an error that proto.md does not have.
UNKNOWN = begun() + [read(1, 0, 4), simple(1, error=1234)]


def line_of(name, rule, level="must"):
    """The line that a session of sessions.jsonl has for a rule, with this level."""
    line = next(line for line in SESSIONS[name]["lines"] if f": {rule}: " in line)
    return f"{level}{line[line.index(' at byte'):]}"


NO_DISC_LINE = line_of("ended-without-disconnect.a", "ended-without-disconnect")
NO_ACK_LINE = line_of("abort-unanswered.a", "abort-unanswered")
NO_REPLY_LINE = line_of("disc-unanswered.a", "disc-unanswered")
EARLY_LINE = line_of("disc-unanswered.a", "disc-with-requests-outstanding", "should")
UNKNOWN_LINE = f'must at byte {sum(len(data) for _, data in UNKNOWN)}: server: unknown-error: '
# What passes, which end closes then, and what is told of rules: the counts and the beginnings of lines, or nothing.
TOLD = {
    "the client closes without DISC": (NO_DISC, "client", ["lint must 1 should 0", NO_DISC_LINE]),
    "the server closes first": (NO_DISC, "server", []),
    "the client closes behind DISC": (NO_DISC + [LEAVES], "client", []),
    "the server closes in place of ACK": (NO_ACK, "server", ["lint must 1 should 0", NO_ACK_LINE]),
    "the client closes behind ABORT": (NO_ACK, "client", []),
    "the server closes behind ACK": (NO_ACK + [answer(ABORT, ACK)], "server", []),
    "the server leaves a request behind DISC": (NO_REPLY, "server", ["lint must 1 should 1", EARLY_LINE, NO_REPLY_LINE]),
    "the client leaves a request behind DISC": (NO_REPLY, "client", ["lint must 0 should 1", EARLY_LINE]),
    "neither closes": (NO_DISC, None, []),
    "the client closes behind a broken must of the server": (UNKNOWN, "client", ["lint must 1 should 0", UNKNOWN_LINE]),
    "a broken must": (UNKNOWN + [LEAVES], "client", ["lint must 1 should 0", UNKNOWN_LINE]),
    "a refused session": (UNKNOWN + [simple(1)], "client", []),
    "a message that is not whole": (UNKNOWN + [(CLIENT, LEAVES[1][:5])], "client", []),
}


def recorded(folder, name, records, who, *words, lints=True):
    """A recording of a session whose client or server closes first: its status, standard output, and standard error."""
    with Ends(folder, name, *words, lints=lints) as ends:
        client, server = ends.both()
        ends.play(client, server, records)
        first, second = (client, server) if who == "client" else (server, client)
        if who is not None:
            first.close()
            second.recv(1)
            second.close()
        return ends.interrupt()


def lines_of_rules(out):
    """The lines of a report that tell of rules."""
    return [line for line in out.splitlines() if line.startswith(("lint ", "must ", "should ", "hint "))]


def told(tally, folder):
    """The breaches stand behind the answer; an ending is a must of the side that closed first."""
    for number, (name, (records, who, wanted)) in enumerate(TOLD.items()):
        status, out, err = recorded(folder, f"t{number}", records, who, "--start", "zero")
        found = lines_of_rules(out)
        tally.want(f"lint, {name}: lines", len(found), len(wanted))
        for line, begin in zip(found, wanted):
            tally.holds(f"lint, {name}: {begin}", line.startswith(begin), line)
        is_refused = "refused" in name or "not whole" in name
        tally.want(f"lint, {name}: status and standard error", (status, err), (1 if is_refused else 0, ""))
        _, out, _ = recorded(folder, f"n{number}", records, who, "--start", "zero", "--no-lint")
        tally.want(f"lint, {name}: --no-lint", lines_of_rules(out), [])
        _, out, _ = recorded(folder, f"u{number}", records, who)
        tally.want(f"lint, {name}: where no answer is asked for", lines_of_rules(out), [])


def all_well(tally, folder):
    """Without a breach a connection has one line."""
    status, out, err = recorded(folder, "well", begun() + [LEAVES], "client", "--start", "zero")
    lines = out.splitlines()
    tally.want("lint, all is well", (status, lines[1:], err),
               (0, [NONE, "connections 1: compared 1, not compared 0, empty 0, not judged 0"], ""))


def strict(tally, folder):
    """--strict refuses a broken must, and no should."""
    status, out, _ = recorded(folder, "must", NO_DISC, "client", "--start", "zero", "--strict")
    tally.want("lint, --strict and a must", (status, "strict: broken musts 1" in out.splitlines()), (7, True))
    status, out, _ = recorded(folder, "no", NO_DISC, "client", "--start", "zero", "--strict", "--no-lint")
    tally.want("lint, --strict and --no-lint", (status, "strict" in out), (0, False))
    shoulds = [*NO_DISC, request(TRIM, 2, 0, 512), LEAVES, simple(2)]
    status, out, _ = recorded(folder, "should", shoulds, "server", "--start", "zero", "--strict")
    tally.want("lint, --strict and a should", (status, lines_of_rules(out)[:1], "strict" in out), (0, ["lint must 0 should 1"], False))


def forms(tally, folder):
    """JSON has the counts and the breaches with nbdcheck's own members, JUnit the lines."""
    status, out, _ = recorded(folder, "json", NO_REPLY, "server", "--start", "zero", "--format", "json", "--report", f"{folder}/r.json")
    said = json.loads(Path(folder, "r.json").read_text())
    tally.want("lint, JSON: counts", (status, said["lint"]["must"], said["lint"]["should"]), (0, 1, 1))
    found = [(each["level"], each["side"], each["rule"], each["byte"], each["request"]) for each in said["lint"]["breaches"]]
    tally.want("lint, JSON: breaches", found, [("should", "client", "disc-with-requests-outstanding", 216, None),
                                               ("must", "server", "disc-unanswered", 232, None)])
    tally.want("lint, JSON: strict", said["strict"], ["requests without a reply 1", "broken musts 1"])
    recorded(folder, "none", NO_REPLY, "server", "--start", "zero", "--no-lint", "--format", "json", "--report", f"{folder}/n.json")
    tally.want("lint, JSON: --no-lint", json.loads(Path(folder, "n.json").read_text())["lint"], None)
    recorded(folder, "junit", NO_REPLY, "server", "--start", "zero", "--format", "junit", "--report", f"{folder}/r.xml")
    case = xml.parse(f"{folder}/r.xml").getroot().find("testcase")
    tally.holds("lint, JUnit", f"lint must 1 should 1\n{EARLY_LINE}\n{NO_REPLY_LINE}" in case.findtext("system-out"), out)


# A program that answers as nbdcheck does, but fails at `lint`.
FAILS = """#!/bin/sh
[ "$1" = lint ] && { echo "fault memory" >&2; exit 4; }
exec "$REAL" "$@"
"""


def failing(tally, folder):
    """Where `lint` has no answer the connection has its status."""
    program = Path(folder, "failing")
    program.write_text(FAILS)
    program.chmod(0o755)
    with Ends(folder, "f", "--start", "zero", lints=True, nbdcheck=program, env_more={"REAL": str(PROGRAM)}) as ends:
        client, server = ends.both()
        ends.play(client, server, GOOD)
        client.close(), server.close()
        status, out, err = ends.interrupt()
    tally.want("lint fails", (status, lines_of_rules(out), err), (4, [], "fault memory\n"))


def refusing(tally, folder):
    """What the recorder answers in the server's place is no breach of the server."""
    with Ends(folder, "r", "--start", "zero", "--refuse", "info", lints=True) as ends:
        client, server = ends.both()
        ends.play(client, server, begun()[:2])
        client.sendall(option(6, bytes(6))[1])
        tally.want("lint, --refuse: the answer", len(client.recv(100)), 20)
        ends.play(client, server, begun()[2:] + [LEAVES])
        client.close(), server.close()
        status, out, err = ends.interrupt()
    tally.want("lint, --refuse", (status, lines_of_rules(out), err), (0, [], ""))


PARTS = (told, all_well, strict, forms, failing, refusing)


def run(tally):
    run_parts(tally, PARTS)
