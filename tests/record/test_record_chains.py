"""Connections that come one after another: each is judged from what the ones before left."""

import json
import os
import subprocess
import tempfile
from pathlib import Path

from built import PROGRAM
from messages import (
    ABORT, DISC, LIST, SERVER, SERVER_NAME, STARTTLS, TRIM, ack, answer, begun, client_flags, go, greeting, named,
    option, read, request, simple, write,
)
from record.recorded_ends import SECONDS, Ends, Server, ended, player, run_parts
from record.test_record_programs import PATH, is_there, running

EXPORT = begun(size=16)
LISTED = [greeting(), client_flags(), option(LIST), answer(LIST, SERVER_NAME, named(b"")), ack(LIST), option(ABORT),
          ack(ABORT)]
TLS_ALONE = [greeting(), client_flags(), option(STARTTLS), ack(STARTTLS)]
CLOSES = [request(DISC, 9, 0, 0)]


def written(cookie, offset, data, error=0):
    return [write(cookie, offset, data), simple(cookie, error=error)]


def got(cookie, offset, data):
    return [read(cookie, offset, len(data)), simple(cookie, data)]


def yes(requests, answered=None, improper=0):
    return f"yes requests {requests} answered {requests if answered is None else answered} improper {improper}"


# WRITEs, and READs of what they wrote and of another byte.
WRITES, READS = EXPORT + written(1, 0, b"ab"), EXPORT + got(1, 0, b"ab\0\0")
STALE, WRONG = EXPORT + got(1, 0, b"aB\0\0"), "no content request 1 offset 1 in any order"
STRANGE = "no content request 1 offset 0 in any order"
# Two WRITEs that are outstanding together, of which the server took the first one last; `order` names the second.
BOTH = EXPORT + [write(1, 0, b"aa"), write(2, 1, b"bb"), simple(1), simple(2)]
TOOK = EXPORT + got(1, 0, b"aab\0")
MEETS = "ok, contents not compared: request 1, a READ, meets request 1 of connection 1, a WRITE, at offset 0"
LEFT, LOST = ", from what connection {} left", ", from an unknown start"
FIRST, SECOND = LEFT.format(1), LEFT.format(2)
UNKNOWN = EXPORT + got(1, 0, b"zz")

ASSUMED = "assumes: connection {}'s changes are there for the next connection, nobody else changed the export"

# Sessions one after another from zeroes, the words of the tool, and what is said behind each one's number.
CHAINS = {
    "a READ of what was written": ([WRITES, READS], [], [yes(1), yes(1)], ["", FIRST]),
    "a READ of another byte": ([WRITES, STALE], [], [yes(1), WRONG], ["", FIRST]),
    "two that change": ([WRITES, EXPORT + got(1, 1, b"b") + written(2, 1, b"c"), EXPORT + got(1, 0, b"ac")], [],
                        [yes(1), yes(2), yes(1)], ["", FIRST, SECOND]),
    "one that reads between": ([WRITES, READS, STALE], [], [yes(1), yes(1), WRONG], ["", FIRST, FIRST]),
    "an order that was not taken": ([BOTH, TOOK], [], [yes(2), yes(1)], ["", FIRST]),
    "--arrival is the order": ([BOTH, TOOK], ["--arrival"], [yes(2), WRONG.removesuffix(" in any order")], ["", FIRST]),
    "READs alone": ([EXPORT + got(1, 0, bytes(4)), READS], [], [yes(1), STRANGE], ["", ""]),
    "a session without a request": ([EXPORT, WRITES, EXPORT, STALE], [], [yes(0), yes(1), yes(0), WRONG],
                                    ["", "", SECOND, SECOND]),
    "a list of exports": ([WRITES, LISTED, STALE], [], [yes(1), yes(0), WRONG], ["", FIRST, FIRST]),
    "a WRITE that failed": ([WRITES, EXPORT + written(1, 1, b"c", 5), STALE], [], [yes(1)] * 3, ["", FIRST, SECOND]),
    "a WRITE that was not answered": ([WRITES, EXPORT + [write(1, 1, b"c")], STALE], [], [yes(1), yes(1, 0), yes(1)],
                                      ["", FIRST, SECOND]),
    "a TRIM": ([WRITES, EXPORT + [request(TRIM, 1, 1, 1), simple(1)], STALE], [], [yes(1)] * 3, ["", FIRST, SECOND]),
    "behind a wrong byte": ([WRITES, STALE, UNKNOWN, WRITES, STALE], [], [yes(1), WRONG, yes(1), yes(1), WRONG],
                            ["", FIRST, LOST, LOST, LEFT.format(4)]),
    "behind a refused session": ([WRITES, EXPORT + [read(1, 0, 1), (SERVER, bytes(16))], UNKNOWN], [],
                                 [yes(1), "no at byte 128: BadMagic", yes(1)], ["", FIRST, LOST]),
    "behind one that is not judged": ([WRITES, TLS_ALONE, UNKNOWN], [], [yes(1), "no at byte 58: OutOfProfile", yes(1)],
                                      ["", FIRST, LOST]),
    "an export of another name": ([WRITES, [*EXPORT[:2], *go(b"b", size=16), *got(1, 0, b"zz")], UNKNOWN], [],
                                  [yes(1)] * 3, ["", LOST, LOST]),
    "an export of another size": ([WRITES, begun(size=8) + got(1, 0, b"zz"), UNKNOWN], [], [yes(1)] * 3,
                                  ["", LOST, LOST]),
    "--apart": ([WRITES, STALE], ["--apart"], [yes(1), MEETS], ["", ""]),
}


def recorded(folder, name, sessions, *asked, start="zero"):
    """Sessions one after another: the status, the lines and standard error."""
    with Ends(folder, name, "--start", start, *asked) as ends:
        for records in sessions:
            client, server = ends.both()
            ends.play(client, server, records)
            client.close(), server.close()
        status, out, err = ends.interrupt()
    return status, out.splitlines(), err


def first_lines(lines):
    return [line for line in lines if line.startswith("connection ")]


def chains(tally, folder):
    for number, (name, (sessions, asked, wanted, starts)) in enumerate(CHAINS.items()):
        status, lines, err = recorded(folder, str(number), sessions, *asked)
        said = [f"connection {at}{start}: {line}" for at, (start, line) in enumerate(zip(starts, wanted), 1)]
        left_out = any("OutOfProfile" in line for line in wanted)
        is_no = any(line.startswith("no ") and "OutOfProfile" not in line for line in wanted)
        tally.want(name, (status, first_lines(lines), err), (1 if is_no else 6 if left_out else 0, said, ""))
        wrong = [start for start, line in zip(starts, wanted) if line.startswith("no content") and start]
        assumed = [ASSUMED.format(start.split()[-2]) for start in wrong]
        tally.want(f"{name}: assumes", [line for line in lines if "nobody else" in line], assumed)


def overlapping(tally, folder):
    """Connections that overlap in time are one link: what it leaves is known where one alone may have changed it."""
    reads, far = EXPORT + got(1, 8, bytes(2)), EXPORT + written(1, 8, b"cd")
    for name, group, left, wanted in (
        ("a WRITE beside a READ", [WRITES, reads], FIRST, WRONG),
        ("a READ beside a WRITE", [reads, WRITES], SECOND, WRONG),
        ("two WRITEs", [WRITES, far], LOST, yes(1)),
        ("two READs", [reads, reads], "", STRANGE),
    ):
        with Ends(folder, name, "--start", "zero") as ends:
            pairs = [ends.both() for _ in group]
            for at in range(max(map(len, group))):
                for pair, records in zip(pairs, group):
                    ends.play(*pair, records[at : at + 1])
            [end.close() for pair in pairs for end in pair]
            client, server = ends.both()
            ends.play(client, server, STALE)
            client.close(), server.close()
            _, out, _ = ends.interrupt()
        tally.want(name, first_lines(out.splitlines())[-1], f"connection 3{left}: {wanted}")


def leaves_late(tally, folder):
    """A client's leave may come when the next connection is there: what was answered before that is there too."""
    with Ends(folder, "late", "--start", "zero") as ends:
        client, server = ends.both()
        ends.play(client, server, WRITES)
        other, its_server = ends.both()
        ends.play(client, server, CLOSES)
        ends.play(other, its_server, READS)
        [end.close() for end in (client, server, other, its_server)]
        _, out, _ = ends.interrupt()
    tally.want("a late leave", first_lines(out.splitlines())[1], f"connection 2{FIRST}: {yes(1)}")


class Sessions(Server):
    """A server that plays one session after the other, each with a client."""

    def __init__(self, sessions):
        self.sessions = iter(sessions)
        super().__init__([], count=len(sessions))

    def _play(self, end):
        self.records = next(self.sessions)
        super()._play(end)


def client_of(folder, sessions, *asked):
    """A run with a client that plays sessions one after another: its status, the lines, and what is kept of it."""
    words = [word for records in sessions for word in player(folder, records)]
    again = ["sh", "-c", 'while [ $# -gt 0 ]; do "$1" "$2" "$3" "$4" "$5" "$6"; shift 6; done', "sh"]
    with tempfile.TemporaryDirectory(dir=folder) as own, Sessions(sessions) as server:
        asked = ["--to", server.address, "--start", *asked]
        status, out, _ = ended(*asked, "--", *again, *words, env_more={"TMPDIR": own})
        return status, out.splitlines(), sorted(path.name for path in Path(own).rglob("*.c??"))


def texts(tally, folder):
    """With --keep the texts stay beside the captures; else one from which a capture was judged that is kept."""
    kept, zeroes = f"{folder}/kept", "00" * 14
    status, lines, _ = client_of(folder, [WRITES, READS, EXPORT], "zero", "--keep", kept)
    captures, names = ([f"session.{number}.{kind}" for number in (1, 2, 3)] for kind in ("cap", "con"))
    tally.want("--keep", (status, sorted(os.listdir(kept))), (0, sorted(captures + names)))
    for name in names:
        tally.want(f"--keep: {name}", Path(kept, name).read_text(), f"size 16\ndata 0 6162{zeroes}\n")
    tally.want("all yes", client_of(folder, [WRITES, READS, WRITES, READS], "zero")[::2], (0, []))
    found = client_of(folder, [WRITES, READS, STALE, WRITES], "zero")
    tally.want("a no", found[::2], (1, ["session.1.con", "session.3.cap"]))
    start = f"contents:{kept}/session.1.con"
    for records, wanted in ((READS, yes(1)), (STALE, WRONG)):
        tally.want(f"--start contents: {wanted}", client_of(folder, [records], start)[1][0], wanted)
    again, changes = ["--keep", kept], EXPORT + got(1, 0, b"ab") + written(2, 0, b"b")
    tally.want("the start is a text there", client_of(folder, [changes], start, *again)[1][0], yes(2))
    tally.want("the text is another one", Path(kept, "session.1.con").read_text(), f"size 16\ndata 0 6262{zeroes}\n")
    tally.want("without an export", (client_of(folder, [EXPORT, LISTED], start, *again)[0], sorted(os.listdir(kept))),
               (0, sorted([*captures, "session.1.con", "session.3.con"])))
    found = ended("--to", "1", "--start", "contents:/none", "--", "{uri}")
    reason = "nbdcheck-record: --start contents:/none: No such file or directory\n"
    tally.want("--start contents: of no file", found, (3, "", reason))
    status, _, err = ended("--to", "1", "--start", "contents:", "--", "{uri}")
    tally.want("--start contents: of no name", (status, "contents:PATH" in err), (2, True))
    _, lines, _ = client_of(folder, [WRITES, READS, EXPORT], "zero", "--format", "json")
    tally.want("JSON", [json.loads(line)["from"] for line in lines], [None, 1, 1])


def with_order(tally, folder):
    """An order of a file that is wrong: what each order leaves is left."""
    order = f"{folder}/order"
    Path(order).write_text("2\n")
    _, lines, _ = recorded(folder, "wrong order", [WRITES, EXPORT], "--order", order)
    wanted = ["connection 1: no order entry 1: NoSuchRequest", f"connection 2{FIRST}: {yes(0)}"]
    tally.want("a wrong order", first_lines(lines), wanted)
    Path(order).write_text("1\n2\n")
    _, lines, _ = recorded(folder, "an order", [BOTH, EXPORT], "--order", order)
    tally.want("an order", Path(folder, "an order.out.1.con").read_text(), f"size 16\ndata 0 616262{'00' * 13}\n")


# A client with 4 changes in flight, on the first 64 KiB.
CHANGES = """
import random
dice = random.Random({seed})
for _ in range(60):
    at, length = dice.randrange(65000), dice.randint(1, 500)
    while h.aio_in_flight() >= 4:
        h.poll(-1)
    data = nbd.Buffer.from_bytearray(bytearray(dice.randbytes(length)))
    h.aio_pwrite(data, at, lambda error: 1)
while h.aio_in_flight():
    h.poll(-1)
assert len(h.pread(65536, 0)) == 65536
h.shutdown()
"""
SIZE = 1_000_000


def real(tally, folder):
    """nbdkit's file behind three connections: the file agrees with what they left; behind a filter that keeps WRITEs in
    memory it does not."""
    if not (is_there("nbdkit") and is_there("nbdsh")):
        return
    for name, words in (("file", []), ("file behind cow", ["--filter=cow"])):
        image, kept, path = f"{folder}/{name}.image", f"{folder}/{name}", f"{folder}/real.sock"
        with open(image, "wb") as file:
            file.truncate(SIZE)
        scripts = [Path(folder, f"changes{seed}.py") for seed in range(3)]
        for seed, script in enumerate(scripts):
            script.write_text(CHANGES.format(seed=seed))
        client = ["sh", "-c", " && ".join(f"nbdsh -u '{{uri}}' -c - < {script}" for script in scripts)]
        with running(["nbdkit", "-f", "-U", path, *words, "file", image], path):
            asked = ["--to", path, "--start", "zero", "--keep", kept]
            status, out, _ = ended(*asked, "--", *client, env_more={"PATH": PATH})
        lines = first_lines(out.splitlines())
        tally.want(f"{name}: recorded", (status, [line.partition(" requests")[0] for line in lines]),
                   (0, ["connection 1: yes", f"connection 2{FIRST}: yes", f"connection 3{SECOND}: yes"]))
        start = ["--start", f"contents:{kept}/session.2.con", "--profile", "wide", "--against", image]
        asked = [PROGRAM, "contents", f"{kept}/session.3.cap", *start]
        found = subprocess.run(asked, capture_output=True, text=True, timeout=SECONDS)
        wanted = (1, "no against offset") if words else (0, "agrees known")
        tally.want(f"{name}: against", (found.returncode, found.stdout[: len(wanted[1])]), wanted)
        if not words:
            known = int(found.stdout.split()[2])
            tally.holds(f"{name}: known bytes", known > SIZE - 65536, found.stdout)


def carried_out_late(tally, folder):
    """A WRITE that had no reply may be carried out beside the next connection, where a WRITE comes before it: the line on
    what is assumed says so, there and behind that connection."""
    late = [EXPORT + [write(1, 0, b"aaaa")], EXPORT + written(1, 0, b"bbbb"), EXPORT + got(1, 0, b"aaaa")]
    status, lines, _ = recorded(folder, "late", late)
    said = ["connection 1: " + yes(1, 0), f"connection 2{FIRST}: {yes(1)}", f"connection 3{SECOND}: {STRANGE}"]
    tally.want("carried out late", (status, first_lines(lines)), (1, said))
    wanted = [ASSUMED.format(2) + ", what was not answered before is carried out before this connection or not at all"]
    tally.want("carried out late: assumes", [line for line in lines if "nobody else" in line], wanted)


PARTS = (chains, overlapping, leaves_late, carried_out_late, texts, with_order, real)


def run(tally):
    run_parts(tally, PARTS)
