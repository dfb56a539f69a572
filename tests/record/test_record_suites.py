"""nbdcheck-record in a test suite: breaches of a MUST that --strict refuses, a reader of JUnit's XML, and the Makefile of
docs/RECORDING.md."""

import json
import os
import re
import shutil
import subprocess
from pathlib import Path

from built import PROGRAM, TOP
from messages import (BLOCK_STATUS, DISC, FLUSH, GO, READ, TRIM, WRITE, WRITE_ZEROES, ack, asking, begun, client_flags, export,
                      greeting, read, request, simple, sizes, write)
from record.recorded_ends import GOOD, Ends, Server, ended, player, run_parts

ERROR = 22
WRONG = GOOD[:-1] + [simple(2, b"\0aB\0")]
# A python of the system that has a reader of JUnit's XML, as Debian's python3-junitparser.
READER = """
import junitparser, sys
suite = junitparser.JUnitXml.fromfile(sys.argv[1])
print([suite.tests, suite.failures, suite.errors, suite.skipped],
      [[case.name, case.classname, [[type(each).__name__, each.message] for each in case.result]] for case in suite])
"""


def sized(*requests):
    """A session with these requests on an export whose block sizes the client has accepted."""
    return [greeting(), client_flags(), asking(3, number=GO), export(), sizes(2, 512, 4), ack(GO), *requests]


# What a client must not send, and of what proto.md says so: `explain` has the words.
BREACHES = {
    "a READ past the end": (begun() + [read(1, 6, 4), simple(1, error=ERROR)], "its range passes the end of the export of 8 bytes by 2"),
    "a WRITE of what is only read": (begun(flags=3) + [write(1, 0, b"a"), simple(1, error=1)], "READ_ONLY"),
    "TRIM that is not offered": (begun(flags=1) + [request(TRIM, 1, 0, 4), simple(1, error=ERROR)], "SEND_TRIM"),
    "WRITE_ZEROES that is not offered": (begun(flags=1) + [request(WRITE_ZEROES, 1, 0, 4), simple(1, error=ERROR)], "SEND_WRITE_ZEROES"),
    "FLUSH that is not offered": (begun(flags=1) + [request(FLUSH, 1, 0, 0), simple(1, error=ERROR)], "SEND_FLUSH"),
    "a flag that is not offered": (begun(flags=1) + [request(WRITE, 1, 0, 1, b"a", flags=1), simple(1, error=ERROR)], "FUA"),
    "a status without a context": (begun() + [request(BLOCK_STATUS, 1, 0, 4), simple(1, error=ERROR)], "no metadata context"),
    "an offset outside of the sizes": (sized(read(1, 1, 2), simple(1, bytes(2))), "its offset is no multiple of 2"),
    "a length above the largest size": (sized(request(READ, 1, 0, 6), simple(1, bytes(6))), "its length is more than 4"),
}


def strictly(tally, folder):
    """A yes with a breach of a MUST by the client: --strict ends with 7, says which, and `explain` has the rule."""
    for number, (name, (records, said)) in enumerate(BREACHES.items()):
        with Server(records) as server:
            words = ["--to", server.address, "--start", "zero", "--strict", "--keep", f"{folder}/{number}"]
            status, out, err = ended(*words, "--", *player(folder, records))
        lines = out.splitlines()
        tally.want(f"{name}: --strict", (status, lines[0], "strict: improper requests 1" in lines),
                   (7, "yes requests 1 answered 1 improper 1", True))
        tally.holds(f"{name}: the rule", any(line.startswith("wrong: ") and said in line for line in lines), lines)
        tally.want(f"{name}: kept", err, f"nbdcheck-record: kept {folder}/{number}/session.1.cap\n")


def has_reader():
    python = "/usr/bin/python3"
    return shutil.which(python) and subprocess.run([python, "-c", "import junitparser"], stderr=subprocess.DEVNULL).returncode == 0


def by_a_reader(tally, folder):
    """What junitparser reads of a report: counts, names and messages."""
    if not has_reader():
        print("skipped: a reader of JUnit's XML, since python3-junitparser is not installed", flush=True)
        return
    meet = "strict: contents not compared: request 1, a WRITE, meets request 1 of connection {}, a WRITE, at offset 1"
    no = "no content request 2 offset 2 in any order"
    for name, sessions, wanted in (
        ("yes", [GOOD], [[1, 0, 0, 0], [["connection 1", "yes", []]]]),
        ("no", [WRONG], [[1, 1, 0, 0], [["connection 1", "no", [["Failure", no]]]]]),
        ("strict", [GOOD, GOOD], [[2, 2, 0, 0], [[f"connection {n}", "strict", [["Failure", meet.format(3 - n)]]] for n in (1, 2)]]),
    ):
        report = f"{folder}/{name}.xml"
        with Ends(folder, name, "--start", "zero", "--strict", "--apart", "--format", "junit", "--report", report) as ends:
            for records in sessions:
                client, server = ends.both()
                ends.play(client, server, records)
                client.close(), server.close()
            ends.interrupt()
        done = subprocess.run(["/usr/bin/python3", "-c", READER, report], capture_output=True, text=True, timeout=60)
        found = json.loads(f"[{done.stdout}]".replace("] [", "], [").replace("'", '"')) if done.returncode == 0 else done
        tally.want(f"junitparser, {name}", found, wanted)


def example(kind):
    """The first block of this kind in docs/RECORDING.md."""
    return (TOP / "docs/RECORDING.md").read_text().split(f"```{kind}\n")[1].split("```")[0]


def by_make(tally, folder):
    """The Makefile of docs/RECORDING.md: each test is run each time, and leaves its report; one that is a no fails."""
    if shutil.which("make") is None:
        print("skipped: make, which is not installed", flush=True)
        return
    Path(folder, "tests").mkdir()
    env = {**os.environ, "PATH": f"{TOP}/bin:{os.environ['PATH']}", "NBDCHECK": PROGRAM}
    for name, records, wanted in (("copy", GOOD + [request(DISC, 9, 0, 0)], 0), ("resize", WRONG, 2)):
        words = player(folder, records, '"${1##*:}"')
        Path(folder, f"tests/{name}.sh").write_text(f"exec {' '.join(words)}\n")
        with Server(records, count=2) as server:
            Path(folder, "Makefile").write_text(example("make").replace("127.0.0.1:10809", server.address))
            for _ in range(2):
                report = Path(folder, f"{name}.xml")
                report.unlink(missing_ok=True)
                done = subprocess.run(["make", name], cwd=folder, env=env, capture_output=True, text=True, timeout=60)
                found = re.findall(r'<testsuite name="(\w+)" failures="(\d)"', report.read_text()) if report.exists() else done
                tally.want(f"make {name}", (done.returncode, found), (wanted, [(name, "0" if wanted == 0 else "1")]))


PARTS = (strictly, by_a_reader, by_make)


def run(tally):
    run_parts(tally, PARTS)
