"""The report of nbdcheck-record: its lines, its formats and its file, what --strict refuses, what is told before a client is run, and
what stands behind a client's unfinished line."""

import json
import os
import pty
import sys
import xml.etree.ElementTree as xml
from pathlib import Path

from messages import CLIENT, STARTTLS, ack, begun, client_flags, export, go_data, greeting, option, read, simple, write
from record.recorded_ends import GOOD, MEET, NONE, Ends, Server, Tool, ended, player, run_parts

YES = "yes requests 2 answered 2 improper 0"
# A READ that passes the end of the export, and one without a reply.
IMPROPER = GOOD + [read(3, 6, 4), simple(3, error=22)]
UNANSWERED = GOOD + [read(3, 0, 4)]
READS = begun() + [read(1, 0, 4), simple(1, bytes(4))]
WRONG = GOOD[:-1] + [simple(2, b"\0aB\0")]
TLS = [greeting(), client_flags(), option(STARTTLS), ack(STARTTLS)]
HUGE = [greeting(), client_flags(), option(7, go_data()), export(size=2**63), ack(7)]
NO = "no content request 2 offset 2 in any order"


def counts(compared=0, apart=0, empty=0, outside=0, more=""):
    connections = compared + apart + empty + outside + (1 if more else 0)
    return f"connections {connections}: compared {compared}, not compared {apart}, empty {empty}, not judged {outside}{more}"


def client_of(folder, records, *asked, count=1, status=0, **how):
    """A run with a client and a server that play this session, `count` times."""
    how.setdefault("env_more", {})["TMPDIR"] = folder
    again = ["sh", "-c", 'for n in $0; do "$@"; done', " ".join("x" * count)] if count > 1 else []
    with Server(records, count=count) as server:
        return ended("--to", server.address, "--start", "zero", *asked, "--", *again, *player(folder, records, status=status), **how)


def lines_of(found):
    """A status, and the lines of standard output."""
    return found[0], found[1].splitlines()


def one_line(tally, folder):
    """One line for each connection where all is well, and the counts."""
    tally.want("a yes", client_of(folder, GOOD), (0, f"{YES}\n{counts(1)}\n", ""))
    tally.want("two connections without a request", client_of(folder, begun(), count=2),
               (0, f"connection 1: {NONE}\nconnection 2: {NONE}\n{counts(2)}\n", ""))
    lines = "".join(f"connection {number}: ok, {MEET[number]}\n" for number in (1, 2))
    found = client_of(folder, GOOD, "--apart", count=2)
    tally.want("two connections that write, --apart", found, (0, f"{lines}{counts(0, 2)}\n", ""))
    lines = f"connection 1: {YES}\nconnection 2, from what connection 1 left: {YES}\n"
    tally.want("two connections that write", client_of(folder, GOOD, count=2), (0, f"{lines}{counts(2)}\n", ""))
    status, lines = lines_of(client_of(folder, IMPROPER))
    tally.want("improper", (status, lines[0], lines[1], lines[-1]),
               (0, "yes requests 3 answered 3 improper 1", "improper: 1 of 3 requests", counts(1)))
    tally.holds("advice on files that are gone", not any("nbdcheck order" in line for line in lines), lines)
    status, lines = lines_of(client_of(folder, UNANSWERED))
    tally.want("unanswered", (status, lines), (0, ["yes requests 3 answered 2 improper 0", "ended: the client closed first, by end of "
                                                   "file, requests outstanding 1", counts(1)]))
    status, lines = lines_of(client_of(folder, WRONG))
    tally.want("a no", (status, lines[0], lines[-1]), (1, NO, counts(1)))


def many(tally, folder):
    """Connections one after another and side by side: each has its line, and the file has the text that standard output has."""
    for name, count, side_by_side in (("one after another", 100, False), ("side by side", 20, True)):
        path = f"{folder}/{count}"
        with Ends(folder, name, "--start", "zero", "--report", path) as ends:
            open_yet = []
            for _ in range(count):
                client, server = ends.both()
                ends.play(client, server, READS)
                open_yet.append((client, server))
                if side_by_side and len(open_yet) < count:
                    continue
                for client, server in open_yet:
                    client.close()
                    server.recv(1), server.close()
                open_yet = []
            status, out, err = ends.interrupt()
        lines = out.splitlines()
        wanted = [f"connection {number}: yes requests 1 answered 1 improper 0" for number in range(1, count + 1)]
        tally.want(f"{name}: a line each", (status, lines[count:], err), (0, [*wanted, counts(count)], ""))
        tally.want(f"{name}: --report", Path(path).read_text(), out)


def not_judged(tally, folder):
    """Where nobody broke a rule it is no no; of several the gravest counts."""
    for name, records, line in (("TLS", TLS, "no at byte 58: OutOfProfile"), ("a large export", HUGE, "no at byte 96: ExportTooLarge")):
        for asked in ([], ["--arrival"], ["--strict"]):
            status, out, err = client_of(folder, records, *asked, "--keep", f"{folder}/k")
            lines = out.splitlines()
            tally.want(f"{name} {asked}", (status, lines[0], lines[-1]), (6, line, counts(0, 0, 0, 1)))
            tally.want(f"{name} {asked}: kept", err, f"nbdcheck-record: kept {folder}/k/session.1.cap\n")
            tally.holds(f"{name} {asked}: says why", lines[1].startswith("not judged: "), lines)
    tally.want("not judged, and a client that fails", client_of(folder, TLS, status=3)[0], 6)
    for name, other, wanted, line in (("a yes", begun(), 6, counts(1, 0, 0, 1)),
                                      ("a no", begun() + [(CLIENT, bytes(28))], 1, counts(0, 1, 0, 1))):
        with Ends(folder, name, "--start", "zero") as ends:
            for records in (TLS, other):
                client, server = ends.both()
                ends.play(client, server, records)
                client.close(), server.close()
            status, out, _ = ends.interrupt()
        tally.want(f"not judged beside {name}", (status, out.splitlines()[-1]), (wanted, line))


def strict(tally, folder):
    """What --strict refuses of a yes."""
    tally.want("strict, a yes", client_of(folder, GOOD, "--strict"), (0, f"{YES}\n{counts(1)}\n", ""))
    for name, records, count, wanted in (("improper", IMPROPER, 1, "improper requests 1"),
                                         ("unanswered", UNANSWERED, 1, "requests without a reply 1"), ("apart", GOOD, 2, MEET[1])):
        status, out, err = client_of(folder, records, "--strict", "--apart", "--keep", f"{folder}/{name}", count=count)
        tally.want(f"strict, {name}", (status, f"strict: {wanted}" in out.splitlines()), (7, True))
        kept = "".join(f"nbdcheck-record: kept {folder}/{name}/session.{number}.cap\n" for number in range(1, count + 1))
        tally.want(f"strict, {name}: kept", err, kept)
    tally.want("strict, a no", client_of(folder, WRONG, "--strict")[0], 1)
    tally.want("strict, and a client that fails", client_of(folder, IMPROPER, "--strict", status=3)[0], 7)
    captures = {path.name for path in Path(folder).glob("nbdcheck-record-*/*.cap")}
    tally.want("strict: a capture without --keep", captures, {"session.1.cap"})
    # The program calls a message that breaks off a no; one that calls it a yes is refused too.
    program = Path(folder, "yes")
    told = {"format": 1, "line": YES, "verdict": "yes", "requests": 2, "answered": 2, "improper": 0, "judged": True}
    program.write_text(f"#!/bin/sh\necho '{json.dumps(told)}'\n")
    program.chmod(0o755)
    status, lines = lines_of(client_of(folder, GOOD + [(CLIENT, bytes.fromhex("25609513"))], "--strict", nbdcheck=program))
    tally.want("strict, in a message", (status, lines[1]), (7, "strict: the client left in the middle of the head of a request"))


def empty(tally, folder):
    """A connection on which no byte passed: alone it is no answer."""
    told = "nbdcheck-record: no byte passed: nothing was recorded\n"
    for asked, status in (([], 0), (["--strict"], 0), ([], 7)):
        with Closing() as server:
            found = ended("--to", server.address, *asked, "--", *waiting(folder, status), env_more={"TMPDIR": folder})
        failed = f"nbdcheck-record: the client ended with status {status}\n" if status else ""
        closed = "ended: the server closed first, by end of file, requests outstanding 0"
        tally.want(f"empty {asked} {status}", found, (3, f"empty: no byte passed\n{closed}\n{counts(0, 0, 1)}\n", told + failed))
    tally.want("empty: nothing is kept", list(Path(folder).glob("nbdcheck-record-*")), [])
    for asked, wanted in ((["--strict"], 7), ([], 0)):
        with Ends(folder, f"two{wanted}", "--start", "zero", *asked) as ends:
            for records in (begun(), []):
                client, server = ends.both()
                ends.play(client, server, records)
                client.close(), server.close()
            status, out, _ = ends.interrupt()
        tally.want(f"an empty connection of two {asked}", (status, out.splitlines()[3], out.splitlines()[-1]),
                   (wanted, "connection 2: empty: no byte passed", counts(1, 0, 1)))


class Closing(Server):
    """A server that closes each connection at once."""

    def __init__(self):
        super().__init__([])

    def _play(self, end):
        end.close()


def waiting(folder, status):
    """A client that waits for a byte, and ends with a status."""
    program = Path(folder, "waiting.py")
    program.write_text("import socket, sys\nend = socket.create_connection(('127.0.0.1', int(sys.argv[1])))\nend.recv(1)\n"
                       "sys.exit(int(sys.argv[2]))\n")
    return [sys.executable, "-IS", str(program), "{port}", str(status)]


def as_json(tally, folder):
    """An object for each connection, a line each."""
    wanted = {
        "name": "nbdcheck-record", "connection": 1, "capture": None, "verdict": YES,
        "result": "compared", "status": 0, "judged": True, "compared": True, "alone": False,
        "from": None, "meeting": None, "requests": 2, "answered": 2, "improper": 0, "client_bytes": 84, "server_bytes": 106, "strict": [], "text": [],
        "fault": None, "refused": [], "tls": None, "lint": None,
        "ended": {"first": "client", "by": "end of file", "outstanding": 0, "client_in": None, "server_in": None},
    }
    status, out, err = client_of(folder, GOOD, "--format", "json")
    found = json.loads(out)
    seconds = found.pop("seconds")
    tally.want("JSON of a yes", (status, found, err), (0, wanted, ""))
    tally.holds("JSON: seconds", 0 <= seconds < 30, seconds)
    status, out, _ = client_of(folder, WRONG, "--format", "json")
    found = json.loads(out)
    tally.want("JSON of a no", [status] + [found[name] for name in ("verdict", "status", "judged", "compared")], [1, NO, 1, True, True])
    tally.holds("JSON of a no: the capture", Path(found["capture"]).is_file(), found)
    tally.holds("JSON of a no: its text", found["text"][0].startswith("rule: ") and len(found["text"]) > 5, found)
    found = json.loads(client_of(folder, TLS, "--format", "json")[1])
    tally.want("JSON, not judged", [found[name] for name in ("result", "status", "judged", "compared", "answered")],
               ["not judged", 6, False, False, None])
    _, out, _ = client_of(folder, GOOD, "--apart", "--format", "json", "--keep", f"{folder}/j", count=2)
    found = [json.loads(line) for line in out.splitlines()]
    tally.want("JSON of two", [[each[name] for name in ("connection", "capture", "verdict", "compared", "strict")] for each in found],
               [[number, f"{folder}/j/session.{number}.cap", "ok", False, [MEET[number]]] for number in (1, 2)])
    report = f"{folder}/r.json"
    found = client_of(folder, UNANSWERED, "--format", "json", "--report", report, "--strict")
    tally.want("--report: standard output has the text", (found[0], found[1].splitlines()[0]), (7, "yes requests 3 answered 2 improper 0"))
    found = json.loads(Path(report).read_text())
    tally.want("--report: the file", (found["name"], found["status"], found["strict"], found["ended"]["outstanding"]),
               ("r", 7, ["requests without a reply 1"], 1))
    with Ends(folder, "unasked", "--format", "json") as ends:
        client, server = ends.both()
        ends.play(client, server, GOOD)
        server.close()
        client.recv(1), client.close()
        status, out, _ = ends.interrupt()
        found = json.loads(out)
    tally.want("JSON without an answer", [status] + [found[name] for name in ("verdict", "result", "judged", "requests", "capture")],
               [0, None, "not asked", False, 2, ends.capture()])
    tally.want("JSON without an answer: the end", (found["ended"]["first"], found["ended"]["by"]), ("server", "end of file"))


def suite(text):
    """A suite's counts, and of each case its name with the kind and the message of what it did not pass by."""
    root = xml.fromstring(text)
    found = [(case.get("name"), *((each.tag, each.get("message")) for each in case if each.tag != "system-out")) for case in root]
    return [root.tag] + [int(root.get(name)) for name in ("tests", "failures", "errors", "skipped")], found


def as_junit(tally, folder):
    """A test case for each connection, with explain's text where it is a no."""
    status, out, err = client_of(folder, GOOD, "--format", "junit")
    tally.want("JUnit of a yes", (status, suite(out), err), (0, (["testsuite", 1, 0, 0, 0], [("connection 1",)]), ""))
    report = Path(folder, "resize.xml")
    status, out, _ = client_of(folder, WRONG, "--format", "junit", "--report", str(report))
    tally.want("JUnit of a no", (status, suite(report.read_text())),
               (1, (["testsuite", 1, 1, 0, 0], [("connection 1", ("failure", NO))])))
    root = xml.fromstring(report.read_text())
    text = root.find("testcase/failure").text
    tally.holds("JUnit of a no: explain's text", text.startswith(f"{NO}\nrule: ") and "\nbroken by: the server" in text, text)
    tally.want("JUnit: named by its file", (root.get("name"), root[0].get("classname")), ("resize", "resize"))
    for name, records, asked, wanted, case in (
        ("not judged", TLS, [], 6, ("skipped", "no at byte 58: OutOfProfile")),
        ("strict", UNANSWERED, ["--strict"], 7, ("failure", "strict: requests without a reply 1")),
    ):
        status, out, _ = client_of(folder, records, "--format", "junit", *asked)
        tally.want(f"JUnit, {name}", (status, suite(out)[1]), (wanted, [("connection 1", case)]))
    status, out, _ = client_of(folder, GOOD, "--format", "junit", status=3)
    tally.want("JUnit of a client that failed", (status, suite(out)),
               (10, (["testsuite", 2, 0, 1, 0], [("connection 1",), ("client", ("error", "the client ended with status 3"))])))
    status, out, _ = ended("--to", "1", "--format", "junit", "--", "true", "{uri}")
    tally.want("JUnit without a connection", (status, suite(out)[1]),
               (3, [("recording", ("error", "no connection came: nothing was recorded"))]))
    program = Path(folder, "odd")
    told = [{"format": 1, "line": "no <\x01&", "verdict": "no", "judged": True}, {"fact": "odd", "line": "]]> \udcff"}]
    lines = "\n".join(map(json.dumps, told))
    program.write_text(f"#!/bin/sh\n[ $1 = --version ] && exit\ncat <<'END'\n{lines}\nEND\nexit 1\n")
    program.chmod(0o755)
    out = client_of(folder, GOOD, "--format", "junit", nbdcheck=program)[1]
    tally.want("JUnit of odd bytes", suite(out)[1], [("connection 1", ("failure", "no <?&"))])


def mistakes(tally, folder):
    """What the words name is looked at before the client is run."""
    Path(folder, "secret").touch()
    here = ["--to", "1", "--", "touch", f"{folder}/came", "{uri}"]
    none, reason = f"{folder}/none", "No such file or directory"
    for asked, line in (
        (["--start", f"image:{none}"], f"--start image:{none}: {reason}"),
        (["--start", f"image:{folder}"], f"--start image:{folder}: Is a directory"),
        (["--start", f"contents:{none}"], f"--start contents:{none}: {reason}"),
        (["--order", none], f"--order {none}: {reason}"),
        (["--order", folder], f"--order {folder}: Is a directory"),
        (["--report", f"{none}/r.xml"], f"--report {none}/r.xml: {reason}"),
        (["--report", folder], f"--report {folder}: Is a directory"),
    ):
        tally.want(f"{asked}", ended(*asked, *here), (3, "", f"nbdcheck-record: {line}\n"))
    pipe, text = f"{folder}/pipe", f"{folder}/text"
    os.mkfifo(pipe)
    for asked in (["--start", f"image:{pipe}"], ["--order", pipe]):
        wanted = f"nbdcheck-record: {' '.join(asked)}: it is no regular file, and is read once for each connection\n"
        tally.want(f"{asked}", ended(*asked, *here), (3, "", wanted))
    Path(text).write_text("size 8\nfoo\n")
    status, out, err = ended("--start", f"contents:{text}", *here)
    tally.want("a malformed start", (status, out, err.splitlines()[:1]), (3, "", ["fault contents line 2"]))
    for asked, line in ((["--profile", "Wide"], "--profile Wide: wanted is base or wide"),
                        (["--start", "image:"], "--start image:: wanted is"),
                        (["--start", "contents:"], "--start contents:: wanted is"),
                        (["--format", "xml"], "--format xml: wanted is text, json or junit")):
        status, out, err = ended(*asked, *here)
        tally.want(f"{asked}", (status, out, line in err.splitlines()[-1]), (2, "", True))
    status, _, err = ended("--to", "1", "--listen", "0", "--strict")
    tally.want("--strict without an answer", (status, "--strict" in err.splitlines()[-1]), (2, True))
    tally.want("a TMPDIR that is not there", ended(*here, env_more={"TMPDIR": none}),
               (3, "", f"nbdcheck-record: cannot make a folder in TMPDIR, {none}: {reason}\n"))
    tally.want("no client was run", Path(folder, "came").exists(), False)
    old = Path(folder, "old.xml")
    old.write_text("an earlier one")
    with Tool("--report", old, "--to", "./s", "--", "sh", "-c", "kill -9 $PPID; : {uri}", env_more={"TMPDIR": folder}) as tool:
        status = tool.end()[0]
    tally.want("an earlier report is gone", (status, old.read_text()), (-9, ""))
    full = client_of(folder, WRONG, "--report", "/dev/full", "--format", "json", "--keep", f"{folder}/f")
    tally.want("a report that is not written", (full[0], full[2].splitlines()[-1]),
               (1, "nbdcheck-record: cannot write /dev/full: No space left on device"))


def unfinished(tally, folder):
    """The answer does not stand in a line that the client began, whatever standard output is."""
    answer = f"{YES}\n{counts(1)}\n"
    for name, said, wanted in (("no line", "", answer), ("half a line", "half", f"half\n{answer}"),
                               ("a line", "line\\n", f"line\n{answer}")):
        with Server(GOOD, count=3) as server:
            client = ["sh", "-c", f'"$@"; printf "{said}"', "sh", *player(folder, GOOD)]
            words = ["--to", server.address, "--start", "zero", "--", *client]
            tally.want(f"{name}, a pipe", ended(*words), (0, wanted, ""))
            with open(f"{folder}/out", "w+") as file:
                file.write("before")
                file.flush()
                tally.want(f"{name}, a file", ended(*words, stdout=file)[0], 0)
            tally.want(f"{name}, a file: its text", Path(folder, "out").read_text(), f"before{wanted}")
            terminal, stdout = pty.openpty()
            with Tool(*words, stdout=stdout) as tool:
                os.close(stdout)
                status = tool.end()[0]
            shown = os.read(terminal, 9999).decode()
            os.close(terminal)
            tally.holds(f"{name}, a terminal", status == 0 and f"{' ' * 80}\r\x1b[K{YES}\r\n" in shown, shown)
    both = ["sh", "-c", 'printf out; printf err >&2; exec "$@"', "sh", *player(folder, GOOD)]
    with Server(GOOD, count=2) as server:
        tally.want("two pipes", ended("--to", server.address, "--start", "zero", "--", *both), (0, f"out\n{answer}", "err"))
        found = ended("--to", server.address, "--start", "zero", "--", *both, stderr=-2)
        tally.want("one pipe", found[:2], (0, f"outerr\n{answer}"))
    # A pipe that nobody reads any more ends a client that writes, as it does without the tool.
    with Tool("--to", "1", "--", "sh", "-c", "while echo y; do :; done 2>/dev/null; : {uri}") as tool:
        tool.process.stdout.readline()
        tool.process.stdout.close()
        tool.process.stdout = None
        tally.want("nobody reads", tool.process.wait(20) in (3, 10), True)
    large = "import sys; sys.stdout.write('x' * 3000000)"
    status, out, _ = ended("--to", "1", "--", sys.executable, "-c", large, "{uri}")
    tally.want("much output", (status, len(out), out[-2:]), (3, 3000001, "x\n"))


PARTS = (one_line, many, not_judged, strict, empty, as_json, as_junit, mistakes, unfinished)


def run(tally):
    run_parts(tally, PARTS)
