"""What nbdcheck-record answers: its words, the sessions of a client that it runs, and each exit status."""

import os
import signal
import socket
import subprocess
import sys
import time
from pathlib import Path

from built import PROGRAM, TOP
from messages import SERVER, begun, longest_runs, read, simple, write
from record.recorded_ends import GOOD, MEET, NONE, RECORD, Ends, Server, Tool, ended, player, run_parts, runs_of, sizes_of

# As GOOD, with another byte than the one that was written.
WRONG = GOOD[:-1] + [simple(2, b"\0aB\0")]
# The READ came first and is answered first, with the bytes of a WRITE that came behind it.
LATER = begun() + [read(2, 0, 4), write(1, 1, b"ab"), simple(2, b"\0ab\0"), simple(1)]
# A READ of zeroes, and one of bytes that an export of zeroes has not.
READS = begun() + [read(1, 0, 4), simple(1, bytes(4))]
STALE = begun() + [read(1, 0, 4), simple(1, b"\0ab\0")]
CUT = GOOD[:-1] + [(SERVER, GOOD[-1][1][:-1])]
UNFINISHED = f"no at byte {sum(len(data) for _, data in CUT)}: Unfinished"
YES = "yes requests 2 answered 2 improper 0"
NO = "no content request 2 offset 2"
STALE_LINE = "no content request 1 offset 1 in any order"
ONE = "yes requests 1 answered 1 improper 0"
# The last line, where contents of one connection were compared.
ALL = "connections 1: compared 1, not compared 0, empty 0, not judged 0\n"
NO_ANSWER = "connections 1: compared 0, not compared 0, empty 0, not judged 0, no answer 1\n"
NEVER = "nbdcheck-record: no connection came: nothing was recorded\n"
ORDER_OF = {n: f"contents not compared: the order is of one connection, and connection {n} has requests too" for n in (1, 2)}

MALFORMED = {
    "nothing": ([], "--to"),
    "no client and no --listen": (["--to", "1"], "neither --listen nor a client"),
    "no client behind --": (["--to", "1", "--"], "no client behind --"),
    "a client without --": (["--to", "1", "nbdinfo"], "nbdinfo"),
    "a client that can't know where": (["--to", "1", "--", "nbdinfo"], "neither {uri}, {port} nor {socket}"),
    "a port and a socket": (["--to", "1", "--", "{port}", "{socket}"], "only one"),
    "a port where a socket is": (["--to", "1", "--listen", "./s", "--", "x", "{port}"], "a unix socket"),
    "a socket where a port is": (["--to", "1", "--listen", "0", "--", "x", "{socket}"], "a port"),
    "a start": (["--to", "1", "--start", "zeroes", "--", "{uri}"], "--start zeroes"),
    "a server without a port": (["--to", "localhost", "--", "{uri}"], "localhost"),
    "port 0": (["--to", "0", "--", "{uri}"], "port 0"),
    "port 65536": (["--to", "65536", "--", "{uri}"], "65536"),
    "a URI": (["--to", "nbd://localhost", "--", "{uri}"], "a URI"),
    "colons": (["--to", "::1:10809", "--", "{uri}"], "brackets"),
    "two orders": (["--to", "1", "--arrival", "--order", "o", "--", "{uri}"], "not allowed with"),
    "--keep without a client": (["--to", "1", "--listen", "0", "--keep", "k"], "--keep"),
    "--out with a client": (["--to", "1", "--out", "o", "--", "{uri}"], "--out"),
    "the beginning of an option": (["--to", "1", "--arr", "--", "{uri}"], "--arr"),
}


def words(tally, folder):
    for name, (asked, part) in MALFORMED.items():
        status, out, err = ended(*asked, cwd=folder)
        tally.want(name, (status, out), (2, ""))
        tally.holds(f"{name}: says why", err.startswith("usage: nbdcheck-record ") and part in err.splitlines()[-1], err)
    tally.want("nothing is made", os.listdir(folder), [])
    status, out, err = ended("--help")
    tally.want("--help", (status, err), (0, ""))
    for part in ("usage: nbdcheck-record --to", "\nExamples:\n  nbdcheck-record --to", "\nExit status", *EXITS):
        tally.holds(f"--help has {part.strip()}", part in out, out)


EXITS = [f"\n  {status} " for status in (0, 1, 2, 3, 4, 5, 6, 7, 10, 128)]


def client_of(folder, records, *asked, path=None, where="{port}", status=0, count=1, **how):
    """A run with a client and a server that play this session; captures go to a folder of their own."""
    how.setdefault("env_more", {})["TMPDIR"] = folder
    with Server(records, path=path, count=count) as server:
        return ended("--to", server.address, *asked, "--", *player(folder, records, where, status), **how)


def told_of(found):
    """A status, the first line of standard output, and standard error."""
    status, out, err = found
    return status, out.partition("\n")[0], err


def kept_lines(*captures):
    """What is told of captures that are kept."""
    return "".join(f"nbdcheck-record: kept {path}\n" for path in captures)


def kept(folder):
    """The captures that are left."""
    return sorted(str(path) for path in Path(folder).rglob("*.cap"))


def left(folder):
    """The tool's own folders that are left."""
    return sorted(path.name for path in Path(folder).glob("nbdcheck-record-*"))


def answers(tally, folder):
    """A yes, a no, what is kept of them, and which order is asked for."""
    tally.want("yes", (client_of(folder, GOOD, "--start", "zero"), left(folder)), ((0, f"{YES}\n{ALL}", ""), []))
    for name, asked in (("--arrival", ["--arrival"]), ("--order", ["--order", f"{folder}/order"])):
        Path(folder, "order").write_text("1\n2\n")
        found = client_of(folder, GOOD, "--start", "zero", *asked)
        tally.want(name, found, (0, f"{YES}\n{ALL}", ""))
        found = client_of(folder, LATER, "--start", "zero", *asked, "--keep", f"{folder}/later")
        tally.want(f"{name}, another order", told_of(found),
                   (1, "no content request 1 offset 1", kept_lines(f"{folder}/later/session.1.cap")))
    tally.want("some order", told_of(client_of(folder, LATER, "--start", "zero")), (0, YES, ""))
    Path(folder, "image").write_bytes(bytes(8))
    tally.want("an image", told_of(client_of(folder, GOOD, "--start", f"image:{folder}/image")), (0, YES, ""))
    tally.want("an unknown start", told_of(client_of(folder, GOOD)), (0, YES, ""))
    tally.want("a refused session, --arrival", told_of(client_of(folder, CUT, "--arrival", "--keep", f"{folder}/cut")),
               (1, UNFINISHED, kept_lines(f"{folder}/cut/session.1.cap")))
    capture = f"{folder}/keep/session.1.cap"
    found = client_of(folder, GOOD, "--keep", f"{folder}/keep")
    tally.want("--keep", (told_of(found), runs_of(capture)), ((0, YES, kept_lines(capture)), longest_runs(GOOD)))
    tally.want("no folder is left", left(folder), [])
    status, out, err = client_of(folder, WRONG, "--start", "zero")
    tally.want("no", (status, out.splitlines()[0]), (1, f"{NO} in any order"))
    captures = [path for path in kept(folder) if "nbdcheck-record-" in path]
    tally.want("a no is kept", err.splitlines(), [f"nbdcheck-record: kept {path}" for path in captures])
    tally.want("it is the session", [runs_of(path) for path in captures], [longest_runs(WRONG)])


def places(tally, folder):
    """The words of the client name where the tool listens."""
    path = f"{folder}/server"
    for name, at, where in (("a port for a port", None, "{port}"), ("a socket for a port", None, "{socket}"),
                            ("a port for a socket", path + "1", "{port}"), ("a socket for a socket", path + "2", "{socket}")):
        tally.want(name, told_of(client_of(folder, GOOD, path=at, where=where)), (0, YES, ""))
    show = [sys.executable, "-IS", "-c", "import sys; print(sys.argv[1:])"]
    for asked, to, begins in ((["{uri}"], "1", "['nbd://127.0.0.1:"), (["{uri}"], "./s", "['nbd+unix:///?socket=/"),
                              (["{uri}/x", "{socket}"], "1", "['nbd+unix:///?socket=/"), (["a={port}"], "./s", "['a=")):
        status, out, err = ended("--to", to, "--", *show, *asked)
        tally.want(f"{asked} and --to {to}", (status, out[: len(begins)], err), (3, begins, NEVER))
    odd = f"{folder}/a b%"
    tally.want("a URI of an odd path", ended("--to", "1", "--listen", odd, "--", *show, "{uri}"),
               (3, f"['nbd+unix:///?socket={folder}/a%20b%25']\n", NEVER))


def failures(tally, folder):
    """A client that fails, that never comes, that isn't there; addresses that are taken or have no name."""
    status, out, err = client_of(folder, GOOD, "--start", "zero", status=7)
    tally.want("a client that fails", (status, out.splitlines()[0], err),
               (10, YES, "nbdcheck-record: the client ended with status 7\n"))
    found = client_of(folder, WRONG, "--start", "zero", "--keep", f"{folder}/wrong", status=7)
    ended_so = "nbdcheck-record: the client ended with status 7\n"
    tally.want("a client that fails, and a no", told_of(found),
               (1, f"{NO} in any order", kept_lines(f"{folder}/wrong/session.1.cap") + ended_so))
    killed = ["sh", "-c", "kill -9 $$ {port}"]
    wanted = (10, "", f"{NEVER}nbdcheck-record: the client was ended by signal 9\n")
    tally.want("a client that is killed", ended("--to", "1", "--", *killed), wanted)
    tally.want("a client that never comes", ended("--to", "1", "--", "true", "{uri}"), (3, "", NEVER))
    for name, reason in ((f"{folder}/none", "No such file or directory"), (folder, "Permission denied")):
        tally.want(f"a client {reason}", ended("--to", "1", "--", name, "{uri}"),
                   (10, "", f"nbdcheck-record: cannot run the client {name}: {reason}\n"))
    with socket.create_server(("127.0.0.1", 0)) as taken:
        port = taken.getsockname()[1]
        wanted = f"nbdcheck-record: cannot listen on 127.0.0.1:{port}: Address already in use\n"
        tally.want("a port that is taken", ended("--to", "1", "--listen", port), (3, "", wanted))
    Path(folder, "file").touch()
    wanted = f"nbdcheck-record: cannot listen on {folder}/file: Address already in use\n"
    tally.want("a socket that is taken", ended("--to", "1", "--listen", f"{folder}/file"), (3, "", wanted))
    status, out, err = ended("--to", "a..b:1", "--", "true", "{uri}")
    tally.want("a server without a name", (status, out, err.startswith("nbdcheck-record: cannot find a..b:1: ")), (3, "", True))
    status, out, err = ended("--to", "./" + "x" * 200, "--", *player(folder, GOOD, "{socket}"))
    tally.want("a path that is too long", (status, out[:10], "AF_UNIX path too long" in err), (3, "no answer:", True))
    wanted = f"nbdcheck-record: cannot write {folder}/no/s.1.cap: No such file or directory\n"
    tally.want("no folder", ended("--to", "1", "--listen", f"{folder}/l", "--out", f"{folder}/no/s"), (3, "", wanted))
    wanted = f"nbdcheck-record: cannot write {folder}/file/session.1.cap: File exists\n"
    tally.want("a file in place of a folder", ended("--to", "1", "--keep", f"{folder}/file", "--", "{uri}"), (3, "", wanted))
    with Ends(folder, "stdout", stdout=os.open("/dev/full", os.O_WRONLY)) as ends:
        [end.close() for end in ends.both()]
        status, _, err = ends.interrupt()
        tally.want("standard output is full", (status, err), (3, "nbdcheck-record: No space left on device\n"))


def lasting(tally, folder):
    """A server that goes on behind the client's end is left, and what has passed is judged."""
    with socket.create_server(("127.0.0.1", 0)) as listener:
        with Tool("--to", listener.getsockname()[1], "--", *player(folder, GOOD[:2])) as tool:
            server, _ = listener.accept()
            begun_at = time.monotonic()
            server.sendall(GOOD[0][1])
            status, out, err = tool.end()
    tally.want("a server that goes on", (status, out.splitlines()[0]), (0, NONE))
    tally.holds("a server that goes on: told", "still open 3 seconds behind the client's end: 1\n" in err, err)
    tally.holds("a server that goes on: not for long", 2 < time.monotonic() - begun_at < 20)


def several(tally, folder):
    """Several connections: contents where no other one may have changed them, else the protocol alone, and the gravest status."""
    both = ["sh", "-c", '"$@" && "$@"', "sh"]
    for name, records, first, second, wanted in (
        ("WRITEs", GOOD, f"connection 1: ok, {MEET[1]}", f"connection 2: ok, {MEET[2]}", 0),
        ("wrong bytes", WRONG, f"connection 1: ok, {MEET[1]}", f"connection 2: ok, {MEET[2]}", 0),
        ("cut", CUT, f"connection 1: {UNFINISHED}, {MEET[1]}", f"connection 2: {UNFINISHED}, {MEET[2]}", 1),
        ("READs", READS, f"connection 1: {ONE}", f"connection 2: {ONE}", 0),
        ("no request", begun(), f"connection 1: {NONE}", f"connection 2: {NONE}", 0),
        ("wrong READs", STALE, f"connection 1: {STALE_LINE}", f"connection 2: {STALE_LINE}", 1),
    ):
        with Server(records, count=2) as server:
            status, out, err = ended("--to", server.address, "--start", "zero", "--apart", "--keep", f"{folder}/two", "--", *both,
                                     *player(folder, records))
        tally.want(f"two connections, {name}", (status, out.startswith(first), second in out), (wanted, True, True))
        tally.want(f"two connections, {name}: told", err, kept_lines(*(f"{folder}/two/session.{n}.cap" for n in (1, 2))))
        tally.want(f"two connections, {name}: captures", [runs_of(f"{folder}/two/session.{n}.cap") for n in (1, 2)],
                   [longest_runs(records)] * 2)


def beside_others(tally, folder):
    """Which of two connections is compared: one without requests, or with READs alone, beside one with a WRITE."""
    order = Path(folder, "order")
    order.write_text("1\n2\n")
    for name, other, asked, wanted in (
        ("no request", begun(), [], [f"connection 1: {NONE}", f"connection 2: {YES}"]),
        ("no request, --order", begun(), ["--order", order], [f"connection 1: {NONE}", f"connection 2: {YES}"]),
        ("READs", READS, [], [f"connection 1: ok, {MEET[1].replace('WRITE', 'READ', 1)}", f"connection 2: {YES}"]),
        ("READs, --order", READS, ["--order", order], [f"connection {number}: ok, {ORDER_OF[3 - number]}" for number in (1, 2)]),
    ):
        with Ends(folder, name, "--start", "zero", "--apart", *asked) as ends:
            for records in (other, GOOD):
                client, server = ends.both()
                ends.play(client, server, records)
                client.close(), server.close()
            status, out, err = ends.interrupt()
        found = [line for line in out.splitlines() if line.startswith(("connection ", "yes", "no"))]
        tally.want(f"a WRITE beside {name}", (status, found, err), (0, wanted, ""))


# A stand-in for nbdcheck: for a capture it ends with the status that stands for its number, and notes its words.
STAND_IN = """#!/bin/sh
echo "$*" >>"$NOTES"
[ "$1" != --version ] || exit ${VERSION:-0}
for word; do
    case $word in *.1.cap) status=$FIRST ;; *.2.cap) status=$SECOND ;; esac
done
[ -n "$PLAIN" ] || echo "{\\"format\\":1,\\"line\\":\\"line $status\\",\\"verdict\\":\\"no\\",\\"judged\\":true}"
[ -z "$PLAIN" ] || echo "$PLAIN"
exit $status
"""


def statuses(tally, folder):
    """Each status of nbdcheck, the gravest of two, and the words that it is given."""
    program, notes = Path(folder, "stand-in"), Path(folder, "notes")
    program.write_text(STAND_IN)
    program.chmod(0o755)
    both = ["sh", "-c", '"$@"; "$@"', "sh", *player(folder, GOOD)]

    def ask(count, first, second=0, *asked, version="0", plain=""):
        notes.write_text("")
        env = {"FIRST": str(first), "SECOND": str(second), "NOTES": str(notes), "VERSION": version, "PLAIN": plain}
        with Server(GOOD, count=count) as server:
            client = both if count == 2 else player(folder, GOOD)
            return ended("--to", server.address, *asked, "--keep", f"{folder}/k", "--", *client, nbdcheck=program, env_more=env)

    capture, other = (f"{folder}/k/session.{number}.cap" for number in (1, 2))
    for status, wanted in ((1, 1), (2, 2), (3, 3), (4, 4), (5, 5), (77, 3)):
        # A status that is none of nbdcheck's is told.
        strange = f"nbdcheck-record: {program} ended with status {status}\n" if status == 77 else ""
        lines = f"line {status}\n{ALL if status == 1 else NO_ANSWER}"
        tally.want(f"status {status}", ask(1, status), (wanted, lines, strange + kept_lines(capture)))
    for first, second, wanted in ((4, 1, 1), (4, 3, 4), (3, 5, 3), (0, 5, 5)):
        lines = "".join(f"connection {number}: line {status}, {MEET[number]}\n" for number, status in ((1, first), (2, second)))
        known = sum(status < 2 for status in (first, second))
        unknown = f", no answer {2 - known}" if known < 2 else ""
        lines += f"connections 2: compared 0, not compared {known}, empty 0, not judged 0{unknown}\n"
        found = ask(2, first, second, "--apart")
        tally.want(f"statuses {first} and {second}", found, (wanted, lines, kept_lines(capture, other)))
    for asked, wanted in (
        (["--start", "zero"], [f"explain {capture} --start zero --profile wide --hints --json",
                               f"contents {capture} --start zero --profile wide"]),
        (["--apart"], [f"explain {capture} --start unknown --profile wide --hints --json"]),
        (["--order", notes, "--profile", "base"], [f"explain {capture} {notes} --start unknown --profile base --hints --json",
                                                   f"contents {capture} {notes} --start unknown --profile base"]),
    ):
        ask(1, 0, 0, *asked)
        tally.want(f"its words, {asked}", notes.read_text().splitlines(), ["--version", *wanted])
    ask(1, 0, 0, "--arrival", "--profile", "base")
    found = notes.read_text().splitlines()
    tally.want("its words, --arrival", (found[1], found[2].startswith(f"explain {capture} /")),
               (f"order {capture} --arrival --profile base --hints", True))
    tally.want("lines that are no objects", ask(1, 0, plain="yes requests 1"),
               (3, f"no answer: status 3\n{NO_ANSWER}", f"nbdcheck-record: {program}: its lines are no JSON\n{kept_lines(capture)}"))
    tally.want("no line", ask(1, 0, plain=" "), (3, f"no answer: status 3\n{NO_ANSWER}",
               f"nbdcheck-record: {program}: it ended with status 0 and said nothing\n{kept_lines(capture)}"))
    tally.want("nbdcheck fails at once", ask(1, 0, version="3"),
               (3, "", f"nbdcheck-record: cannot run {program}: it ended with status 3\n"))
    client = ["touch", f"{folder}/came", "{uri}"]
    found = ended("--to", "1", "--", *client, nbdcheck=f"{folder}/none")
    wanted = f"nbdcheck-record: cannot run {folder}/none: No such file or directory\n"
    tally.want("no nbdcheck", (found, os.path.exists(f"{folder}/came")), ((3, "", wanted), False))


def interrupted(tally, folder):
    """An interrupt while nbdcheck runs: no answer, and the capture is kept."""
    program, begun_at = Path(folder, "slow"), Path(folder, "begun")
    program.write_text(f"#!/bin/sh\n[ $1 = --version ] && exit\ntouch {begun_at}\nexec sleep 60\n")
    program.chmod(0o755)
    with Server(GOOD) as server:
        words = ["--to", server.address, "--", *player(folder, GOOD)]
        with Tool(*words, nbdcheck=program, env_more={"TMPDIR": folder}) as tool:
            while not begun_at.exists():
                time.sleep(0.01)
            status, out, err = tool.end(signal.SIGTERM)
    captures = kept(folder)
    lines = [f"nbdcheck-record: kept {path}" for path in captures]
    tally.want("an interrupt of nbdcheck", (status, out), (143, ""))
    tally.want("an interrupt of nbdcheck: told", err.splitlines(), [*lines, "nbdcheck-record: interrupted by SIGTERM: no answer"])
    tally.want("an interrupt of nbdcheck: captured", [runs_of(path) for path in captures], [longest_runs(GOOD)])


def closed_files(tally, folder):
    """Standard output and standard error that are closed are no other file's."""
    with Server(GOOD) as server:
        words = [sys.executable, str(RECORD), "--to", server.address, "--keep", f"{folder}/k", "--", *player(folder, GOOD)]
        env = {**os.environ, "NBDCHECK": PROGRAM}
        done = subprocess.run(["sh", "-c", 'exec "$@" <&- >&- 2>&-', "sh", *words], env=env, timeout=60)
    tally.want("closed files", (done.returncode, runs_of(f"{folder}/k/session.1.cap")), (0, longest_runs(GOOD)))


def without_client(tally, folder):
    """Without a client an answer is given where it is asked for."""
    for name, asked, lines in (("unasked", [], []), ("asked", ["--start", "zero", "--arrival"], [NO])):
        with Ends(folder, name, *asked) as ends:
            client, server = ends.both()
            ends.play(client, server, WRONG)
            client.close(), server.close()
            status, out, err = ends.interrupt()
        found = out.splitlines()
        line = ends.listed(2, *sizes_of(WRONG)).rstrip("\n")
        tally.want(f"without a client, {name}", (status, found[:1], found[1:2], err), (len(lines), [line], lines, ""))


def found_beside(tally, folder):
    """Installed it finds the program and its modules; in the repository the wrapper."""
    from recorder.answers import find_nbdcheck
    kept_env = os.environ.pop("NBDCHECK", None)
    tally.want("the repository's", find_nbdcheck(str(RECORD.parent)), str(TOP / "nbdcheck"))
    Path(folder, "nbdcheck").touch()
    tally.want("the one beside it", find_nbdcheck(folder), f"{folder}/nbdcheck")
    os.environ["NBDCHECK"] = PROGRAM
    tally.want("the one that NBDCHECK names", find_nbdcheck(folder), PROGRAM)
    if kept_env is None:
        del os.environ["NBDCHECK"]
    else:
        os.environ["NBDCHECK"] = kept_env


PARTS = (words, answers, places, failures, lasting, several, beside_others, statuses, interrupted, closed_files,
         without_client, found_beside)


def run(tally):
    run_parts(tally, PARTS)
