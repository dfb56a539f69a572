"""cookies-to-order: each form of line, cookies that are used again, each refusal, the sessions of examples/ whose orders are said in
cookies, also with extended headers, and the example of docs/RECORDING.md.
"""

import os
import random
import re
import subprocess
import sys
import tempfile
from collections import namedtuple
from pathlib import Path

from built import PROGRAM, TOP, Room
from commands.said import hint_of
from conversion.cookies import order
from conversion.ending import Refused
from messages import (
    DISC, FLAGS, FLUSH, INFO, TRIM, ack, begun, by_name, export, go, go_data, one_by_one, option, read, records_of, request, simple,
    sizes, text, write,
)
from models import transmitted
from models.extending import can_be_extended, extended, says_the_same

NAME, MOST = "cookies-to-order", 2**64 - 1
SCRIPT = str(TOP / "bin" / NAME)
Run = namedtuple("Run", "status out err")

# A READ of each of these cookies, all outstanding together, and a DISC with a cookie of its own.
COOKIES = (10, 0x10, MOST, 0, 2**63, 0xDEADBEEF, 8)
TOGETHER = text([*begun(), *(read(cookie, 0, 4) for cookie in COOKIES), *(simple(cookie, bytes(4)) for cookie in COOKIES),
                 request(DISC, 77, 0, 0)])
# The cookie 5 used three times, a WRITE, a READ and a FLUSH, and between them 6.
AGAIN = text([
    *begun(), write(5, 0, b"\xab\xcd\xef\x01"), read(6, 4, 2), simple(5), read(5, 0, 8), simple(6, bytes(2)),
    simple(5, b"\xab\xcd\xef\x01\0\0\0\0"), request(FLUSH, 5, 0, 0), simple(5),
])
# The export has 8 bytes: of the first READ the last two lie in it, of the second none, and both fail.
READS = [read(5, 6, 4), simple(5, error=22), read(5, 8, 1), simple(5, error=22), read(5, 0, 2), simple(5, bytes(2))]
BEYOND = text([*begun(), *READS])
# The same behind EXPORT_NAME, and behind an INFO on another export.
NAMED = text([*FLAGS, *by_name(b"disk"), *READS])
TOLD = text([*FLAGS, option(INFO, go_data(b"disk")), export(INFO, size=100), ack(INFO), *go(), *READS])
# Commands that are not known, or not offered.
STRANGE = text([*begun(), request(9, 5, 0, 0), simple(5, error=75), request(7, 5, 0, 4), simple(5, error=22), request(TRIM, 5, 0, 8)])
# An answer with block sizes that no server may announce, which the profile base does not look at.
SIZED = text([*begun()[:3], sizes(3, 4096, 2**25), *begun()[3:], read(7, 0, 4), simple(7, bytes(4))])
UNKNOWN_REPLY = text([*begun(), read(1, 0, 4), simple(2, bytes(4))])

TAKEN = {
    "decimal": (TOGETHER, "10\n16\n0\n8\n", "1\n2\n4\n7\n"),
    "hexadecimal": (TOGETHER, "0xa\n0x10\n0x0\n0x8\n", "1\n2\n4\n7\n"),
    "both in one log": (TOGETHER, "10\n0x10\n", "1\n2\n"),
    "capital digits and a capital X": (TOGETHER, "0XDEADBEEF\n0xA 0 4\n", "6\n1 0 4\n"),
    "zeroes behind 0x": (TOGETHER, "0x000000000000000a\n0x00000000000000000010\n", "1\n2\n"),
    "64 bits": (TOGETHER, f"{MOST}\n{2**63}\n", "3\n5\n"),
    "64 bits, hexadecimal": (TOGETHER, "0xffffffffffffffff\n0x8000000000000000\n", "3\n5\n"),
    "parts": (TOGETHER, "10 0 1\n0x10 0 4\n0xa 0x1 0x3\n", "1 0 1\n2 0 4\n1 1 3\n"),
    "large numbers of a part": (TOGETHER, f"10 {MOST} 0xffffffffffffffff\n", f"1 {MOST} {MOST}\n"),
    "spaces and tabs": (TOGETHER, " 10\t0  4 \n\t16\n", "1 0 4\n2\n"),
    "nothing": (TOGETHER, "", ""),
    "another order than that of the requests": (TOGETHER, "8\n10\n16\n", "7\n1\n2\n"),
    "used again": (AGAIN, "5\n6\n5\n5\n", "1\n2\n3\n4\n"),
    "used again, the other one last": (AGAIN, "5\n5\n5\n6\n", "1\n3\n4\n2\n"),
    "used again, the first in parts": (AGAIN, "5 2 2\n5 0 2\n5\n6\n5\n", "1 2 2\n1 0 2\n3\n2\n4\n"),
    "used again, two in parts": (AGAIN, "5 0 4\n5 0 1\n6 4 1\n5 1 7\n6 5 1\n5\n", "1 0 4\n3 0 1\n2 4 1\n3 1 7\n2 5 1\n4\n"),
    "used again, the second in parts": (AGAIN, "5\n5 4 4\n5 0 4\n5\n", "1\n3 4 4\n3 0 4\n4\n"),
    "a cookie alone is the next request": (AGAIN, "5 0 2\n5\n5\n", "1 0 2\n3\n4\n"),
    "used again, a part beyond its range": (AGAIN, "5 0 9\n5 0 4\n5 4 5\n5\n", "1 0 9\n3 0 4\n3 4 5\n4\n"),
    "a part without a byte": (AGAIN, "5 0 0\n5 0 4\n5\n", "1 0 0\n1 0 4\n3\n"),
    "a part of a request without a range": (AGAIN, "5\n5\n5 0 0\n", "1\n3\n4 0 0\n"),
    "beyond the export": (BEYOND, "5 6 1\n5 7 1\n5\n5 0 1\n5 1 1\n", "1 6 1\n1 7 1\n2\n3 0 1\n3 1 1\n"),
    "beyond the export, by its name": (NAMED, "5 6 1\n5 7 1\n5 8 1\n5 0 2\n", "1 6 1\n1 7 1\n2 8 1\n3 0 2\n"),
    "beyond the export, and not beyond one that an INFO told": (TOLD, "5 6 1\n5 7 1\n5 8 1\n5 0 2\n", "1 6 1\n1 7 1\n2 8 1\n3 0 2\n"),
    "commands without a name": (STRANGE, "5\n5\n5 0 8\n", "1\n2\n3 0 8\n"),
    "beyond the export, each in parts": (BEYOND, "5 6 2\n5 8 1\n5 0 2\n", "1 6 2\n2 8 1\n3 0 2\n"),
    "block sizes that base takes": (SIZED, "7\n", "1\n"),
}

NO_NUMBER = "is no number, as decimal digits or 0x and hexadecimal digits make one"
NO_LINE = "neither a cookie alone, nor a cookie, an offset and a length"
OFTEN = "is logged more often than it was used: "
REFUSED = {
    "a cookie that no request has": (TOGETHER, "10\n11\n", ["2: no request of the session has the cookie 11"]),
    "a cookie that no request has, hexadecimal": (TOGETHER, "0xB 0 1\n", ["1: no request of the session has the cookie 0xB"]),
    "the cookie of a DISC": (TOGETHER, "77\n", ["1: no request of the session has the cookie 77"]),
    "twice": (TOGETHER, "10\n10\n", [f"2: the cookie 10 {OFTEN}one request had it"]),
    "in parts and then alone": (TOGETHER, "10 0 2\n10\n", [f"2: the cookie 10 {OFTEN}one request had it"]),
    "alone and then in parts": (TOGETHER, "10\n0xa 0 2\n", [f"2: the cookie 0xa {OFTEN}one request had it"]),
    "more bytes than its range has": (TOGETHER, "10 0 4\n10 0 1\n", [f"2: the cookie 10 {OFTEN}one request had it"]),
    "four times": (AGAIN, "5\n5\n5\n5\n", [f"4: the cookie 5 {OFTEN}3 requests had it"]),
    "a zero before a number": (TOGETHER, "010\n", [f"1: 010 {NO_NUMBER}"]),
    "hexadecimal digits without 0x": (TOGETHER, "a\n", [f"1: a {NO_NUMBER}"]),
    "0x alone": (TOGETHER, "0x\n", [f"1: 0x {NO_NUMBER}"]),
    "a sign": (TOGETHER, "-1\n+1\n", [f"1: -1 {NO_NUMBER}", f"2: +1 {NO_NUMBER}"]),
    "a sign behind 0x": (TOGETHER, "0x-1\n", [f"1: 0x-1 {NO_NUMBER}"]),
    "an underscore": (TOGETHER, "1_0\n", [f"1: 1_0 {NO_NUMBER}"]),
    "an octal number": (TOGETHER, "0o12\n", [f"1: 0o12 {NO_NUMBER}"]),
    "digits of another alphabet": (TOGETHER, "١٠\n", [rf"1: \xd9\xa1\xd9\xa0 {NO_NUMBER}"]),
    "a word": (TOGETHER, "10\nserved\n", [f"2: served {NO_NUMBER}"]),
    "a long word": (TOGETHER, "z" * 100_000 + "\n", [f"1: {'z' * 40}.. {NO_NUMBER}"]),
    "a bad offset": (TOGETHER, "10 x 1\n", [f"1: x {NO_NUMBER}"]),
    "a bad length": (TOGETHER, "10 0 1.5\n", [f"1: 1.5 {NO_NUMBER}"]),
    "more than 64 bits": (TOGETHER, f"{MOST + 1}\n", [f"1: {MOST + 1} is more than {MOST}"]),
    "more than 64 bits, hexadecimal": (TOGETHER, "0x10000000000000000\n", [f"1: 0x10000000000000000 is more than {MOST}"]),
    "5,000 digits": (TOGETHER, "1" * 5000 + "\n", [f"1: {'1' * 40}.. is more than {MOST}"]),
    "5,000 hexadecimal digits": (TOGETHER, "0x" + "1" * 5000 + "\n", [f"1: 0x{'1' * 38}.. is more than {MOST}"]),
    "a length of more than 64 bits": (TOGETHER, f"10 0 {MOST + 1}\n", [f"1: {MOST + 1} is more than {MOST}"]),
    "two numbers": (TOGETHER, "10 0\n", [f"1: {NO_LINE}"]),
    "four numbers": (TOGETHER, "10 0 1 2\n", [f"1: {NO_LINE}"]),
    "an empty line": (TOGETHER, "10\n\n16\n", [f"2: {NO_LINE}"]),
    "a remark": (TOGETHER, "# log\n", [f"1: {NO_LINE}"]),
    "no line feed at the end": (TOGETHER, "10\n16", ["2: no line feed at its end"]),
    "several": (TOGETHER, "11\n10\nx\n8", ["1: no request of the session has the cookie 11", f"3: x {NO_NUMBER}",
                                            "4: no line feed at its end"]),
}


def convert(*words, stdout=subprocess.PIPE, before=(), program=PROGRAM, **how):
    command = [*before, sys.executable, SCRIPT, *map(str, words)]
    done = subprocess.run(command, stdout=stdout, stderr=subprocess.PIPE, timeout=60, env={**os.environ, "NBDCHECK": program}, **how)
    return Run(done.returncode, done.stdout, done.stderr)


def of_log(room, capture, log):
    return convert(room.put("capture", capture), room.put("log", log))


def size_of(capture):
    return sum(len(data) for _, data in records_of(capture))


def told(lines):
    """What is said of these bad lines."""
    return f"{NAME}: " + "\n  ".join(f"log line {line}" if line[:1].isdigit() else line for line in lines) + "\n"


def lines(tally, room):
    for name, (capture, log, wanted) in TAKEN.items():
        tally.want(name, of_log(room, capture, log.encode()), Run(0, wanted.encode(), b""))
    for name, (capture, log, wanted) in REFUSED.items():
        tally.want(name, of_log(room, capture, log.encode()), Run(1, b"", told(wanted).encode()))
    for count in (10, 11, 13):
        wanted = [f"{at}: no request of the session has the cookie 11" for at in range(1, 11)] + [f"and {count - 10} more"] * (count > 10)
        tally.want(f"{count} bad lines", of_log(room, TOGETHER, b"11\n" * count), Run(1, b"", told(wanted).encode()))


def captures(tally, room):
    """A capture that is refused, or malformed, or has no request."""
    refused = f"{NAME}: no order: the session was refused, "
    for name, capture, why in (
        ("an unknown reply", UNKNOWN_REPLY, f"no at byte {size_of(UNKNOWN_REPLY) - 4}: UnknownCookie"),
        ("nothing but a greeting's half", b"S 4e42\n", "no at byte 2: Unfinished"),
    ):
        tally.want(name, of_log(room, capture, b"1\n"), Run(1, b"", f"{refused}{why}\n".encode()))
    tally.want("a malformed capture", of_log(room, b"S 4e42\nS 0\n", b""), Run(3, b"", b"fault capture line 2\n"))
    tally.want("no message", of_log(room, b"", b""), Run(0, b"", hint_of(b"")))
    wanted = told(["1: no request of the session has the cookie 1"])
    tally.want("no request", of_log(room, text(begun()), b"1\n"), Run(1, b"", wanted.encode()))


def in_cookies(records, entries):
    """An order as a log, with the cookies that a reader of its own finds in the session."""
    sent = transmitted.judge(records, "wide").sent
    for entry in entries.split("\n")[:-1]:
        number, *part = entry.split(" ")
        cookie = sent[int(number) - 1].cookie
        yield " ".join([f"{cookie:#x}" if cookie % 2 else f"{cookie}", *part]) + "\n"


def examples(tally, room):
    """The orders of the sessions of examples/, said in cookies; also where they are said again with extended headers, and by bytes."""
    count, again = 0, 0
    for path in sorted((TOP / "examples").glob("*.cap")):
        records, entries = records_of(path.read_bytes()), path.with_suffix(".ord").read_text()
        if transmitted.judge(records, "wide").fault is not None:
            continue
        start = path.with_suffix(".start").read_text().strip().replace("image:", f"image:{TOP}/examples/")
        for name, said, is_again in said_by(path.name, records):
            log, count, again = "".join(in_cookies(said, entries)), count + 1, again + is_again
            tally.want(name, of_log(room, text(said), log.encode()), Run(0, entries.encode(), b""))
            found = room.check(text(said), entries.encode(), start, "wide")
            wanted = path.with_suffix(".wide") if path.with_suffix(".wide").exists() else path.with_suffix(".out")
            tally.want(f"{name}: check", found.out, wanted.read_bytes())
    tally.holds("sessions of examples", count > 30 and again > 5, (count, again))


def said_by(name, records):
    """A session as it stands, byte by byte, and with extended headers; whether these are new."""
    yield name, records, False
    if sum(len(data) for _, data in records) < 5000:
        yield f"{name}, byte by byte", one_by_one(records), False
    if can_be_extended(records) and says_the_same(records):
        yield f"{name}, with extended headers", extended(records), True


Asked = namedtuple("Asked", "number cookie inside")


def cut(dice, asked):
    """The lines of a request that was carried out, and its entries: atomically, or in parts that cover its range."""
    if asked.inside == 0 or dice.random() < 0.4:
        return [("", "")]
    places = sorted({0, asked.inside, *(dice.randrange(asked.inside) for _ in range(dice.randrange(4)))})
    parts = [f" {begin} {end - begin}" for begin, end in zip(places, places[1:])]
    dice.shuffle(parts)
    return [(part, part) for part in parts]


def at_random(tally):
    """Servers that carry out several requests together, whose client uses four cookies again as soon as it may."""
    for seed in range(300):
        dice, requests, log, entries = random.Random(seed), [], [], []
        outstanding = {}
        for _ in range(60):
            free = [cookie for cookie in (1, 2, 3, MOST) if not outstanding.get(cookie)]
            if free and dice.random() < 0.5:
                asked = Asked(len(requests) + 1, dice.choice(free), dice.choice((0, 1, 2, 4096)))
                requests.append(asked)
                outstanding[asked.cookie] = [(asked, *part) for part in cut(dice, asked)]
            elif busy := [cookie for cookie, parts in outstanding.items() if parts]:
                asked, part, entry = outstanding[dice.choice(busy)].pop()
                log.append(f"{dice.choice((hex, str))(asked.cookie)}{part}\n".encode())
                entries.append(f"{asked.number}{entry}\n".encode())
        tally.want(f"seed {seed}", order(log, requests), entries)
        try:
            found = order([*log, b"4\n"], requests)
        except Refused as reason:
            found = str(reason)
        tally.want(f"seed {seed}, and a bad line", found, f"log line {len(log) + 1}: no request of the session has the cookie 4")


def closed_pipe():
    reads, writes = os.pipe()
    os.close(reads)
    return writes


def outputs(tally, capture, log):
    """An output that is full, closed, or that nobody reads."""
    for asked, spoiled in (([capture, log], "what was written is no whole order"), (["--help"], "the help is not whole")):
        for before, output, reason in (
            ([], os.open("/dev/full", os.O_WRONLY), "No space left on device"),
            ([], closed_pipe(), "Broken pipe"),
            (["sh", "-c", 'exec "$@" >&-', "sh"], os.open(os.devnull, os.O_WRONLY), "Bad file descriptor"),
        ):
            found = convert(*asked, stdout=output, before=before)
            os.close(output)
            tally.want(f"{asked}: {reason}", found, Run(3, None, f"{NAME}: standard output: {reason}; {spoiled}\n".encode()))


def words(tally, room):
    """Help, malformed words, what cannot be read or run, pipes, and little memory."""
    capture, log = room.put("capture", AGAIN), room.put("log", b"5\n6\n5\n5\n")
    whole = Run(0, b"1\n2\n3\n4\n", b"")
    found = convert("--help")
    tally.want("--help", (found.status, found.err), (0, b""))
    for part in (b"usage: cookies-to-order ", b"\n    cookies-to-order session.cap ", b"exit status:\n  0  ", b"\n  4  out of memory\n"):
        tally.holds(f"--help has {part}", part in found.out, found.out)
    for asked in ([], [capture], [capture, log, log], ["--profile", "wide", capture, log]):
        found = convert(*asked)
        tally.want(f"{asked}", (found.status, found.out), (2, b""))
        tally.holds(f"{asked}: usage", found.err.startswith(b"usage: cookies-to-order "), found.err)
    for path, reason in ((room.path("none"), "No such file or directory"), (room.folder, "Is a directory")):
        wanted = Run(3, b"", f"{NAME}: {path}: {reason}\n".encode())
        tally.want(f"the capture {path}", convert(path, log), wanted)
        tally.want(f"the log {path}", convert(capture, path), wanted)
    for program, reason in (("/nonexistent/nbdcheck", "cannot run /nonexistent/nbdcheck: No such file or directory"),
                            ("/bin/false", "/bin/false ended with status 1"), ("/bin/true", "/bin/true ended with status 0")):
        tally.want(f"by {program}", convert(capture, log, program=program), Run(3, b"", f"{NAME}: {reason}\n".encode()))
    tally.want("a capture through a pipe", convert("/dev/stdin", log, input=AGAIN), whole)
    found = convert("/dev/stdin", room.put("one", b"7\n"), input=SIZED)
    tally.want("a capture that is read twice, through a pipe", found, Run(0, b"1\n", b""))
    tally.want("a log through a pipe", convert(capture, "/dev/stdin", input=b"5\n"), Run(0, b"1\n", b""))
    for name in ("/dev/stdin", "/proc/self/fd/0"):
        found = convert("/dev/stdin", name, input=AGAIN)
        tally.want(f"both through a pipe, by {name}", (found.status, found.out, found.err.splitlines()[-1:]), (2, b"", [
            f"{NAME}: error: {name}: it is named twice, and what is no regular file can be read once".encode()]))
    with open(capture, "rb") as file:
        tally.want("a capture as standard input", convert("/dev/stdin", log, stdin=file), whole)
    strange = os.fsencode(room.path("")) + b"\xff.cap"
    Path(os.fsdecode(strange)).write_bytes(AGAIN)
    tally.want("a name that is no text", convert(os.fsdecode(strange), log), whole)
    outputs(tally, capture, log)
    long = room.put("long", b"5 0 0\n" * 600_000)
    found = convert(capture, long, before=["sh", "-c", 'ulimit -v 40000; exec "$@"', "sh"])
    wanted = Run(4, b"", f"{NAME}: out of memory; what was written is no whole order\n".encode())
    tally.want("a log of 600,000 lines in 40 MB", found._replace(out=found.out[:1]), wanted)
    whole = convert(capture, long)
    tally.want("a log of 600,000 lines", (whole.status, len(whole.out), whole.err), (0, 3_600_000, b""))


def recorded(tally):
    """The commands of docs/RECORDING.md that have cookies, with what they print."""
    page = (TOP / "docs/RECORDING.md").read_text()
    [block] = [part for part in re.findall(r"(?ms)^```\w*\n(.*?)^```$", page) if f"$ bin/{NAME}" in part]
    commands = re.findall(r"(?m)^\$ (.*)\n((?:(?!\$ ).*\n)*)", block)
    with tempfile.TemporaryDirectory(prefix="nbdcheck-") as folder:
        for name in ("bin", "examples"):
            os.symlink(TOP / name, Path(folder, name))
        Path(folder, "server.log").write_text(commands[0][1])
        path = f"{Path(PROGRAM).parent}:{os.environ['PATH']}"
        for command, output in commands:
            done = subprocess.run(["bash", "-c", command], cwd=folder, env={**os.environ, "PATH": path, "NBDCHECK": PROGRAM},
                                  stdin=subprocess.DEVNULL, capture_output=True, text=True, timeout=60)
            tally.want(f"docs/RECORDING.md: {command}", (done.returncode, done.stdout, done.stderr), (0, output, ""))
    tally.want("docs/RECORDING.md: the commands", len(commands), 4)


def run(tally):
    with Room() as room:
        for part in (lines, captures, examples, words):
            part(tally, room)
    at_random(tally)
    recorded(tally)
