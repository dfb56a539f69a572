"""nbdcheck-picture: what goes into a page, its refusals, pipes and interrupts, the sessions of examples/, and a long session."""

import json
import os
import re
import resource
import signal
import subprocess
import sys
import time

from built import PROGRAM, TOP, Ended, Room
from messages import LIST, SERVER_NAME, answer, client_flags, greeting, named, option, text
from pictures.drawn import CROSSED, MANY, NAME, SCRIPT, WRITTEN, data_of, long_session, page_of, run_script

LINES = re.compile(r'<script type="text/plain" id="lines">\n(.*?)\n</script>', re.DOTALL)
NOT_WHOLE = "what was written is no whole page"


def escaping(tally, room):
    """What is not the tool's own may hold anything."""
    bad = "</script><script>bad()</script><!--&\"'\n\u2028\x01"
    lines = f"C {bad!r}"
    stand_in = room.put("stand-in", f"""#!{sys.executable}
import json, os, sys
words = sys.argv[1:]
if words[0] == "explain":
    print(json.dumps({{"format": 1, "line": {bad!r}, "verdict": "yes"}}))
    print(json.dumps({{"fact": "rule", "line": {bad!r}}}))
elif words[0] == "show" and words[1] == "--names":
    print({lines!r} + "\\nok")
elif words[0] == "show":
    os.write(1, b"S greeting flags=3\\nok\\n")
""".encode())
    os.chmod(stand_in, 0o755)
    name = "<img src=x onerror=bad()>&amp;\"'.cap"
    capture = room.put(name, text([greeting()]))
    ended = run_script(capture, more={"NBDCHECK": stand_in})
    page = ended.out.decode()
    tally.want("a stand-in", (ended.status, ended.err), (0, ""))
    tally.want("scripts", len(re.findall(r"<script", page)), 3)
    tally.want("ends of scripts", len(re.findall(r"</script", page)), 3)
    tally.holds("no tag of the name", "<img" not in page and "&lt;img src=x onerror=bad()&gt;&amp;amp;" in page)
    data = data_of(page)
    tally.want("the words as they are", (data["verdict"], data["explained"], data["name"]), (bad, f"{bad}\n{bad}\n", name))
    tally.want("a line as it is", [json.loads(line) for line in LINES.search(page).group(1).split("\n")], [lines])
    # An export's name, and a message of an error.
    names = [greeting(), client_flags(), option(LIST), answer(LIST, SERVER_NAME, named(b"</script>"))]
    tally.want("an export's name", len(re.findall(r"</script", page_of(room, names, ""))), 3)
    tally.want("no reference", set(re.findall(r"\w+://[^\"'\s]*", page_of(room, WRITTEN, "1\n2\n"))), {"http://www.w3.org/2000/svg"})
    tally.want("no other file", re.findall(r"""(?:src|href)=["'][^#]""", page_of(room, WRITTEN, "1\n2\n")), [])


def gave_up(tally, room):
    """A search that gave up proves nothing, and its page has no order; the rest is as ever."""
    line = "gave up: too many states, request 2 offset 0"
    told = json.dumps({"format": 1, "line": line, "verdict": "open", "kind": "search", "judged": False})
    path = room.put("gives-up", f"#!/bin/sh\n[ $1 = explain ] || exec {PROGRAM} \"$@\"\necho '{told}'; exit 5\n".encode())
    os.chmod(path, 0o755)
    ended = run_script(room.put("s.cap", text(CROSSED)), more={"NBDCHECK": path})
    data = data_of(ended.out.decode())
    tally.want("a search that gave up", (ended.status, ended.err, data["verdict"], data["guilt"]["kind"]), (0, "", line, "other"))
    tally.want("its order and requests", (data["source"], data["services"]["at"], data["lanes"]), (None, [], 2))


def stand_in_of(room, status, err=""):
    path = room.put(f"ends-{status}", f"#!/bin/sh\n[ $1 != --version ] || exit 0\n[ -z '{err}' ] || echo '{err}' >&2\n{status}\n".encode())
    os.chmod(path, 0o755)
    return {"more": {"NBDCHECK": path}}


def refusals(tally, room):
    good, order = room.put("good.cap", text(WRITTEN)), room.put("good.ord", b"1\n2\n")
    bad, bad_order = room.put("bad.cap", b"S 00\nC 0\n"), room.put("bad.ord", b"1\nx\n")
    loud, missing = "what it said", "/nonexistent: No such file or directory (os error 2)"
    for name, words, how, status, reason in (
        ("no file", ["/nonexistent"], {}, 3, "/nonexistent: No such file or directory"),
        ("a folder", [room.folder], {}, 3, f"{room.folder}: Is a directory"),
        ("no order file", [good, "/nonexistent"], {}, 3, "/nonexistent: No such file or directory"),
        ("a name with a line feed", ["/a\nb"], {}, 3, "'/a\\nb': No such file or directory"),
        ("a malformed capture", [bad, order], {}, 3, "fault capture line 2: the number of hexadecimal digits is odd"),
        ("a malformed order", [good, bad_order], {}, 3,
         "fault order line 2: there is another character than a digit, at byte 1 of the line"),
        ("no image", [good, order, "--start", "image:/nonexistent"], {}, 3, f"fault image read: {missing}"),
        ("no text of contents", [good, order, "--start", "contents:/nonexistent"], {}, 3, f"fault contents read: {missing}"),
        ("a folder as an image", [good, order, "--start", f"image:{room.folder}"], {}, 3,
         f"fault image read: {room.folder}: it is a directory"),
        ("a malformed text of contents", [good, order, "--start", f"contents:{bad}"], {}, 3,
         "fault contents line 1: the first line is size, one space and a number of bytes"),
        ("no nbdcheck", [good], {"more": {"NBDCHECK": "/nonexistent"}}, 3, "cannot run /nonexistent: No such file or directory"),
        ("no nbdcheck but another program", [good], {"more": {"NBDCHECK": "/bin/false"}}, 3,
         "cannot run /bin/false: it ended with status 1"),
        ("no memory", [good], stand_in_of(room, "exit 4", "fault memory"), 4, "fault memory"),
        ("another status", [good], stand_in_of(room, "exit 9"), 3, f"{room.path('ends-exit 9')} ended with status 9"),
        ("words", [good], stand_in_of(room, "exit 3", loud), 3, loud),
        ("a signal", [good], stand_in_of(room, "kill -9 $$"), 3, f"{room.path('ends-kill -9 $$')} was ended by signal 9"),
        ("no verdict", [good], stand_in_of(room, "exit 0"), 3, f"{room.path('ends-exit 0')} explain: it wrote no verdict"),
    ):
        tally.want(name, run_script(*words, **how), Ended(status, b"", f"{NAME}: {reason}\n"))
    for words in ([], [good, order, order], [good, "--start", "zeroes"], [good, "--starts", "zero"], [good, "--start"]):
        ended = run_script(*words)
        tally.holds(f"words {words}", ended[:2] == (2, b"") and f"{NAME}: error: " in ended.err, ended)
    helped = run_script("--help")
    tally.holds("help", (helped.status, helped.err) == (0, "") and b"exit status:" in helped.out and b"example:" in helped.out, helped)
    with open("/dev/full", "wb") as full:
        tally.want("a full disk", run_script(good, order, stdout=full),
                   Ended(3, None, f"{NAME}: standard output: No space left on device; {NOT_WHOLE}\n"))
        tally.want("help on a full disk", run_script("--help", stdout=full),
                   Ended(3, None, f"{NAME}: standard output: No space left on device; the help is not whole\n"))
    closed = run_script(good, order, before=["sh", "-c", 'exec "$@" >&-', "sh"])
    tally.want("no standard output", closed, Ended(3, b"", f"{NAME}: standard output: Bad file descriptor; {NOT_WHOLE}\n"))


def pipes(tally, room):
    """What comes from standard input, by a pipe or from a file, as a capture, an order, and a start of each kind."""
    for kind, start in (("image", bytes(8)), ("contents", b"size 8\nzero 0 8\n")):
        piped(tally, room, kind, start)


def piped(tally, room, of_start, start):
    places = {"capture": room.put("good.cap", text(WRITTEN)), "order": room.put("good.ord", b"1\n2\n"), of_start: room.put("8", start)}
    odd = room.put(os.fsdecode(b"\xff.cap"), text(WRITTEN))
    ended = run_script(odd, places["order"])
    tally.want("a name that is no text", (ended.status, ended.err, data_of(ended.out.decode())["name"]), (0, "", "\\xff.cap"))
    by_name = data_of(run_script(places["capture"], places["order"], "--start", f"{of_start}:{places[of_start]}").out.decode())
    for kind, path in places.items():
        for name in ("/dev/stdin", "/proc/self/fd/0"):
            words = {**places, kind: name}
            line = [words["capture"], words["order"], "--start", f"{of_start}:{words[of_start]}"]
            with open(path, "rb") as file:
                by_file = run_script(*line, stdin=file)
            with subprocess.Popen(["cat", path], stdout=subprocess.PIPE) as reader:
                by_pipe = run_script(*line, stdin=reader.stdout)
            for how, ended in (("a file", by_file), ("a pipe", by_pipe)):
                found = data_of(ended.out.decode()) if ended.status == 0 else {"failed": ended}
                names = {key: by_name[key] for key in ("name", "order", "start")}
                tally.want(f"{kind} of {how} by {name}", {**found, **names}, by_name)


def named_twice(tally, room):
    """A pipe that is two of the inputs, by one name or by two, is refused; a file may be both, and so may /dev/null."""
    path, once = room.put("good.cap", text(WRITTEN)), "it is named twice, and what is no regular file can be read once"
    for words in (["/dev/stdin", "/dev/stdin"], ["/dev/stdin", "/proc/self/fd/0"], ["/dev/stdin", "--start", "image:/proc/self/fd/0"],
                  [path, "/dev/stdin", "--start", "contents:/dev/stdin"]):
        with subprocess.Popen(["cat", path], stdout=subprocess.PIPE, stderr=subprocess.DEVNULL) as reader:
            ended = run_script(*words, stdin=reader.stdout)
        name = words[-1].rpartition(":")[2]
        tally.want(f"{words}", (ended.status, ended.out, ended.err.splitlines()[-1:]), (2, b"", [f"{NAME}: error: {name}: {once}"]))
    for words in ([path, "--start", f"image:{path}"], ["/dev/null", "/dev/null"]):
        tally.want(f"{words}", run_script(*words)[::2], (0, ""))


def interrupts(tally, room):
    """A signal ends the tool and nbdcheck, and leaves no copy of what came from a pipe."""
    number = room.path("number")
    slow = room.put("slow", f"#!/bin/sh\necho $$ > {number}.new; mv {number}.new {number}; exec sleep 600\n".encode())
    os.chmod(slow, 0o755)
    for stop in (signal.SIGINT, signal.SIGTERM, signal.SIGHUP):
        kept = room.path(f"kept-{stop}")
        os.mkdir(kept)
        with subprocess.Popen([sys.executable, SCRIPT, "/dev/stdin"], stdin=subprocess.DEVNULL, stdout=subprocess.PIPE,
                              stderr=subprocess.PIPE, env={**os.environ, "NBDCHECK": slow, "TMPDIR": kept}) as child:
            while not os.path.exists(number):
                time.sleep(0.02)
            tally.want(f"{stop.name}: a copy", len(os.listdir(kept)), 1)
            child.send_signal(stop)
            out, err = child.communicate(timeout=60)
        with open(number, encoding="ascii") as file:
            running = os.path.exists(f"/proc/{file.read().strip()}")
        os.remove(number)
        tally.want(f"{stop.name}: how it ends", (child.returncode, out, err, running, os.listdir(kept)), (-stop, b"", b"", False, []))


def are_moments(data):
    """Whether each service stands behind its request and before the first reply to it, and none before an earlier entry's."""
    messages, services, wholes, replies, first = data["messages"], data["services"], {}, {}, 0
    for side, step, span, number in zip(*(messages[key] for key in ("sides", "firsts", "spans", "requests"))):
        first += step
        if side == "C":
            wholes[number] = first + span
        else:
            replies.setdefault(number, first)
    at = services["at"]
    return at == sorted(at) and all(wholes[number] <= moment < replies.get(number, data["bytes"] + 1)
                                    for number, moment in zip(services["requests"], at))


def examples(tally, room):
    """The sessions of examples/: the answer, and as many numbers as there are messages and requests."""
    for path in sorted((TOP / "examples").glob("*.cap")):
        start = path.with_suffix(".start").read_text().strip()
        ended = run_script(path, path.with_suffix(".ord"), "--start", start, cwd=path.parent)
        data, page = data_of(ended.out.decode()), ended.out.decode()
        tally.want(path.name, (ended.status, ended.err, data["verdict"]), (0, "", path.with_suffix(".out").read_text().strip()))
        told = room.run("show", "--names", path).out.decode().splitlines()[:-1]
        tally.want(f"{path.name}: lines", [json.loads(line) for line in LINES.search(page).group(1).split("\n")], told)
        tally.want(f"{path.name}: explained", data["explained"], path.with_suffix(".why").read_text())
        if data["verdict"].startswith("yes"):
            tally.holds(f"{path.name}: moments", are_moments(data), data["services"])
            results, improper = data["requests"]["results"], data["requests"]["improper"]
            tally.want(f"{path.name}: numbers", f"yes requests {len(results)} answered {len(results) - results.count('0')} "
                       f"improper {len(improper)}", data["verdict"])


def many(tally, room):
    """The page of many requests: its size, and how long it takes."""
    begun_at, spent = time.monotonic(), resource.getrusage(resource.RUSAGE_CHILDREN)
    page = page_of(room, long_session(MANY), "".join(f"{number}\n" for number in range(1, MANY + 1)))
    used = resource.getrusage(resource.RUSAGE_CHILDREN)
    data = data_of(page)
    tally.want("many requests", (data["verdict"], data["lanes"], len(data["services"]["at"])),
               (f"yes requests {MANY} answered {MANY} improper 0", 32, MANY))
    tally.holds("many requests: the page's size", len(page) < 30_000_000, len(page))
    seconds = used.ru_utime + used.ru_stime - spent.ru_utime - spent.ru_stime
    tally.holds("many requests: seconds", seconds < 30, (seconds, time.monotonic() - begun_at))


def run(tally):
    with Room() as room:
        for part in (escaping, refusals, gave_up, pipes, named_twice, interrupts, examples, many):
            part(tally, room)
