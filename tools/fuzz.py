#!/usr/bin/env python3
"""Runs each command of the built program in turn on sessions with random mistakes, so many of them.

The sessions are the good ones of examples/, of cases/ and of the tests. Mistakes are made in the bytes, lines and words of
the text (digits, sides, line ends, cuts), in the messages, by way of `show` and `make` (messages dropped, doubled, swapped,
fields changed), and in the order. Some sessions get options on metadata contexts, with answers that are right or odd, some
are told block sizes, which are right or odd, and some are said again with extended headers. Of every run is asked: an exit
status that the command has, with an output and a standard error of its form; an end within ten seconds; and no more memory than
16 MiB and ten times the input (`explain` and `order`: 64 MiB and forty times). And of

  check    in both profiles the same answer as it stands, as records of one byte and as longest runs; where it is yes, a yes of
           `explain`, and no proof that no order explains the session; in `wide` the same answer as in `base`, unless that is
           OutOfProfile at an answer to LIST_META_CONTEXT, SET_META_CONTEXT or EXTENDED_HEADERS, or Late, or refuses an error of
           an unknown type, or block sizes are announced, which may be refused, or be broken and counted; in both the line of
           the readers of tests/models/
  show     the same lines in these forms; what it accepts is, made and shown again, the same; `--names` has as many lines
  explain  the status and the line of `check`; without an order, those of `order`; the same words in other records
  order    what it finds is accepted by `check`; `--arrival` has the number of each request, or says that the session was refused
  contents the text of the reader of tools/contents.py, with an order and without one; from such a text, mostly with a mistake, `check`
           has the line of the readers, or names the first bad line
  --json   of all these an object a line, which has what the line says, with the same status and standard error

An input that breaks one of these is kept in the folder of failures.

tools/fuzz.py [COUNT] [--seed N] [--command NAME] [--failures FOLDER]
"""

import argparse
import random
import re
import sys
from collections import Counter
from pathlib import Path

sys.path.append(str(Path(__file__).resolve().parent.parent / "tests"))
import contents
from built import PROGRAM, Ended, Room, build
from cases import errors, extended, makes, outside, shows, sizes, statuses, zeroes
from cases.contexts import STATUS_TABLE
from cases.selections import NEGOTIATION_TABLE
from explain.orderless import ORDERLESS
from messages import EXTENDED_HEADERS, LIST_META_CONTEXT, SET_META_CONTEXT, longest_runs, one_by_one, records_of, text
from mistakes import Mutator
from models import served
from objects import lines_of
from sessions.test_cases import TABLES
from sessions.test_contexts import ANNOUNCED, differ_by_errors, differ_by_sizes
from sessions.test_cuts import SESSIONS, examples

FAULTS = ("BadMagic|NotFixedNewstyle|BadClientFlags|OutOfTurn|WrongOption|BadReplyKind|OutOfProfile|BadReplyPayload|"
          "MissingExportInfo|BadExport|ExportTooLarge|CookieInUse|UnknownCookie|SimpleForbidden|ChunkForbidden|BadChunk|"
          "BadContent|IncompleteRead|SuccessOfImproper|BadDisconnect|Unfinished|IncompleteStatus|BadReplyOffset")
BASE, WIDE = [], ["--profile", "wide"]
YES = r"yes requests \d+ answered \d+ improper \d+\n"
WIRE = rf"no at byte \d+: ({FAULTS})\n"
IMAGE = r"no image \d+ size \d+\n"
NO = (rf"({WIRE}|{IMAGE}|no order entry \d+: (NoSuchRequest|Twice|Late|Missing|BadPart|NotCovered)\n|"
      r"no (content|status) request \d+ offset \d+\n)")
NONE = (rf"({WIRE}|{IMAGE}|no (content|status) request \d+ offset \d+ in any order\n|"
        r"no order explains requests \d+( \d+)+ at offset \d+\n)")
GAVE_UP = r"gave up: too many (steps|states) at request \d+ offset \d+\n"
MESSAGE = (r"([CS] (greeting|client-flags|option|answer|export|request|simple|chunk|extended-request|extended-chunk)"
           r"( (flags|id|payload|option|kind|size|padded|command|cookie|offset|length|error)=[0-9a-f]*)+\n)")
# What stands behind the first line: words and numbers, and bytes as digits.
TOLD = r"([ -~]+\n)*"
# The output of each command with each exit status that is an answer.
FORMS = {
    "check": {0: YES, 1: NO},
    "show": {0: f"{MESSAGE}*ok\n", 1: f"{MESSAGE}*{WIRE}"},
    "names": {0: rf"([CS] [ -~]+\n)*ok\n", 1: rf"([CS] [ -~]+\n)*{WIRE}"},
    "explain": {0: f"{YES}{TOLD}", 1: f"{NO}{TOLD}"},
    "alone": {0: f"{YES}{TOLD}", 1: f"{NONE}{TOLD}", 5: f"{GAVE_UP}{TOLD}"},
    "order": {0: r"(\d+( \d+ \d+)?\n)*", 1: NONE, 5: GAVE_UP},
    "arrival": {0: r"(\d+\n)*", 1: ""},
    "make": {0: r"([CS] ([0-9a-f]{2})+\n)*"},
    "contents": {0: r"size \d+\n((zero|unknown) \d+ \d+\n|data \d+ ([0-9a-f]{2})+\n)*", 1: rf"({NO}|no export\n)"},
}
# The standard error of a text that is malformed.
BAD_TEXTS = {
    "check": r"fault (capture|order) line \d+\n",
    "contents": r"fault (capture|order) line \d+\n",
    "explain": r"fault (capture|order) line \d+\n",
    "make": r"fault script line \d+\n",
}
BAD_CAPTURE = r"fault capture line \d+\n"
EXCHANGED = b"the first bytes of C are a server's (NBDMAGIC): C and S are exchanged in this capture\n"
SEARCHED = b"line 1 is no entry of an order but an answer: 'no' or 'gave up'\n"
EMPTY = b"the capture is empty: nothing was recorded\n"
REFUSED = b"no order: the session was refused\n"


class Wrong(Exception):
    """A run broke what is asked of it."""


def seeds():
    """Captures with their orders and starts; a start of bytes is an image."""
    for one in (*SESSIONS, *examples()):
        yield text(one.records), one.order, one.start
    for table in TABLES:
        for case in table.CASES:
            yield text(case.capture), case.order.encode(), case.start
    for capture in (*makes.SESSIONS, *(case.capture for case in shows.ACCEPTED)):
        yield text(capture), b"1\n", "zero"
    for one in ORDERLESS.values():
        kind, _, size = one.start.partition(":")
        yield text(one.records), one.order.encode(), bytes(range(int(size))) if kind == "image" else one.start


def seeds_in_profiles():
    tables = statuses, zeroes, sizes, outside, errors, extended
    for told in (*STATUS_TABLE, *NEGOTIATION_TABLE, *(told for table in tables for told in table.TABLE)):
        yield text(told.records), told.order.encode(), told.start


def message_lines(shown):
    """What `show` wrote without its last line."""
    return b"".join(line + b"\n" for line in shown.out.split(b"\n")[:-2])


def first_line(found):
    return found.out.split(b"\n")[0]


def is_exchanged(capture):
    """Whether the client's first bytes in a capture are a server's."""
    return b"".join(data for side, data in records_of(capture) if side == "C").startswith(b"NBDMAGIC")


def place_of(line):
    """Where a session is refused by its bytes; None where it is not."""
    found = re.fullmatch(r"no at byte (\d+): \w+\n", line)
    return found and int(found[1])


def is_left_out(records, line):
    """Whether a line of `base` is OutOfProfile at an answer to an option that `wide` follows, and `base` does not."""
    if not line.endswith(": OutOfProfile\n"):
        return False
    pairs = [(side, byte) for side, data in records for byte in data][: place_of(line)]
    head = bytes(byte for side, byte in pairs[-20:] if side == "S")
    return len(head) == 20 and int.from_bytes(head[8:12], "big") in (LIST_META_CONTEXT, SET_META_CONTEXT, EXTENDED_HEADERS)


def is_of_sizes(records, base, wide):
    """Whether two lines differ by block sizes that are announced."""
    return differ_by_sizes(base, wide) and ANNOUNCED in b"".join(data for side, data in records if side == "S")


def said(name, status, capture):
    """What stands on standard error beside an answer, where this is no terminal."""
    if name == "make":
        return b""
    refused = REFUSED if (name, status) == ("arrival", 1) else b""
    if not capture:
        return EMPTY
    return refused + (EXCHANGED if status == 1 and is_exchanged(capture) else b"")


class Fuzz:
    def __init__(self, room, chance):
        self.room, self.mutator, self.endings, self.profile = room, Mutator(chance), Counter(), BASE
        # Whether a run only compares other records with those of a run before it.
        self.is_again = False

    def run(self, name, *words, capture=b"", order=b""):
        """A run in little memory, whose ending is one that its command has."""
        size, has_search = len(capture) + len(order), name in ("explain", "alone", "order")
        limit = (64 * 2**20 + 40 * size if has_search else 16 * 2**20 + 10 * size) // 1024
        limited = ["-c", f'ulimit -d {limit}; exec "$@"', "sh", PROGRAM]
        found = self.room.run(*limited, *words, program="/bin/sh")
        self.endings[name, found.status] += 1
        form = FORMS[name].get(found.status)
        if form is not None:
            is_told = re.fullmatch(form.encode(), found.out) and found.err == said(name, found.status, capture)
        else:
            is_told = found.status == 3 and not found.out and self.is_bad_text(name, found.err, order)
        if not is_told:
            raise Wrong(f"{name}: {found.status} {found.out[-200:]!r} {found.err[-200:]!r}")
        if name != "make" and not self.is_again:
            self.in_objects(name, found, words)
        return found

    def in_objects(self, name, found, words):
        """The same run with `--json`."""
        told = self.room.run(*words, "--json")
        try:
            lines = lines_of(told.out)
        except (KeyError, ValueError) as error:
            raise Wrong(f"{name} --json: {error!r} {told.out[-200:]!r}") from error
        self.want(f"{name} --json", (told.status, lines, told.err), (found.status, found.out, found.err))

    def is_bad_text(self, name, err, order):
        bad = BAD_TEXTS.get(name, BAD_CAPTURE)
        is_searched = err.startswith(b"fault order line 1\n") and (order[:3] == b"no " or order[:7] == b"gave up")
        return re.fullmatch(bad.encode() + (re.escape(SEARCHED) if is_searched else b""), err)

    def judged(self, command, capture, order, start):
        """`check` or `explain` with an order."""
        words = [self.room.put("capture", capture), self.room.put("order", order), "--start", start, *self.profile]
        return self.run(command, command, *words, capture=capture, order=order)

    def over(self, name, capture, *words):
        """A command over a capture alone."""
        return self.run(name, *words, *self.profile, self.room.put("capture", capture), capture=capture)

    def show(self, capture):
        return self.over("show", capture, "show")

    def order(self, capture, start):
        return self.over("order", capture, "order", "--start", start)

    def make(self, script):
        return self.run("make", "make", self.room.put("script", script), capture=script)

    def want(self, what, found, wanted):
        if found != wanted:
            raise Wrong(f"{what}: {found!r} {wanted!r}")

    def others(self, capture, ask, wanted):
        """The same answer of the same bytes in other records."""
        try:
            records = records_of(capture)
        except ValueError as error:
            raise Wrong(f"an answer to a malformed capture: {wanted.out!r}") from error
        for way in (one_by_one, longest_runs):
            self.is_again = True
            found = ask(text(way(records)))
            self.is_again = False
            self.want(f"{way.__name__}, another answer", (found.status, found.out), (wanted.status, wanted.out))

    def ask_check(self, capture, order, start):
        base, wide = (self.ask_profile(profile, capture, order, start) for profile in (BASE, WIDE))
        if base.status == 3:
            self.want("check in both profiles", wide, base)
        else:
            image = Path(start[6:]).read_bytes() if start.startswith("image:") else start
            self.compare(records_of(capture), order.decode(), image, base.out.decode(), wide.out.decode())

    def ask_profile(self, profile, capture, order, start):
        """`check` in this profile."""
        self.profile = profile
        found = self.judged("check", capture, order, start)
        if found.status != 3:
            self.others(capture, lambda other: self.judged("check", other, order, start), found)
        if found.status == 0:
            searched = self.order(capture, start)
            if searched.status == 1:
                raise Wrong(f"check {found.out!r}, order {searched.out!r}")
            told = self.judged("explain", capture, order, start)
            self.want("explain of a yes", (told.status, first_line(told), told.err), (0, first_line(found), found.err))
        return found

    def compare(self, records, order, start, base, wide):
        """The lines of both profiles, beside each other and beside those of the readers."""
        if is_of_sizes(records, base, wide) or differ_by_errors(base, wide) or base.endswith(": Late\n"):
            pass
        elif not is_left_out(records, base):
            self.want("check in wide and in base", wide, base)
        elif (place_of(wide) or place_of(base)) < place_of(base):
            raise Wrong(f"check in wide {wide!r}, in base {base!r}")
        for profile, line in (("base", base), ("wide", wide)):
            self.want(f"served.py in {profile}", line, served.line(records, order, start, profile))

    def ask_show(self, capture, _, __):
        shown = self.show(capture)
        if shown.status == 3:
            return
        self.others(capture, self.show, shown)
        named = self.over("names", capture, "show", "--names")
        self.want("lines of --names", (named.status, named.out.count(b"\n")), (shown.status, shown.out.count(b"\n")))
        self.want("the last line of --names", named.out.split(b"\n")[-2], shown.out.split(b"\n")[-2])
        made = self.make(message_lines(shown))
        self.want("make of show", made.status, 0)
        if shown.status == 0:
            again = self.show(made.out)
            self.want("show of make of show", (again.status, again.out), (shown.status, shown.out))

    def ask_explain(self, capture, order, start):
        told, found = (self.judged(command, capture, order, start) for command in ("explain", "check"))
        self.want("explain and check", (told.status, first_line(told), told.err), (found.status, first_line(found), found.err))
        if told.status != 3:
            self.others(capture, lambda other: self.judged("explain", other, order, start), told)
        alone, searched = self.over("alone", capture, "explain", "--start", start), self.order(capture, start)
        self.want("explain alone and order", alone.status, searched.status)
        if alone.status in (1, 5):
            self.want("explain alone and order", first_line(alone), first_line(searched))
        if alone.status == 0:
            judged = self.judged("check", capture, searched.out, start)
            self.want("explain alone and check of order", first_line(alone), first_line(judged))

    def ask_order(self, capture, _, start):
        found, arrived = self.order(capture, start), self.over("arrival", capture, "order", "--arrival")
        if found.status == 3:
            self.want("order and order --arrival", arrived, found)
            return
        if found.status == 0:
            judged = self.judged("check", capture, found.out, start)
            self.want("check of order", judged.status, 0)
            requests = int(judged.out.split()[2])
            self.want("order --arrival", arrived.out, b"".join(b"%d\n" % number for number in range(1, requests + 1)))
        is_wire = re.fullmatch(WIRE.encode(), found.out) is not None
        self.want("order --arrival of a refused session", arrived.status == 1, is_wire)
        self.others(capture, lambda other: self.order(other, start), found)

    def contents(self, capture, order, start):
        words = [self.room.put("capture", capture), *([] if order is None else [self.room.put("order", order)])]
        return self.run("contents", "contents", *words, "--start", start, *self.profile, capture=capture, order=order or b"")

    def ask_contents(self, capture, order, start):
        is_malformed, profile = False, "wide" if self.profile else "base"
        for given in (order, None):
            found = self.contents(capture, given, start)
            is_malformed |= found.status == 3
            if found.status == 3:
                continue
            self.others(capture, lambda other: self.contents(other, given, start), found)
            image = Path(start[6:]).read_bytes() if start.startswith("image:") else start
            wanted = contents.said(records_of(capture), None if given is None else given.decode(), image, profile)
            self.want("contents.py", (found.status, found.out), wanted)
        if not is_malformed and found.status == 0:
            is_left = self.mutator.chance.random() < 0.3
            self.from_text(found.out if is_left else self.mutator.bytes(found.out), records_of(capture), order.decode(), profile)

    def from_text(self, told, records, order, profile):
        """`check` from a text of contents that may be malformed."""
        words = [self.room.path("capture"), self.room.put("order", order.encode())]
        found = self.room.run("check", *words, "--start", f"contents:{self.room.put('text', told)}", *self.profile)
        try:
            line = served.line(records, order, contents.parsed(told), profile)
        except contents.BadLine as bad:
            self.want("a bad line", found, Ended(3, b"", f"fault contents line {bad}\n".encode()))
        else:
            self.want("check from a text", found[:2], (int(line.startswith("no ")), line.encode()))

    def session(self, capture, order, often):
        """A session with one to four mistakes, in its text or in its messages; and so often one with options on contexts, which
        are put in before the mistakes, if there are any, or behind them. Half as often one with block sizes, or with extended headers."""
        mutator, self.profile = self.mutator, WIDE
        has_options = [mutator.chance.random() < often for _ in range(2)]
        if has_options[0]:
            capture = mutator.contexts(capture)
        if mutator.chance.random() < often / 2:
            capture = mutator.sizes(capture)
        if mutator.chance.random() < often / 2:
            capture = mutator.headers(capture)
        for _ in range(mutator.chance.choice([0, 0, 0, 1, 2] if any(has_options) else [1, 1, 1, 2, 4])):
            if mutator.chance.random() < 0.6:
                shown = self.show(capture)
                if shown.status < 2:
                    made = self.make(mutator.script(message_lines(shown)))
                    capture = made.out if made.status == 0 else capture
                    continue
            capture = mutator.bytes(capture)
        if has_options[1]:
            capture = mutator.contexts(capture)
        if mutator.chance.random() < often / 2:
            capture = mutator.headers(capture)
        if mutator.chance.random() < 0.3:
            order = mutator.order(order)
        return capture, order

    def start(self, start):
        """A session's start, or another one."""
        start = self.mutator.chance.choice([start, start, "zero", "unknown"])
        return start if isinstance(start, str) else f"image:{self.room.put('image', start)}"

    def one(self, command, capture, order, start):
        """One session with mistakes, and what is asked of it, in one of the profiles or in both."""
        # (with mistakes few sessions are accepted, and of others nothing is left)
        if command != "contents" or self.mutator.chance.random() < 0.5:
            capture, order = self.session(capture, order, OFTEN[command])
        self.profile, self.is_again = self.mutator.chance.choice([BASE, WIDE]), False
        getattr(self, f"ask_{command}")(capture, order, start)


COMMANDS = ("check", "show", "explain", "order", "contents")
# Of how many sessions of a command metadata contexts are a part: `check` is asked in both profiles of each session.
OFTEN = {"check": 0.4, "show": 0.3, "explain": 0.3, "order": 0.3, "contents": 0.3}


def keep(failures, name, room):
    """Copies the inputs of a run that broke what is asked."""
    failures.mkdir(parents=True, exist_ok=True)
    for file in ("capture", "order", "script", "image", "text"):
        path = Path(room.path(file))
        if path.exists():
            (failures / f"{name}.{file}").write_bytes(path.read_bytes())


def main():
    words = argparse.ArgumentParser(description=__doc__, formatter_class=argparse.RawDescriptionHelpFormatter)
    words.add_argument("count", nargs="?", type=int, default=400)
    words.add_argument("--seed", type=int, default=1)
    words.add_argument("--command", choices=COMMANDS)
    words.add_argument("--failures", type=Path, default=Path("fuzz-failures"))
    asked = words.parse_args()
    build()
    chance, pools = random.Random(asked.seed), (list(seeds()), list(seeds_in_profiles()))
    # Long sessions are taken more seldom.
    weights = [[1 / (200 + len(capture)) for capture, _, _ in pool] for pool in pools]
    commands = [asked.command] if asked.command else COMMANDS
    failed = 0
    with Room(seconds=10) as room:
        fuzz = Fuzz(room, chance)
        for number in range(asked.count):
            command = commands[number % len(commands)]
            pool = int(chance.random() < OFTEN[command] / 2)
            capture, order, start = chance.choices(pools[pool], weights[pool])[0]
            start = fuzz.start(start)
            try:
                fuzz.one(command, capture, order, start)
            except Wrong as wrong:
                failed += 1
                name = f"{asked.seed}-{number}-{command}"
                keep(asked.failures, name, room)
                print(f"{asked.failures / name}, --start {start}: {wrong}", flush=True)
    for name in FORMS:
        ended = sorted((status, count) for (other, status), count in fuzz.endings.items() if other == name)
        print(f"{name}: " + ", ".join(f"{count} with {status}" for status, count in ended))
    print(f"seed {asked.seed}: {asked.count} sessions, {fuzz.endings.total()} runs, {failed} failed")
    return failed != 0


if __name__ == "__main__":
    raise SystemExit(main())
