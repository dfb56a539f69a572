"""What the tests of nbdcheck-picture share: sessions, and their pages with the data in them."""

import json
import os
import re
import subprocess
import sys

from built import PROGRAM, TOP, Ended
from cases import extended
from messages import FLUSH, WRITE_ZEROES, begun, read, request, simple, text, write

NAME = "nbdcheck-picture"
SCRIPT = str(TOP / "bin" / NAME)
DATA = re.compile(r'<script type="application/json" id="session">(.*?)</script>', re.DOTALL)
MANY = 100_000
WRITTEN = [*begun(), write(1, 0, b"\xab\xcd"), simple(1), read(2, 0, 4), simple(2, b"\xab\xcd\0\0")]
# The READ comes behind the WRITE, and is answered before it: the bytes from 97, 127, 155 and 173 on, 188 in all.
CROSSED = [*begun(), write(1, 0, b"\xab\xcd"), read(2, 0, 2), simple(2, b"\xab\0"), simple(1)]
# Sessions with extended headers, and one of them whose first request has all of the largest export.
EXTENDED = {told.name.removeprefix("extended headers: "): told for told in extended.TABLE}
HUGE = EXTENDED["all of the largest export is zeroed, and its last byte is wrong"]


def run_script(*words, before=(), stdout=subprocess.PIPE, **how):
    how["env"] = {**os.environ, "NBDCHECK": PROGRAM, **how.pop("more", {})}
    done = subprocess.run([*before, sys.executable, SCRIPT, *map(str, words)], stdout=stdout, stderr=subprocess.PIPE, timeout=120, **how)
    return Ended(done.returncode, done.stdout, done.stderr.decode())


def page_of(room, records, order=None, start="zero", profile=None):
    """The page of a session."""
    capture = records if isinstance(records, bytes) else text(records)
    words = [room.put("s.cap", capture), *([] if order is None else [room.put("s.ord", order.encode())]), "--start", start]
    words += [] if profile is None else ["--profile", profile]
    ended = run_script(*words)
    if ended.status != 0 or ended.err:
        raise AssertionError(ended)
    return ended.out.decode()


def data_of(page):
    return json.loads(DATA.search(page).group(1))


def session(room, *words):
    return data_of(page_of(room, *words))


def long_session(count):
    """Requests of four kinds with 31 others outstanding, answered in the order in which they came."""
    kinds = [lambda cookie, at: write(cookie, at, bytes(8)), lambda cookie, at: read(cookie, at, 8),
             lambda cookie, at: request(WRITE_ZEROES, cookie, at, 8), lambda cookie, at: request(FLUSH, cookie, 0, 0)]
    records = begun(size=2**20)
    for number in range(1, count + 32):
        if number <= count:
            records.append(kinds[number % 4](number, number * 64 % 2**20))
        if number > 31:
            records.append(simple(number - 31, bytes(8) if (number - 31) % 4 == 1 else b""))
    return records
