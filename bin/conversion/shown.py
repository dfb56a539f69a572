"""The requests of a session, as `nbdcheck show --names` tells them."""

import os
import re
import shutil
import stat
import subprocess
import sys
import tempfile
from collections import namedtuple

from .ending import BLOCK, Failed, Refused, failed

# A request with its number, its cookie, and how many bytes of its range lie in the export.
Request = namedtuple("Request", "number cookie inside")

REQUEST = re.compile(rb"C (?:\w+|command \d+) #(\d+), cookie 0x([0-9a-f]+)(?:, (\d+) bytes? at (\d+))?[,:]")
EXPORT = re.compile(rb"S (?:export of|reply to \w+ \(\d+\): NBD_REP_INFO \(3\), 12 bytes of data, NBD_INFO_EXPORT \(0\):) (\d+) bytes?,")
REFUSED = b"no at byte "
# What wide looks at and base does not, where base follows a session.
SIZES = b": BadReplyPayload"
NO, FAILED, NO_MEMORY = 1, 3, 4


def request_of(found, size):
    number, cookie, length, offset = found[1], found[2], int(found[3] or 0), int(found[4] or 0)
    return Request(int(number), int(cookie, 16), max(min(offset + length, size) - offset, 0))


def read(lines):
    """The requests that these lines tell, and the last line. The size of an export that was told last is in force."""
    requests, size, line = [], 0, b""
    for line in lines:
        if told := EXPORT.match(line):
            size = int(told[1])
        elif found := REQUEST.match(line):
            requests.append(request_of(found, size))
    return requests, line.rstrip(b"\n")


def run(program, capture, profile):
    """The requests of an open capture, and the last line. What nbdcheck says on standard error is said."""
    words = [program, "show", "--names", "--profile", profile, "/dev/stdin"]
    try:
        with subprocess.Popen(words, stdin=capture, stdout=subprocess.PIPE, bufsize=BLOCK) as child:
            requests, last = read(child.stdout)
    except OSError as fault:
        raise Failed(f"cannot run {program}: {fault.strerror}") from None
    if child.returncode in (FAILED, NO_MEMORY):
        sys.exit(child.returncode)
    if child.returncode not in (0, NO) or last != b"ok" and not last.startswith(REFUSED):
        how = f"ended with status {child.returncode}" if child.returncode >= 0 else f"was ended by signal {-child.returncode}"
        raise Failed(f"{program} {how}")
    return requests, last


def copied(file):
    """A copy of what a pipe gives: it may be read twice."""
    try:
        kept = tempfile.TemporaryFile()
        shutil.copyfileobj(file, kept, BLOCK)
        kept.flush()
    except OSError as fault:
        raise Failed(f"a copy of the capture in {tempfile.gettempdir()}: {fault.strerror}") from None
    return kept


def requests_in(program, name):
    """The requests of the capture with this name. The profile wide takes what base takes, but for block sizes that no server may
    announce."""
    try:
        file = open(name, "rb")
    except OSError as fault:
        raise failed(name, fault) from None
    with file, file if stat.S_ISREG(os.fstat(file.fileno()).st_mode) else copied(file) as capture:
        requests, last = run(program, capture, "wide")
        if last.startswith(REFUSED) and last.endswith(SIZES):
            requests, last = run(program, capture, "base")
    if last.startswith(REFUSED):
        raise Refused(f"no order: the session was refused, {last.decode()}")
    return requests
