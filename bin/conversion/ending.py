"""What the converters share: the refusal of an input, their words, and how a run ends."""

import argparse
import errno
import os
import signal
import sys

REFUSED, FAILED, NO_MEMORY = 1, 3, 4
STATUSES = """exit status:
  0  the {made} was written
  1  {refused}, with the reason
  2  the command line is malformed
  3  {failed}
  4  out of memory"""
# How many bytes are written at a time, at the least.
BLOCK = 1 << 20


class Refused(Exception):
    """Why nothing can be made of the input."""


class Failed(Exception):
    """What could not be read or written, and why."""


class Parser(argparse.ArgumentParser):
    """Words whose help has the exit statuses, and says where it could not be written."""

    def __init__(self, text, made="capture", refused="the recording is refused",
                 failed="a file or a pipe could not be read or written"):
        super().__init__(description=text, epilog=STATUSES.format(made=made, refused=refused, failed=failed),
                         formatter_class=argparse.RawDescriptionHelpFormatter)
        self.not_whole = f"what was written is no whole {made}"

    def print_help(self, file=None):
        write([self.format_help().encode()], "the help is not whole")


def failed(name, fault):
    """What could not be read: a file with this name."""
    return Failed(f"{name if name.isprintable() else repr(name)}: {fault.strerror or fault}")


def write_all(data):
    """Writes on standard output itself, so that nothing is left in a buffer whose writing fails later."""
    rest = memoryview(data)
    while rest:
        rest = rest[os.write(1, rest) :]


def write(parts, spoiled):
    """Writes the parts on standard output, many at a time."""
    held = bytearray()
    try:
        if sys.stdout is None:
            raise OSError(errno.EBADF, os.strerror(errno.EBADF))
        for part in parts:
            held += part
            if len(held) >= BLOCK:
                write_all(held)
                held.clear()
        write_all(held)
    except OSError as fault:
        raise Failed(f"standard output: {fault.strerror}; {spoiled}") from None


def say(text):
    """A line on standard error, where that can be."""
    try:
        os.write(2, text.encode("ascii", "backslashreplace") + b"\n")
    except OSError:
        pass


def ended(make, parser):
    """Writes what is made; the exit status, and the reason where nothing is."""
    try:
        write(make(parser.parse_args()), parser.not_whole)
    except Refused as reason:
        return REFUSED, str(reason)
    except Failed as reason:
        return FAILED, str(reason)
    except MemoryError:
        return NO_MEMORY, f"out of memory; {parser.not_whole}"
    return 0, None


def run(make, parser):
    """Makes and writes what the words ask for, or says why there is nothing."""
    signal.signal(signal.SIGINT, signal.SIG_DFL)
    status, reason = ended(make, parser)
    if reason is not None:
        say(f"{parser.prog}: {reason}")
    return status
