"""What the conversions of recordings share: records, the refusals of a whole recording, and the capture text."""

from collections import namedtuple

from .ending import Refused, failed, run

CLIENT, SERVER = "C", "S"

# What one side sent at once.
Record = namedtuple("Record", "side data")

GREETING = b"NBDMAGIC"


def front(records, side):
    """The first bytes of a side, as many as a greeting's first number has."""
    taken = b""
    for record in records:
        if len(taken) >= len(GREETING):
            break
        if record.side == side:
            taken += record.data[: len(GREETING)]
    return taken[: len(GREETING)]


def refuse_what_has_no_greeting(records):
    """Refuses a recording that doesn't begin with the server's greeting, with the likely reason."""
    if not any(len(record.data) for record in records):
        raise Refused("no bytes: the client never connected through the recorder")
    found = front(records, SERVER)
    if found and found == GREETING[: len(found)]:
        return
    if front(records, CLIENT) == GREETING:
        raise Refused("the client sent the greeting: the sides are exchanged; the listening address has to stand first")
    if not found:
        raise Refused("no greeting: the server sent nothing; is it an NBD server that was recorded?")
    raise Refused(f"no greeting: the server began with {found.hex()}; record from the connection's first byte on")


def lines_of(records):
    """The capture text, a line for each record."""
    for side, data in records:
        yield f"{side} {data.hex()}\n".encode()


def records_in(read, words):
    """The records of the recording that the words name."""
    try:
        records = read(words)
    except OSError as fault:
        raise failed(words.recording, fault) from None
    refuse_what_has_no_greeting(records)
    return records


def convert(read, parser):
    """Reads the recording that the words name, and writes its capture, or the reason why there is none."""
    return run(lambda words: lines_of(records_in(read, words)), parser)
