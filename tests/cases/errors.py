"""Chunks whose type has bit 15 and is neither ERROR nor ERROR_OFFSET: in `wide` errors without an offset, in `base` refused. On an
export of 8 zeroes.
"""

import struct

from cases.case import at, cases, followed, yes
from messages import DONE, ERROR, ERROR_OFFSET, begun, chunk, content, done, read, write

ASKED = [*begun(structured=True), read(1, 0, 8)]  # 160 bytes


def error(cookie, kind, number=5, message=b"", rest=b"", flags=DONE, length=None):
    """An error chunk with a message, and with bytes behind it."""
    length = len(message) if length is None else length
    return chunk(cookie, kind, struct.pack(">IH", number, length) + message + rest, flags)


def taken(name, messages, count=1, place=186):
    """A session that `wide` accepts; in `base` the first of these chunks is refused at its last byte."""
    order = "".join(f"{number}\n" for number in range(1, count + 1))
    return followed(f"unknown errors: {name}", messages, at(place, "BadChunk"), yes(count), order)


def refused(name, message, place, fault="BadChunk"):
    """A reply to the READ that both profiles refuse."""
    return followed(f"unknown errors: {name}", [*ASKED, message], at(place, fault), at(place, fault))


TABLE = [
    *(taken(f"type {kind:#x}", [*ASKED, error(1, kind)]) for kind in (0x8000, 0x8003, 0x8004, 0xC001, 0xFFFF)),
    taken("with a message", [*ASKED, error(1, 0x8003, message=b"disk")], place=190),
    taken("with bytes behind the message", [*ASKED, error(1, 0x8003, message=b"disk", rest=bytes(8))], place=198),
    taken("bytes behind the message name no offset", [*ASKED, error(1, 0x8003, rest=b"\xff" * 8)], place=194),
    taken("the reply goes on", [*ASKED, error(1, 0x8003, flags=0), content(1, 0, bytes(8)), done(1)]),
    taken("a second one", [*ASKED, error(1, 0x8003, flags=0), error(1, 0x8004)]),
    taken("behind content", [*ASKED, content(1, 0, bytes(4)), error(1, 0x8003)], place=218),
    # The WRITE failed, so its byte is unknown.
    taken("to a WRITE", [*begun(structured=True), write(1, 0, b"\xff"), error(1, 0x8003), read(2, 0, 1), content(2, 0, b"\x55"), done(2)],
          count=2, place=187),
    refused("type 0x7fff", error(1, 0x7FFF), 186),
    refused("type 6", error(1, 6), 186),
    refused("the error 0", error(1, 0x8003, number=0), 186),
    refused("no error", chunk(1, 0x8003, flags=DONE), 180),
    refused("half a length", chunk(1, 0x8003, b"\0\0\0\5\0", DONE), 185),
    refused("a message that passes the payload", error(1, 0x8003, message=b"dis", length=4), 189),
    # The two types that are known are as they were in both.
    followed("unknown errors: ERROR is known", [*ASKED, error(1, ERROR)], yes(1), yes(1), "1\n"),
    refused("ERROR_OFFSET without its offset", error(1, ERROR_OFFSET), 186),
    refused("ERROR_OFFSET with an offset outside", error(1, ERROR_OFFSET, rest=(8).to_bytes(8, "big")), 194, "BadContent"),
]
CASES = [case for told in TABLE for case in cases(told)]
