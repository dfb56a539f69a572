"""Sessions whose READs are answered in several messages, between which other requests come, and what `check` says of them: in `wide` a byte
of a READ is due when the message that shows it is whole, in `base` when the reply begins. On an export of 8 zeroes.
"""

import struct

from cases.case import cases, followed, yes
from messages import DONE, ERROR, begun, chunk, content, cut, done, failed, read, simple, write

SIMPLE = begun()
CHUNKS = begun(structured=True)


def fails(cookie):
    """An error chunk that does not end its reply."""
    return chunk(cookie, ERROR, struct.pack(">IH", 5, 0))


def last(cookie, offset, data):
    """Content that ends its reply."""
    return content(cookie, offset, data, DONE)


def late(entry):
    return f"no order entry {entry}: Late\n"


def wrong(request, offset):
    return f"no content request {request} offset {offset}\n"


def unserved(request, fault):
    return f"no order entry {request}: {fault}\n"


def order(*entries):
    """Entries: a number, or a number with an offset and a length."""
    return "".join(" ".join(map(str, it if isinstance(it, tuple) else (it,))) + "\n" for it in entries)


def table(name, records, *rows):
    """One session with its orders: each with the line of wide, and that of base if it is another."""
    return [followed(f"{name}: {' '.join(map(str, entries))}", records, (base or [wide])[0], wide, order(*entries))
            for entries, wide, *base in rows]


# A WRITE comes between the two chunks of a READ, and is answered behind them.
BETWEEN = CHUNKS + [read(1, 0, 8), content(1, 0, bytes(4)), write(2, 4, b"\xff"), last(1, 4, b"\xff\0\0\0"), simple(2)]
# It is answered before a second chunk, which never comes.
WITHOUT_END = CHUNKS + [read(1, 0, 8), content(1, 0, bytes(4)), write(2, 0, b"\xff"), simple(2)]
# A READ that fails by an error chunk, which shows nothing, and then ends.
FAILS = CHUNKS + [read(1, 0, 8), fails(1), write(2, 0, b"\xff"), done(1), simple(2)]
# A WRITE that fails by an error chunk.
FAILED_WRITE = CHUNKS + [write(1, 0, b"\xff"), fails(1), read(2, 0, 1), last(2, 0, b"\0"), done(1)]
# A WRITE completes within a READ's simple reply.
HEAD, REST = cut(simple(1, b"\0\0\xab\xcd"), 18)
WITHIN = SIMPLE + [read(1, 0, 4), HEAD, write(2, 2, b"\xab\xcd"), REST, simple(2)]
# A READ that passes the export's end.
IMPROPER = CHUNKS + [read(1, 5, 8), content(1, 5, bytes(3)), write(2, 5, b"\xff"), failed(1), simple(2)]
EMPTY = CHUNKS + [read(1, 0, 0), write(2, 0, b"\xff"), done(1), simple(2)]
# Two READs, whose chunks interleave.
TWO = CHUNKS + [
    read(1, 0, 8), content(1, 0, bytes(4)), read(2, 0, 1), write(3, 4, b"\xff"), last(1, 4, bytes(4)), last(2, 0, b"\0"), simple(3),
]

TABLE = (
    table("by chunk", BETWEEN,
          (((1, 0, 4), 2, (1, 4, 4)), yes(2), late(2)), (((1, 0, 4), (1, 5, 3), 2, (1, 4, 1)), yes(2), late(3)), ((2, 1), late(1)),
          ((1, 2), wrong(1, 4)), (((1, 4, 4), 2, (1, 0, 4)), late(2)), ((2, (1, 4, 4), (1, 0, 4)), late(1)),
          (((1, 0, 4), 2), unserved(1, "NotCovered")))
    + table("by chunk, without an end", WITHOUT_END,
            (((1, 0, 4), 2), "yes requests 2 answered 1 improper 0\n", unserved(1, "NotCovered")),
            (((1, 0, 4), 2, (1, 4, 4)), "yes requests 2 answered 1 improper 0\n", late(2)), ((2,), unserved(1, "Missing")),
            (((1, 0, 3), 2), unserved(1, "NotCovered")), ((1, 2), "yes requests 2 answered 1 improper 0\n"))
    + table("by chunk, it fails", FAILS, ((2, 1), yes(2), late(1)), ((1, 2), yes(2)), ((2,), unserved(1, "Missing")))
    + table("by chunk, a WRITE", FAILED_WRITE, ((2, 1), late(1)), ((1, 2), yes(2)))
    + table("within a simple reply", WITHIN,
            ((2, 1), yes(2), late(1)), (((1, 0, 2), 2, (1, 2, 2)), yes(2), late(2)), ((1, 2), wrong(1, 2)))
    + table("by chunk, past the end", IMPROPER,
            (((1, 5, 3), 2), yes(2, 1)), ((2, 1), late(1)), ((2, (1, 5, 3)), late(1)))
    + table("by chunk, of no byte", EMPTY, ((2, 1), yes(2)), ((2,), unserved(1, "Missing")))
    + table("by chunk, two READs", TWO,
            ((1, 2, 3), yes(3)), (((1, 0, 4), 2, (1, 4, 4), 3), yes(3), late(2)),
            (((1, 0, 4), 2, 3, (1, 4, 4)), wrong(1, 4), late(2)))
)
CASES = [case for told in TABLE for case in cases(told)]
