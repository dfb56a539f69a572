"""`show --names`: each kind of message in words, and sessions that are cut off."""

from built import Ended, Room
from cases import extended_messages as extended
from commands.said import EMPTY
from explain.told import ending, extended_session, searched
from messages import (
    DISC, FLUSH, PAYLOAD_LEN, READ, TRIM, answer, begun, chunk, content, done, front, hole, option, read, request, simple, sizes,
    text, write,
)
from sessions.test_cuts import SESSIONS

# Every kind of message; a READ that failed, one that is pending, requests and options that proto.md has no name for.
NAMED = [
    *begun(structured=True)[:-3], option(99), answer(99, 0x80000001, b"what?"), begun()[2], sizes(1, 4096, 2**25), *begun()[3:],
    write(1, 0, b"\xab\xcd"), simple(1), request(FLUSH, 2, 0, 0), simple(2), read(3, 0, 4), content(3, 0, b"\xab\xcd"), hole(3, 2, 2),
    done(3), read(4, 8, 1), chunk(4, 0x8001, b"\0\0\0\x16\0\0", flags=1), request(9, 5, 0, 0, flags=0x8001), simple(5, error=75),
    read(0x2A, 4, 4), request(DISC, 0, 0, 0),
]
NAMES = """\
S greeting, NBD_FLAG_FIXED_NEWSTYLE NBD_FLAG_NO_ZEROES (0x3)
C client flags, NBD_FLAG_C_FIXED_NEWSTYLE NBD_FLAG_C_NO_ZEROES (0x3)
C NBD_OPT_STRUCTURED_REPLY (8), 0 bytes of data
S reply to NBD_OPT_STRUCTURED_REPLY (8): NBD_REP_ACK (1), 0 bytes of data
C option 99, 0 bytes of data
S reply to option 99: NBD_REP_ERR_UNSUP (2147483649), 5 bytes of data
C NBD_OPT_GO (7), 6 bytes of data
S reply to NBD_OPT_GO (7): NBD_REP_INFO (3), 14 bytes of data, NBD_INFO_BLOCK_SIZE (3): at least 1, preferred 4096, at most 33554432
S reply to NBD_OPT_GO (7): NBD_REP_INFO (3), 12 bytes of data, NBD_INFO_EXPORT (0): 8 bytes, \
HAS_FLAGS SEND_FLUSH SEND_FUA SEND_TRIM SEND_WRITE_ZEROES (0x6d)
S reply to NBD_OPT_GO (7): NBD_REP_ACK (1), 0 bytes of data
C WRITE #1, cookie 0x1, 2 bytes at 0: success
S simple reply to WRITE #1, cookie 0x1: success
C FLUSH #2, cookie 0x2: success
S simple reply to FLUSH #2, cookie 0x2: success
C READ #3, cookie 0x3, 4 bytes at 0: success
S chunk to READ #3, cookie 0x3: NBD_REPLY_TYPE_OFFSET_DATA (1), 10 bytes of payload, 2 bytes at 0
S chunk to READ #3, cookie 0x3: NBD_REPLY_TYPE_OFFSET_HOLE (2), 12 bytes of payload, 2 bytes at 2
S chunk to READ #3, cookie 0x3: NBD_REPLY_TYPE_NONE (0), 0 bytes of payload, DONE (0x1)
C READ #4, cookie 0x4, 1 byte at 8: failure, EINVAL (22)
S chunk to READ #4, cookie 0x4: NBD_REPLY_TYPE_ERROR (32769), 6 bytes of payload, EINVAL (22), DONE (0x1)
C command 9 #5, cookie 0x5, FUA (0x8001): failure, EOVERFLOW (75)
S simple reply to command 9 #5, cookie 0x5: EOVERFLOW (75)
C READ #6, cookie 0x2a, 4 bytes at 4: pending
C DISC
ok
"""
# The same with extended headers: a WRITE with and one without the flag that says of its length what it is, a READ with bytes behind it, a
# READ in two pieces, and a length of 64 bits.
NAMED_EXTENDED = extended_session(
    extended.WRITTEN, extended.ends(1), extended.writes_plainly(2, 4, b"\0"), extended.ends(2), extended.carries(READ, 3, 0, b"\xab\xcd"),
    extended.fails(3), extended.reads(4, 0, 8), extended.gives(4, 0, b"\xab\xcd"), extended.zeroes_last(4, 2, 6),
    extended.asked(TRIM, 0x2A, 2**64 - 1, 2**64 - 1), extended.asked(DISC, 9, 0, 0, PAYLOAD_LEN))
NAMES_EXTENDED = """\
S greeting, NBD_FLAG_FIXED_NEWSTYLE NBD_FLAG_NO_ZEROES (0x3)
C client flags, NBD_FLAG_C_FIXED_NEWSTYLE NBD_FLAG_C_NO_ZEROES (0x3)
C NBD_OPT_EXTENDED_HEADERS (11), 0 bytes of data
S reply to NBD_OPT_EXTENDED_HEADERS (11): NBD_REP_ACK (1), 0 bytes of data
C NBD_OPT_GO (7), 6 bytes of data
S reply to NBD_OPT_GO (7): NBD_REP_INFO (3), 12 bytes of data, NBD_INFO_EXPORT (0): 8 bytes, \
HAS_FLAGS SEND_FLUSH SEND_FUA SEND_TRIM SEND_WRITE_ZEROES (0x6d)
S reply to NBD_OPT_GO (7): NBD_REP_ACK (1), 0 bytes of data
C WRITE #1, cookie 0x1, 2 bytes at 0, PAYLOAD_LEN (0x20): success
S chunk to WRITE #1, cookie 0x1: NBD_REPLY_TYPE_NONE (0), 0 bytes of payload, DONE (0x1)
C WRITE #2, cookie 0x2, 1 byte at 4: success
S chunk to WRITE #2, cookie 0x2: NBD_REPLY_TYPE_NONE (0), 0 bytes of payload, DONE (0x1)
C READ #3, cookie 0x3, 2 bytes at 0, PAYLOAD_LEN (0x20): failure, EINVAL (22)
S chunk to READ #3, cookie 0x3: NBD_REPLY_TYPE_ERROR (32769), 6 bytes of payload, EINVAL (22), DONE (0x1)
C READ #4, cookie 0x4, 8 bytes at 0: success
S chunk to READ #4, cookie 0x4: NBD_REPLY_TYPE_OFFSET_DATA (1), 10 bytes of payload, 2 bytes at 0
S chunk to READ #4, cookie 0x4: NBD_REPLY_TYPE_OFFSET_HOLE (2), 12 bytes of payload, 6 bytes at 2, DONE (0x1)
C TRIM #5, cookie 0x2a, 18446744073709551615 bytes at 18446744073709551615: pending
C DISC, PAYLOAD_LEN (0x20)
ok
"""


def names(tally, room):
    capture = room.put("named", text(NAMED))
    tally.want("show --names", room.run("show", "--names", capture), Ended(0, NAMES.encode(), b""))
    named = room.run("show", "--names", room.put("extended", text(NAMED_EXTENDED)), "--profile", "wide")
    tally.want("show --names with extended headers", named, Ended(0, NAMES_EXTENDED.encode(), b""))
    tally.want("order of an empty capture", room.run("order", room.put("empty", b""), "--arrival"), Ended(0, b"", EMPTY))


def fronts(tally, room):
    """Sessions cut off behind each byte: where they are refused, the first line is that with which `show` ends, and the place stands
    in brackets."""
    for session in SESSIONS:
        for count in range(1, sum(len(data) for _, data in session.records) + 1):
            name = f"{session.name}, {count} bytes"
            capture = room.put("front", text(front(session.records, count)))
            is_open = session.is_open(count)
            last = b"no at byte %d: Unfinished\n" % count if is_open else b"ok\n"
            shown, explained = room.run("show", capture), room.run("explain", capture)
            tally.want(f"{name}, show", ending(shown), Ended(int(is_open), last, b""))
            if is_open:
                why = explained.out.removeprefix(last)
                tally.want(name, explained, Ended(1, last + why, b""))
                tally.want(f"{name}, places", why.count(b"["), 1)
            else:
                searched(tally, room, name, [capture, "--start", "zero"])
            named = room.run("show", "--names", capture)
            tally.want(f"{name}, names", ending(named), Ended(int(is_open), last, b""))
            tally.want(f"{name}, names, lines", named.out.count(b"\n"), shown.out.count(b"\n"))


def run(tally):
    with Room() as room:
        for part in (names, fronts):
            part(tally, room)
