"""Sessions with an order, and what is judged of them. explained/NAME.txt has what `explain` writes of the one with this name."""

from cases import extended_messages as extended
from cases.sizes import begun as sized
from explain.told import MISREAD, SELECTED, SELECTED_TWO, WRITTEN, Session, extended_session, filtered
from messages import (
    BLOCK_STATUS, DONE, FLUSH, READ, TRIM, WRITE_ZEROES, begun, content, done, extents, failed, hole, read, request, simple,
    status, write,
)

TIMED = [*begun(), read(1, 0, 4), simple(1, bytes(4)), write(2, 0, b"\xab"), simple(2)]
FOUND = [*begun(), read(1, 3, 2), simple(1, b"\0\x07")]
# A READ that leaves an export of 8 bytes.
BEYOND = [*begun(), read(1, 6, 4), simple(1, error=22)]
# Two WRITEs and a READ that are outstanding together: ab cd and 11 22 at 0, and 11 22 00 00 came.
OVERLAPPED = [*begun(), write(1, 0, b"\xab\xcd"), write(2, 0, b"\x11\x22"), read(3, 0, 4), simple(1), simple(2),
              simple(3, b"\x11\x22\0\0")]
# A READ of an export of 32 bytes, in three pieces that lie the other way round: known bytes, of which 4 to 7 are zeroed, 8 to 11 trimmed
# and 12 to 15 are of a WRITE that failed, and zeroes behind them.
PIECED = [
    *begun(structured=True, size=32), write(1, 0, bytes(range(1, 17))), simple(1), request(WRITE_ZEROES, 2, 4, 4), simple(2),
    request(TRIM, 3, 8, 4), simple(3), write(4, 12, b"\xff" * 4), simple(4, error=5), read(5, 1, 30), content(5, 16, b"\0\x07" * 4),
    hole(5, 24, 7), content(5, 1, bytes(range(2, 6)) + b"\x06" + bytes(10)), done(5)]
# A WRITE of two bytes that is outstanding while a BLOCK_STATUS calls all bytes zero: served after the WRITE it calls these two so.
STALE = [*SELECTED, write(1, 0, b"\xab\xcd"), status(2, 0, 8), extents(2, 1, (8, 2), flags=DONE), simple(1)]
# A BLOCK_STATUS of the bytes 1 to 6 of an image whose bytes are their offsets, after 3 to 5 were zeroed: the first descriptor, of data,
# ends at 3, the second at 6, and the last passes the range, in which it calls the byte 6 zero. The status of another context comes behind.
DESCRIBED = [
    *SELECTED_TWO, request(WRITE_ZEROES, 1, 3, 3), simple(1), status(2, 1, 6), extents(2, 1, (2, 0), (3, 2), (9, 3)),
    extents(2, 2, (6, 2), flags=DONE)]
# A BLOCK_STATUS that calls all bytes zero while a WRITE of the byte 4 is outstanding.
CALLED = [*SELECTED, status(1, 0, 8), write(2, 4, b"\xff"), extents(1, 1, (8, 2), flags=DONE), simple(2)]
# With the block sizes 2, 512 and 4 on an export of 8 bytes: requests that keep to them, that break each or all of them, and that are
# improper, of which one breaks them too.
OUTSIDE = [
    *sized(2, 512, 4), read(1, 0, 4), simple(1, bytes(4)), read(2, 1, 2), simple(2, bytes(2)), read(3, 0, 3), simple(3, bytes(3)),
    read(4, 0, 6), simple(4, bytes(6)), write(5, 1, b"\1" * 5), simple(5), request(WRITE_ZEROES, 6, 0, 8), simple(6),
    request(WRITE_ZEROES, 7, 0, 7), simple(7), read(8, 7, 2), simple(8, error=22), status(9, 1, 1), simple(9, error=22)]
# A READ, and twelve behind the end of the export of 8 bytes.
TWELVE = [
    *begun(), read(1, 0, 1), simple(1, b"\0"),
    *(record for number in range(2, 14) for record in (read(number, 6 + number, 1), simple(number, error=22)))]
JUDGED = {
    "improper-and-outside": Session(OUTSIDE, "".join(f"{number}\n" for number in range(1, 10)), profile="wide"),
    "improper-in-base": Session(OUTSIDE, "".join(f"{number}\n" for number in range(1, 10))),
    "improper-requests-of-more-than-ten": Session(TWELVE, "".join(f"{number}\n" for number in range(1, 14))),
    "improper-with-a-payload": Session(extended_session(
        extended.carries(READ, 1, 0, b"\xab\xcd"), extended.fails(1), extended.reads(2, 4, 1), extended.gives_last(2, 4, b"\0")), "1\n2\n",
        profile="wide"),
    "improper-filters": Session(filtered(
        extended.TWICE, extended.fails(1), extended.UNKNOWN, extended.fails(1), extended.carries(BLOCK_STATUS, 1, 0, bytes(9)),
        extended.fails(1), extended.carries(BLOCK_STATUS, 1, 0, bytes(4)), extended.fails(1), extended.NONE_ASKED, extended.ends(1)),
        "1\n2\n3\n4\n5\n", profile="wide"),
    "improper-filter-that-is-not-offered": Session(
        [*extended.NOT_OFFERED, *extended.spoken([extended.FIRST, extended.fails(1)])], "1\n", profile="wide"),
    "content-of-many-bytes": Session(PIECED, "1\n2\n3\n4\n5\n"),
    "content-of-many-bytes-in-part": Session(PIECED, "1\n2\n3\n4\n5 20 11\n5 1 19\n"),
    "yes": Session(WRITTEN, "1\n2\n"),
    "content-in-wide": Session(
        [*SELECTED, write(1, 0, b"\xab\xcd"), simple(1), read(2, 0, 4), content(2, 0, b"\xab\xce\0\0"), done(2)], "1\n2\n",
        profile="wide"),
    "content-with-extended-headers": Session(extended_session(
        extended.writes_plainly(1, 0, b"\xab\xcd"), extended.ends(1), extended.reads(2, 0, 4), extended.gives(2, 0, b"\xab\xce"),
        extended.zeroes_last(2, 2, 2)), "1\n2\n", profile="wide"),
    "no-such-request": Session(WRITTEN, "1\n3\n"),
    "twice": Session(WRITTEN, "1\n2\n1\n"),
    "late": Session(TIMED, "2\n1\n"),
    "missing": Session(WRITTEN, "1\n"),
    "twice-atomically-after-a-part": Session(WRITTEN, "1 0 1\n2\n1\n"),
    "twice-in-part-after-atomically": Session(WRITTEN, "1\n1 0 1\n2\n"),
    "no-such-request-in-part": Session([*begun(), read(1, 0, 1)], "2 0 1\n"),
    "late-in-parts": Session(TIMED, "2 0 1\n1 0 2\n1 2 2\n"),
    "bad-part-empty": Session(WRITTEN, "1 1 0\n"),
    "bad-part-outside-the-range": Session(WRITTEN, "1 1 2\n"),
    "bad-part-before-the-range": Session(FOUND, "1 1 3\n"),
    "bad-part-beyond-the-export": Session(BEYOND, "1 6 4\n"),
    "bad-part-all-beyond-the-export": Session([*begun(), read(1, 8, 4), simple(1, error=22)], "1 8 4\n"),
    "bad-part-shared": Session(WRITTEN, "1\n2 3 1\n2 1 1\n2 0 4\n"),
    "bad-part-shared-and-outside": Session(WRITTEN, "1 0 1\n1 0 3\n"),
    "bad-part-of-a-flush": Session([*begun(), request(FLUSH, 1, 0, 0)], "1 0 1\n"),
    "not-covered": Session(OVERLAPPED, "3 3 1\n1\n2\n3 0 1\n"),
    "not-covered-at-its-beginning": Session(WRITTEN, "1 1 1\n2\n"),
    "not-covered-in-the-export": Session(BEYOND, "1 6 1\n"),
    "not-covered-by-chunk": Session(
        [*begun(structured=True), read(1, 0, 8), content(1, 0, bytes(4)), write(2, 0, b"\xff"), simple(2)], "1 0 3\n2\n", profile="wide"),
    "image": Session(WRITTEN, "1\n2\n", "image:9"),
    "image-of-one-byte": Session(WRITTEN, "1\n2\n", "image:1"),
    "contents-of-another-size": Session(WRITTEN, "1\n2\n", "contents:9"),
    "content": Session(MISREAD, "1\n2\n"),
    "content-of-zeroes": Session(FOUND, "1\n"),
    "content-of-an-image": Session(FOUND, "1\n", "image:8"),
    "content-of-write-zeroes": Session(
        [*begun(), write(1, 0, b"\1\2"), simple(1), request(WRITE_ZEROES, 2, 0, 1), simple(2), read(3, 0, 2),
         simple(3, b"\1\2")], "1\n2\n3\n"),
    "content-in-a-hole": Session(
        [*begun(structured=True), write(1, 1, b"\7"), simple(1), read(2, 0, 4), content(2, 2, b"\0\0"), hole(2, 0, 2), done(2)],
        "1\n2\n"),
    "content-in-parts": Session(OVERLAPPED, "1 0 1\n2\n1 1 1\n3 0 2\n3 2 2\n"),
    "content-of-another-part": Session(OVERLAPPED, "1 1 1\n3 3 1\n2 1 1\n1 0 1\n3 0 3\n2 0 1\n"),
    "content-of-the-start-in-parts": Session(OVERLAPPED, "1 0 1\n3 1 1\n2\n1 1 1\n3 0 1\n3 2 2\n"),
    "status": Session(STALE, "1\n2\n", profile="wide"),
    "status-before-a-write": Session(STALE, "2\n1\n", profile="wide"),
    "status-of-an-image": Session(
        [*SELECTED, status(1, 0, 8), extents(1, 1, (7, 3), (1, 0), flags=DONE)], "1\n", "image:8", "wide"),
    "status-of-many-descriptors": Session(DESCRIBED, "1\n2\n", "image:8", "wide"),
    "status-of-write-zeroes": Session(
        [*SELECTED, write(1, 0, b"\xab\xcd"), simple(1), request(WRITE_ZEROES, 2, 0, 1), simple(2), status(3, 0, 8),
         extents(3, 1, (8, 3), flags=DONE)], "1\n2\n3\n", profile="wide"),
    "status-in-parts": Session(CALLED, "1 0 4\n2\n1 4 4\n", profile="wide"),
    "status-in-parts-before-a-write": Session(CALLED, "1 4 4\n2\n1 0 4\n", profile="wide"),
    "status-behind-that-of-another-context": Session(
        [*SELECTED_TWO, status(1, 0, 8), extents(1, 2, (8, 2)), extents(1, 1, (8, 2), flags=DONE)], "1\n", "image:8", "wide"),
    "status-that-failed": Session([*SELECTED, status(1, 0, 8), extents(1, 1, (8, 2)), failed(1)], "1\n", "image:8", "wide"),
    "status-of-an-unknown-start": Session(
        [*SELECTED, status(1, 0, 8), extents(1, 1, (8, 2), flags=DONE), read(2, 0, 8), content(2, 0, bytes(7) + b"\1"), done(2)],
        "1\n2\n", "unknown", "wide"),
}
