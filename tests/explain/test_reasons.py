"""What `explain` says is wrong with a message: which part of its rule is broken, who broke it, and what of a message is missing."""

import re
import struct

from built import TOP, Room
from cases import extended_messages as extended
from explain.told import ALLOCATION, ASKED, CHUNKED, GO, SELECTED, extended_session, told_of
from messages import (
    CACHE, CLIENT, DONE, FLAGS, FLUSH, OFFSET_HOLE, READ, REQ_ONE, SERVER, STATUS, TRIM, WRITE, WRITE_ZEROES, answer, asking,
    begun, chunk, client_flags, content, cut, done, export_info, extents, greeting, hole, option, queries, read, request, simple,
    sizes, status, text, write,
)


def improper(request, flags=0x6D):
    """A request that succeeds."""
    return [*begun(flags=flags), request, simple(1)]


def chunked(*chunks):
    return [*CHUNKED, *chunks]


def announced(*numbers):
    """GO asks for block sizes, and is told these."""
    return [*FLAGS, asking(3), sizes(*numbers)]


def opted(number, data, kind=1):
    """An option with this data, which is granted."""
    return [*FLAGS, option(number, data), answer(number, kind)]


# Sessions that are refused, and what is said to be wrong there: which part of its rule is broken.
REASONS = [
    ([*begun(), read(1, 7, 2), simple(1, bytes(2))], "its range passes the end of the export of 8 bytes by 1 byte"),
    ([*begun(), read(1, 9, 0), simple(1)], "its range passes the end of the export of 8 bytes by 1 byte"),
    (improper(request(TRIM, 1, 0, 2**32 - 1)), "its range passes the end of the export of 8 bytes by 4294967287 bytes"),
    (improper(request(TRIM, 1, 2**64 - 1, 8)), f"its range passes the end of the export of 8 bytes by {2**64 - 1} bytes"),
    (improper(request(TRIM, 1, 2**64 - 1, 9)), f"its range passes the end of the export of 8 bytes by more than {2**64 - 1} bytes"),
    (improper(request(9, 1, 0, 0)), "its type is none of READ, WRITE, FLUSH, TRIM, CACHE and WRITE_ZEROES"),
    (improper(request(FLUSH, 1, 0, 0), 1), "the export does not offer FLUSH: it lacks SEND_FLUSH"),
    (improper(request(TRIM, 1, 0, 1), 1), "the export does not offer TRIM: it lacks SEND_TRIM"),
    (improper(request(WRITE_ZEROES, 1, 0, 1), 1), "the export does not offer WRITE_ZEROES: it lacks SEND_WRITE_ZEROES"),
    ([*begun(structured=True), read(1, 6, 4), content(1, 6, bytes(4)), done(1)],
     "its range passes the end of the export of 8 bytes by 2 bytes"),
    ([*begun(size=1), write(1, 1, b"\1"), simple(1)], "its range passes the end of the export of 1 byte by 1 byte"),
    (improper(write(1, 0, b"\1"), 3), "it changes an export that is read-only: it has READ_ONLY"),
    (improper(request(TRIM, 1, 0, 1), 0x6F), "it changes an export that is read-only: it has READ_ONLY"),
    (improper(request(WRITE_ZEROES, 1, 0, 1), 0x6F), "it changes an export that is read-only: it has READ_ONLY"),
    (improper(request(FLUSH, 1, 4, 0)), "a FLUSH has neither an offset nor a length"),
    (improper(request(FLUSH, 1, 0, 4)), "a FLUSH has neither an offset nor a length"),
    (improper(request(CACHE, 1, 0, 1, flags=1), 1), "it carries FUA, and the export lacks SEND_FUA"),
    (improper(request(TRIM, 1, 0, 1, flags=2)), "it carries NO_HOLE, which only a WRITE_ZEROES may"),
    (improper(request(TRIM, 1, 0, 1, flags=4), 0xED), "it carries DF, which only a READ may"),
    (improper(request(CACHE, 1, 0, 1, flags=16)), "it carries FAST_ZERO, which only a WRITE_ZEROES may"),
    (improper(request(WRITE_ZEROES, 1, 0, 1, flags=16)), "it carries FAST_ZERO, and the export lacks SEND_FAST_ZERO"),
    (improper(request(TRIM, 1, 0, 1, flags=8)), "it carries REQ_ONE, which only a BLOCK_STATUS may"),
    (improper(request(TRIM, 1, 0, 1, flags=32)),
     "it carries a flag that is none of FUA, NO_HOLE, DF, REQ_ONE and FAST_ZERO"),
    ([*begun(), request(READ, 1, 0, 1, flags=4), simple(1, b"\0")], "it carries DF, and the export lacks SEND_DF"),
    (opted(3, b"\0"), "the option has no data, and there is some from byte 39 on"),
    (opted(8, b"\0\0"), "the option has no data, and there is some from byte 39 on"),
    (opted(6, b"\0"), "the data ends within the length of the name, 4 bytes from byte 39 on"),
    (opted(7, b"\0\0\0"), "the data ends within the length of the name, 4 bytes from byte 39 on"),
    (opted(6, b"\0\0\0\3ab"), "at byte 39 the name has the length 3, and the bytes behind that are 2"),
    (opted(7, b"\0\0\0\2ab\0"), "the data ends within the count of infos, 2 bytes from byte 45 on"),
    (opted(7, b"\0\0\0\2ab\0\1\0\3\0"), "at byte 45 the count of infos is 1, of 2 bytes each, and the bytes behind that are 3"),
    ([*FLAGS, option(3), answer(3, 2, b"\0\0\0")], "the data ends within the length of the name, 4 bytes from byte 59 on"),
    ([*FLAGS, option(3), answer(3, 2, b"\0\0\0\2a")], "at byte 59 the name has the length 2, and the bytes behind that are 1"),
    ([*GO, answer(7, 3, b"\0")], "its data is shorter than the kind of an info, which has 2 bytes"),
    ([*GO, answer(7, 3, export_info()[:11])], "the data of an info on the export has 12 bytes"),
    ([*GO, answer(7, 3, export_info() + b"\0")], "the data of an info on the export has 12 bytes"),
    ([*GO, answer(7, 3, b"\0\3" + bytes(11))], "the data of an info on block sizes has 14 bytes"),
    ([*GO, answer(7, 3, b"\0\3" + bytes(13))], "the data of an info on block sizes has 14 bytes"),
    ([*GO, answer(7, 3, export_info(flags=2))], "the info on the export lacks HAS_FLAGS (0x1)"),
    (chunked(chunk(1, 0, b"\0", flags=1)), "a chunk of type NONE has no payload"),
    (chunked(chunk(1, 0)), "a chunk of type NONE ends its reply, so it has DONE"),
    (chunked(chunk(1, 1, bytes(7))), "its payload is shorter than an offset, which has 8 bytes"),
    (chunked(chunk(1, 1, bytes(8))), "its payload has no data behind the offset"),
    (chunked(chunk(1, 2, bytes(13))), "the payload of a hole has 12 bytes, an offset and a size"),
    (chunked(chunk(1, 2, bytes(11))), "the payload of a hole has 12 bytes, an offset and a size"),
    (chunked(hole(1, 0, 0)), "its hole has size 0"),
    (chunked(chunk(1, 0x8001, bytes(5))), "its payload is shorter than an error and the length of a message, which have 6 bytes"),
    (chunked(chunk(1, 0x8001, bytes(6))), "its error is 0"),
    (chunked(chunk(1, 0x8002, bytes(14))), "its error is 0"),
    (chunked(chunk(1, 0x8001, b"\0\0\0\5\0\1")), "the length of its message passes the end of its payload"),
    (chunked(chunk(1, 0x8002, b"\0\0\0\5\0\0" + bytes(7))),
     "the length of its message and an offset behind it pass the end of its payload"),
    (chunked(chunk(1, 5, bytes(12))), "its type is none of NONE, OFFSET_DATA, OFFSET_HOLE, ERROR and ERROR_OFFSET"),
    (chunked(chunk(1, 0x8003, b"\0\0\0\5\0\0")),
     "its type has bit 15, and of these the profile base knows ERROR and ERROR_OFFSET alone (wide knows each)"),
    ([*begun(structured=True), write(1, 0, b"\1"), content(1, 0, b"\1")], "content answers only a READ"),
    (chunked(content(1, 3, b"\1\2")), "the content leaves the range of the READ"),
    (chunked(hole(1, 4, 1)), "the content leaves the range of the READ"),
    ([*begun(structured=True), read(1, 4, 4), hole(1, 3, 2)], "the content leaves the range of the READ"),
    (chunked(hole(1, 0, 2), hole(1, 1, 1)), "the content shares an offset with content before it"),
    ([*begun(structured=True, flags=0xED), request(READ, 1, 0, 4, flags=4), content(1, 0, b"\1"), hole(1, 2, 1)],
     "the READ has DF, so it gets one piece, and this is a second one"),
    ([*begun(structured=True), read(1, 4, 4), chunk(1, 0x8002, b"\0\0\0\5\0\0" + bytes(7) + b"\3")],
     "the offset of the error lies outside the range of the request"),
]
# The same of sessions that are held to the profile wide.
WIDE_REASONS = [
    (chunked(chunk(1, 0x8003, bytes(6))), "its error is 0"),
    (opted(9, b"\0\0\0"), "the data ends within the length of the name, 4 bytes from byte 39 on"),
    (opted(10, b"\0\0\0\3ab"), "at byte 39 the name has the length 3, and the bytes behind that are 2"),
    (opted(9, b"\0\0\0\2ab\0\0\0"), "the data ends within the count of queries, 4 bytes from byte 45 on"),
    (opted(9, bytes(4) + b"\0\0\0\1\0\0\0"),
     "the data has 0 of 1 queries whole; the data ends within the length of the next, 4 bytes from byte 47 on"),
    (opted(10, queries(b"", b"a", b"bc")[:-1]),
     "the data has 1 of 2 queries whole; at byte 52 the next has the length 2, and the bytes behind that are 1"),
    (opted(10, bytes(4) + b"\xff" * 4 + b"\0\0\0\1a"),
     "the data has 1 of 4294967295 queries whole; the data ends within the length of the next, 4 bytes from byte 52 on"),
    (opted(9, queries(b"", b"a") + b"b"), "the count of queries is 1, and behind them the data goes on, from byte 52"),
    ([*FLAGS, option(9, queries(b"")), answer(9, 4, b"\0\0\0")], "its data is shorter than the id of a context, which has 4 bytes"),
    ([*FLAGS, option(10, queries(b"", b"a")), answer(10, 4, ALLOCATION), answer(10, 4, ALLOCATION)],
     "a context that was selected before has the same id"),
    ([*begun(), status(1, 0, 8), simple(1)], "it asks for a status, and no metadata context is in force"),
    (chunked(extents(1, 1, (8, 0))), "it gives a status, and no metadata context is in force"),
    ([*SELECTED, status(1, 0, 8), chunk(1, 5, bytes(13))],
     "the payload of a status has an id of 4 bytes and a descriptor of 8 bytes or more of them"),
    ([*SELECTED, status(1, 0, 8), extents(1, 1)],
     "the payload of a status has an id of 4 bytes and a descriptor of 8 bytes or more of them"),
    ([*SELECTED, status(1, 0, 8), extents(1, 1, (8, 0), (0, 0))], "one of its descriptors has length 0"),
    ([*SELECTED, read(1, 0, 8), extents(1, 1, (8, 0))], "a status answers only a BLOCK_STATUS"),
    ([*SELECTED, status(1, 0, 8), extents(1, 2, (8, 0))], "no metadata context in force has its id"),
    ([*SELECTED, status(1, 0, 8), extents(1, 1, (8, 0)), extents(1, 1, (8, 0))],
     "its context has a status before it in this reply"),
    ([*SELECTED, status(1, 0, 8, REQ_ONE), extents(1, 1, (4, 0), (4, 0))],
     "the request has REQ_ONE, so it gets one descriptor, which ends with the range or before"),
    ([*SELECTED, status(1, 0, 8), extents(1, 1, (8, 0), (1, 0))],
     "the descriptors before the last one reach the end of the range"),
    ([*SELECTED, status(1, 0, 9), extents(1, 1, (9, 0), flags=DONE)], "its range passes the end of the export of 8 bytes by 1 byte"),
    ([*SELECTED, status(1, 0, 8, 4), extents(1, 1, (8, 0), flags=DONE)], "it carries DF, which only a READ may"),
    (announced(0, 512, 2**32 - 1), "the least block size is no power of 2"),
    (announced(3, 512, 1536), "the least block size is no power of 2"),
    (announced(131072, 131072, 131072), "the least block size is above 65536"),
    (announced(1, 0, 1), "the preferred block size is no power of 2"),
    (announced(1, 513, 1024), "the preferred block size is no power of 2"),
    (announced(1, 256, 512), "the preferred block size is below 512"),
    (announced(1024, 512, 1024), "the preferred block size is below the least"),
    (announced(1, 512, 0), "the largest block size is 0"),
    ([*GO, sizes(1, 512, 0)], "the largest block size is 0"),
    (extended_session(extended.TRIM_CARRIES, extended.ends(1)), "it carries PAYLOAD_LEN, which only a WRITE and a BLOCK_STATUS may"),
    (extended_session(extended.carries(TRIM, 1, 0, b""), extended.ends(1)), "it carries PAYLOAD_LEN, which only a WRITE and a BLOCK_STATUS may"),
    (extended_session(extended.carries(WRITE, 1, 0, b"\1", 2**15), extended.ends(1)),
     "it carries a flag that is none of FUA, NO_HOLE, DF, REQ_ONE and FAST_ZERO"),
    (extended_session(extended.asked(TRIM, 1, 0, 2**64 - 1), extended.ends(1)),
     f"its range passes the end of the export of 8 bytes by {2**64 - 9} bytes"),
    (extended_session(extended.asked(TRIM, 1, 2**64 - 1, 2**64 - 1), extended.ends(1)),
     f"its range passes the end of the export of 8 bytes by more than {2**64 - 1} bytes"),
    (extended_session(extended.reads(1, 0, 8), extended.gives(1, 0, b"\0"), extended.zeroes(1, 1, 1)._replace(offset=2**64 - 1)),
     f"its header has offset {2**64 - 1}, that of its request is 0"),
    (extended_session(extended.asks(1, 0, 8), extended.Reply(1, STATUS, struct.pack(">III", 1, 8, 3), DONE, None)),
     "with an extended header a status is of type BLOCK_STATUS_EXT"),
    (extended_session(extended.asks(1, 0, 8), extended.tells_last(1, 1, (8, 3))),
     "it gives a status, and no metadata context is in force"),
    (extended_session(extended.reads(1, 0, 8), extended.Reply(1, OFFSET_HOLE, bytes(15) + b"\x08", DONE, None)),
     "the payload of a hole has 12 bytes, an offset and a size"),
]
# Those of a WRITE that breaks as many parts of its rule as one can.
SEVERAL = [
    "its range passes the end of the export of 8 bytes by 1 byte", "it carries FUA, and the export lacks SEND_FUA",
    "it carries NO_HOLE, which only a WRITE_ZEROES may", "it carries DF, which only a READ may",
    "it carries FAST_ZERO, which only a WRITE_ZEROES may", "it changes an export that is read-only: it has READ_ONLY",
    "it carries a flag that is none of FUA, NO_HOLE, DF, REQ_ONE and FAST_ZERO",
]
# Options that nbdcheck does not follow in base, what is said in place of a rule, and of those that it follows in wide what that is.
GRANTED = {
    9: "metadata contexts, which block status needs", 10: "metadata contexts, which block status needs",
    5: "TLS", 11: "extended headers, of 64 bits", 77: "an extension that nbdcheck has no name for",
}
IN_WIDE = {9: "metadata contexts and block status", 10: "metadata contexts and block status", 11: "extended headers"}


def reasons_of(tally, room, name, records, *profile):
    """What is said to be wrong in a session."""
    told = told_of(tally, name, room.run("explain", room.put("reason", text(records)), *profile))
    return re.findall(r"(?m)^wrong: (.*)$", told)


def reasons(tally, room):
    """Which part of its rule a message breaks: the one reason that there is, or each."""
    for records, reason in REASONS:
        tally.want(reason, reasons_of(tally, room, reason, records), [reason])
    for records, reason in WIDE_REASONS:
        tally.want(f"wide: {reason}", reasons_of(tally, room, reason, records, "--profile", "wide"), [reason])
    several = request(WRITE, 1, 7, 2, b"\1\2", flags=0x8017)
    tally.want("several reasons", reasons_of(tally, room, "several reasons", improper(several, 0x83)), SEVERAL)
    for records, reason in REASONS:
        if len(records) == len(begun()) + 2 and records[-2][0] == CLIENT:
            failing = [*records[:-1], simple(1, error=22)]
            tally.want(f"failing: {reason}", reasons_of(tally, room, reason, failing), [reason])
    told = told_of(tally, "failing", room.run("explain", room.put("failing", text([*improper(several, 0x83)[:-1], simple(1, error=5)]))))
    listed = ["improper: 1 of 1 request", "message: WRITE #1, cookie 0x1, 2 bytes at 7, FUA NO_HOLE DF FAST_ZERO (0x8017); bytes 97 to 126"]
    tally.want("failing for several reasons", told.splitlines()[-9:], listed + [f"wrong: {reason}" for reason in SEVERAL])
    none = reasons_of(tally, room, "no good size", announced(0, 0, 0), "--profile", "wide")
    tally.want("no good size", none, [f"the {name} block size is {reason}" for name, reason in (
        ("least", "no power of 2"), ("preferred", "no power of 2"), ("largest", "0"))])
    page = (TOP / "docs/RECORDING.md").read_text()
    for number, extension in GRANTED.items():
        told = told_of(tally, f"granted {number}", room.run("explain", room.put("granted", text(opted(number, b"")))))
        lines = told.split("\n")
        tally.holds(f"granted {number}", lines[3].startswith("granted: ") and lines[3].endswith(f", for {extension}"), told)
        wider = f"try --profile wide, which follows {IN_WIDE[number]}; or " if number in IN_WIDE else ""
        tally.holds(f"instead of {number}", lines[4].startswith(f"instead: {wider}record with"), told)
        named = re.findall(r"--[\w=-]+|h\.\w+|tls-creds|add_meta_context|opt_\w+", lines[4])
        tally.want(f"instead of {number}, in docs/RECORDING.md", [word for word in named if word not in page], [])


# The greeting of oldstyle: its magic number, the size of the export, flags, and 124 zeroes.
OLDSTYLE = [(SERVER, b"NBDMAGIC\0\0\x42\x02\x81\x86\x12\x53" + struct.pack(">QI", 2**20, 1) + bytes(124))]
OPTION_HEAD, OPTION_REST = cut(option(7, bytes(6)), 16)
READ_HEAD = cut(simple(1, bytes(4)), 16)[0]
# Sessions that proto.md allows, or in which it has a SHOULD alone, and who broke the rule.
BLAMED = {
    "oldstyle": (OLDSTYLE, "nobody; the server speaks oldstyle, which nbdcheck does not follow"),
    "a greeting of another magic number": ([(SERVER, b"NBDMAGIC" + bytes(144))], "the server"),
    "a server without fixed newstyle": ([greeting(0)], "nobody; nbdcheck follows fixed newstyle alone"),
    "a client without fixed newstyle": ([greeting(), client_flags(0)], "nobody; nbdcheck follows fixed newstyle alone"),
    "an option is refused before its data": (
        [*FLAGS, OPTION_HEAD, answer(7, 0x80000001), OPTION_REST],
        "nobody; nbdcheck waits for all data of an option before its reply, which proto.md does not ask"),
    "a server speaks before an option comes": ([*FLAGS, answer(7, 0x80000001), option(7, bytes(6))], "the server"),
    "a server speaks before an option's head is whole": ([*FLAGS, cut(OPTION_HEAD, 15)[0], answer(7, 0x80000001)], "the server"),
    "the head of a READ's reply alone": (
        [*ASKED, READ_HEAD],
        "nobody, where the recording was cut off, or where the server failed to read: it has to disconnect here then; else the server"),
    "a chunk is cut off": ([*CHUNKED, cut(content(1, 0, bytes(4)), 30)[0]], "nobody, where the recording was cut off; else the sender"),
    "a cookie in use": ([*ASKED, read(1, 4, 4)], "the client, a SHOULD"),
}


def blamed(tally, room):
    """Who broke a rule, where nobody broke one that proto.md makes a MUST."""
    for name, (records, breaker) in BLAMED.items():
        told = told_of(tally, name, room.run("explain", room.put(name.replace(" ", "-"), text(records))))
        tally.want(f"{name}: broken by", re.findall("(?m)^broken by: (.*)$", told), [breaker])


def arriving(tally, room):
    """A WRITE of 3 bytes that is cut off behind each of its bytes, and a reply to it: how many bytes are there, and missing."""
    whole = write(1, 0, b"\1\2\3")
    for count in range(len(whole[1])):
        records = [*begun(), cut(whole, count)[0], simple(1)]
        told = told_of(tally, f"arriving, {count} bytes", room.run("explain", room.put("arriving", text(records))))
        if count == 0:
            wanted = []
        elif count < 28:
            noun = "byte" if count == 1 else "bytes"
            wanted = [f"arriving: {count} {noun} of the client from byte 97 on, no whole head of a message"]
        else:
            wanted = [f"arriving: WRITE #1, cookie 0x1, 3 bytes at 0; from byte 97 on, {count} of its 31 bytes, {31 - count} missing when "
                      "the reply began"]
        tally.want(f"arriving, {count} bytes", [line for line in told.split("\n") if line.startswith("arriving: ")], wanted)
        tally.want(f"the client, {count} bytes", "or the client, if" in told, count >= 28)


def run(tally):
    with Room() as room:
        for part in (reasons, blamed, arriving):
            part(tally, room)
