"""Sessions that break a rule of the protocol. explained/NAME.txt has what `explain` writes of the one with this name."""

import struct

from cases import extended_messages as extended
from cases.sizes import begun as sized
from explain.told import ASKED, CHUNKED, GO, LISTED, SELECTED, SELECTED_TWO, Session, extended_session, filtered
from messages import (
    BLOCK_STATUS, CLIENT, DISC, DONE, FLAGS, PAYLOAD_LEN, READ, SERVER, TRIM, answer, asking, begun, chunk, client_flags, content,
    cut, done, export_info, extents, greeting, hole, option, queries, read, request, simple, sizes, status, write,
)

WIRE = {
    "bad-magic": Session([(SERVER, b"NBDMAGICIHAVEOPX\0\3")]),
    "bad-magic-of-a-reply": Session([*ASKED, (SERVER, b"\xde\xad\xbe\xef" + bytes(12))]),
    "not-fixed-newstyle": Session([greeting(2)]),
    "bad-client-flags": Session([greeting(1), client_flags(3)]),
    "out-of-turn": Session([client_flags(), greeting()]),
    "out-of-turn-behind-export-name": Session([*FLAGS, option(1, b"disk"), read(1, 0, 1)]),
    "out-of-turn-after-disc-behind-export-name": Session(
        [*FLAGS, option(1, b"disk"), (SERVER, (8).to_bytes(8, "big") + b"\0\1"), request(DISC, 0, 0, 0), read(1, 0, 1)]),
    "out-of-turn-behind-export-name-with-an-extended-header": Session(
        [*FLAGS, option(11), answer(11, 1), option(1, b"disk"), extended.reads(1, 0, 1)], profile="wide"),
    "out-of-turn-behind-export-name-with-an-option": Session([*FLAGS, option(1, b"disk"), option(3)]),
    "out-of-turn-after-disc": Session([*begun(), request(DISC, 0, 0, 0), read(1, 0, 4)]),
    "wrong-option": Session([*GO, answer(6, 3, export_info())]),
    "bad-reply-kind": Session([*GO, answer(7, 2, b"\0\0\0\0")]),
    "out-of-profile": Session([*FLAGS, option(5), answer(5, 1)]),
    "out-of-profile-of-listed-contexts": Session(
        [*FLAGS, option(8), answer(8, 1), option(9, bytes(8)), answer(9, 4, b"\0\0\0\0base:allocation")]),
    "out-of-profile-of-metadata-contexts": Session(
        [*FLAGS, option(8), answer(8, 1), option(10, bytes(8)), answer(10, 4, b"\0\0\0\1base:allocation")]),
    "out-of-profile-of-extended-headers": Session([*FLAGS, option(11), answer(11, 1)]),
    "out-of-profile-of-an-unknown-option": Session([*FLAGS, option(77), answer(77, 1)]),
    "out-of-profile-of-tls-in-wide": Session([*FLAGS, option(5), answer(5, 1)], profile="wide"),
    "out-of-profile-of-a-long-payload": Session(extended_session(extended.asked(TRIM, 1, 0, 2**32, PAYLOAD_LEN)), profile="wide"),
    "out-of-profile-of-a-long-chunk": Session(extended_session(extended.reads(1, 0, 1), extended.head_of(1, 2**32)), profile="wide"),
    "bad-content-of-a-status-not-asked": Session(filtered(extended.SECOND, extended.WHOLE_FIRST), profile="wide"),
    "bad-chunk-of-the-type-of-a-command": Session(
        filtered(extended.asks(1, 0, 8), extended.Reply(1, BLOCK_STATUS, struct.pack(">QI", 5, 0), DONE | PAYLOAD_LEN, None)), profile="wide"),
    "incomplete-status-of-a-filter": Session(filtered(extended.BOTH, extended.WHOLE_FIRST), profile="wide"),
    "bad-magic-without-an-extended-header": Session(extended_session(read(1, 0, 1), (CLIENT, bytes(4))), profile="wide"),
    "bad-magic-of-a-reply-without-an-extended-header": Session(extended_session(extended.reads(1, 0, 1), simple(1)), profile="wide"),
    "bad-reply-offset": Session(extended_session(extended.reads(1, 4, 1), extended.gives_last(1, 4, b"\0", of=0)), profile="wide"),
    "incomplete-status": Session(
        [*SELECTED_TWO, status(1, 0, 8), extents(1, 1, (3, 0), (5, 3), flags=DONE)], profile="wide"),
    "incomplete-status-without-one": Session([*SELECTED_TWO, status(1, 0, 8), done(1)], profile="wide"),
    "bad-content-of-a-second-status": Session(
        [*SELECTED, status(1, 0, 8), extents(1, 1, (8, 1)), extents(1, 1, (8, 0), flags=DONE)], profile="wide"),
    "bad-content-of-extents": Session(
        [*SELECTED, status(1, 2, 4), extents(1, 1, (4, 2), (1, 0), flags=DONE)], profile="wide"),
    "bad-chunk-of-a-status": Session([*SELECTED, status(1, 0, 8), extents(1, 1, (8, 0), (0, 0))], profile="wide"),
    "success-of-an-improper-status": Session(
        [*SELECTED, status(1, 4, 8), extents(1, 1, (8, 0), flags=DONE)], profile="wide"),
    "simple-success-of-a-status": Session([*SELECTED, status(1, 0, 8), simple(1)], profile="wide"),
    "bad-reply-payload-of-a-context": Session(
        [*SELECTED[:-4], answer(10, 4, b"\0\0\0\1qemu:dirty-bitmap:a")], profile="wide"),
    "success-of-improper-contexts": Session(
        [*LISTED, option(10, queries(b"", b"base:allocation")[:-1]), answer(10, 1)], profile="wide"),
    "bad-reply-payload": Session([*GO, answer(7, 1, b"\0")]),
    "bad-reply-payload-of-block-sizes": Session([*FLAGS, asking(3), sizes(3, 256, 1024)], profile="wide"),
    "missing-export-info": Session([*GO, answer(7, 1)]),
    "bad-export": Session([*FLAGS, option(1, b"disk"), (SERVER, (8).to_bytes(8, "big") + b"\0\0")]),
    "export-too-large": Session(begun(size=2**63)),
    "cookie-in-use": Session([*ASKED, read(1, 4, 4)]),
    "cookie-in-use-without-done": Session([*CHUNKED, content(1, 0, b"\1\2\3\4"), write(1, 0, b"\xab")]),
    "unknown-cookie": Session([*ASKED, simple(2, bytes(4))]),
    "unknown-cookie-of-an-answered-request": Session([*ASKED, simple(1, bytes(4)), simple(1, bytes(4))]),
    "unknown-cookie-of-a-request-under-way": Session(
        [*begun(), cut(write(1, 0, b"\xab\xcd"), 29)[0], cut(simple(1), 1)[0], cut(write(1, 0, b"\xab\xcd"), 29)[1],
         cut(simple(1), 1)[1]]),
    "unknown-cookie-of-a-short-write": Session(
        [*begun(), cut(write(1, 0, b"\xab\xcd"), 29)[0], simple(1), read(2, 0, 2), simple(2, b"\xab\xcd")]),
    "unknown-cookie-beside-a-request-under-way": Session([*ASKED, cut(write(2, 0, b"\xab\xcd"), 28)[0], simple(3)]),
    "simple-forbidden": Session([*CHUNKED, simple(1, bytes(4))]),
    "chunk-forbidden": Session([*ASKED, done(1)]),
    "bad-chunk": Session([*CHUNKED, hole(1, 0, 0)]),
    "bad-chunk-of-an-unknown-error": Session([*CHUNKED, chunk(1, 0x8009, b"\0\0\0\x05\0\0", flags=1)]),
    "bad-chunk-of-an-unknown-error-without-form": Session([*CHUNKED, chunk(1, 0x8009, b"\0\0\0\x05\0\1", flags=1)]),
    "bad-chunk-of-an-unknown-error-in-wide": Session([*CHUNKED, chunk(1, 0x8009, b"\0\0\0\x05\0\1", flags=1)], profile="wide"),
    "bad-content": Session([*CHUNKED, content(1, 0, b"\1\2\3"), content(1, 2, b"\4\5")]),
    "bad-content-twice-under-df": Session(
        [*begun(structured=True, flags=0xED), request(READ, 1, 0, 4, flags=4), content(1, 0, b"\1\2"), content(1, 2, b"\3\4")]),
    "bad-content-under-df-that-is-not-offered": Session(
        [*begun(structured=True), request(READ, 1, 0, 8, flags=4), content(1, 0, bytes(4)), content(1, 4, bytes(4)), content(1, 6, b"\5")]),
    "bad-content-of-an-error": Session([*CHUNKED, chunk(1, 0x8002, b"\0\0\0\x05\0\0\0\0\0\0\0\0\0\4", flags=1)]),
    "incomplete-read": Session([*CHUNKED, content(1, 0, b"\1\2\3"), done(1)]),
    "incomplete-read-between-chunks": Session([*CHUNKED, hole(1, 3, 1), chunk(1, 1, bytes(8) + b"\1", flags=1)]),
    "success-of-improper": Session([*begun(), read(1, 8, 4), simple(1, bytes(4))]),
    "success-of-improper-and-outside": Session([*sized(2, 512, 4), read(1, 7, 2), simple(1, bytes(2))], profile="wide"),
    "success-of-improper-go": Session(
        [*FLAGS, option(7, b"\0\0\0\1x\0\2\0\3"), answer(7, 3, export_info()), answer(7, 1)]),
    "bad-disconnect": Session([*begun(), request(DISC, 0, 0, 1)]),
    "unfinished": Session([*ASKED, cut(simple(1, bytes(4)), 19)[0]]),
    "unfinished-write": Session([*begun(), cut(write(1, 0, b"\xab\xcd"), 29)[0]]),
    "unfinished-after-one-byte": Session([*ASKED, cut(simple(1, bytes(4)), 1)[0]]),
    "unfinished-on-both-sides": Session([*ASKED, cut(simple(1, bytes(4)), 3)[0], cut(read(2, 0, 4), 27)[0]]),
}
