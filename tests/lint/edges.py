"""Sessions at the edges of the rules of `lint`: each with the rules that it breaks, as docs/COVERAGE.md and proto.md have them.

A row is a name, the records, and the rules that are told with `--level hint`, each with how many messages broke it; the hints on how a
capture ends are left out.
"""

import struct

from messages import (
    ABORT, BLOCK_STATUS, CHUNKS, DISC, DONE, ERROR, EXPORT_NAME, FLAGS, FLUSH, GO, INFO, LIST, READ, STARTTLS, STRUCTURED_REPLY, TRIM,
    WRITE, WRITE_ZEROES, ack, answer, asking, begun, chunk, content, context, entered, error, export, extended_chunk, extended_request,
    extents, failed, failed_at, go, go_data, granted, greeting, listing, option, read, request, setting, simple, sizes, status,
)

UNSUP, POLICY, INVALID, PLATFORM, TLS_REQD, UNKNOWN, SHUTDOWN, BLOCK_SIZE_REQD, TOO_BIG, EXT_HEADER_REQD = (
    2**31 + number for number in range(1, 11))
FUA, NO_HOLE, DF, FAST_ZERO = 1, 2, 4, 16
SEND_DF, SEND_FAST_ZERO, READ_ONLY = 1 << 7, 1 << 11, 2
EPERM, EIO, ENOMEM, EINVAL, ENOSPC, EOVERFLOW, ENOTSUP, ESHUTDOWN = 1, 5, 12, 22, 28, 75, 95, 108
MIB = 1 << 20


def message(cookie, error, text=b"", flags=DONE):
    """An error chunk with a message."""
    return chunk(cookie, ERROR, struct.pack(">IH", error, len(text)) + text, flags)


def served(command, number, size=MIB, flags=0x6D, length=512, error=EIO, with_flags=0, offset=0, data=b"", before=(), sized=()):
    """A session in which one request fails by this error."""
    told = [asking(3), *(sizes(*one) for one in sized), export(size=size, flags=flags), ack(GO)]
    return [*CHUNKS, *before, *told, request(command, 1, offset, length, data, flags=with_flags), failed(1, error)]


def name_of(count, letter=b"a"):
    return [*FLAGS, option(GO, go_data(letter * count)), error(GO, UNKNOWN)]


EXTENDED = [*FLAGS, option(11), ack(11), *go(size=MIB)]

ROWS = [
    # Strings: 256 and 4096 bytes are the last of their kind.
    ("a name of 256 bytes", name_of(256), {}),
    ("a name of 257 bytes", name_of(257), {"string-over-256": 1}),
    ("a name of 4096 bytes", name_of(4096), {"string-over-256": 1}),
    ("a name of 4097 bytes", name_of(4097), {"string-too-long": 1}),
    ("an empty name", name_of(0), {}),
    ("the last code point", name_of(1, b"\xf4\x8f\xbf\xbf"), {}),
    ("one behind it", name_of(1, b"\xf4\x90\x80\x80"), {"string-not-utf8": 1}),
    ("a surrogate", name_of(1, b"\xed\xa0\x80"), {"string-not-utf8": 1}),
    ("an overlong slash", name_of(1, b"\xc0\xaf"), {"string-not-utf8": 1}),
    ("a name that is cut off", name_of(1, b"a\xe2\x82"), {"string-not-utf8": 1}),
    ("a NUL by name", [*FLAGS, option(EXPORT_NAME, b"a\0"), entered()], {"string-with-nul": 1, "export-name-without-go": 1}),
    ("queries", [*CHUNKS, listing(b"x-a:\0", b"x-a:\xff"), ack(9)], {"string-with-nul": 1, "string-not-utf8": 1}),
    ("details", [*FLAGS, option(LIST), answer(LIST, 2, struct.pack(">I", 1) + b"a" + b"\xff"), ack(LIST)], {"string-not-utf8": 1}),
    ("a description", [*FLAGS, option(GO, go_data()), answer(GO, 3, b"\0\2\xff"), export(), ack(GO)], {"string-not-utf8": 1}),
    ("an info of another type", [*FLAGS, option(GO, go_data()), answer(GO, 3, b"\0\4\xff"), export(), ack(GO)], {}),
    ("the message of an option's error", [*FLAGS, option(LIST), answer(LIST, POLICY, b"\xff")], {"string-not-utf8": 1}),
    ("the message of an unknown error chunk", [*begun(True), read(1, 0, 8), chunk(1, 0x8003, struct.pack(">IH", EIO, 1) + b"\xff", DONE)],
     {"string-not-utf8": 1}),
    # Options.
    ("data of SET_META_CONTEXT with a byte behind", [*CHUNKS, option(10, go_data() + bytes(3)), error(10)], {"option-data-malformed": 1}),
    ("three infos", [*FLAGS, asking(0, 1, 3), error(GO, UNKNOWN)], {}),
    ("an info twice, not one after the other", [*FLAGS, asking(0, 3, 0), error(GO, UNKNOWN)], {"info-asked-twice": 1}),
    ("a query that begins with a colon", [*CHUNKS, listing(b":a"), ack(9)], {"query-namespace": 1}),
    ("EXTENDED_HEADERS with data", [*FLAGS, option(11, b"x"), error(11)], {}),
    ("ABORT behind ERR_SHUTDOWN", [*FLAGS, option(LIST), error(LIST, SHUTDOWN), option(ABORT), ack(ABORT)], {}),
    ("EXPORT_NAME behind ERR_SHUTDOWN", [*FLAGS, option(LIST), error(LIST, SHUTDOWN), option(EXPORT_NAME), entered()],
     {"option-after-shutdown": 1, "export-name-without-go": 1}),
    # Errors of options: those that may answer any, and the others.
    *((f"STARTTLS gets the error {kind - 2**31}", [*FLAGS, option(STARTTLS), error(STARTTLS, kind)], {})
      for kind in (UNSUP, POLICY, INVALID, PLATFORM, SHUTDOWN, TOO_BIG, EXT_HEADER_REQD)),
    *((f"STARTTLS gets the error {kind - 2**31}", [*FLAGS, option(STARTTLS), error(STARTTLS, kind)], {"starttls-error": 1})
      for kind in (TLS_REQD, UNKNOWN, BLOCK_SIZE_REQD, 2**31, 2**31 + 11, 2**32 - 1)),
    ("ABORT gets ERR_TLS_REQD", [*FLAGS, option(ABORT), error(ABORT, TLS_REQD)], {}),
    ("ABORT gets ERR_UNSUP", [*FLAGS, option(ABORT), error(ABORT, UNSUP)], {"abort-not-acknowledged": 1}),
    ("STRUCTURED_REPLY gets ERR_UNSUP", [*FLAGS, option(STRUCTURED_REPLY), error(STRUCTURED_REPLY, UNSUP)], {}),
    *((f"option {number} gets ERR_UNSUP", [*FLAGS, option(number, data), error(number, UNSUP)], {"baseline-unsupported": 1})
      for number, data in ((LIST, b""), (INFO, go_data()), (GO, go_data()))),
    # Modes of TLS: those that one message leaves, in pairs.
    ("TLS_REQD to GO, then none to STARTTLS", [*FLAGS, option(GO, go_data()), error(GO, TLS_REQD), option(STARTTLS), error(STARTTLS, UNSUP)],
     {"tls-mode": 1}),
    ("TLS_REQD to GO, then a policy", [*FLAGS, option(GO, go_data()), error(GO, TLS_REQD), option(STARTTLS), error(STARTTLS, POLICY)], {}),
    ("none to STARTTLS, then an export", [*FLAGS, option(STARTTLS), error(STARTTLS, UNSUP), *go()], {}),
    ("none to STARTTLS with data", [*FLAGS, option(LIST), error(LIST, TLS_REQD), option(STARTTLS, b"x"), error(STARTTLS, UNSUP)],
     {"option-with-data": 1}),
    ("TLS_REQD to LIST, then an export by name", [*FLAGS, option(LIST), error(LIST, TLS_REQD), option(EXPORT_NAME), entered()],
     {"tls-mode": 1, "export-name-without-go": 1}),
    ("what is left behind a breach",
     [*FLAGS, option(LIST), error(LIST, TLS_REQD), option(LIST), ack(LIST), option(LIST), ack(LIST), option(LIST), error(LIST, TLS_REQD)],
     {"tls-mode": 2, "option-repeated": 2}),
    # Infos and sizes.
    ("the preferred size is the maximum payload", [*FLAGS, asking(3), sizes(1, 512, 512), export(), ack(GO)], {}),
    ("1 MiB less a byte", [*FLAGS, asking(3), sizes(1, 512, MIB - 1), export(size=MIB - 1), ack(GO)], {}),
    ("a maximum payload of 1 MiB", [*FLAGS, asking(3), sizes(1, 512, MIB), export(size=MIB), ack(GO)], {}),
    ("an info of another type twice", [*FLAGS, option(GO, go_data()), *[answer(GO, 3, b"\0\4a")] * 2, export(), ack(GO)], {}),
    ("the infos in another order", [*FLAGS, option(INFO, go_data()), export(INFO), sizes(1, 512, 512, to=INFO), ack(INFO),
                                    option(GO, go_data()), sizes(1, 512, 512), export(), ack(GO)], {}),
    ("one info less", [*FLAGS, option(INFO, go_data()), export(INFO), sizes(1, 512, 512, to=INFO), ack(INFO),
                       option(GO, go_data()), export(), ack(GO)], {"info-differs-in-go": 1}),
    ("one info more", [*FLAGS, option(INFO, go_data()), export(INFO), ack(INFO),
                       option(GO, go_data()), export(), sizes(1, 512, 512), ack(GO)], {"info-differs-in-go": 1}),
    ("another name", [*FLAGS, option(INFO, go_data()), export(INFO), ack(INFO), option(GO, go_data(b"a")), export(size=9), ack(GO)], {}),
    ("ERR_BLOCK_SIZE_REQD behind the usual sizes", [*FLAGS, option(GO, go_data()), sizes(1, 4096, 1 << 25), error(GO, BLOCK_SIZE_REQD)],
     {"block-size-reqd-with-defaults": 1}),
    ("SEND_FAST_ZERO with SEND_WRITE_ZEROES", [*FLAGS, *go(flags=0x6D | SEND_FAST_ZERO)], {}),
    ("SEND_DF by name", [*FLAGS, option(EXPORT_NAME), entered(flags=0x6D | SEND_DF)],
     {"df-without-structured-replies": 1, "export-name-without-go": 1}),
    # Contexts.
    *((f"the namespace {name.decode()}", [*CHUNKS, listing(), context(0, name + b":a", 9), ack(9)], {})
      for name in (b"base", b"nbd-server", b"qemu", b"x-", b"x-y")),
    *((f"the namespace {name.decode()}", [*CHUNKS, listing(), context(0, name + b":a", 9), ack(9)], {"context-namespace": 1})
      for name in (b"bas", b"based", b"nbd", b"x", b"y-x")),
    ("base: itself is selected", [*CHUNKS, setting(b"base:"), context(1, b"base:"), ack(10)], {"context-not-asked": 1}),
    ("no query is told a context", [*CHUNKS, setting(b"qemu:a", b"qemu:"), context(1, b"qemu:b"), ack(10)], {}),
    ("the list comes later and lacks one", [*CHUNKS, *granted(), listing(b"base:"), ack(9)], {"base-wildcard": 1}),
    ("an option between", [*CHUNKS, *granted(), option(LIST), ack(LIST), listing(b"base:"), ack(9)], {}),
    ("the list is too big", [*CHUNKS, *granted(), listing(b"base:"), error(9, TOO_BIG)], {}),
    ("the same selection again", [*CHUNKS, *granted(), *granted()], {"option-repeated": 1}),
    ("another selection between", [*CHUNKS, *granted(), *granted(name=b"a"), *granted()], {}),
    ("queries without a leaf, the other one last", [*CHUNKS, setting(b"base:", b"base:", b"qemu:"), context(1, b"qemu:a"), ack(10)],
     {"context-by-empty-leaf": 1}),
    # Requests.
    ("DISC with FUA, which is not offered", [*begun(flags=0x65), request(DISC, 1, 0, 0, flags=FUA)], {"disc-with-flags": 1}),
    ("DISC with FUA, which is", [*begun(), request(DISC, 1, 0, 0, flags=FUA)], {"fua-on-reading": 1}),
    ("DISC with two flags", [*begun(), request(DISC, 1, 0, 0, flags=FUA | NO_HOLE)], {"disc-with-flags": 1, "fua-on-reading": 1}),
    ("a READ up to the export's end", [*begun(size=1000), read(1, 512, 488), simple(1, bytes(488))], {}),
    ("a READ short of it", [*begun(size=1000), read(1, 512, 487), simple(1, bytes(487))], {"request-unaligned": 1}),
    ("a READ of a preferred size", [*FLAGS, asking(3), sizes(1, 4096, 1 << 25), export(size=MIB), ack(GO), read(1, 4096, 4096),
                                    simple(1, bytes(4096))], {}),
    ("a READ of less", [*FLAGS, asking(3), sizes(1, 4096, 1 << 25), export(size=MIB), ack(GO), read(1, 512, 4096), simple(1, bytes(4096))],
     {"request-unaligned": 1}),
    ("a TRIM of more than 2^25 bytes", [*begun(size=1 << 30), request(TRIM, 1, 0, (1 << 25) + 512), simple(1)], {}),
    ("a WRITE without PAYLOAD_LEN and without bytes", [*EXTENDED, extended_request(WRITE, 1, 0, 0), extended_chunk(1, 0, 0, flags=DONE)],
     {"length-0": 1}),
    # Errors.
    *((f"a TRIM fails by {number}", served(TRIM, 1, error=number), {}) for number in (EPERM, EIO, EINVAL, ENOSPC, ESHUTDOWN)),
    *((f"a TRIM fails by {number}", served(TRIM, 1, error=number), {"unknown-error": 1}) for number in (2, 3, 13, 76, 2**32 - 1)),
    ("a slow WRITE_ZEROES fails by ENOTSUP", served(WRITE_ZEROES, 1, error=ENOTSUP, flags=0x6D | SEND_FAST_ZERO),
     {"enotsup-without-fast-zero": 1}),
    ("a fast one does", served(WRITE_ZEROES, 1, error=ENOTSUP, flags=0x6D | SEND_FAST_ZERO, with_flags=FAST_ZERO), {}),
    ("a fast one that is too long", served(WRITE_ZEROES, 1, error=EOVERFLOW, flags=0x6D | SEND_FAST_ZERO, with_flags=FAST_ZERO,
                                           sized=[(1, 512, 512)], length=1024), {"eoverflow": 1, "largest-below-1m": 1}),
    ("a slow one that is too long", served(WRITE_ZEROES, 1, error=EOVERFLOW, sized=[(1, 512, 512)], length=1024), {"largest-below-1m": 1}),
    ("a TRIM that is as long as a payload", served(TRIM, 1, error=EOVERFLOW, sized=[(1, 512, MIB)], length=MIB), {"eoverflow": 1}),
    ("a TRIM that is longer", served(TRIM, 1, error=EOVERFLOW, sized=[(1, 512, MIB)], length=MIB + 512, size=2 * MIB), {}),
    ("a READ of 2^25 bytes", served(READ, 1, error=EOVERFLOW, length=1 << 25, size=1 << 30), {"eoverflow": 1}),
    ("a READ of a byte more", served(READ, 1, error=EOVERFLOW, length=(1 << 25) + 512, size=1 << 30), {"request-unaligned": 1}),
    ("a READ with DF of 65,536 bytes", served(READ, 1, error=EOVERFLOW, length=65536, flags=0x6D | SEND_DF, with_flags=DF),
     {"eoverflow-to-small-df-read": 1}),
    ("a READ with DF of 66,048 bytes", served(READ, 1, error=EOVERFLOW, length=66048, flags=0x6D | SEND_DF, with_flags=DF), {}),
    ("a WRITE past the end", served(WRITE, 1, error=EINVAL, offset=MIB, data=bytes(512)), {}),
    ("a WRITE past the end has no room", served(WRITE, 1, error=ENOSPC, offset=MIB, data=bytes(512)), {}),
    ("a WRITE past the end may not", served(WRITE, 1, error=EPERM, offset=MIB, data=bytes(512)), {"error-of-improper": 1}),
    ("a WRITE past the end of a read-only export may not", served(WRITE, 1, error=EPERM, offset=MIB, data=bytes(512), flags=0x6D | READ_ONLY),
     {}),
    ("a WRITE past the end overflows", served(WRITE, 1, error=EOVERFLOW, offset=MIB, data=bytes(512)),
     {"error-of-improper": 1, "eoverflow": 1}),
    ("a TRIM of a read-only export", served(TRIM, 1, error=EINVAL, flags=0x6D | READ_ONLY), {"error-of-improper": 1}),
    ("a READ with a flag that is not for it", served(READ, 1, error=EIO, with_flags=NO_HOLE), {"error-of-improper": 1}),
    ("an unknown command", served(99, 1, error=EPERM), {"error-of-improper": 1}),
    ("an unknown command is invalid", served(99, 1, error=EINVAL), {}),
    ("BLOCK_STATUS without a context", served(BLOCK_STATUS, 1, error=EIO), {"error-of-improper": 1}),
    ("a READ off the minimum", served(READ, 1, error=EIO, offset=1, sized=[(512, 512, MIB)]),
     {"error-of-improper": 1, "request-unaligned": 1}),
    ("a TRIM that is not offered", served(TRIM, 1, error=EPERM, flags=0x4D), {}),
    ("a FLUSH with a length", served(FLUSH, 1, error=EPERM, length=1), {}),
    ("two errors with offsets in one chunk of content",
     [*begun(True), read(1, 0, 8), content(1, 0, bytes(8)), failed_at(1, 2)[:1] + (failed_at(1, 2)[1][:4] + b"\0\0" + failed_at(1, 2)[1][6:],),
      failed_at(1, 5)], {"error-offset-repeated": 1}),
    # Statuses.
    ("an extent that ends with the export", [*CHUNKS, *granted(), *go(size=1000), status(1, 0, 1000), extents(1, 1, (1000, 0), flags=DONE)], {}),
    ("an extent that passes the range", [*CHUNKS, *granted(), *go(size=1000), status(1, 0, 500), extents(1, 1, (600, 0), flags=DONE)],
     {"extent-off-512": 1}),
    ("neighbours that one descriptor cannot hold",
     [*CHUNKS, *granted(), *go(size=1 << 40), status(1, 0, 2**32 - 512), extents(1, 1, (2**32 - 512 - 512, 3), (1024, 3), flags=DONE)], {}),
    ("neighbours that it can",
     [*CHUNKS, *granted(), *go(size=1 << 40), status(1, 0, 2**32 - 512), extents(1, 1, (2**32 - 2048, 3), (1024, 3), flags=DONE)],
     {"extents-alike": 1}),
    ("2^20 extents", [*CHUNKS, *granted(), *go(size=1 << 40), status(1, 0, 2**32 - 512), extents(1, 1, *[(512, 0), (512, 1)] * 2**19, flags=DONE)], {}),
    ("2^20 + 1 extents",
     [*CHUNKS, *granted(), *go(size=1 << 40), status(1, 0, 2**32 - 512), extents(1, 1, *[(512, 0), (512, 1)] * 2**19, (512, 0), flags=DONE)],
     {"too-many-extents": 1}),
    ("the flags of base:allocation", [*CHUNKS, *granted(), *go(size=512), status(1, 0, 512), extents(1, 1, (512, 3), flags=DONE)], {}),
]

# What is told of how a capture ends.
ENDED = [
    ("behind the greeting", [greeting()], {}),
    ("behind the client's flags", FLAGS, {"ended-without-disconnect": 1}),
    ("behind an option", [*FLAGS, option(LIST)], {"ended-without-disconnect": 1}),
    ("behind EXPORT_NAME", [*FLAGS, option(EXPORT_NAME)], {"export-name-without-go": 1}),
    ("behind its answer", [*FLAGS, option(EXPORT_NAME), entered()], {"export-name-without-go": 1, "ended-without-disconnect": 1}),
    ("behind an error to ABORT", [*FLAGS, option(ABORT), error(ABORT)], {"abort-not-acknowledged": 1}),
    ("a READ outstanding", [*begun(), read(1, 0, 8)], {"ended-without-disconnect": 1}),
    ("DISC, nothing outstanding", [*begun(), request(DISC, 9, 0, 0)], {}),
    ("DISC, half a reply", [*begun(True, size=1024), read(1, 0, 1024), content(1, 0, bytes(512)), request(DISC, 9, 0, 0)],
     {"disc-with-requests-outstanding": 1, "disc-unanswered": 1}),
    ("refused", [*begun(), ("S", b"\xde\xad\xbe\xef")], {"no at byte 100: BadMagic": 1}),
]
