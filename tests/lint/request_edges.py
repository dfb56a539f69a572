"""The same on requests and their replies."""

import struct

from lint.edges import (
    FUA, DF, FAST_ZERO, SEND_DF, SEND_FAST_ZERO, READ_ONLY, EPERM, EIO, ENOMEM, EINVAL, ENOSPC, EOVERFLOW, ENOTSUP, ESHUTDOWN, MIB,
    message, served, EXTENDED,
)
from messages import (
    BLOCK_STATUS, CACHE, CHUNKS, DISC, DONE, ERROR, ERROR_OFFSET, FLAGS, FLUSH, GO, INFO, PAYLOAD_LEN, READ, TRIM, WRITE, WRITE_ZEROES,
    ack, asking, begun, chunk, content, done, error, export, extended_chunk, extended_extents, extended_request, extents, failed, go,
    go_data, granted, hole, option, read, request, simple, sizes, status, write,
)


def at(offset, error=EIO, flags=0):
    """An error chunk with an offset, to the request with cookie 1."""
    return chunk(1, ERROR_OFFSET, struct.pack(">IHQ", error, 0, offset), flags)


def other(error, flags=DONE):
    """An error chunk of a type that proto.md has not."""
    return chunk(1, 0x8003, struct.pack(">IH", error, 0), flags)


def bounded(*messages, size=1 << 19, flags=0x6D, sized=((1, 512, 512),), before=()):
    """A session with structured replies and these block sizes, of an export of less than 1 MiB."""
    return [*CHUNKS, *before, asking(3), *(sizes(*one) for one in sized), export(size=size, flags=flags), ack(GO), *messages]


def told(length, *parts, offset=0, size=1 << 40, flags=0):
    """A status of base:allocation with these extents."""
    return [*CHUNKS, *granted(), *go(size=size), status(1, offset, length, flags), extents(1, 1, *parts, flags=DONE)]


def told_wide(length, *parts, offset=0):
    """The same with extended headers."""
    return [*FLAGS, option(11), ack(11), *granted(), *go(size=1 << 40), extended_request(BLOCK_STATUS, 1, offset, length),
            extended_chunk(1, 6, offset, extended_extents(1, *parts), DONE)]


def filtered(length, number, reply):
    """A BLOCK_STATUS with a filter of one id, and its reply."""
    return [*FLAGS, option(11), ack(11), *granted(), *go(flags=0x106D),
            extended_request(BLOCK_STATUS, 1, 0, 12, struct.pack(">QI", length, number), PAYLOAD_LEN), reply]


DF_READ = [*CHUNKS, *go(size=MIB, flags=0x6D | SEND_DF), request(READ, 1, 0, 66048, flags=DF)]
SMALL_DF_READ = [*CHUNKS, *go(size=MIB, flags=0x6D | SEND_DF), request(READ, 1, 0, 512, flags=DF)]
ALTERNATE = [(512, 0), (512, 1)] * 32

ROWS = [
    # Requests.
    ("DISC with PAYLOAD_LEN", [*EXTENDED, extended_request(DISC, 1, 0, 0, flags=PAYLOAD_LEN)], {"disc-with-flags": 1}),
    ("DISC behind half a reply", [*begun(True, size=1024), read(1, 0, 1024), content(1, 0, bytes(512)), request(DISC, 9, 0, 0),
                                  content(1, 512, bytes(512), DONE)], {"disc-with-requests-outstanding": 1}),
    *((f"command {command} of length 0", [*begun(), request(command, 1, 0, 0), simple(1)], {"length-0": 1})
      for command in (WRITE, TRIM, WRITE_ZEROES)),
    ("a status of length 0", [*CHUNKS, *granted(), *go(), status(1, 0, 0), done(1)], {"length-0": 1}),
    ("a status of length 0 without a context", [*CHUNKS, *go(), status(1, 0, 0), failed(1, EINVAL)], {}),
    ("a filter of length 0", filtered(0, 1, extended_chunk(1, 0, 0, flags=DONE)), {"length-0": 1}),
    *((f"command {command} with FUA", [*begun(), request(command, 1, 0, length, flags=FUA), simple(1)], {"fua-on-reading": 1})
      for command, length in ((FLUSH, 0), (CACHE, 8))),
    ("a status with FUA", told(512, (512, 0), flags=FUA), {"fua-on-reading": 1}),
    ("a READ with FUA that is not offered", [*begun(True, flags=0x65), request(READ, 1, 0, 8, flags=FUA), failed(1, EINVAL)], {}),
    ("a READ off 512 up to the export's end", [*begun(size=1000), read(1, 500, 500), simple(1, bytes(500))], {"request-unaligned": 1}),
    ("a WRITE short of the end", [*begun(size=1024), write(1, 0, bytes(511)), simple(1)], {"request-unaligned": 1}),
    *((f"command {command} short of the end", [*begun(size=1024), request(command, 1, 0, 511), simple(1)], {"request-unaligned": 1})
      for command in (TRIM, CACHE, WRITE_ZEROES)),
    ("a status off 512", told(511, (511, 0), offset=1, size=4096), {}),
    ("an improper READ off 512", [*begun(size=1000), read(1, 1, 1000), simple(1, error=EINVAL)], {}),
    ("a READ off the preferred size up to the export's end",
     [*FLAGS, asking(3), sizes(1, 4096, 1 << 25), export(size=5000), ack(GO), read(1, 4096, 904), simple(1, bytes(904))], {}),
    ("a READ of a byte less", [*FLAGS, asking(3), sizes(1, 4096, 1 << 25), export(size=5000), ack(GO), read(1, 4096, 903), simple(1, bytes(903))],
     {"request-unaligned": 1}),
    ("a READ of the last preferred size", bounded(read(1, 512, 512), hole(1, 512, 512, DONE), sized=((1, 4096, 1 << 25), (1, 512, 1 << 25))),
     {"info-told-twice": 1}),
    ("a READ of the first one", bounded(read(1, 512, 512), hole(1, 512, 512, DONE), sized=((1, 512, 1 << 25), (1, 4096, 1 << 25))),
     {"info-told-twice": 1, "request-unaligned": 1}),
    ("a READ of 512, sizes by INFO alone",
     [*FLAGS, asking(3, number=INFO), sizes(1, 4096, 1 << 25, to=INFO), export(INFO, size=MIB), ack(INFO), *go(size=MIB), read(1, 512, 512),
      simple(1, bytes(512))], {}),
    ("a READ of 512, sizes that nobody asked for",
     [*FLAGS, option(GO, go_data()), sizes(1, 4096, 1 << 25), export(size=MIB), ack(GO), read(1, 512, 512), simple(1, bytes(512))],
     {"request-unaligned": 1}),
    ("a READ of 2^25 + 1 bytes up to the export's end", served(READ, 1, error=EOVERFLOW, length=(1 << 25) + 1, size=(1 << 25) + 1),
     {"request-unaligned": 1}),
    ("a READ of more than 2^25 bytes where sizes were announced",
     served(READ, 1, length=(1 << 25) + 4096, size=1 << 30, sized=[(1, 4096, 1 << 25)]), {}),
    ("a WRITE with PAYLOAD_LEN fails by EIO", [*EXTENDED, extended_request(WRITE, 1, 0, 512, bytes(512), PAYLOAD_LEN),
                                               extended_chunk(1, ERROR, 0, struct.pack(">IH", EIO, 0), DONE)], {}),
    # Errors.
    *((f"a TRIM fails by {number}, beside one of the eight", served(TRIM, 1, error=number), {"unknown-error": 1})
      for number in (4, 6, 11, 21, 23, 27, 29, 74, 94, 96, 107, 109)),
    ("an unknown error in a simple reply", [*begun(), request(TRIM, 1, 0, 8), simple(1, error=7)], {"unknown-error": 1}),
    ("EIO in a simple reply without structured replies", [*begun(), request(TRIM, 1, 0, 8), simple(1, error=EIO)], {}),
    ("EIO in a simple reply with them", [*begun(True), request(TRIM, 1, 0, 8), simple(1, error=EIO)], {"simple-error": 1}),
    ("ENOTSUP where FAST_ZERO is not offered", served(WRITE_ZEROES, 1, error=ENOTSUP), {"enotsup": 1}),
    ("ENOTSUP to FAST_ZERO that is not offered", served(WRITE_ZEROES, 1, error=ENOTSUP, with_flags=FAST_ZERO),
     {"enotsup": 1, "error-of-improper": 1}),
    ("ENOTSUP to a READ", served(READ, 1, error=ENOTSUP, flags=0x6D | SEND_FAST_ZERO), {"enotsup": 1}),
    ("ENOMEM to a WRITE", served(WRITE, 1, error=ENOMEM, data=bytes(512)), {"enomem": 1}),
    ("an improper TRIM behind ESHUTDOWN", [*begun(True), request(TRIM, 1, 0, 8), failed(1, ESHUTDOWN), request(TRIM, 2, 8, 1), failed(2, EINVAL)],
     {"request-after-eshutdown": 1}),
    ("ESHUTDOWN in a simple reply", [*begun(), request(TRIM, 1, 0, 8), simple(1, error=ESHUTDOWN), request(TRIM, 2, 0, 8), simple(2, error=EIO)],
     {"request-after-eshutdown": 1, "error-after-eshutdown": 1}),
    ("a TRIM that ends with the export", served(TRIM, 1, offset=MIB - 512), {}),
    ("a TRIM that ends a byte behind it", served(TRIM, 1, offset=MIB - 511), {"error-of-improper": 1}),
    ("a TRIM past the end has no room", served(TRIM, 1, error=ENOSPC, offset=MIB), {"error-of-improper": 1}),
    ("a WRITE_ZEROES past the end has no room", served(WRITE_ZEROES, 1, error=ENOSPC, offset=MIB), {}),
    ("a WRITE_ZEROES past the end", served(WRITE_ZEROES, 1, error=EIO, offset=MIB), {"error-of-improper": 1}),
    ("a CACHE past the end", served(CACHE, 1, error=EIO, offset=MIB), {"error-of-improper": 1}),
    ("a READ past the end overflows", served(READ, 1, error=EOVERFLOW, offset=MIB), {"eoverflow": 1}),
    ("a READ past the end is shut down", served(READ, 1, error=ESHUTDOWN, offset=MIB), {}),
    ("a WRITE_ZEROES of a read-only export", served(WRITE_ZEROES, 1, error=EINVAL, flags=0x6D | READ_ONLY), {"error-of-improper": 1}),
    ("a WRITE of a read-only export may not", served(WRITE, 1, error=EPERM, data=bytes(512), flags=0x6D | READ_ONLY), {}),
    ("a READ of a read-only export may not", served(READ, 1, error=EPERM, flags=0x6D | READ_ONLY), {}),
    ("a status past the end", served(BLOCK_STATUS, 1, error=EIO, offset=MIB, before=granted()), {"error-of-improper": 1}),
    ("a status with a flag that is not for it", served(BLOCK_STATUS, 1, error=EIO, with_flags=DF, before=granted()), {"error-of-improper": 1}),
    ("a TRIM with PAYLOAD_LEN", served(TRIM, 1, error=EIO, with_flags=PAYLOAD_LEN), {"error-of-improper": 1}),
    ("a WRITE with PAYLOAD_LEN and no extended header", served(WRITE, 1, error=EIO, data=bytes(512), with_flags=PAYLOAD_LEN),
     {"error-of-improper": 1}),
    ("a filter with an id that is not in force", filtered(8, 2, extended_chunk(1, ERROR, 0, struct.pack(">IH", EIO, 0), DONE)), {}),
    ("a FLUSH that is not offered", served(FLUSH, 1, error=EPERM, length=0, flags=0x69), {}),
    ("a FLUSH with an offset", served(FLUSH, 1, error=EPERM, length=0, offset=1), {}),
    ("a FLUSH with FUA that is not offered", served(FLUSH, 1, error=EIO, length=0, flags=0x65, with_flags=FUA), {"error-of-improper": 1}),
    ("a WRITE_ZEROES that is not offered, past the end", served(WRITE_ZEROES, 1, error=EPERM, offset=MIB, flags=0x2D), {}),
    ("the first error fits, the second does not", [*begun(True), read(1, 4, 8), at(4, EINVAL), at(5, EIO, DONE)], {}),
    ("the first error does not fit, the second does", [*begun(True), read(1, 4, 8), at(4, EIO), at(5, EINVAL, DONE)], {"error-of-improper": 1}),
    ("a READ off a minimum that nobody asked for",
     [*CHUNKS, option(GO, go_data()), sizes(512, 512, MIB), export(size=MIB), ack(GO), read(1, 1, 512), failed(1, EIO)],
     {"error-of-improper": 1, "request-unaligned": 1}),
    ("a CACHE as long as a payload overflows", served(CACHE, 1, error=EOVERFLOW, size=1 << 19, sized=[(1, 512, 512)]), {"eoverflow": 1}),
    ("a longer one does", served(CACHE, 1, error=EOVERFLOW, length=1024, size=1 << 19, sized=[(1, 512, 512)]), {}),
    ("a status longer than a payload overflows",
     served(BLOCK_STATUS, 1, error=EOVERFLOW, length=1024, size=1 << 19, sized=[(1, 512, 512)], before=granted()), {}),
    ("a status as long as a payload does", served(BLOCK_STATUS, 1, error=EOVERFLOW, size=1 << 19, sized=[(1, 512, 512)], before=granted()),
     {"eoverflow": 1}),
    ("a slow WRITE_ZEROES as long as a payload overflows", served(WRITE_ZEROES, 1, error=EOVERFLOW, size=1 << 19, sized=[(1, 512, 512)]),
     {"eoverflow": 1}),
    ("a READ as long as a payload overflows", served(READ, 1, error=EOVERFLOW, size=1 << 19, sized=[(1, 512, 512)]), {"eoverflow": 1}),
    ("a longer READ does", served(READ, 1, error=EOVERFLOW, length=1024, size=1 << 19, sized=[(1, 512, 512)]), {}),
    ("the smallest of two payloads counts", served(TRIM, 1, error=EOVERFLOW, length=1024, size=1 << 19, sized=[(1, 512, 1024), (1, 512, 512)]),
     {"info-told-twice": 1}),
    ("a longer READ without structured replies overflows",
     [*FLAGS, asking(3), sizes(1, 512, 512), export(size=1 << 19), ack(GO), read(1, 0, 1024), simple(1, error=EOVERFLOW)], {"eoverflow": 1}),
    ("a READ with DF that is not offered overflows", served(READ, 1, error=EOVERFLOW, with_flags=DF), {"eoverflow": 1}),
    ("a FLUSH overflows", served(FLUSH, 1, error=EOVERFLOW, length=0), {"eoverflow": 1}),
    ("a READ with DF of 65,537 bytes", served(READ, 1, error=EOVERFLOW, length=65537, size=65537, flags=0x6D | SEND_DF, with_flags=DF), {}),
    ("a READ with DF as long as a payload", served(READ, 1, error=EOVERFLOW, size=1 << 19, flags=0x6D | SEND_DF, with_flags=DF,
                                                   sized=[(1, 512, 512)]), {"eoverflow-to-small-df-read": 1}),
    ("a READ with DF that is longer", served(READ, 1, error=EOVERFLOW, length=1024, size=1 << 19, flags=0x6D | SEND_DF, with_flags=DF,
                                             sized=[(1, 512, 512)]), {}),
    ("a READ with DF off the minimum overflows", served(READ, 1, error=EOVERFLOW, offset=512, flags=0x6D | SEND_DF, with_flags=DF,
                                                        sized=[(1024, 1024, MIB)]), {"request-unaligned": 1}),
    ("EOVERFLOW with an offset to a small READ with DF", [*SMALL_DF_READ, at(0, EOVERFLOW, DONE)], {}),
    ("EOVERFLOW of an unknown type to a small READ with DF", [*SMALL_DF_READ, other(EOVERFLOW)], {}),
    ("a simple EOVERFLOW to a small READ with DF",
     [*FLAGS, *go(size=MIB, flags=0x6D | SEND_DF), request(READ, 1, 0, 512, flags=DF), simple(1, error=EOVERFLOW)],
     {"df-without-structured-replies": 1, "eoverflow-to-small-df-read": 1}),
    ("content, then EOVERFLOW to a small READ with DF", [*SMALL_DF_READ, content(1, 0, bytes(256)), message(1, EOVERFLOW)],
     {"content-beside-eoverflow": 1}),
    ("EOVERFLOW, then content", [*DF_READ, message(1, EOVERFLOW, flags=0), content(1, 0, bytes(512), DONE)], {"content-beside-eoverflow": 1}),
    ("EOVERFLOW with an offset beside content", [*DF_READ, content(1, 0, bytes(512)), at(0, EOVERFLOW, DONE)], {}),
    ("EOVERFLOW of an unknown type beside content", [*DF_READ, content(1, 0, bytes(512)), other(EOVERFLOW)], {}),
    ("EOVERFLOW beside content without DF", [*CHUNKS, *go(size=MIB), read(1, 0, 512), content(1, 0, bytes(256)), message(1, EOVERFLOW)],
     {"eoverflow": 1}),
    ("EOVERFLOW beside content of an improper READ with DF",
     [*CHUNKS, *go(size=MIB, flags=0x6D | SEND_DF), request(READ, 1, MIB, 512, flags=DF), content(1, MIB, bytes(512)), message(1, EOVERFLOW)], {}),
    ("an error with an offset behind one without", [*begun(True), read(1, 0, 8), message(1, EIO, flags=0), at(0, EIO, DONE)],
     {"error-not-alone": 1}),
    ("an error of an unknown type behind one with an offset", [*begun(True), read(1, 0, 8), at(0), other(EIO)], {}),
    ("an error without an offset behind one of an unknown type", [*begun(True), read(1, 0, 8), other(EIO, 0), failed(1, EIO)],
     {"error-not-alone": 1}),
    ("two errors, the content between them", [*begun(True), read(1, 0, 8), at(2), content(1, 0, bytes(8)), at(5, EIO, DONE)],
     {"content-over-error": 1, "error-offset-repeated": 1}),
    ("two errors, the content behind both", [*begun(True), read(1, 0, 8), at(2), at(5), content(1, 0, bytes(8), DONE)], {"content-over-error": 1}),
    ("two errors in two chunks of content",
     [*begun(True), read(1, 0, 8), content(1, 0, bytes(4)), content(1, 4, bytes(4)), at(3), at(4, EIO, DONE)], {}),
    ("an error with an offset to a FLUSH", [*begun(True), request(FLUSH, 1, 0, 8), at(0, EINVAL, DONE)], {"error-offset-to-flush": 1}),
    ("an error with an offset to an unknown command", [*begun(True), request(99, 1, 0, 8), at(0, EINVAL, DONE)], {}),
    ("an error with an offset to a CACHE", [*begun(True), request(CACHE, 1, 0, 8), at(0, EIO, DONE)], {}),
    # Content.
    ("a hole over an error", [*begun(True), read(1, 0, 8), at(4), hole(1, 4, 4, DONE)], {"content-over-error": 1}),
    ("content up to an error", [*begun(True), read(1, 0, 8), at(4), content(1, 0, bytes(4), DONE)], {}),
    ("content behind an error", [*begun(True), read(1, 0, 8), at(4), content(1, 5, bytes(3), DONE)], {}),
    ("content that ends at an error", [*begun(True), read(1, 0, 8), at(4), content(1, 0, bytes(5), DONE)], {"content-over-error": 1}),
    ("content behind an error without an offset", [*begun(True), read(1, 0, 8), message(1, EIO, flags=0), content(1, 0, bytes(8), DONE)], {}),
    ("a hole longer than the maximum payload", bounded(read(1, 0, 1024), hole(1, 0, 1024, DONE)), {}),
    ("a READ with DF of 65,536 bytes in one chunk",
     bounded(request(READ, 1, 0, 65536, flags=DF), content(1, 0, bytes(65536), DONE), flags=0x6D | SEND_DF), {}),
    ("a READ with DF of 65,537 bytes in one chunk",
     bounded(request(READ, 1, 0, 65537, flags=DF), content(1, 0, bytes(65537), DONE), flags=0x6D | SEND_DF, size=65537), {"chunk-over-largest": 1}),
    ("a message as long as the maximum payload", bounded(request(TRIM, 1, 0, 512), message(1, EIO, b"a" * 512)), {"string-over-256": 1}),
    ("a message of a byte more", bounded(request(TRIM, 1, 0, 512), message(1, EIO, b"a" * 513)), {"string-over-256": 1, "chunk-over-largest": 1}),
    ("descriptors as long as the maximum payload", bounded(status(1, 0, 1 << 19), extents(1, 1, *ALTERNATE, flags=DONE), before=granted()), {}),
    ("one more of them", bounded(status(1, 0, 1 << 19), extents(1, 1, *ALTERNATE, (512, 0), flags=DONE), before=granted()),
     {"chunk-over-largest": 1}),
    ("content between two maximum payloads", bounded(read(1, 0, 1024), content(1, 0, bytes(1024), DONE), sized=((1, 512, 512), (1, 512, 1024))),
     {"info-told-twice": 1}),
    ("content above both", bounded(read(1, 0, 1536), content(1, 0, bytes(1536), DONE), sized=((1, 512, 512), (1, 512, 1024))),
     {"info-told-twice": 1, "chunk-over-largest": 1}),
    ("content above the maximum payload of INFO alone",
     [*CHUNKS, asking(3, number=INFO), sizes(1, 512, 512, to=INFO), export(INFO, size=1 << 19), ack(INFO), *go(size=1 << 19), read(1, 0, 1024),
      content(1, 0, bytes(1024), DONE)], {}),
    ("a simple reply above the maximum payload",
     [*FLAGS, asking(3), sizes(1, 512, 512), export(size=1 << 19), ack(GO), read(1, 0, 1024), simple(1, bytes(1024))], {}),
    ("content that is cut at 500, and an error", [*begun(True, size=1024), read(1, 0, 1024), content(1, 0, bytes(500)), failed(1, EIO)], {}),
    ("pieces of 512 bytes", [*begun(True, size=1024), read(1, 0, 1024), hole(1, 512, 512), hole(1, 0, 512, DONE)], {}),
    ("pieces that meet at 500, NONE behind them", [*begun(True, size=1024), read(1, 0, 1024), hole(1, 500, 524), hole(1, 0, 500), done(1)],
     {"chunk-off-512": 1, "needless-none": 1}),
    ("the highest flag of an error chunk", [*begun(True), request(TRIM, 1, 0, 8), message(1, EIO, flags=0x8001)], {"unknown-chunk-flag": 1}),
    # Statuses.
    ("NONE behind a status", [*CHUNKS, *granted(), *go(size=512), status(1, 0, 512), extents(1, 1, (512, 0)), done(1)], {"needless-none": 1}),
    ("the last extent ends with an export off the minimum",
     [*CHUNKS, *granted(), asking(3), sizes(512, 512, MIB), export(size=1000), ack(GO), status(1, 0, 512), extents(1, 1, (1000, 0), flags=DONE)],
     {"size-off-block-size": 1, "extent-off-block-size": 1}),
    ("a status off the minimum",
     [*CHUNKS, *granted(), asking(3), sizes(4096, 4096, MIB), export(size=8192), ack(GO), status(1, 0, 512),
      extents(1, 1, (512, 0), flags=DONE)], {}),
    ("the smallest of two minimums counts",
     [*CHUNKS, *granted(), asking(3), sizes(512, 4096, MIB), sizes(4096, 4096, MIB), export(size=8192), ack(GO), status(1, 0, 4096),
      extents(1, 1, (512, 0), (3584, 1), flags=DONE)], {"info-told-twice": 1}),
    ("an extent that ends with the export, not with the range", told(500, (1000, 0), size=1000), {}),
    ("an extent that ends with the range, not with the export", told(500, (500, 0), size=1000), {}),
    ("an extent before the last ends off 512", told(1000, (500, 0), (500, 1), size=1000), {"extent-off-512": 1}),
    ("neighbours that fill a descriptor", told(2**32 - 1, (2**32 - 512, 3), (511, 3)), {"extents-alike": 1}),
    ("neighbours of 2^33 bytes, with extended headers", told_wide(1 << 33, (1 << 32, 3), (1 << 32, 3)), {"extents-alike": 1}),
    ("neighbours that fill a wide descriptor", told_wide(1024, (512, 3), (2**64 - 1024, 3)), {"extents-alike": 1}),
    ("neighbours that it cannot hold, up to 2^64", told_wide(1024, (512, 3), (2**64 - 512, 3)), {}),
    ("the highest flag of base:allocation", told_wide(512, (512, 1 << 63)), {"allocation-flags": 1}),
]
