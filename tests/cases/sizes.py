"""Sessions whose server announces block sizes, and what `check` says of each in both profiles: on an export of 8 bytes of zeroes
unless said.

In `wide` an announcement is refused where its numbers may not be, and a client that asked for the sizes in the GO that led into
transmission is held to them: what it asks outside of them counts as improper, and is served and compared as anything else. In
`base` an announcement has 14 bytes of any value, and no client is held to it.
"""

from cases.case import at, cases, followed, upto, yes
from cases.contexts import LENGTH
from cases.statuses import OFFERED
from messages import (
    ABORT, CACHE, EXPORT_INFO, FLAGS, GO, INFO, LIST, STARTTLS, STRUCTURED_REPLY, TRIM, WRITE_ZEROES, ack, answer, asking, by_name, cut,
    error, export, go, go_data, option, read, request, simple, sizes, status, write,
)

SIZES = 2, 512, 4
ASKED = asking(3)


def begun(*numbers, size=8, flags=OFFERED):
    """A negotiation that asks for the sizes and is told these: 132 bytes, the announcement up to byte 80."""
    return FLAGS + [ASKED, sizes(*(numbers or SIZES)), export(size=size, flags=flags), ack(GO)]


def counted(name, begin, messages, base, wide, start="zero"):
    """A session whose requests are all answered, served as they came, and how many of them count as improper."""
    count = sum(side == "C" for side, _ in messages)
    return followed(name, begin + messages, yes(count, base), yes(count, wide), upto(count), start)


def alike(name, records, line, order="1\n", start="zero"):
    """A session that is the same in both profiles."""
    return followed(name, records, line, line, order, start)


def ok(cookie, data=b""):
    return simple(cookie, data)


def fails(cookie):
    return simple(cookie, error=22)


ODD_READ = [read(1, 1, 1), ok(1, b"\0")]

REQUESTS = [
    counted("sizes: a READ inside", begun(), [read(1, 0, 4), ok(1, bytes(4))], 0, 0),
    counted("sizes: a READ at an odd offset", begun(), [read(1, 1, 2), ok(1, bytes(2))], 0, 1),
    counted("sizes: a READ at an odd offset fails", begun(), [read(1, 1, 2), fails(1)], 0, 1),
    counted("sizes: a READ of an odd length", begun(), [read(1, 0, 3), ok(1, bytes(3))], 0, 1),
    counted("sizes: a READ of no bytes", begun(), [read(1, 0, 0), ok(1)], 0, 0),
    alike("sizes: a wrong byte of a READ inside", begun() + [read(1, 0, 4), ok(1, b"\0\0\0\1")],
          "no content request 1 offset 3\n"),
    counted("sizes: a READ longer than the largest", begun(), [read(1, 0, 6), ok(1, bytes(6))], 0, 1),
    counted("sizes: a WRITE longer than the largest", begun(), [write(1, 0, bytes(6)), ok(1)], 0, 1),
    counted("sizes: a TRIM longer than the largest", begun(), [request(TRIM, 1, 0, 8), ok(1)], 0, 0),
    counted("sizes: a WRITE_ZEROES longer than the largest", begun(), [request(WRITE_ZEROES, 1, 0, 8), ok(1)], 0, 0),
    counted("sizes: a CACHE longer than the largest", begun(), [request(CACHE, 1, 0, 8), ok(1)], 0, 0),
    counted("sizes: a WRITE_ZEROES of an odd length", begun(), [request(WRITE_ZEROES, 1, 0, 7), ok(1)], 0, 1),
    counted("sizes: a READ where the largest is no limit", begun(2, 512, LENGTH), [read(1, 0, 6), ok(1, bytes(6))], 0, 0),
    counted("sizes: a READ that is improper and outside fails", begun(), [read(1, 7, 2), fails(1)], 1, 1),
    alike("sizes: a READ that is improper and outside succeeds", begun() + [read(1, 7, 2), ok(1, bytes(2))],
          at(178, "SuccessOfImproper")),
    counted("sizes: an odd BLOCK_STATUS without a context", begun(), [status(1, 1, 1), fails(1)], 1, 1),
]

TOLD_UNASKED = FLAGS + [option(GO, go_data()), sizes(*SIZES), export(), ack(GO)]
TOLD_BY_INFO = FLAGS + [asking(3, number=INFO), sizes(*SIZES, to=INFO), export(INFO), ack(INFO)]
FAILED_GO = FLAGS + [ASKED, sizes(*SIZES), error(GO, 0x80000006)]
WITHOUT = [ASKED, export(), ack(GO)]


def odd(name, begin, is_held):
    """A READ of the byte at offset 1, which is outside where a least size of 2 is in force."""
    return counted(f"sizes: {name}", begin, ODD_READ, 0, 1 if is_held else 0)


def told(*numbers):
    """GO is asked for the sizes, and this is told."""
    return FLAGS + [ASKED, *numbers, export(), ack(GO)]


IN_FORCE = [
    odd("GO that did not ask is told them", TOLD_UNASKED, False),
    odd("INFO is told them, and GO does not ask", TOLD_BY_INFO + go(), False),
    odd("INFO is told them, and EXPORT_NAME enters", TOLD_BY_INFO + by_name(b"", padded=False), False),
    odd("a GO fails that was told them, and the next is not", FAILED_GO + WITHOUT, False),
    odd("the second announcement counts", told(sizes(1, 512, 4), sizes(*SIZES)), True),
    odd("the first announcement does not count", told(sizes(*SIZES), sizes(1, 512, 4)), False),
    odd("the last of three announcements counts", told(sizes(2, 512, 4), sizes(1, 512, 4), sizes(4, 512, 4)), True),
    odd("they come behind the info on the export", FLAGS + [ASKED, export(), sizes(*SIZES), ack(GO)], True),
    odd("the export is told before and behind them", FLAGS + [ASKED, export(), sizes(*SIZES), export(), ack(GO)], True),
    odd("another info stands behind them", told(sizes(*SIZES), answer(GO, EXPORT_INFO, b"\0\1disk")), True),
    odd("GO asks, and is not told", told(), False),
    odd("INFO is told them, and GO asks and is not told", TOLD_BY_INFO + WITHOUT, False),
    odd("INFO is told them, and GO asks and is told others", TOLD_BY_INFO + told(sizes(1, 512, 4))[2:], False),
    odd("INFO is told others, and GO asks and is told", TOLD_BY_INFO + begun()[2:], True),
    odd("INFO behind a GO that failed is told them", FAILED_GO + TOLD_BY_INFO[2:] + WITHOUT, False),
    odd("INFO asks, and GO does not and is told", FLAGS + [asking(3, number=INFO), export(INFO), ack(INFO)] + TOLD_UNASKED[2:], False),
    odd("a GO fails that was told them, and the next does not ask", FAILED_GO + TOLD_UNASKED[2:], False),
    odd("a GO fails that did not ask, and the next does", FLAGS + [option(GO, go_data()), error(GO)] + begun()[2:], True),
    odd("a GO fails that was told others, and the next is told", FLAGS + [ASKED, sizes(1, 512, 4), error(GO)] + begun()[2:], True),
    odd("a GO fails that was told them, and EXPORT_NAME enters", FAILED_GO + by_name(b""), False),
    odd("a GO for another export was told them", FLAGS + [asking(3, name=b"disk"), sizes(*SIZES), error(GO)] + go(), False),
    odd("GO asks for them on an export with a name", FLAGS + [asking(3, name=b"disk"), *begun()[3:]], True),
    odd("LIST stands between two GOs", FAILED_GO + [option(LIST), ack(LIST)] + begun()[2:], True),
    odd("structured replies are refused", FLAGS + [option(STRUCTURED_REPLY), error(STRUCTURED_REPLY)] + begun()[2:], True),
    alike("sizes: an announcement alone", FLAGS + [ASKED, sizes(*SIZES), ack(GO)], at(100, "MissingExportInfo"), ""),
]

# The kinds of info that GO asks for, and whether the block sizes are among them.
KINDS = {(3,): True, (0, 3): True, (3, 0): True, (0, 1, 2, 3): True, (3, 3): True, (LENGTH >> 16, 3): True, (3, LENGTH >> 16): True,
         (): False, (0,): False, (2,): False, (4,): False, (1, 2): False, (0, 1, 2): False, (0x0300,): False, (0x0103,): False,
         (0x8003,): False}

ASKS = [
    odd(f"GO asks for {infos}", FLAGS + [asking(*infos), *begun()[3:]], is_held) for infos, is_held in KINDS.items()
] + [
    odd("a name that has the bytes of an info", FLAGS + [asking(name=b"\0\1\0\3"), *begun()[3:]], False),
    odd("two kinds whose bytes have a 3 across them", FLAGS + [asking(0x0100, 0x0300), *begun()[3:]], False),
]

# Data of GO that does not have the form, though the number 3 stands in it.
MALFORMED = {
    "count 0": bytes(4) + b"\0\0\0\3", "count 2": bytes(4) + b"\0\2\0\3", "a byte behind": bytes(4) + b"\0\1\0\3\0",
    "a byte short": bytes(4) + b"\0\2\0\3\0", "a longer name": b"\0\0\0\x05\0\1\0\3",
}


def malformed(name, data):
    """A GO of malformed data, which only an error may answer."""
    begin = FLAGS + [option(GO, data)]
    last = 22 + 16 + len(data) + 34
    yield alike(f"sizes: malformed GO, {name}, is told them", begin + [sizes(*SIZES)], at(last, "SuccessOfImproper"), "")
    yield odd(f"malformed GO, {name}, and another GO", begin + [error(GO)] + TOLD_UNASKED[2:], False)


ODD_DATA = [told for name, data in MALFORMED.items() for told in malformed(name, data)]


def announced(*numbers, is_taken):
    """An announcement that was asked for, up to byte 80."""
    words = " ".join(map(str, numbers))
    return followed(f"sizes: {words} are announced", begun(*numbers), yes(0), yes(0) if is_taken else at(80, "BadReplyPayload"))


LEASTS = [2**bit for bit in range(17)]
NO_LEASTS = [0, 5, 6, 7, 9, 511, 513, 4095, 4097, 65535, 65537, 0x20000, 2**24, 2**31, LENGTH]
# The least, the preferred and the largest size.
TAKEN = [
    (65536, 65536, LENGTH), (1, 512, 1), (1, 1024, 1), (1, 2**31, 1), (4096, 8192, 4096), (512, 512, 512), (1024, 1024, 1024),
    (2, 512, 4), (2, 512, 2**32 - 2), (65536, 65536, 2**32 - 65536), (4096, 4096, 2**25), (512, 4096, 32768), (1, 512, 2**31),
    (1, 512, 2**32 - 2), (1, 512, LENGTH),
    # The largest is no multiple of the least.
    (2, 512, 5), (2, 512, 1), (2, 512, 3), (2, 512, 513), (512, 4096, 65535), (4096, 4096, 4095), (4096, 4096, 4097), (4096, 4096, 2048),
    (65536, 65536, 65535), (65536, 65536, 98304), (4, 512, 2**32 - 2), (65536, 65536, 2**32 - 32768), (512, 512, 768),
]
REFUSED = [
    (0, 512, 512), (3, 512, 1536), (131072, 131072, 131072), (1, 256, 512), (1024, 512, 1024), (1, 513, 1024),
    (1, 512, 0), (1, 0, 1), (1, 1, 1), (1, 511, 1), (1, 768, 1), (1, 1023, 1), (1, LENGTH, 1), (1, 2**31 + 1, 1), (4096, 2048, 4096),
    (65536, 32768, 65536), (65536, 512, 65536), (2, 512, 0), (4096, 4096, 0), (65536, 65536, 0),
    (0, 0, 0), (0, 512, 0), (0, 512, LENGTH), (LENGTH, LENGTH, LENGTH),
]

ANNOUNCED = [announced(*numbers, is_taken=True) for numbers in TAKEN] + [announced(*numbers, is_taken=False) for numbers in REFUSED]
ANNOUNCED += [announced(least, max(512, least), 3 * least, is_taken=True) for least in LEASTS]
ANNOUNCED += [announced(least, 2**31, LENGTH, is_taken=False) for least in NO_LEASTS]

BAD = sizes(0, 512, 512)


def refused(name, records, place, behind=()):
    """A malformed announcement, which `base` takes."""
    return followed(f"sizes: {name}", FLAGS + [*records, *behind], yes(0), at(place, "BadReplyPayload"))


OF_INFO = sizes(0, 512, 512, to=INFO)

REFUSALS = [
    refused("a malformed announcement to GO that did not ask", [option(GO, go_data()), BAD], 78),
    refused("a malformed announcement to INFO that asked", [asking(3, number=INFO), OF_INFO], 80),
    refused("a malformed announcement to INFO that did not ask", [option(INFO, go_data()), OF_INFO], 78),
    refused("a malformed announcement, and an error", [ASKED, BAD, error(GO)], 80),
    refused("a malformed announcement, and a good one", [ASKED, BAD, sizes(*SIZES), export(), ack(GO)], 80),
    refused("a good announcement, and a malformed one", [ASKED, sizes(*SIZES), BAD], 114),
    refused("a malformed announcement behind the info on the export", [ASKED, export(), BAD, ack(GO)], 112),
    refused("a malformed announcement to a second GO", [ASKED, error(GO), ASKED, BAD], 124),
    followed("sizes: a malformed announcement to malformed GO", FLAGS + [option(GO, bytes(4) + b"\0\2\0\3"), BAD],
             at(80, "SuccessOfImproper"), at(80, "BadReplyPayload")),
    followed("sizes: requests behind a malformed announcement", begun(3, 512, 3) + ODD_READ, yes(1), at(80, "BadReplyPayload"), "1\n"),
]

FORMS = [
    alike("sizes: an announcement of a byte less", FLAGS + [ASKED, answer(GO, 3, b"\0\3" + bytes(11))], at(79, "BadReplyPayload"), ""),
    alike("sizes: an announcement of a byte more", FLAGS + [ASKED, answer(GO, 3, sizes(*SIZES)[1][20:] + b"\0")],
          at(81, "BadReplyPayload"), ""),
    alike("sizes: an announcement without sizes", FLAGS + [ASKED, answer(GO, 3, b"\0\3")], at(68, "BadReplyPayload"), ""),
    alike("sizes: an announcement of two sizes", FLAGS + [ASKED, answer(GO, 3, sizes(*SIZES)[1][20:30])], at(76, "BadReplyPayload"), ""),
    alike("sizes: an announcement without its last byte", FLAGS + [ASKED, cut(BAD, 33)[0]], at(79, "Unfinished"), ""),
    alike("sizes: an info of another kind with the bytes of a bad announcement",
          FLAGS + [ASKED, answer(GO, 3, b"\0\4" + bytes(12)), export(), ack(GO)], yes(0), ""),
    alike("sizes: an announcement to LIST", FLAGS + [option(LIST), sizes(*SIZES, to=LIST)], at(58, "BadReplyKind"), ""),
    alike("sizes: an announcement to ABORT", FLAGS + [option(ABORT), sizes(*SIZES, to=ABORT)], at(58, "BadReplyKind"), ""),
    alike("sizes: an announcement to STARTTLS", FLAGS + [option(STARTTLS), sizes(*SIZES, to=STARTTLS)], at(58), ""),
    alike("sizes: an announcement behind ACK", begun() + [sizes(*SIZES)], at(136, "BadMagic"), ""),
]

TABLE = REQUESTS + IN_FORCE + ASKS + ODD_DATA + ANNOUNCED + REFUSALS + FORMS

CASES = [case for told in TABLE for case in cases(told)]
