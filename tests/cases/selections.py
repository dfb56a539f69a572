"""Sessions in which metadata contexts are negotiated, beside those of contexts.py: options with odd data, odd answers, ids, and which selection
counts for the export that is entered.
"""

from cases.case import at, cases, followed, yes
from cases.contexts import FAILED_1, LENGTH, ONE_CONTEXT, SIMPLE, STATUS_1, WRITTEN
from messages import (
    ABORT, ACK, ALLOCATION, CHUNKS, DEPTH, DISC, DONE, EXPORT_INFO, EXTENDED_HEADERS, FLAGS, GO, INFO, LIST, LIST_META_CONTEXT,
    META_CONTEXT, SERVER_NAME, SET_META_CONTEXT, STARTTLS, STRUCTURED, STRUCTURED_REPLY, ack, allocation, answer, by_name,
    client_flags, content, context, cut, error, export_info, go, go_data, granted, greeting, listing, named, option, queries,
    read, request, setting, simple, told_last,
)

# Data of LIST_META_CONTEXT and SET_META_CONTEXT that does not have the form.
ODD_DATA = {
    "no data": b"",
    "two bytes of data": bytes(2),
    "a name that is longer than the data": named(b"disks")[:-1],
    "the longest name, and no byte of it": b"\xff" * 4,
    "a name without a count behind it": named(b"disk"),
    "a count larger than the queries": queries(b"", ALLOCATION, count=2),
    "the largest count": queries(b"", ALLOCATION, count=LENGTH),
    "a count smaller than the queries": queries(b"", ALLOCATION, DEPTH, count=1),
    "a query's length past the end": queries(b"", ALLOCATION)[:-1],
    "a byte behind the count 0": queries(b"") + b"x",
}
OF_CONTEXTS = {"LIST_META_CONTEXT": LIST_META_CONTEXT, "SET_META_CONTEXT": SET_META_CONTEXT}


def odd(word, number, form, data):
    """An option with odd data, which only an error may answer. The head of its answer ends at the byte `head`."""
    odd_one, head = FLAGS + [option(number, data)], 22 + 16 + len(data) + 20
    yield followed(f"{word}, {form}: an error", odd_one + [error(number)], yes(0), yes(0))
    yield followed(f"{word}, {form}: ACK", odd_one + [ack(number)], at(head), at(head, "SuccessOfImproper"))
    yield followed(f"{word}, {form}: a context", odd_one + [allocation(1, number)], at(head),
                   at(head + 19, "SuccessOfImproper"))


ODD_OPTIONS = [
    told for word, number in OF_CONTEXTS.items() for form, data in ODD_DATA.items() for told in odd(word, number, form, data)
]


def answered(word, number, what, kind, payload, place, fault):
    """An option for base:allocation [65], answered so; the head of the answer ends at byte 85."""
    records = FLAGS + [option(number, queries(b"", ALLOCATION)), answer(number, kind, payload)]
    return followed(f"{word} is answered by {what}", records, at(85), at(place, fault))


ODD_ANSWERS = [
    answered(word, number, *how) for word, number in OF_CONTEXTS.items() for how in (
        ("the name of an export", SERVER_NAME, named(b"disk"), 85, "BadReplyKind"),
        ("an info on the export", EXPORT_INFO, export_info(), 85, "BadReplyKind"),
        ("the kind 0", 0, b"", 85, "BadReplyKind"),
        ("the kind 5", 5, b"", 85, "BadReplyKind"),
        ("the largest kind that is no error", 2**31 - 1, b"", 85, "BadReplyKind"),
        ("an ACK of a byte", ACK, b"\0", 85, "BadReplyPayload"),
        ("a context without an id", META_CONTEXT, b"", 85, "BadReplyPayload"),
        ("a context with three bytes of an id", META_CONTEXT, b"\0\0\1", 88, "BadReplyPayload"),
    )
]


def to_another(word, number, data, place):
    """An option that no context answers, in either profile: the head of its answer ends at this byte."""
    return followed(f"{word} is answered by a context", FLAGS + [option(number, data), allocation(1, number)],
                    at(place, "BadReplyKind"), at(place, "BadReplyKind"))


def not_followed(word, number, what, reply):
    """An option that neither profile follows."""
    return followed(f"{word} is answered by {what}", FLAGS + [option(number), reply], at(58), at(58))


OTHER_OPTIONS = [
    to_another("ABORT", ABORT, b"", 58),
    to_another("LIST", LIST, b"", 58),
    to_another("INFO", INFO, go_data(), 64),
    to_another("GO", GO, go_data(), 64),
    to_another("STRUCTURED_REPLY", STRUCTURED_REPLY, b"", 58),
    not_followed("STARTTLS", STARTTLS, "ACK", ack(STARTTLS)),
    followed("EXTENDED_HEADERS is answered by ACK", FLAGS + [option(EXTENDED_HEADERS), ack(EXTENDED_HEADERS)], at(58), yes(0)),
    not_followed("an unknown option", 12, "ACK", ack(12)),
    not_followed("STARTTLS", STARTTLS, "a context", allocation(1, STARTTLS)),
    followed("EXTENDED_HEADERS is answered by a context", FLAGS + [option(EXTENDED_HEADERS), allocation(1, EXTENDED_HEADERS)], at(58),
             at(58, "BadReplyKind")),
    followed("STARTTLS and EXTENDED_HEADERS are refused", FLAGS + [
        option(STARTTLS), error(STARTTLS), option(EXTENDED_HEADERS), error(EXTENDED_HEADERS)], yes(0), yes(0)),
]

TOLD_1_AND_2 = FLAGS + [setting(ALLOCATION), allocation(1), context(2, DEPTH)]
MANY = FLAGS + [setting(b"x:")] + [context(number, b"x:%d" % number) for number in range(300)]

IDS = [
    followed("a context without a name", FLAGS + [setting(ALLOCATION), context(1, b""), ack()], at(85), yes(0)),
    followed("the largest id", FLAGS + [setting(ALLOCATION), allocation(LENGTH), ack()], at(85), yes(0)),
    followed("two ids for one name", FLAGS + [setting(ALLOCATION), allocation(1), allocation(2), ack()], at(85), yes(0)),
    followed("the third context has the id of the first", TOLD_1_AND_2 + [context(1, b"x:y")], at(85),
             at(176, "BadReplyPayload")),
    followed("one context twice", FLAGS + [setting(ALLOCATION), allocation(1), allocation(1)], at(85),
             at(143, "BadReplyPayload")),
    followed("one context twice in a list", FLAGS + [listing(ALLOCATION), *[allocation(1, LIST_META_CONTEXT)] * 2,
                                                     ack(LIST_META_CONTEXT)], at(85), yes(0)),
    followed("one id in two selections", FLAGS + granted() + granted(), at(85), yes(0)),
    followed("one id in two selections of which the first failed",
             FLAGS + [setting(ALLOCATION), allocation(1), error()] + granted(), at(85), yes(0)),
    followed("one id in a list and in the selection behind it", FLAGS + [
        listing(), allocation(1, LIST_META_CONTEXT), ack(LIST_META_CONTEXT)] + granted(), at(66), yes(0)),
    followed("300 contexts", MANY + [ack()], at(72), yes(0)),
    followed("300 contexts, and the id of one of them again", MANY + [context(1, b"x:y")], at(72), at(8669, "BadReplyPayload")),
]


def selected(name, negotiation, base, in_force):
    """A session whose one request is a BLOCK_STATUS, which an error answers: it is proper where a context is in force."""
    return followed(name, negotiation + [STATUS_1, FAILED_1], at(base), yes(1, 0 if in_force else 1), "1\n")


DISK = granted(name=b"disk")
ANOTHER = [option(INFO, go_data(b"other")), answer(INFO, EXPORT_INFO, export_info()), ack(INFO)]
REFUSED_GO = [option(GO, go_data(b"other")), error(GO)]
REFUSED_DISK = [option(GO, go_data(b"disk")), answer(GO, EXPORT_INFO, export_info()), error(GO)]
PADDED = [greeting(), client_flags(1)] + STRUCTURED + DISK
# GO for `disk`, which asks for the block sizes.
ASKING_GO = [option(GO, named(b"disk") + b"\0\1\0\3"), *go()[1:]]

EXPORTS = [
    selected("the export that GO names", CHUNKS + DISK + go(b"disk"), 125, True),
    selected("GO asks for an info", CHUNKS + DISK + ASKING_GO, 125, True),
    selected("a name that differs in the last byte", CHUNKS + DISK + go(b"disl"), 125, False),
    selected("a name that differs in the first byte", CHUNKS + DISK + go(b"Disk"), 125, False),
    selected("a name with one byte more", CHUNKS + DISK + go(b"disk\0"), 125, False),
    selected("a name with one byte less", CHUNKS + DISK + go(b"dis"), 125, False),
    selected("the empty name is that of no other export", CHUNKS + granted() + go(b"disk"), 121, False),
    selected("EXPORT_NAME names another export", CHUNKS + DISK + by_name(b"disl"), 125, False),
    selected("EXPORT_NAME has the empty name", CHUNKS + granted() + by_name(b""), 121, True),
    selected("EXPORT_NAME is answered with 124 zeroes", PADDED + by_name(b"disk", padded=True), 125, True),
    selected("EXPORT_NAME without structured replies", FLAGS + DISK + by_name(b"disk"), 89, False),
    selected("a GO for another export fails", CHUNKS + DISK + REFUSED_GO + go(b"disk"), 125, True),
    selected("a GO fails, and one for another export succeeds", CHUNKS + DISK + REFUSED_DISK + go(b"other"), 125, False),
    selected("a GO fails and is sent again", CHUNKS + DISK + REFUSED_DISK + go(b"disk"), 125, True),
    selected("INFO is asked on another export", CHUNKS + DISK + ANOTHER + go(b"disk"), 125, True),
    selected("INFO is asked on the export, and GO enters another", CHUNKS + DISK + [
        option(INFO, go_data(b"disk")), *ANOTHER[1:]] + go(b"other"), 125, False),
]

BETWEEN = [
    selected("contexts of another export are listed behind a selection",
             CHUNKS + DISK + [listing(b"base:", name=b"other"), allocation(0, LIST_META_CONTEXT), ack(LIST_META_CONTEXT)] +
             go(b"disk"), 125, True),
    selected("a list that fails behind a selection",
             CHUNKS + DISK + [listing(b"base:", name=b"other"), error(LIST_META_CONTEXT)] + go(b"disk"), 125, True),
    selected("exports are listed behind a selection", CHUNKS + DISK + [option(LIST), ack(LIST)] + go(b"disk"), 125, True),
    selected("STARTTLS is refused behind a selection",
             CHUNKS + DISK + [option(STARTTLS), error(STARTTLS)] + go(b"disk"), 125, True),
    selected("STRUCTURED_REPLY is repeated behind a selection", CHUNKS + granted() + STRUCTURED + go(), 121, True),
    selected("a repeated STRUCTURED_REPLY fails",
             CHUNKS + granted() + [option(STRUCTURED_REPLY), error(STRUCTURED_REPLY)] + go(), 121, True),
    selected("STRUCTURED_REPLY fails behind a selection",
             SIMPLE + [option(STRUCTURED_REPLY), error(STRUCTURED_REPLY)] + go(), 85, False),
]

SELECTIONS = [
    selected("no context comes", CHUNKS + [setting(ALLOCATION), ack()] + go(), 121, False),
    selected("a context comes and an error", CHUNKS + [setting(ALLOCATION), allocation(1), error()] + go(), 121, False),
    selected("a selection fails, and the next has the same id",
             CHUNKS + [setting(ALLOCATION), allocation(1), error()] + granted() + go(), 121, True),
    selected("a second selection fails at once", CHUNKS + granted() + [setting(ALLOCATION), error()] + go(), 121, False),
    selected("a second selection with odd data fails",
             CHUNKS + granted() + [option(SET_META_CONTEXT), error()] + go(), 121, False),
    selected("a second selection finds no context", CHUNKS + granted() + [setting(b"x:y"), ack()] + go(), 121, False),
    selected("a second selection for the export that GO names", CHUNKS + granted() + DISK + go(b"disk"), 121, True),
    selected("a second selection for another export than GO names", CHUNKS + granted() + DISK + go(), 121, False),
    selected("selections before and behind STRUCTURED_REPLY", SIMPLE + STRUCTURED + granted(2) + go(), 85, True),
    selected("the selection behind STRUCTURED_REPLY fails",
             SIMPLE + STRUCTURED + [setting(ALLOCATION), error()] + go(), 85, False),
    selected("300 contexts are in force", MANY + [ack()] + STRUCTURED + go(), 72, True),
    followed("the selection behind STRUCTURED_REPLY counts",
             SIMPLE + STRUCTURED + granted(2) + go() + [STATUS_1, told_last(1, 2, (8, 0))], at(85), yes(1), "1\n"),
    followed("the selection before STRUCTURED_REPLY no longer counts",
             SIMPLE + STRUCTURED + granted(2) + go() + [STATUS_1, told_last(1, 1, (8, 0))], at(85), at(396, "BadContent"),
             "1\n"),
]

TURNS = [
    followed("a selection that is not answered", FLAGS + [setting(ALLOCATION)], yes(0), yes(0)),
    followed("a selection whose answer has no end", FLAGS + [setting(ALLOCATION), allocation(1)], at(85), yes(0)),
    followed("a client that does not wait for the end of the answer",
             FLAGS + [setting(ALLOCATION), allocation(1), option(GO, go_data())], at(85), at(105, "OutOfTurn")),
    followed("a context that comes behind ACK", SIMPLE + [allocation(2)], at(85), at(125, "OutOfTurn")),
    followed("a context of which the last byte is missing", FLAGS + [setting(ALLOCATION), cut(allocation(1), 38)[0]], at(85),
             at(103, "Unfinished")),
    followed("a selection is answered as a list", FLAGS + [setting(ALLOCATION), allocation(1, LIST_META_CONTEXT)],
             at(85, "WrongOption"), at(85, "WrongOption")),
    followed("a list is answered as a selection", FLAGS + [listing(ALLOCATION), ack()], at(85, "WrongOption"),
             at(85, "WrongOption")),
]

REQUESTS = [
    followed("a context is in force, and no status is asked", ONE_CONTEXT + [
        WRITTEN, simple(1), read(2, 0, 2), content(2, 0, b"\xab\xcd", DONE)], at(121), yes(2), "1\n2\n"),
    followed("a context is in force, and a READ gives a wrong byte", ONE_CONTEXT + [
        WRITTEN, simple(1), read(2, 0, 2), content(2, 0, b"\xab\xce", DONE)], at(121),
        "no content request 2 offset 1\n", "1\n2\n"),
    followed("a context is in force, and an image has another size", ONE_CONTEXT, at(121), "no image 9 size 8\n",
             start=bytes(9)),
    followed("a status of which the last byte is missing", ONE_CONTEXT + [cut(STATUS_1, 27)[0]], at(121),
             at(261, "Unfinished")),
    followed("a status behind DISC", ONE_CONTEXT + [request(DISC, 9, 0, 0), STATUS_1], at(121), at(263, "OutOfTurn")),
    followed("a status with the cookie of a READ that is not answered", ONE_CONTEXT + [read(1, 0, 8), STATUS_1], at(121),
             at(290, "CookieInUse")),
]

NEGOTIATION_TABLE = ODD_OPTIONS + ODD_ANSWERS + OTHER_OPTIONS + IDS + EXPORTS + BETWEEN + SELECTIONS + TURNS + REQUESTS

CASES = [case for told in NEGOTIATION_TABLE for case in cases(told)]
