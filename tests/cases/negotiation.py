"""Sessions that keep to the rules of negotiation, and some that end in it."""

from cases.case import Case
from messages import (
    ABORT, CLIENT, EXPORT_NAME, FLAGS, LIST, SERVER, SERVER_NAME, STARTTLS, ZEROES, ack, answer, client_flags, entered, error, go, greeting,
    option, read, simple,
)

A_SESSION_MAY_END_IN_NEGOTIATION = [
    Case(
        name="an empty session",
        capture=[],
        order="",
        want="yes requests 0 answered 0 improper 0\n",
    ),
    Case(
        name="an empty session has no request to name",
        capture=[],
        order="1\n",
        want="no order entry 1: NoSuchRequest\n",
    ),
    Case(
        name="an option that is not answered",
        capture=[*FLAGS, option(LIST)],
        order="",
        want="yes requests 0 answered 0 improper 0\n",
    ),
    Case(
        name="an option of which only the head came",
        capture=[
            *FLAGS,
            # LIST that announces 4294967295 bytes of data.
            option(LIST, length=2**32 - 1),
        ],
        order="",
        want="no at byte 38: Unfinished\n",
    ),
    Case(
        name="a server that closes at a name that it does not serve",
        capture=[*FLAGS, option(EXPORT_NAME, b"disk")],
        order="",
        want="yes requests 0 answered 0 improper 0\n",
    ),
]

THE_LIST_OF_EXPORTS = [
    Case(
        name="one export is listed",
        capture=[*FLAGS, option(LIST), answer(LIST, SERVER_NAME, b"\0\0\0\4disk"), ack(LIST)],
        order="",
        want="yes requests 0 answered 0 improper 0\n",
    ),
    Case(
        name="LIST with data is acknowledged",
        capture=[*FLAGS, option(LIST, b"\0"), ack(LIST)],
        order="",
        want="no at byte 59: SuccessOfImproper\n",
    ),
    Case(
        name="LIST with data is answered by an error",
        capture=[*FLAGS, option(LIST, b"\0"), error(LIST)],
        order="",
        want="yes requests 0 answered 0 improper 0\n",
    ),
]

ENDS_BY_ABORT = [
    Case(
        name="ABORT is acknowledged",
        capture=[*FLAGS, option(ABORT), ack(ABORT)],
        order="",
        want="yes requests 0 answered 0 improper 0\n",
    ),
    Case(
        name="ABORT may have data",
        capture=[*FLAGS, option(ABORT, b"\0"), ack(ABORT)],
        order="",
        want="yes requests 0 answered 0 improper 0\n",
    ),
    Case(
        name="a client that speaks after ABORT",
        capture=[
            *FLAGS, option(ABORT), ack(ABORT),
            # A byte of whatever.
            (CLIENT, b"\0"),
        ],
        order="",
        want="no at byte 59: OutOfTurn\n",
    ),
]

AN_OPTION_THAT_THE_SERVER_REFUSES = [
    Case(
        name="STARTTLS is refused, and GO follows",
        capture=[*FLAGS, option(STARTTLS), error(STARTTLS, 0x80000001), *go()],
        order="",
        want="yes requests 0 answered 0 improper 0\n",
    ),
    Case(
        name="STARTTLS is accepted",
        capture=[*FLAGS, option(STARTTLS), ack(STARTTLS)],
        order="",
        want="no at byte 58: OutOfProfile\n",
    ),
]

THE_ANSWER_TO_EXPORT_NAME = [
    Case(
        name="the 124 zeroes are there, since the client wants them",
        capture=[
            # The greeting offers to leave the zeroes out; the client does not ask for it.
            greeting(), client_flags(1), option(EXPORT_NAME, b"disk"), entered(), *ZEROES, read(1, 0, 1), simple(1, b"\0"),
        ],
        order="1\n",
        want="yes requests 1 answered 1 improper 0\n",
    ),
    Case(
        name="one of the 124 bytes is not zero",
        capture=[
            # As above, but for one of the zeroes.
            greeting(), client_flags(1), option(EXPORT_NAME, b"disk"), entered(),
            *ZEROES[:2], (SERVER, bytes(15) + b"\1" + bytes(15)), ZEROES[3], read(1, 0, 1), simple(1, b"\0"),
        ],
        order="1\n",
        want="no at byte 176: BadExport\n",
    ),
    Case(
        name="the zeroes are left out, as agreed",
        capture=[*FLAGS, option(EXPORT_NAME, b"disk"), entered(), read(1, 0, 1), simple(1, b"\0")],
        order="1\n",
        want="yes requests 1 answered 1 improper 0\n",
    ),
]

CASES = (
    A_SESSION_MAY_END_IN_NEGOTIATION + THE_LIST_OF_EXPORTS + ENDS_BY_ABORT + AN_OPTION_THAT_THE_SERVER_REFUSES +
    THE_ANSWER_TO_EXPORT_NAME
)
REFUSED = []
