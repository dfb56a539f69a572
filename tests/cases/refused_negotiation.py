"""Sessions that break a rule of negotiation."""

from cases.case import Case
from messages import (
    CLIENT, EXPORT_INFO, FLAGS, GO, INFO, SERVER, SERVER_NAME, ack, answer, begun, client_flags, export_info, go_data, greeting, option,
)

ASK_GO = [*FLAGS, option(GO, go_data())]

GREETINGS_AND_FLAGS = [
    Case(
        name="the client speaks first",
        capture=[(CLIENT, b"\0")],
        order="",
        want="no at byte 1: OutOfTurn\n",
    ),
    Case(
        name="the greeting's last magic byte is wrong",
        capture=[(SERVER, b"NBDMAGICIHAVEOPU\0\3")],
        order="",
        want="no at byte 18: BadMagic\n",
    ),
    Case(
        name="the server does not offer fixed newstyle",
        # Of the two flags only the one on zeroes.
        capture=[greeting(2)],
        order="",
        want="no at byte 18: NotFixedNewstyle\n",
    ),
    Case(
        name="the client takes a flag that was not offered",
        # Fixed newstyle is offered; fixed newstyle and no zeroes are taken.
        capture=[greeting(1), client_flags(3)],
        order="",
        want="no at byte 22: BadClientFlags\n",
    ),
]

ANSWERS_TO_GO = [
    Case(
        name="an answer to another option",
        capture=[*ASK_GO, answer(INFO, EXPORT_INFO)],
        order="",
        want="no at byte 64: WrongOption\n",
    ),
    Case(
        name="an answer of a kind that GO does not take",
        capture=[*ASK_GO, answer(GO, SERVER_NAME)],
        order="",
        want="no at byte 64: BadReplyKind\n",
    ),
    Case(
        name="ACK before the export was described",
        capture=[*ASK_GO, ack(GO)],
        order="",
        want="no at byte 64: MissingExportInfo\n",
    ),
    Case(
        name="an info on the export that is a byte short",
        capture=[*ASK_GO, answer(GO, EXPORT_INFO, export_info()[:-1])],
        order="",
        want="no at byte 75: BadReplyPayload\n",
    ),
    Case(
        name="an export of a byte more than the limit",
        capture=begun(size=2**63),
        order="",
        want="no at byte 96: ExportTooLarge\n",
    ),
]

CASES = []
REFUSED = GREETINGS_AND_FLAGS + ANSWERS_TO_GO
