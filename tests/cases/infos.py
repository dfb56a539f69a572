"""Which infos on the export count."""

from cases.case import Case
from messages import FLAGS, GO, INFO, ack, error, export, go, go_data, option, read, simple

ASK_INFO, ASK_GO = option(INFO, go_data()), option(GO, go_data())

THE_LAST_INFO_COUNTS = [
    Case(
        name="INFO is answered, and GO afterwards",
        capture=[*FLAGS, ASK_INFO, export(INFO), ack(INFO), *go(), read(1, 0, 1), simple(1, b"\0")],
        order="1\n",
        want="yes requests 1 answered 1 improper 0\n",
    ),
    Case(
        name="an info of 4 bytes and then one of 8: the export has 8",
        capture=[*FLAGS, ASK_GO, export(size=4), export(), ack(GO), read(1, 0, 8), simple(1, bytes(8))],
        order="1\n",
        want="yes requests 1 answered 1 improper 0\n",
    ),
    Case(
        name="an info of 8 bytes and then one of 4: the export has 4",
        capture=[*FLAGS, ASK_GO, export(), export(size=4), ack(GO), read(1, 0, 8), simple(1, error=22)],
        order="1\n",
        want="yes requests 1 answered 1 improper 1\n",
    ),
]

NO_INFO_COUNTS = [
    Case(
        name="INFO is acknowledged without an info on the export",
        capture=[*FLAGS, ASK_INFO, ack(INFO)],
        order="",
        want="no at byte 64: MissingExportInfo\n",
    ),
    Case(
        name="an info that an error followed is forgotten",
        capture=[*FLAGS, ASK_GO, export(), error(GO), ASK_GO, ack(GO)],
        order="",
        want="no at byte 138: MissingExportInfo\n",
    ),
]

CASES = THE_LAST_INFO_COUNTS
REFUSED = NO_INFO_COUNTS
