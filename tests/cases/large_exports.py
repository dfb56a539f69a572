"""Exports of many bytes."""

from cases.case import Case
from messages import DONE, EXPORT_NAME, FLAGS, begun, entered, hole, option, read, simple, write

# The size of the largest export, and its last byte.
LARGEST = 2**63 - 1
LAST = LARGEST - 1

EXPORTS = [
    Case(
        name="an export of a byte more than a mebibyte",
        capture=begun(size=2**20 + 1),
        order="",
        want="yes requests 0 answered 0 improper 0\n",
    ),
    Case(
        name="the largest export by EXPORT_NAME",
        capture=[*FLAGS, option(EXPORT_NAME, b"disk"), entered(size=LARGEST)],
        order="",
        want="yes requests 0 answered 0 improper 0\n",
    ),
    Case(
        name="the last byte of the largest export was written and read",
        capture=[*begun(size=LARGEST), write(1, LAST, b"\xab"), simple(1), read(2, LAST, 1), simple(2, b"\xab")],
        order="1\n2\n",
        want="yes requests 2 answered 2 improper 0\n",
    ),
    Case(
        name="the last byte of the largest export is wrong",
        capture=[*begun(size=LARGEST), write(1, LAST, b"\xab"), simple(1), read(2, LAST, 1), simple(2, b"\xac")],
        order="1\n2\n",
        want="no content request 2 offset 9223372036854775806\n",
    ),
    Case(
        name="one hole of as many bytes as a READ can ask for",
        capture=[*begun(structured=True, size=LARGEST), read(1, 0, 2**32 - 1), hole(1, 0, 2**32 - 1, DONE)],
        order="1\n",
        want="yes requests 1 answered 1 improper 0\n",
    ),
]

TOO_LARGE = [Case(
    name="an export by EXPORT_NAME of a byte more than the limit",
    capture=[*FLAGS, option(EXPORT_NAME, b"disk"), entered(size=LARGEST + 1)],
    order="",
    want="no at byte 52: ExportTooLarge\n",
)]

CASES = EXPORTS
REFUSED = TOO_LARGE
