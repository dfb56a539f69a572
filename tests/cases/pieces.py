"""READs that are answered in several pieces, in no order."""

from cases.case import Case
from messages import begun, content, done, hole, read

# Pieces of the READ with the cookie 1: two zeroes at 6, two zeroes at 0, and a zero at 3.
THREE = [content(1, 6, b"\0\0"), content(1, 0, b"\0\0"), content(1, 3, b"\0")]

IN_NO_ORDER = [
    Case(
        name="the pieces cover the range",
        capture=[*begun(structured=True), read(1, 0, 8), *THREE, hole(1, 4, 2), hole(1, 2, 1), done(1)],
        order="1\n",
        want="yes requests 1 answered 1 improper 0\n",
    ),
    Case(
        name="the wrong bytes at 3 and 7 came in the other order",
        capture=[
            *begun(structured=True), read(1, 0, 8), content(1, 6, b"\0\x09"), content(1, 0, b"\0\0"),
            content(1, 2, b"\0\x09\0\0"), done(1),
        ],
        order="1\n",
        want="no content request 1 offset 3\n",
    ),
]

OVERLAPPING = [
    Case(
        name="the fourth piece begins in the second",
        capture=[*begun(structured=True), read(1, 0, 8), *THREE, hole(1, 1, 2)],
        order="1\n",
        want="no at byte 281: BadContent\n",
    ),
    Case(
        name="the fourth piece ends in the third",
        capture=[*begun(structured=True), read(1, 0, 8), *THREE, hole(1, 2, 2)],
        order="1\n",
        want="no at byte 281: BadContent\n",
    ),
    Case(
        name="the fourth piece lies around the third",
        capture=[*begun(structured=True), read(1, 0, 8), *THREE, hole(1, 2, 4)],
        order="1\n",
        want="no at byte 281: BadContent\n",
    ),
    Case(
        name="the fourth piece lies in the first",
        capture=[*begun(structured=True), read(1, 0, 8), *THREE, hole(1, 7, 1)],
        order="1\n",
        want="no at byte 281: BadContent\n",
    ),
]

CASES = IN_NO_ORDER
REFUSED = OVERLAPPING
