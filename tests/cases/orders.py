"""Orders of service."""

from cases.case import Case
from messages import begun, read, simple, write

READS_ONE_AFTER_THE_OTHER = [
    Case(
        name="in the order of their numbers",
        capture=[*begun(), read(1, 0, 1), simple(1, b"\0"), read(2, 0, 1), simple(2, b"\0")],
        order="1\n2\n",
        want="yes requests 2 answered 2 improper 0\n",
    ),
    Case(
        name="the second cannot have been served before the first came",
        capture=[*begun(), read(1, 0, 1), simple(1, b"\0"), read(2, 0, 1), simple(2, b"\0")],
        order="2\n1\n",
        want="no order entry 1: Late\n",
    ),
]

THREE_READS_THAT_OVERLAP = [
    Case(
        name="the first two the other way round",
        capture=[
            *begun(), read(1, 0, 1), read(2, 0, 1), simple(1, b"\0"), read(3, 0, 1), simple(2, b"\0"), simple(3, b"\0"),
        ],
        order="2\n1\n3\n",
        want="yes requests 3 answered 3 improper 0\n",
    ),
    Case(
        name="the third came after the reply to the first",
        capture=[
            *begun(), read(1, 0, 1), read(2, 0, 1), simple(1, b"\0"), read(3, 0, 1), simple(2, b"\0"), simple(3, b"\0"),
        ],
        order="3\n2\n1\n",
        want="no order entry 1: Late\n",
    ),
    Case(
        name="the third came after the reply to the first, which stands next",
        capture=[
            *begun(), read(1, 0, 1), read(2, 0, 1), simple(1, b"\0"), read(3, 0, 1), simple(2, b"\0"), simple(3, b"\0"),
        ],
        order="3\n1\n2\n",
        want="no order entry 1: Late\n",
    ),
]

ENTRIES = [
    Case(
        name="a number that stands twice",
        capture=[*begun(), write(1, 0, b"\xab\xcd"), simple(1), read(2, 0, 4), simple(2, b"\xab\xcd\0\0")],
        order="1\n1\n",
        want="no order entry 2: Twice\n",
    ),
    Case(
        name="an answered request that no entry names",
        capture=[*begun(), write(1, 0, b"\xab\xcd"), simple(1), read(2, 0, 4), simple(2, b"\xab\xcd\0\0")],
        order="1\n",
        want="no order entry 2: Missing\n",
    ),
    Case(
        name="an empty order, though a request was answered",
        capture=[*begun(), read(1, 0, 4), simple(1, bytes(4))],
        order="",
        want="no order entry 1: Missing\n",
    ),
    Case(
        name="a number above that of the last request",
        capture=[*begun(), write(1, 0, b"\xab\xcd"), simple(1), read(2, 0, 4), simple(2, b"\xab\xcd\0\0")],
        order="3\n",
        want="no order entry 1: NoSuchRequest\n",
    ),
    Case(
        name="the number 0",
        capture=[*begun(), write(1, 0, b"\xab\xcd"), simple(1), read(2, 0, 4), simple(2, b"\xab\xcd\0\0")],
        order="0\n",
        want="no order entry 1: NoSuchRequest\n",
    ),
    Case(
        name="the largest number",
        capture=begun(),
        order="18446744073709551615\n",
        want="no order entry 1: NoSuchRequest\n",
    ),
]

CASES = READS_ONE_AFTER_THE_OTHER + THREE_READS_THAT_OVERLAP + ENTRIES
REFUSED = []
