"""A session that is cut off, or of which a byte is damaged."""

from messages import begun, read, simple, write

# A WRITE of 2 bytes and a READ of 4, one after the other, and its bytes ab cd 00 00: 190 bytes.
SESSION = [*begun(), write(1, 0, b"\xab\xcd"), simple(1), read(2, 0, 4), simple(2, b"\xab\xcd\0\0")]
ORDER = "1\n2\n"

# Where a message ends, the order of the requests that were answered by then and what is wanted with it, and what is wanted
# with the order of the whole session.
NO_REQUEST = "", "yes requests 0 answered 0 improper 0\n", "no order entry 1: NoSuchRequest\n"
ENDS = {
    **{count: NO_REQUEST for count in (0, 18, 22, 44, 76, 96)},
    126: ("", "yes requests 1 answered 0 improper 0\n", "no order entry 2: NoSuchRequest\n"),
    142: ("1\n", "yes requests 1 answered 1 improper 0\n", "no order entry 2: NoSuchRequest\n"),
    170: ("1\n", "yes requests 2 answered 1 improper 0\n", "yes requests 2 answered 1 improper 0\n"),
    190: ("1\n2\n", "yes requests 2 answered 2 improper 0\n", "yes requests 2 answered 2 improper 0\n"),
}

# What is wanted where this byte, counted from 1, is inverted.
DAMAGED = {
    # Of the greeting: its first byte, and the flags.
    1: "no at byte 18: BadMagic\n",
    18: "no at byte 18: NotFixedNewstyle\n",
    # The last byte of ACK is part of its length.
    96: "no at byte 96: BadReplyPayload\n",
    # Of the WRITE: its first byte, and the last one that it writes.
    97: "no at byte 124: BadMagic\n",
    126: "no content request 2 offset 1\n",
    # The last byte of the reply to it is part of the cookie.
    142: "no at byte 142: UnknownCookie\n",
    # Of the reply to the READ: its error, so that no bytes follow; its cookie; the last byte it gives.
    178: "no at byte 190: BadMagic\n",
    186: "no at byte 186: UnknownCookie\n",
    190: "no content request 2 offset 3\n",
}
