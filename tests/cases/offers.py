"""Which requests are proper on exports that offer one thing each."""

from messages import CACHE, FLUSH, READ, TRIM, WRITE, WRITE_ZEROES, begun, request, simple

# No flag, FUA, NO_HOLE, DF, bit 3, which has no meaning, and FAST_ZERO.
COMMAND_FLAGS = [0, 1, 2, 4, 8, 16]

# The commands and a number without a meaning, each with the length that it asks for and the bytes that follow it.
COMMANDS = [
    (READ, 1, b""), (WRITE, 1, b"\xab"), (FLUSH, 0, b""), (TRIM, 1, b""), (CACHE, 1, b""), (WRITE_ZEROES, 1, b""), (7, 1, b""),
]

# What an export takes that offers nothing: READ, WRITE and CACHE without a flag.
NOTHING_MORE = ["+.....", "+.....", "......", "......", "+.....", "......", "......"]

# An export's transmission flags, and for each command a row with a mark for each of the command flags: `+` where such a
# request is proper.
OFFERS = {
    "HAS_FLAGS alone": (0x1, NOTHING_MORE),
    "READ_ONLY": (0x3, ["+.....", "......", "......", "......", "+.....", "......", "......"]),
    "SEND_FLUSH": (0x5, ["+.....", "+.....", "+.....", "......", "+.....", "......", "......"]),
    "SEND_FUA": (0x9, ["++....", "++....", "......", "......", "++....", "......", "......"]),
    "ROTATIONAL": (0x11, NOTHING_MORE),
    "SEND_TRIM": (0x21, ["+.....", "+.....", "......", "+.....", "+.....", "......", "......"]),
    "SEND_WRITE_ZEROES": (0x41, ["+.....", "+.....", "......", "......", "+.....", "+.+...", "......"]),
    "SEND_DF": (0x81, ["+..+..", "+.....", "......", "......", "+.....", "......", "......"]),
    "CAN_MULTI_CONN": (0x101, NOTHING_MORE),
    "SEND_CACHE": (0x401, NOTHING_MORE),
    "SEND_FAST_ZERO": (0x801, NOTHING_MORE),
    "SEND_FAST_ZERO and SEND_WRITE_ZEROES": (
        0x841, ["+.....", "+.....", "......", "......", "+.....", "+.+..+", "......"],
    ),
}


def offers():
    """The name of each case, its capture, of one request that fails, and whether its request is proper."""
    for name, (offered, rows) in OFFERS.items():
        for (number, length, data), row in zip(COMMANDS, rows, strict=True):
            for flags, mark in zip(COMMAND_FLAGS, row, strict=True):
                asked = request(number, 1, 0, length, data, flags)
                yield f"{name}: {number:04x} with flags {flags:04x}", [*begun(flags=offered), asked, simple(1, error=22)], mark == "+"
