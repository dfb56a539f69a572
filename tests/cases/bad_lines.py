"""Texts that are malformed: a capture, an order, each character a byte, and the fault."""

BAD_LINES = [
    ("C 0\n", "", "fault capture line 1\n"),
    ("C 0\n", "x\n", "fault capture line 1\n"),
    ("S 00\nX 00\n", "", "fault capture line 2\n"),
    ("C 00 \n", "", "fault capture line 1\n"),
    ("\r\n", "", "fault capture line 1\n"),
    # A remark without a line end.
    ("# x\n\nS 00\n#", "", "fault capture line 4\n"),
    ("", "01\n", "fault order line 1\n"),
    ("C 00\n", "1\n\n", "fault order line 2\n"),
    ("", "+1\n", "fault order line 1\n"),
    ("", "1 0 \n", "fault order line 1\n"),
    ("", "1 0 18446744073709551616\n", "fault order line 1\n"),
    ("", "\xff\n", "fault order line 1\n"),
]
