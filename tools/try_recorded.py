#!/usr/bin/env python3
"""tools/try_recorded.py FOLDER: runs `check` in both profiles on the recorded sessions of a folder: NAME.cap, .ord, .start, and NAME.out,
the line in `wide`; the one in `base` is what the reader of transmissions says."""

import sys
from pathlib import Path

sys.path.append(str(Path(__file__).resolve().parent.parent / "tests"))
from built import Room, Tally, build
from sessions.test_contexts import recorded


def main():
    build()
    told = Tally()
    with Room() as room:
        recorded(told, room, sys.argv[1], is_whole=True)
    print(f"{told.passed} passed, {told.failed} failed")
    return told.failed != 0


if __name__ == "__main__":
    raise SystemExit(main())
