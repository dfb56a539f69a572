#!/usr/bin/env python3
"""Runs the built program: its commands, sessions as data, cut off and damaged, all that can fail, inputs at size; and the
scripts round it: the build, the installation, the conversions of recordings and of captures, the pages of sessions, and the relay that records.

    test_program.py [PART ..]

The last line is `N passed, M failed`. A part is one of the files test_PART.py; without a word all of them are run. PART.FUNCTION runs a
function of a part that asks for more, or for less: contents.many, contents.by_model, cuts.at_each_byte, heads.by_model,
search.by_hand, search.by_model.
"""

import os
import sys
import time
from concurrent.futures import ProcessPoolExecutor
from importlib import import_module

from built import TOP, Tally, build

# The module of each part, by its name.
PARTS = {path.stem.removeprefix("test_"): f"{path.parent.name}.{path.stem}"
         for path in sorted((TOP / "tests").glob("*/test_*.py"), key=lambda path: path.name)}
# Parts that measure seconds, or in which programs wait for one another: each of them has the machine for itself, behind the others.
ALONE = ("build", "picture_pages", "record", "record_answers", "record_apart", "record_chains", "record_endings", "record_programs",
         "record_refusals", "record_reports", "record_suites", "record_tls", "sizes")


def run_part(name):
    """Runs a part, and answers what it counted."""
    begun, counted = time.monotonic(), Tally()
    part, _, function = name.partition(".")
    getattr(import_module(PARTS[part]), function or "run")(counted)
    print(f"{name}: {counted.passed} passed, {counted.failed} failed, {time.monotonic() - begun:.0f} s", flush=True)
    return counted.passed, counted.failed


def main():
    build()
    names = sys.argv[1:] or list(PARTS)
    together = [name for name in names if name not in ALONE]
    with ProcessPoolExecutor(len(os.sched_getaffinity(0))) as pool:
        counts = list(pool.map(run_part, together))
    counts += [run_part(name) for name in names if name in ALONE]
    passed, failed = (sum(count) for count in zip(*counts))
    print(f"{passed} passed, {failed} failed")
    return failed != 0


if __name__ == "__main__":
    sys.exit(main())
