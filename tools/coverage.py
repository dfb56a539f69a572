#!/usr/bin/env python3
"""tools/coverage.py: prints docs/COVERAGE.md, made of tools/coverage.tsv; `coverage.py write` writes it.

A line of coverage.tsv is a section of proto.md (nbd 3.26.1), who is bound, the statement in words of this project, and where it is judged:

    check     by `check`: the faults of a session that breaks it, or `improper`, or an answer on contents
    lint      by rules of `lint`, beside the faults that tell it in part
    open      not at all, and why: a recording shows it, and does not decide it
    hidden    not at all: what no recording shows
    outside   not at all: sessions that are not followed
    should    advice of proto.md, and the rules of `lint` or the faults that tell it
    hint      what an author may want to look at
    choice    a fault without a statement of proto.md
"""

import sys
from collections import namedtuple
from pathlib import Path

TOP = Path(__file__).resolve().parent.parent
TABLE, PAGE = TOP / "tools/coverage.tsv", TOP / "docs/COVERAGE.md"
Row = namedtuple("Row", "section who statement judged where")

HEAD = """\
# Which statements of proto.md are judged

The mandatory statements of proto.md (nbd 3.26.1) in words of this project, in its order: the section, who is bound, and where
a session that breaks the statement is told. A name like BadMagic is a fault of `check` (docs/PROFILE.md), *improper* the last
count of its yes, *no content* its answer on contents, and a name like `handshake-flags` a rule of `lint`. Where a fault stands
beside a rule, `check` tells a part of the statement. Made by tools/coverage.py of tools/coverage.tsv; change it there.

"""

PARTS = (
    ("Statements that a recording shows", ("check", "lint"), "Told by"),
    ("Statements that a recording shows and does not decide", ("open",), "Why it is not told"),
    ("Statements that no recording shows", ("hidden",), "What would have to be seen"),
    ("Statements on sessions that are not followed", ("outside",), "Where"),
    ("Advice", ("should",), "Told by"),
    ("Hints", ("hint",), "Told by"),
    ("Faults without a statement", ("choice",), "Fault"),
)


def rows():
    lines = TABLE.read_text().splitlines()[1:]
    return [Row(*line.split("\t")) for line in lines]


def counts(table):
    """How many mandatory statements a recording shows, and of these how many are judged where."""
    judged = [row.judged for row in table]
    check, lint, left = (judged.count(name) for name in ("check", "lint", "open"))
    return check + lint + left, check, lint, left


def told(row):
    """A name as it stands on the page."""
    return row.where.replace("improper", "*improper*").replace("no content", "*no content*") if row.judged == "check" else row.where


def page():
    table, text = rows(), HEAD
    for title, judged, column in PARTS:
        text += f"## {title}\n\n| Section | Who | Statement | {column} |\n|---|---|---|---|\n"
        for row in table:
            if row.judged in judged:
                text += f"| {row.section} | {row.who} | {row.statement} | {told(row)} |\n"
        text += "\n"
    text += "Mandatory statements: {} visible, {} judged by `check`, {} by `lint`, {} named with the reason.\n".format(*counts(table))
    return text


if __name__ == "__main__":
    if sys.argv[1:] == ["write"]:
        PAGE.write_text(page())
    else:
        sys.stdout.write(page())
