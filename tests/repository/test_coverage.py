"""docs/COVERAGE.md: it is made of tools/coverage.tsv, and it names each fault and each rule of the program, and no other; its sections are
headings of proto.md, and its last line counts its rows. docs/LINT.md has a row for each rule. The numbers of errors that `lint` compares
are those that nbd_wire names."""

import re

import coverage
from built import TOP

# What a session can be refused for, and the answers of `check` on orders and contents that the page names.
FAULT = re.compile(r"\b(?:(?:[A-Z][a-z]+){2,}|Unfinished)\b")
ANSWERS = {"Late", "Missing", "improper", "no content"}
RULE = re.compile(r"`([a-z0-9-]+)`")


def faults():
    """The wire faults of the program."""
    source = (TOP / "crates/nbd_wire/src/fault.rt").read_text().split("pub enum WireFault")[1]
    return set(re.findall(r"(?m)^    ([A-Z]\w+),", source.split("\n}")[0]))


def rules():
    """The level of each rule of `lint`, by its name."""
    return {name: level for level, _, name, _ in rows_of_table()}


def rows_of_table():
    """The rules of `lint`, as its table has them: the level, the side, the name and the section of each."""
    table = (TOP / "crates/nbd_lint/src/table.rt").read_text()
    return re.findall(r"(?m)^(must|should|hint) \| (\w+) \| ([\w-]+) \| [^|]+ \| (.+)$", table)


def rows_of_lint():
    """The rows of docs/LINT.md: the name of a rule, whom it binds, and its section, in their order."""
    return re.findall(r"(?m)^\| `([\w-]+)` \| (\w+) \| ([^|]+) \| [^|]+ \| [^|]+ \|$", (TOP / "docs/LINT.md").read_text())


def stated():
    """The same of the program."""
    return [(name, who, section) for _, who, name, section in rows_of_table()]


def errors_of_lint():
    """The errors that `lint` compares: of each its name, whether it is one of an option reply, and its number."""
    source = (TOP / "crates/nbd_lint/src/numbers.rt").read_text()
    return set(re.findall(r"pub const (E\w+): u32 = (ERROR \| )?(\d+);", source))


def errors_of_wire():
    """The same of those that nbd_wire names."""
    source = (TOP / "crates/nbd_wire/src/names.rt").read_text()
    found = re.findall(r'\((?:answers::(ERROR \| ))?(\d+), "(?:NBD_REP_)?(E\w+)"\)', source)
    return {(name, kind, number) for kind, number, name in found}


def run(tally):
    tally.want("docs/LINT.md: its rules", rows_of_lint(), stated())
    compared = errors_of_lint()
    tally.holds("crates/nbd_lint/src/numbers.rt: its errors are those of nbd_wire", compared and compared <= errors_of_wire(), compared - errors_of_wire())
    every = set(re.findall(r"pub const (E\w+):", (TOP / "crates/nbd_lint/src/numbers.rt").read_text()))
    tally.want("crates/nbd_lint/src/numbers.rt: errors that the test does not read", every - {name for name, _, _ in compared}, set())
    table, page = coverage.rows(), coverage.PAGE.read_text()
    tally.want("docs/COVERAGE.md is made by tools/coverage.py write", page.split("\n"), coverage.page().split("\n"))
    known = {name.replace("`", "") for name in (TOP / "tests/repository/headings.txt").read_text().splitlines()}
    tally.want("docs/COVERAGE.md: sections", {row.section for row in table} - known, set())
    tally.want("docs/COVERAGE.md: sides", {row.who for row in table} - {"client", "server", "both"}, set())
    judged = {row.judged for row in table}
    tally.want("docs/COVERAGE.md: ways to judge", judged, {name for _, names, _ in coverage.PARTS for name in names})
    named = {name for row in table if row.judged in ("check", "lint", "should", "choice") for name in FAULT.findall(row.where)}
    tally.want("docs/COVERAGE.md: faults that it does not name", faults() - named - {"OutOfProfile"}, set())
    tally.want("docs/COVERAGE.md: faults that there are not", named - faults(), set())
    levels = rules()
    told = {(name, row.judged) for row in table if row.judged in ("lint", "should", "hint") for name in RULE.findall(row.where)}
    tally.want("docs/COVERAGE.md: rules that it does not name", set(levels) - {name for name, _ in told}, set())
    tally.want("docs/COVERAGE.md: rules that there are not", {name for name, _ in told} - set(levels), set())
    wanted = {"must": {"lint"}, "should": {"should"}, "hint": {"hint", "should"}}
    tally.want("docs/COVERAGE.md: rules of another level", {(name, part) for name, part in told if part not in wanted.get(levels.get(name), ())}, set())
    for row in table:
        if row.judged == "check":
            left = [word for word in row.where.split(", ") if word not in ANSWERS and word not in faults()]
            tally.holds(f"docs/COVERAGE.md: {row.statement}", not left or row.where.startswith("no session can break it"), left)
    tally.want("docs/COVERAGE.md: its counts", coverage.counts(table), (179, 115, 55, 9))
    tally.holds("docs/COVERAGE.md: its last line", page.endswith("179 visible, 115 judged by `check`, 55 by `lint`, 9 named with the reason.\n"))
