"""What no program runs: the definitions hold meaning alone and fit their lines, docs/CONTRACTS.md is that of the sources, and
docs/THEOREMS.md names clauses that there are, on one page, with the counts of files that docs/CONTRACTS.md has, README.md is no
longer and no wider than it may be, and the C of docs/RECORDING.md is C."""

import re
import subprocess
from itertools import zip_longest

import contracts
import specs
from built import TOP

LONGEST = 60
README_LONGEST, WIDEST = 150, 120
# A function with its clauses, as docs/THEOREMS.md names them.
CITED = re.compile(r"`([\w:]+)`((?:,? \*\w+\*)+)")
COUNTED = re.compile(r"- \*\*`([\w:]+)` \*(\w+)\*\*\*: (\d+) files")
# The head of a function that its crate hands on, or a trait's, and a clause, as they begin a line of a source.
HEAD = re.compile(r" *(pub )?(?:pub\(\w+\) )?(?:final )?(?:const )?fn (\w+)")
CLAUSE = re.compile(r"\s+(requires|ensures)\*?(?: (\w+))? \{")


def clauses_of(page):
    """The clauses of each public function."""
    found, function = {}, ""
    for line in page.split("\n"):
        if named := re.match(r"- \*\*`([\w:]+)`\*\*", line):
            function = named[1]
            found.setdefault(function, set())
        elif clause := re.match(r"  - \w+ \*(\w+)\*", line):
            found[function].add(clause[1])
    return found


def told_of(page):
    """The functions of each crate on docs/CONTRACTS.md, by their names without the type, each with the kinds and names of its clauses."""
    found, crate = {}, ""
    for line in page.split("## What must be believed")[0].split("\n"):
        if line.startswith("## "):
            crate = line[3:]
        elif named := re.match(r"- \*\*`(?:\w+::)?(\w+)`\*\*", line):
            found.setdefault((crate, named[1]), []).append([])
            last = found[crate, named[1]][-1]
        elif clause := re.match(r"  - (requires|ensures)(?: \*(\w+)\*)?", line):
            last.append((clause[1], clause[2]))
    return found


def stated_in(path):
    """The public functions of a source, and those of a trait, each with the kinds and names of its clauses."""
    function, in_trait = None, False
    for line in path.read_text().split("\n"):
        if line.startswith(("trait ", "pub trait ")) or line == "}":
            in_trait = line != "}"
        if head := HEAD.match(line):
            if function:
                yield function
            function = (head[2], []) if head[1] or in_trait else None
        elif function and (clause := CLAUSE.match(line)):
            function[1].append((clause[1], clause[2]))
    if function:
        yield function


def contracts_of_sources(tally, page):
    """Each function of docs/CONTRACTS.md has the clauses that a function of its name has in the sources of its crate: all, and no other."""
    stated = {}
    for path in sorted((TOP / "crates").glob("*/src/**/*.rt")):
        crate, *folders = path.relative_to(TOP / "crates").parts
        if "tests" not in folders and path.name != "tests.rt":
            for name, clauses in stated_in(path):
                stated.setdefault((crate, name), []).append(clauses)
    for (crate, name), told in told_of(page).items():
        for clauses in told:
            there = clauses in stated.get((crate, name), ())
            tally.holds(f"docs/CONTRACTS.md: the clauses of {crate}'s `{name}`", there, (clauses, stated.get((crate, name))))
            if there:
                stated[crate, name].remove(clauses)


def believed(tally, page, there):
    """The clauses that carry an answer are clauses, and each leads somewhere."""
    for function, clause, count in COUNTED.findall(page):
        tally.holds(f"docs/CONTRACTS.md: `{function}` *{clause}*", clause in there.get(function, ()) and int(count) > 0, count)
    tally.want("docs/CONTRACTS.md: lists without an item", re.findall(r"(?m)^.*: \.$", page), [])
    tally.want("docs/CONTRACTS.md: how many clauses carry an answer", len(COUNTED.findall(page)), len(contracts.ANSWERS))


def theorems(tally, made):
    page = (TOP / "docs/THEOREMS.md").read_text()
    there = clauses_of(made)
    believed(tally, made, there)
    tally.holds("docs/THEOREMS.md: its length", len(page.splitlines()) <= LONGEST)
    for function, cited in CITED.findall(page.replace("\n", " ")):
        for clause in re.findall(r"\w+", cited):
            tally.holds(f"docs/THEOREMS.md: `{function}` *{clause}*", clause in there.get(function, ()))
    rows = [line.split(" | ")[-1] for line in page.split("\n") if line.startswith("| ") and "`" in line]
    for row in rows:
        for function in re.findall(r"`([\w:]+)`", row):
            tally.holds(f"docs/THEOREMS.md: `{function}`", function in there)
    for function in re.findall(r"`(\w+_\w+)`", page):
        tally.holds(f"docs/THEOREMS.md: `{function}`", function in there)
    counts = {(function, clause): count for function, clause, count in COUNTED.findall(made)}
    for function, clause in (("check", "exactly"), ("run_check", "yes"), ("run_check", "written")):
        tally.holds(f"docs/THEOREMS.md: the files of `{function}` *{clause}*",
                    re.search(rf"\b{counts[function, clause]}\b", page.split("**What must be believed**")[1]))


def readme(tally):
    page = (TOP / "README.md").read_text()
    tally.holds("README.md: its length", len(page.splitlines()) <= README_LONGEST)
    prose = "".join(page.split("```")[::2]).splitlines()
    wide = [line for line in prose if len(line) > WIDEST and not line.startswith("|")]
    tally.want("README.md: lines that are too long", wide, [])


def compiled(tally):
    """The example of a server that logs an order."""
    source = (TOP / "docs/RECORDING.md").read_text().split("```c\n")[1].split("```")[0]
    words = ["cc", "-std=c11", "-Wall", "-Wextra", "-Werror", "-fsyntax-only", "-x", "c", "-"]
    done = subprocess.run(words, input=source, capture_output=True, text=True, timeout=60)
    tally.want("docs/RECORDING.md: its C", (done.returncode, done.stderr), (0, ""))


def run(tally):
    readme(tally)
    compiled(tally)
    made = contracts.page()
    tally.want("definitions", specs.check(), 0)
    there = contracts.PAGE.read_text().split("\n")
    wrong = [pair for pair in zip_longest(there, made.split("\n")) if pair[0] != pair[1]]
    tally.want("docs/CONTRACTS.md: lines that differ from those of the sources", wrong[:1], [])
    contracts_of_sources(tally, contracts.PAGE.read_text())
    theorems(tally, made)
