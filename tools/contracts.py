#!/usr/bin/env python3
"""docs/CONTRACTS.md: each public function with the clauses of its contract, as they stand in the sources, and what must be believed for the
clauses that carry an answer.

  tools/contracts.py write     writes docs/CONTRACTS.md
  tools/contracts.py check     says where docs/CONTRACTS.md differs from the sources; exits 1 if it does
"""

import re
import sys
from pathlib import Path

import specs

TOP = Path(__file__).resolve().parent.parent
PAGE = TOP / "docs/CONTRACTS.md"
HEADER = re.compile(r"^( *)(pub )?(?:final )?(?:const )?fn (\w+)")
OWNER = re.compile(r"^(pub )?(trait|impl(?:<[^>]*>+)?) +(?:[\w:<>, ]+ for +)?&?(\w+)")
CLAUSE = re.compile(r"^\s*(requires|ensures)\*? *(\w*) *\{")
# The clauses that carry an answer of the program or of its library, by function.
ANSWERS = [("check", "exactly"), ("check", "verdict"), ("conclude", "answers"), ("conclude", "verdict"), ("judge", "judged"),
           ("judge", "unserved"), ("Session::push", "wire"), ("Session::messages", "complete"),
           ("Session::finish", "report"), ("run_check", "yes"),
           ("run_check", "written"), ("run_check", "left"), ("run_check", "cause"), ("run_check", "limited"), ("run_show", "written"),
           ("run_make", "written"), ("find", "says"), ("run_order", "written"), ("run_explain", "written"),
           ("run_explain", "limited"), ("run_names", "written")]

HEAD = """# The contracts

Each public function with the clauses of its contract. `tools/contracts.py write` makes this page from the sources, and the gate compares
it with them. A clause is written in the language of the contracts (docs/DEFINITIONS.md has a key to it): `x.now` is what a reference
points to, `x.old` and `x.new` are what it points to before and after the call, `IfOk r (λ v. P)` says P of the value of an `Ok`, `OnErr r P` says P where
the answer is an `Err`. What the names in a clause mean stands in the `specs/` of its crate or of one below it.

Every function returns and is safe, with or without a clause. What the theorems are that these clauses carry stands in docs/THEOREMS.md.
"""


def crates():
    return re.findall(r"(?m)^(\w+):", (TOP / "crates.txt").read_text())


def exported(root):
    """The modules below a crate's root that are public as a whole, and the names that it passes on out of the others."""
    text = root.read_text()
    modules = set(re.findall(r"(?m)^pub mod (\w+);", text))
    names = set()
    for items in re.findall(r"(?m)^pub use \w+::(?:\w+::)*\{([^}]*)\};", text):
        names.update(item.strip() for item in items.split(","))
    names.update(re.findall(r"(?m)^pub use \w+::(?:\w+::)*(\w+);", text))
    return modules, names


def braced(lines, at):
    """The text from the first brace of a line to the one that closes it, and the number of the last line."""
    text, depth = "", 0
    for number in range(at, len(lines)):
        line = lines[number] if text else lines[number][lines[number].index("{"):]
        text += (" " if text else "") + line.strip()
        depth += line.count("{") - line.count("}")
        if depth <= 0:
            return text.rstrip(";").strip()[1:-1].strip(), number
    raise ValueError(f"no end of {lines[at]}")


class Function:
    """A public function: its name with its type, what its documentation says first, and its clauses."""

    def __init__(self, name, said, clauses):
        self.name, self.said, self.clauses = name, said, clauses

    def lines(self):
        yield f"- **`{self.name}`**: {self.said}" if self.said else f"- **`{self.name}`**"
        for kind, name, note, text in self.clauses:
            label = "requires" if kind == "requires" else "ensures"
            label += f" *{name}*" if name else ""
            yield f"  - {label}{' (' + note + ')' if note else ''}: `{text}`"


def first_sentence(lines):
    text = " ".join(line.strip()[3:].strip() for line in lines).replace("`|`", "or")
    return re.split(r"(?<=\.) ", text, maxsplit=1)[0]


def functions_of(path, source, modules, names):
    """The public functions of a file below a crate's folder of sources."""
    lines = path.read_text().split("\n")
    is_open = path.relative_to(source).parts[0].removesuffix(".rt") in modules
    owner, is_owned, is_trait, docs = "", True, False, []
    for at, line in enumerate(lines):
        if found := OWNER.match(line):
            owner, is_trait = found[3], found[2] == "trait"
            is_owned = owner in names or is_open
        elif line == "}":
            owner, is_owned, is_trait = "", True, False
        if line.strip().startswith("///"):
            docs.append(line)
            continue
        found = HEADER.match(line)
        if found and (found[2] or is_trait):
            name = found[3]
            if is_owned if owner else is_open or name in names:
                yield Function(f"{owner}::{name}" if owner else name, first_sentence(docs), list(clauses_of(lines, at)))
        if line.strip() and not line.strip().startswith("#["):
            docs = []


def clauses_of(lines, at):
    """The clauses between a function's head and its body."""
    note = ""
    while at < len(lines):
        line = lines[at].strip()
        if found := CLAUSE.match(lines[at]):
            text, at = braced(lines, at)
            yield found[1], found[2], note, text
            note = ""
            if lines[at].rstrip().endswith(";"):
                return
        elif line.startswith("//"):
            note = (note + " " + line[2:].strip()).strip().rstrip(".")
        elif line == "{" or line.endswith((";", " {", "{}")) and not CLAUSE.match(lines[at]):
            return
        at += 1


def page():
    parts = [HEAD]
    for crate in crates():
        source = TOP / "crates" / crate / "src"
        if not (source / "lib.rt").exists():
            continue
        modules, names = exported(source / "lib.rt")
        told = []
        for path in sorted(source.rglob("*.rt")):
            if "tests" not in path.relative_to(source).parts and path.name != "tests.rt":
                told += [line for function in functions_of(path, source, modules, names) for line in function.lines()]
        if told:
            parts.append(f"## {crate}\n\n" + "\n".join(told) + "\n")
    parts.append(believed())
    return "\n".join(parts)


def believed():
    """For each clause that carries an answer, what its words lead to."""
    told = ["## What must be believed, by answer\n",
            "What the words of a clause lead to, word by word: how many files of definitions with how many lines, and which; the types and constants",
            "of the code that these name; and what they take from the kit. `tools/specs.py reach FUNCTION` prints it of any function.\n"]
    common = set.intersection(*(specs.reached(*it).kit for it in ANSWERS))
    told.append(f"All take from the kit: {listed(common)}.\n")
    for function, clause in ANSWERS:
        found = specs.reached(function, clause)
        count = sum(definition_lines(TOP / file) for file in found.specs)
        told.append(f"- **`{function}` *{clause}***: {len(found.specs)} files, {count} lines: {by_folder(found.specs)}. "
                    f"Types and constants: {by_folder(found.source)}. Of the kit: {listed(found.kit - common) or '-'}.")
    return "\n".join(told) + "\n"


def listed(names):
    return ", ".join(f"`{name}`" for name in sorted(names))


def by_folder(files):
    """Files without their endings, those of a folder together."""
    folders = {}
    for file in sorted(files):
        folder, _, name = file.removeprefix("crates/").rpartition("/")
        folders.setdefault(folder, []).append(name.rpartition(".")[0])
    return "; ".join(f"`{folder}`: {', '.join(names)}" for folder, names in folders.items()) or "-"


def definition_lines(path):
    return sum(1 for line in path.read_text().split("\n")
               if line.strip() and not line.lstrip().startswith("--") and not specs.USE.match(line))


def main(words):
    made = page()
    if words == ["write"]:
        PAGE.write_text(made)
        return 0
    if words == ["check"]:
        if not PAGE.exists() or PAGE.read_text() != made:
            print("docs/CONTRACTS.md differs from the sources: tools/contracts.py write")
            return 1
        return 0
    sys.exit(__doc__)


if __name__ == "__main__":
    sys.exit(main(sys.argv[1:]))
