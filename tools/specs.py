#!/usr/bin/env python3
"""Reads the files of crates/*/specs.

  tools/specs.py check             lists files of specs/ that call a tactic or hold a lemma, and lines that are too long; exits 1 if there is one
  tools/specs.py reach FUNCTION..  lists, for each clause of these functions, the files that its words lead to:
                                   of this repository, and of the kit; src/ files hold the types and constants
"""

import functools
import glob
import os
import re
import sys
from pathlib import Path

TOP = Path(__file__).resolve().parent.parent
TACTIC = re.compile(r"(?<![\w'.-])(omega|search|grind|simp|cc|rw|assumption|hlevel|first_of)(?![\w'-])")
USE = re.compile(r"^\s*(?:ghost )?(?:unfoldable )?(?:pub )?use (Rattle\..*?);?$")
WORD = re.compile(r"[A-Za-z_ℕℤ][\w'-]*(?:\.[A-Za-z_][\w'-]*)*|◌[^\s]+◌")
# How long a line of a definition is at most. A payload that is written out may be longer.
WIDTH = 120
LITERAL = re.compile(r"0x[0-9a-f]{64}")
MARKS = {"pub", "abbrev", "unfoldable"}


def files_of(pattern):
    paths = glob.glob(os.path.join(TOP, "crates", "*", pattern), recursive=True)
    return sorted(p for p in paths if "/out/" not in p)


def module_of(path):
    parts = os.path.relpath(path, os.path.join(TOP, "crates"))[: -len(".antt")].split("/")
    return ".".join(["Rattle"] + parts)


def path_of(module):
    return "crates/" + "/".join(module.split(".")[1:]) + ".antt"


def imports(line):
    """What a use line brings: the module, a name of it or None, and under which name. Lists may stand in lists."""
    match = USE.match(line.rstrip())
    found, ways, part = [], [""], ""
    for piece in re.findall(r"[{},]|[^{},]+", f"{match[1]}," if match else ""):
        if piece == "{":
            ways.append(ways[-1] + part.strip())
        elif piece not in "},":
            part = piece
            continue
        elif part.strip():
            old, _, new = part.strip().partition(" as ")
            module, _, name = (ways[-1] + old).rpartition(".")
            found.append((module, name, new or name) if len(ways) > 1 else (ways[-1] + old, None, new or name))
        if piece == "}":
            ways.pop()
        part = ""
    return found


def declarations(text):
    """The declarations of a file: name, marks and kind, text."""
    found, comment = [], False
    for line in text.split("\n"):
        # (a comment inside of a declaration refers to nothing)
        if not line.strip() or line.lstrip().startswith("--") or USE.match(line):
            continue
        words = line.split()
        marks = set()
        while words and words[0] in MARKS:
            marks.add(words.pop(0))
        kind = words.pop(0) if words and words[0] in ("data", "record") else ""
        is_head = line[0] not in " \t" and bool(words) and (
            kind or marks or re.match(r"^\S+\s+(?:[({].*[)}]\s*)?:(?:\s|$)", line)
        )
        if is_head:
            found.append([words[0].rstrip(":"), marks, kind, line])
        elif found:
            found[-1][3] += "\n" + line
    return found


def check():
    bad = []
    for path in files_of("specs/**/*.antt"):
        text = open(path, encoding="utf8").read()
        code = "\n".join(l.split(" -- ")[0] for l in text.split("\n") if not l.lstrip().startswith("--"))
        for number, line in enumerate(code.split("\n"), 1):
            if not USE.match(line) and TACTIC.search(line):
                bad.append(f"{os.path.relpath(path, TOP)}: calls a tactic: {line.strip()}")
            if USE.match(line) and ".proofs." in line:
                bad.append(f"{os.path.relpath(path, TOP)}: uses a proof: {line.strip()}")
        for name, marks, kind, _ in declarations(text):
            if not kind and not marks & {"abbrev", "unfoldable"} and name not in ("mod", "infixl", "infixr", "infix"):
                if not (name == "mod" or marks == {"pub"} and text.startswith("pub mod")):
                    bad.append(f"{os.path.relpath(path, TOP)}: `{name}` is no definition that a clause can open")
        for number, line in enumerate(text.split("\n"), 1):
            if len(line) > WIDTH and not USE.match(line) and not LITERAL.search(line):
                bad.append(f"{os.path.relpath(path, TOP)}: line {number} has {len(line)} characters")
    for line in bad:
        print(line)
    return 1 if bad else 0


@functools.cache
def passed_on():
    """Where the names are declared that a module passes on."""
    found = {}
    for path in files_of("specs/**/*.antt"):
        for line in re.findall(r"^pub use .*$", open(path, encoding="utf8").read(), re.MULTILINE):
            found |= {(module_of(path), new): (module, name) for module, name, new in imports(line)}
    return found


def source_of_name(module, name):
    """Where a name is declared that is taken from this module: modules may pass on what others pass on."""
    while (module, name) in passed_on():
        module, name = passed_on()[module, name]
    return module, name


class Names:
    """What the names of a file mean, by its use lines."""

    def __init__(self, text):
        self.names, self.aliases = {}, {}
        for line in text.split("\n"):
            for module, name, new in imports(line):
                if name is None:
                    self.aliases[new] = module
                else:
                    self.names[new] = source_of_name(module, name)

    def refer(self, text):
        found = set()
        for word in WORD.findall(text):
            first, _, rest = word.partition(".")
            if rest and first in self.aliases:
                found.add((self.aliases[first], rest.split(".")[0]))
            elif first in self.names:
                found.add(self.names[first])
        for name, target in self.names.items():
            if "◌" in name and all(part in text for part in name.split("◌") if part):
                found.add(target)
        return found


@functools.cache
def definitions():
    known = {}
    for path in files_of("specs/**/*.antt"):
        text, module = open(path, encoding="utf8").read(), module_of(path)
        names = Names(text)
        own = declarations(text)
        for name, _, kind, body in own:
            target = names.refer(body)
            target |= {(module, other[0]) for other in own if re.search(rf"(?<![\w'.-]){re.escape(other[0])}(?![\w'-])", body)}
            known[(module, name)] = target - {(module, name)}
            if kind == "data":
                for line in body.split("\n")[1:]:
                    for made in line.split(" : ")[0].split():
                        known.setdefault((module, made), {(module, name)})
    return known


def source_of(module):
    """The file of src/ that declares a type or constants, by its module."""
    parts = [part for part in module.split(".") if not part[0].isupper()]
    return "/".join(parts) + ".rt"


def clauses(wanted):
    """The clauses of these functions: the file, the function, the clause's kind and name, and all definitions that its words lead to."""
    known = definitions()
    for path in files_of("src/**/*.rt"):
        text = open(path, encoding="utf8").read()
        names, function, lines = Names(text), None, text.split("\n")
        for at, line in enumerate(lines):
            match = re.match(r"^\s*(?:pub(?:\(crate\))? )?(?:final )?fn (\w+)", line)
            function = match.group(1) if match else function
            clause = re.match(r"^\s*(ensures|requires)\*? ?(\w*) ?\{", line)
            if not clause or function not in wanted:
                continue
            body, depth, next_line = line, line.count("{") - line.count("}"), at
            while depth > 0:
                next_line += 1
                body += "\n" + lines[next_line]
                depth += lines[next_line].count("{") - lines[next_line].count("}")
            seen, left = set(), list(names.refer(body))
            while left:
                target = left.pop()
                if target not in seen:
                    seen.add(target)
                    left += known.get(target, ())
            yield path, function, clause.group(1), clause.group(2), {module for module, _ in seen}


class Reached:
    """What modules stand for: files of definitions, files that declare types and constants, and modules of the kit."""

    def __init__(self, modules):
        own = {m for m in modules if m.startswith("Rattle.nbd_")}
        self.specs = {path_of(m) for m in own if ".declared." not in m}
        declared = {tuple(m.split(".specs.declared.")) for m in own if ".declared." in m}
        self.source = {f"crates/{crate.split('.')[1]}/src/{source_of(m)}" for crate, m in declared}
        self.kit = modules - own


def reached(function, clause):
    """What this clause of a public function leads to; a method stands behind its type, in the file that has the type's name."""
    owner, _, function = function.rpartition("::")
    found = [modules for path, _, _, name, modules in clauses({function})
             if name == clause and "/tests" not in path and (not owner or path.endswith(f"/{owner.lower()}.rt"))]
    if not found:
        raise LookupError(f"`{function}` has no clause *{clause}*")
    return Reached(set().union(*found))


def reach(wanted):
    for path, function, kind, name, modules in clauses(wanted):
        print(f"{os.path.relpath(path, TOP)} {function} {kind} {name}")
        found = Reached(modules)
        for label, items in (("specs", found.specs), ("src", found.source), ("kit", found.kit)):
            print(f"  {label}: " + " ".join(sorted(items)))
    return 0


if __name__ == "__main__":
    if sys.argv[1:2] == ["check"]:
        sys.exit(check())
    if sys.argv[1:2] == ["reach"] and sys.argv[2:]:
        sys.exit(reach(set(sys.argv[2:])))
    sys.exit(__doc__)
