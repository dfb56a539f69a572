#!/usr/bin/env python3
"""tools/edits.py [--over TREE] [--keep FOLDER] [--copies] [CRATE..]: has the prover refuse the must-fail edits of these
crates, or of all. `rt check` proves each crate first, as it stands here. With --over `rt ci` does, in TREE: a crate is
taken as soon as it says on standard input that the crate is proved. What was checked stands in FOLDER afterwards. With
--copies the copies of functions, of which it says more below, are checked without their edits: each must be proved.

`rt must-fail` checks a crate once for each edit, and most of that is the same every time: what the crate and its
libraries hold is read, and what the function calls is proved. Here one check tries the edits of all functions, since
whether a function meets its contract does not depend on the bodies of others. Each is made in a copy of its function
with the same contract and proof, which stands at the end of the file; a method of a trait and a function that calls
itself have no copies, and one edit of theirs goes into a check. A function without an edit is not proved again: it has
no body, and a hole is its proof, by which its contract is assumed. Of each edit the prover must say that the very
function in which it stands is not proved, for a goal of its own and not because of what it calls; where it says less,
the edit is tried once more without those of which enough was said, and then by itself. An edit outside of a body is
tried by itself, and all is proved again. If it says what it breaks (`breaks: module::function`, behind it the name of
the clause if that has one), one check tries as many as break different clauses of one function, and the prover must
say that this clause is not proved.

The last line is `N passed, M failed`.
"""

import argparse
import contextlib
import heapq
import itertools
import os
import re
import shutil
import subprocess
import sys
import tempfile
import threading
import time
from collections import namedtuple
from concurrent.futures import ThreadPoolExecutor
from pathlib import Path

TOP = Path(__file__).resolve().parent.parent
KIT = Path(shutil.which("rt") or sys.exit("rt is not installed")).resolve().parent.parent
# A line in which a function begins, and one in which what is implemented for a type does.
FUNCTION = re.compile(r"( *)(?:pub(?:\(\w+\))? )?(?:const )?fn (\w+)")
IMPL = re.compile(r"impl(?:<.*?>)? (?:(?:\w+::)*(\w+)(?:<(\w+).*>)? for )?(\w+)")
# A slice, as the prover writes it in a name.
SLICE = re.compile(r"&\[(\w+)\]")
# What is said of a proof that names what an edit took away, which says nothing of the contract; behind a long name it begins a line.
NAMES = re.compile("has no field|is not in scope|has no `|was not admitted")
NAMES_BELOW = re.compile(rf"\n  (?={NAMES.pattern})")

# What a check says of a function.
FUNCTION_SAID = re.compile(r"(?m)^fn (\S+): (.*)$")
# A proof by which a function's contract is assumed.
ASSUMED = """use Rattle.{module}.Statement as stated

pub {name}_spec : {{M : Type 1}} → stated.statement M
{name}_spec = ?
"""
# The path of a function that has a name, and a folder for its proof; closures, which go with their function's body, stand behind `fn`.
PATH = re.compile(r"\w+(?:::(?!fn::)\w+)+")
# The seconds above which it is told that a function was tried for long.
LONG = 10
# The seconds that an edit takes, or so, for the order of what waits.
EACH = 12

# What an edit changes in which file; if it stands in the body of one function, that one's type and name, and its lines;
# else, if it says so, a function and the clause of it that it breaks. With a number it is made in the copy with that number.
Edit = namedtuple("Edit", "name file changes function lines breaks copy", defaults=[None])


class Lanes:
    """So many runs at a time; of those that wait the one with the most behind it is next."""

    def __init__(self, count):
        self.free, self.waiting, self.turn = count, [], threading.Condition()
        self.numbers = itertools.count()

    @contextlib.contextmanager
    def lane(self, behind):
        ticket = (-behind, next(self.numbers))
        with self.turn:
            heapq.heappush(self.waiting, ticket)
            self.turn.wait_for(lambda: self.free and self.waiting[0] == ticket)
            heapq.heappop(self.waiting)
            self.free -= 1
            self.turn.notify_all()
        try:
            yield
        finally:
            with self.turn:
                self.free += 1
                self.turn.notify_all()


def read_crates():
    """Of each crate the crates that it uses, the kit's libraries, and the seconds that its build takes."""
    lines = re.findall(r"(?m)^(\w+):([^#\n]*)(?:# (\d+))?", (TOP / "crates.txt").read_text())
    names = [name for name, _, _ in lines]
    split = lambda uses: ([it for it in uses if it in names], [it for it in uses if it not in names])
    return {name: (*split(uses.split()), int(seconds or 1)) for name, uses, seconds in lines}


def body_of(lines, top):
    """The lines that open and close the body of the function that begins here; None where it has no body."""
    margin = FUNCTION.match(lines[top])[1]
    for place in range(top, len(lines)):
        line = lines[place]
        if place > top and (FUNCTION.match(line) or (line and not line.startswith(margin))):
            return None
        if line == margin + "{}" or (line.endswith("{}") and place == top):
            return place, place
        if line == margin + "{" or (line.endswith(" {") and (place == top or line.startswith(margin + ")"))):
            return place, next(it for it in range(place, len(lines)) if lines[it] == margin + "}")
    return None


def function_at(lines, place):
    """The function in whose body a line stands: its type and name, and where its lines begin and end."""
    for top in range(place, -1, -1):
        if not (match := FUNCTION.match(lines[top])):
            continue
        margin, name = match.groups()
        opens, closes = body_of(lines, top) or (place, place)
        if not opens < place <= closes:
            return None
        named = (SLICE.sub(lambda found: "RefSlice" + found[1].capitalize(), lines[it]) for it in range(top, -1, -1))
        headers = (IMPL.match(it) for it in named if it.startswith(("impl", "}")))
        of = next(headers, None) if margin else None
        # (of a trait's impl the prover writes the names as one)
        return ("".join(it or "" for it in (of[3], of[1], of[2])) if of else "", name), (top, closes)
    return None


def read_edit(crate, path):
    """Reads an edit; answers None where it cannot be applied."""
    said = re.findall(r"(?m)^(file|old|new|breaks): (.*)$", path.read_text())
    file = next((text.strip() for word, text in said if word == "file"), "")
    breaks = next((tuple(text.split()) for word, text in said if word == "breaks"), None)
    old, new = ([text for word, text in said if word == which] for which in ("old", "new"))
    source = crate / file
    if not old or len(old) != len(new) or not source.is_file():
        return None
    text = source.read_text()
    if any(text.count(it) != 1 for it in old):
        return None
    lines, places = text.split("\n"), [text[: text.index(it)].count("\n") for it in old]
    functions = {function_at(lines, it) for it in places} if file.startswith("src/") else {None}
    function, within = (len(functions) == 1 and functions.pop()) or (None, None)
    return Edit(path.stem, file, list(zip(old, new)), function, within, breaks)


def path_of(crate, edit, told):
    """The path of the function in which an edit is made, if the prover names exactly one such function."""
    of, name = edit.function
    module = edit.file[len("src/") : -len(".rt")].replace("/", "::")
    begin = f"{crate}::" if module in ("lib", "main") else f"{crate}::{module}::"
    # (a method is named by the place of its type)
    found = [it for it in told if (it.endswith(f"::{of}::{name}") if of else it == begin + name)]
    return copy_of(found[0], edit) if len(found) == 1 else None


def copy_of(name, edit):
    """The name of a function, or of the copy of it in which an edit is made."""
    return f"{name}_copy{edit.copy}" if edit.copy else name


def header_of(edit, lines):
    """The header of the impl in which an edit's function is a method, in one line, and behind it the names that the impl brings in."""
    top = next(it for it in range(edit.lines[0], -1, -1) if lines[it].startswith("impl"))
    body = next(it for it in range(top, len(lines)) if lines[it].endswith("{"))
    names = re.findall(r"(?m)^    ghost use [^;]*;$", "\n".join(lines[body : lines.index("}", top)]))
    return "\n".join([" ".join(it.strip() for it in lines[top : body + 1]), *names])


def can_be_copied(edit, text):
    """Whether an edit can be made in a copy of its function: that is no method of a trait, and does not call itself."""
    lines, (of, name) = text.split("\n"), edit.function
    body = "\n".join(lines[edit.lines[0] + 1 : edit.lines[1] + 1])
    if of and IMPL.match(SLICE.sub(r"\1", header_of(edit, lines)))[1]:
        return False
    return not re.search(rf"\b(?:self\.|Self::|{of}::){name}\(" if of else rf"(?<![.:\w]){name}\(", body)


def copied(edit, text):
    """The copy of an edit's function with the edit in it, behind an empty line."""
    lines, name = text.split("\n"), edit.function[1]
    top, end = edit.lines
    while lines[top - 1].lstrip().startswith("#["):
        top -= 1
    body = "\n".join(lines[top : end + 1])
    for old, new in edit.changes:
        body = body.replace(old, new)
    body = re.sub(rf"\bfn {name}\b", f"fn {copy_of(name, edit)}", body, count=1)
    return f"\n{header_of(edit, lines)}\n{body}\n}}\n" if edit.function[0] else f"\n{body}\n"


def with_edits(edits, text):
    """The text of a file with edits in it, and behind it the copies in which the others are made; and those with their lines there."""
    changes = [(text.index(old), old, new) for edit in edits if not edit.copy for old, new in edit.changes]
    made, behind = text, []
    # (from the last to the first, so that the others stay where they are)
    for place, old, new in sorted(changes, reverse=True):
        made = made[:place] + new + made[place + len(old) :]
    for edit in edits:
        if edit.copy:
            begin = made.count("\n")
            made += copied(edit, text)
            edit = edit._replace(lines=(begin, made.count("\n")))
        behind.append(edit)
    return made, behind


def hollow(text, is_asked):
    """The text with `loop {}` in place of the body of each function that is not asked for; each line stays where it is."""
    lines, behind = text.split("\n"), 0
    for top, line in enumerate(lines):
        body = body_of(lines, top) if top >= behind and FUNCTION.match(line) else None
        if body and body[0] + 1 < body[1]:
            opens, behind = body
            if not is_asked(*function_at(lines, behind)):
                lines[opens + 1 : behind] = ["loop {}", *[""] * (behind - opens - 2)]
    return "\n".join(lines)


def is_proved(said):
    """Whether a function is proved, given the contracts of what it calls."""
    return said in ("proved", "no holes") or said.startswith("depends on a hole in ")


def refusals(edit, path, told, text):
    """Why a function, with an edit in it, is refused for goals of its own; a name that is gone is no reason."""
    if is_proved(told[path]):
        return []
    notes = re.findall(rf"(?m)^note: ({re.escape(edit.file)}:(\d+):\d+: it is not proved that .*)$", text)
    first, last = edit.lines
    # (an edit leaves each line where it was, and a copy stands behind them)
    found = [note for note, line in notes if first < int(line) <= last + 1]
    *parts, name = path.split("::")[1:]
    # (one that calls itself has its proof behind a +)
    proofs = "/".join(["proofs", *parts, rf"\+?{name}"])
    errors = re.findall(rf"(?m)^\./({proofs}/\w+\.antt:\d+:\d+: error: .*)$", text)
    return [told[path]] * ("did not prove" in told[path]) + found + [it for it in errors if not NAMES.search(it)]


def link_or_copy(one, other):
    """Copies a file; a module by a link where that can be made, since a check replaces it and does not write into it."""
    try:
        (os.link if one.endswith(".oantt") else shutil.copy2)(one, other)
    except OSError:
        shutil.copy2(one, other)


class Crate:
    """A crate with its edits, over libraries that stand in a tree."""

    def __init__(self, name, crates, tree, folder, lanes):
        self.name, self.below, self.lanes = name, below_of(name, crates), lanes
        self.uses, self.beside, self.seconds_of_build = crates[name]
        self.home, self.tree, self.place, self.over = TOP / "crates" / name, tree, folder / name, folder / f"{name}.kept"
        self.told, self.checks, self.seconds, self.passed, self.failed = {}, 0, 0.0, 0, 0

    def copy(self):
        """Copies the crate, and what a check of it kept."""
        shutil.copytree(self.home, self.place, ignore=shutil.ignore_patterns("out", "must-fail"))
        kept = self.tree / "crates" / self.name / "out/incremental"
        if kept.is_dir():
            shutil.copytree(kept, self.over, copy_function=link_or_copy)

    def words(self, only):
        """The prover's command, for the whole crate or for these functions."""
        library = lambda name: self.tree / "crates" / name / f"out/rlib/{name}.rlib"
        top = "src/main.rt" if (self.home / "src/main.rt").exists() else "src/lib.rt"
        uses = {"std": KIT / "rlibs/std.rlib", **{name: KIT / f"rlibs/{name}.rlib" for name in self.beside}}
        uses |= {name: library(name) for name in self.uses}
        words = [KIT / "bin/rattle", "check", "--crate-name", self.name, top, "--jobs", "1", "--incremental", self.over]
        words += ["--antt-project", KIT / "rattle/logic/antt-project.json", "--logic-built", KIT / "logic_built"]
        words += ["--allow-holes", "--progress", "--links", f"{self.name}=", "-L", f"dependency={KIT / 'rlibs'}"]
        words += [word for name, it in uses.items() for word in ("--extern", f"{name}={it}")]
        words += [word for name in self.below for word in ("-L", f"dependency={library(name).parent}")]
        return words + [word for path in only for word in ("--only", path.removeprefix(f"{self.name}::"))]

    def can_be_copied(self, edit):
        """Whether an edit can be made in a copy of its function, whose path is known."""
        return path_of(self.name, edit, self.told) is not None and can_be_copied(edit, (self.place / edit.file).read_text())

    def lay_proofs(self, edits, only):
        """Lays the crate's proofs for a check. Where that is of these functions alone, the contracts of the others are assumed."""
        shutil.rmtree(self.place / "proofs", ignore_errors=True)
        if (self.home / "proofs").is_dir():
            shutil.copytree(self.home / "proofs", self.place / "proofs")
        for edit in edits:
            if edit.copy:
                self.copy_proofs(edit)
        for path in self.told if only else ():
            if path not in only and PATH.fullmatch(path):
                self.assume(path)

    def copy_proofs(self, edit):
        """Copies the proof of an edit's function for the copy in which the edit is made, if it has one."""
        *parts, copy = path_of(self.name, edit, self.told).split("::")[1:]
        proof, folder = (self.place.joinpath("proofs", *parts, it) for it in (edit.function[1], copy))
        module = ".".join([f"Rattle.{self.name}.proofs", *parts, ""])
        for file in sorted(proof.glob("*.antt")):
            folder.mkdir(exist_ok=True)
            text = file.read_text().replace(f"{module}{edit.function[1]}.", f"{module}{copy}.")
            # (its goals also stand among others behind `use Rattle.CRATE.proofs.{`)
            goals = re.escape(".".join([*parts, edit.function[1], "Goals"]))
            (folder / file.name).write_text(re.sub(rf"(?<=[ {{]){goals}\b", ".".join([*parts, copy, "Goals"]), text))

    def hollow(self, file, text, only):
        """A file of src/ in which only these functions have their bodies, and those of which rt ci said nothing, as copies."""
        path = lambda function, within: path_of(self.name, Edit("", file, [], function, within, None), self.told)
        return hollow(text, lambda *of: path(*of) is None or path(*of) in only) if file.startswith("src/") else text

    def assume(self, path):
        """Puts a hole in place of a function's proof."""
        *parts, name = path.split("::")
        folder = self.place.joinpath("proofs", *parts[1:], name)
        folder.mkdir(parents=True, exist_ok=True)
        for file in folder.glob("*.antt"):
            file.unlink()
        module = ".".join([parts[0], "proofs", *parts[1:], name])
        (folder / "Proof.antt").write_text(ASSUMED.format(module=module, name=name))

    def check(self, edits, left, only=()):
        """Checks the crate with these edits; answers what is said of each function, all that is said, and where the edits stand."""
        files, placed = {edit.file for edit in edits}, []
        if only:
            files |= {str(it.relative_to(self.place)) for it in self.place.glob("src/**/*.rt")}
        files = {it: (self.place / it).read_text() for it in sorted(files)}
        for file, text in files.items():
            made, here = with_edits([edit for edit in edits if edit.file == file], text)
            (self.place / file).write_text(self.hollow(file, made, only) if only else made)
            placed += here
        self.lay_proofs(edits, only)
        behind = EACH * left + self.seconds_of_build * (not self.checks)
        how = {"cwd": self.place, "stdin": subprocess.DEVNULL, "stdout": subprocess.PIPE, "stderr": subprocess.STDOUT}
        with self.lanes.lane(behind):
            run, said, took = subprocess.Popen(self.words(only), text=True, errors="replace", **how), "", []
            before = time.monotonic()
            for line in run.stdout:
                said += line
                if match := re.match(r"checked (\S+), ", line):
                    now = time.monotonic()
                    took.append((now - before, match[1]))
                    before = now
            used = os.wait4(run.pid, 0)[2]
        seconds = used.ru_utime + used.ru_stime
        self.checks, self.seconds = self.checks + 1, self.seconds + seconds
        longest = "".join(f", {name} {it:.0f}" for it, name in sorted(took, reverse=True) if it > LONG)
        print(f"{self.name}: {len(edits)} edits in {seconds:.0f} s of processor time{longest}", flush=True)
        for file, text in files.items():
            (self.place / file).write_text(text)
        told = dict(FUNCTION_SAID.findall(said))
        self.told = self.told or told
        return told, NAMES_BELOW.sub(" ", said), placed

    def say(self, edit, is_refused, what):
        """Tells what an edit came to."""
        self.passed, self.failed = self.passed + is_refused, self.failed + (not is_refused)
        print(f"must-fail {self.name}/{edit.name}: {'refused' if is_refused else 'NOT REFUSED'}: {what[:160]}", flush=True)

    def only(self, edits):
        """The functions in which edits stand, or none if one of them is not known."""
        paths = [path_of(self.name, it, self.told) if it.function else None for it in edits]
        return paths if all(paths) else ()

    def try_alone(self, edit, left):
        """Tries an edit by itself: something is refused, and not for a name that is gone."""
        told, text, _ = self.check([edit], left, self.only([edit]))
        found = [it for it in re.findall(r"(?m)^\./(proofs/\S+: error: .*)$", text) if not NAMES.search(it)]
        found += re.findall(r"(?m)^fn .* did not prove .*$|^note: src/\S+: it is not proved that .*$", text)
        is_refused = bool(told and found)
        self.say(edit, is_refused, found[0] if is_refused else f"it is proved, or was not read: {text}")

    def try_together(self, edits, left):
        """Tries edits of different functions and copies; answers those of which nothing is known yet."""
        told, text, placed = self.check(edits, left, self.only(edits))
        unclear = []
        for edit in placed:
            path = path_of(self.name, edit, self.told)
            if is_proved(told.get(path, "")):
                self.say(edit, False, f"{path} is still proved")
            elif path in told and (found := refusals(edit, path, told, text)):
                self.say(edit, True, found[0])
            else:
                unclear.append(next(it for it in edits if it.name == edit.name)._replace(copy=None))
        return unclear

    def try_in_rounds(self, edits):
        """Tries edits, in each round all of functions that can have copies, and one of each other; answers those of which nothing is known
        yet."""
        unclear = []
        while edits:
            others = [it for it in edits if self.can_be_copied(it)]
            together = firsts([it for it in edits if it not in others], lambda it: (it.file, it.function))
            edits = [it for it in edits if it not in together + others]
            copies = [it._replace(copy=number) for number, it in enumerate(others, 2)]
            unclear += self.try_together(together + copies, len(edits) + len(together + copies))
        return unclear

    def try_clauses(self, edits):
        """Tries edits of which each says which clause of a function it breaks."""
        while edits:
            function = edits[0].breaks[0]
            # (two edits of one place would not both be in)
            together = firsts(firsts([it for it in edits if it.breaks[0] == function], lambda it: it.breaks), lambda it: it.changes[0][0])
            path, proofs = f"{self.name}::{function}", f"proofs/{function.replace('::', '/')}/"
            told, text, _ = self.check(together, len(edits), [path])
            is_whole = is_proved(told.get(path, "proved"))
            for edit in together:
                goal = rf"returns-clause-{edit.breaks[1]}" if edit.breaks[1:] else r"returns[\w-]*"
                said = rf"note: (?=src/\S+: it is not proved that .*\(`{goal}`\))|\./(?={proofs}\S+: error: `{goal}`: )"
                found = [it for it in re.findall(rf"(?m)^(?:{said})(.*)$", text) if not NAMES.search(it) and not is_whole]
                self.say(edit, bool(found), found[0] if found else f"its clause is proved, or was not read: {text}")
            edits = [it for it in edits if it not in together]

    def try_copies(self, told):
        """Checks the copies of functions in which edits are made, without these edits: each is proved."""
        self.told = told
        self.copy()
        read = [read_edit(self.place, path) for path in sorted((self.home / "must-fail").glob("*.edit"))]
        read = [it for it in read if it and it.function]
        others = [it for it in read if self.can_be_copied(it)]
        copies = [it._replace(copy=number, changes=[]) for number, it in enumerate(others, 2)]
        said = self.check(copies, len(copies), self.only(copies))[0] if copies else {}
        for edit in copies:
            is_well = is_proved(said.get(path_of(self.name, edit, self.told), ""))
            self.passed, self.failed = self.passed + is_well, self.failed + (not is_well)
            print(f"copy for {self.name}/{edit.name}: {'proved' if is_well else 'NOT PROVED'}", flush=True)

    def try_edits(self, told):
        """Tries all edits, given what was said of each function without them."""
        self.told = told
        self.copy()
        edits = {path: read_edit(self.place, path) for path in sorted((self.home / "must-fail").glob("*.edit"))}
        for path in (path for path, edit in edits.items() if not edit):
            self.say(Edit(path.stem, *[None] * 6), False, "it cannot be applied")
        read = [edit for edit in edits.values() if edit]
        of_bodies, of_clauses = [it for it in read if it.function], [it for it in read if not it.function and it.breaks]
        unclear = self.try_in_rounds(of_bodies)
        # (where only a callee was refused, more is said without those that were clear)
        unclear = self.try_in_rounds(unclear) if len(unclear) > 1 else unclear
        self.try_clauses(of_clauses)
        alone = unclear + [it for it in read if it not in of_bodies + of_clauses]
        for number, edit in enumerate(alone):
            self.try_alone(edit, len(alone) - number)
        print(f"{self.name}: {len(edits)} edits in {self.checks} checks, {self.seconds:.0f} s of processor time", flush=True)


def firsts(edits, of):
    """Of edits with the same key the first."""
    return list({of(it): it for it in reversed(edits)}.values())[::-1]


def below_of(name, crates):
    """The crates that a crate rests on."""
    uses = crates[name][0]
    return {it for use in uses for it in [use, *below_of(use, crates)]}


class Proved:
    """What rt ci has said so far on standard input."""

    def __init__(self, crates):
        self.ended = {name: threading.Event() for name in crates}
        self.told, self.proved = {name: {} for name in crates}, set()
        threading.Thread(target=self.read, daemon=True).start()

    def read(self):
        for line in sys.stdin:
            if line.startswith("rt: ") and not line.startswith("rt: warning"):
                print(line, end="", flush=True)
            if (match := FUNCTION_SAID.match(line)) and (told := self.told.get(match[1].split("::")[0])) is not None:
                told[match[1]] = match[2]
            elif (match := re.match(r"rt: (\w+) (proved$|is kept: )", line)) and match[1] in self.ended:
                self.proved.add(match[1])
                self.ended[match[1]].set()
        for it in self.ended.values():
            it.set()

    def functions(self, name):
        """Waits until rt ci has proved a crate, or has ended; answers what it said of each function, or None."""
        self.ended[name].wait()
        return dict(self.told[name]) if name in self.proved else None


def check_here(name):
    """Checks a crate as it stands here; answers what is said of each function, or None."""
    how = {"cwd": TOP / "crates" / name, "stdin": subprocess.DEVNULL, "stdout": subprocess.PIPE, "stderr": subprocess.STDOUT}
    run = subprocess.run(["rt", "check"], text=True, errors="replace", **how)
    if run.returncode:
        print(run.stdout, flush=True)
    return None if run.returncode else dict(FUNCTION_SAID.findall(run.stdout))


def run(crates, asked, tree, folder, copies):
    """Tries the edits of the crates that are asked for, or the copies of functions without them."""
    lanes = Lanes(len(os.sched_getaffinity(0)))
    made = [Crate(name, crates, tree or TOP, folder, lanes) for name in asked]
    # (checks in one copy of the repository wait for one another)
    functions = Proved(crates).functions if tree else {it.name: check_here(it.name) for it in made}.get

    def try_edits(crate):
        if (told := functions(crate.name)) is None:
            print(f"{crate.name} as it stands is not proved", flush=True)
            crate.failed += 1
        elif copies:
            crate.try_copies(told)
        else:
            crate.try_edits(told)

    with ThreadPoolExecutor(len(made)) as pool:
        for done in [pool.submit(try_edits, it) for it in made]:
            done.result()
    return made


def main():
    words = argparse.ArgumentParser(usage=__doc__)
    words.add_argument("--over", metavar="TREE", type=Path)
    words.add_argument("--keep", metavar="FOLDER", type=Path)
    words.add_argument("--copies", action="store_true")
    words.add_argument("crate", nargs="*")
    words = words.parse_args()
    crates, begun = read_crates(), time.monotonic()
    if unknown := [name for name in words.crate if name not in crates]:
        sys.exit(f"crates.txt has no crate {unknown[0]}")
    with contextlib.ExitStack() as stack:
        folder = words.keep or Path(stack.enter_context(tempfile.TemporaryDirectory(prefix="nbdcheck-edits-")))
        tried = run(crates, words.crate or list(crates), words.over and words.over.resolve(), folder.resolve(), words.copies)
    print(f"{time.monotonic() - begun:.0f} s, {sum(crate.seconds for crate in tried):.0f} s of processor time")
    passed, failed = sum(crate.passed for crate in tried), sum(crate.failed for crate in tried)
    print(f"{passed} passed, {failed} failed")
    return failed != 0


if __name__ == "__main__":
    sys.exit(main())
