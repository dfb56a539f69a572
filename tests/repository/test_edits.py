"""`edits.py`, over a small tree and a stand-in for the prover: which edits it takes for refused, and which it tries together."""

import os
import re
import shutil
import subprocess
import tempfile
from pathlib import Path

import edits
from built import TOP

# Notes each check with the words in the crate's text and the functions asked for, and says of each what the word in its body stands for.
# Where functions are asked for, the others must be assumed, and only they.
PROVER = r"""#!/usr/bin/env python3
import os, re, sys
crate = sys.argv[sys.argv.index("--crate-name") + 1] if "--crate-name" in sys.argv else os.path.basename(os.getcwd())
text = open("src/lib.rt").read()
bodies = dict(re.findall(r"fn (\w+)\(\) \{\n    (\w+).*\n\}", text))
limit = re.findall(r"LIMIT: u8 = (\d+);", text)
only = [word for before, word in zip(sys.argv, sys.argv[1:]) if before == "--only"]
with open(os.environ["NOTES"], "a") as notes:
    words = sorted(it for it in bodies.values() if it != "right") + [f"LIMIT {it}" for it in limit if it != "7"]
    by = "rt" if sys.argv[0].endswith("/rt") else "prover"
    notes.write(f"{by} {crate}: {' '.join(words)}; {' '.join(sorted(only))}\n")
    assumed = {it for it in bodies if os.path.exists(f"proofs/{it}/Proof.antt")}
    if by == "prover" and assumed != (set(bodies) - set(only) if only else set()):
        notes.write(f"prover {crate} assumed {' '.join(sorted(assumed))}\n")
    for name in bodies:
        proof = f"proofs/{name}/Answers.antt"
        if os.path.exists(proof) and set(re.findall(r"(\w+)\.Goals", open(proof).read())) != {name}:
            notes.write(f"prover {crate} cites goals of another in {name}\n")
if crate == os.environ.get("FAILS") or "unread" in bodies.values():
    sys.exit("src/lib.rt:1:1: error[parse]: what is that")
refused = {"searched", "by_hand", "noted"} & set(bodies.values())
says = {
    "right": "proved",
    "same": "depends on a hole in `Rattle.low.proofs.two.Proof.two_spec`",
    "searched": "no proof: expected answers in ./proofs/NAME/Answers.antt; `search` did not prove `returns`",
    "by_hand": "not proved; it calls `low::three`, which is not proved",
    "named": "not proved",
    "noted": "not proved",
    "hidden": "no proof: it calls `low::two`, which is not proved" if refused else "no proof: `search` did not prove `returns`",
}
for name, body in bodies.items():
    if only and name not in only:
        continue
    if body == "by_hand":
        print(f"./proofs/{name}/Answers.antt:5:1: error: `returns`: the two types differ")
    if body == "noted":
        line = text[: text.index(f"fn {name}(")].count("\n") + 2
        print(f"note: src/lib.rt:{line}:5: it is not proved that the index is in bounds (`index`)")
    if body in ("named", "noted"):
        print(f"./proofs/{name}/Answers.antt:5:1: error: `returns`: `n` is not in scope")
        print(f"./proofs/{name}/Answers.antt:6:1: error: `returns`: record `View` (nearest: `.m`)\n  has no field `n`")
    broken = name == "three" and limit == ["8"]
    print(f"fn {crate}::{name}: {'not proved' if broken else says[body]}")
if limit == ["8"]:
    print("note: src/lib.rt:9:1: it is not proved that what the function ensures holds when it returns (`returns-clause-least`); no")
    print("./proofs/Lemmas.antt:1:1: error: `limit_is_7`: the two types differ")
bad = limit == ["8"] or set(bodies.values()) - {"right", "same"}
print("logic=not-proved" if bad else "logic=proved")
sys.exit(1 if bad else 0)
"""
BODIES = {"one": "one", "two": "two", "three": "three, which calls three()"}
LOW = "pub const LIMIT: u8 = 7;\n\n" + "\n".join(f"pub fn {name}() {{\n    right // {said}\n}}\n" for name, said in BODIES.items())
# The proof of one of them, which names its goals in both ways.
ANSWERS = "use Rattle.low.proofs.one.Goals as goal\nuse Rattle.low.proofs.{Lemmas.other, one.Goals.{then}}\n"
HIGH = "pub fn main() {\n    right\n}\n"
# What rt ci says of the two crates.
SAID = "fn low::one: proved\nfn low::two: proved\nfn low::three: proved\nrt: low proved\nfn high::main: proved\nrt: high proved\n"


class Tree:
    """A repository of two crates, with edits of the lower one, and a kit."""

    def __init__(self, folder, edits):
        self.top, self.notes, self.folder = Path(folder, "top"), Path(folder, "notes"), Path(folder)
        for name, text in (("low", LOW), ("high", HIGH)):
            (self.top / "crates" / name / "src").mkdir(parents=True)
            (self.top / "crates" / name / "src/lib.rt").write_text(text)
        (self.top / "crates/low/must-fail").mkdir()
        (self.top / "crates/low/proofs/one").mkdir(parents=True)
        (self.top / "crates/low/proofs/one/Answers.antt").write_text(ANSWERS)
        for name, text in edits.items():
            (self.top / f"crates/low/must-fail/{name}.edit").write_text(text)
        (self.top / "crates.txt").write_text("low: # 1\nhigh: low # 1\n")
        (self.top / "tools").mkdir()
        shutil.copy(TOP / "tools/edits.py", self.top / "tools")
        Path(folder, "bin").mkdir()
        for name in ("rt", "rattle"):
            Path(folder, "bin", name).write_text(PROVER)
            Path(folder, "bin", name).chmod(0o755)
        self.environment = {"PATH": f"{folder}/bin:{os.environ['PATH']}", "NOTES": str(self.notes)}

    def run(self, *words, said="", **more):
        """Runs edits.py; answers its status, of each edit whether it is refused, the last line, and what was in each check of the lower crate."""
        self.notes.write_text("")
        done = subprocess.run(["python3", str(self.top / "tools/edits.py"), *words], env={**self.environment, **more}, input=said,
                              stdout=subprocess.PIPE, stderr=subprocess.STDOUT, text=True, timeout=60)
        told = dict(re.findall(r"(?m)^must-fail low/(\w+): (refused|NOT REFUSED): ", done.stdout))
        checks = [line.removeprefix("prover low: ") for line in self.notes.read_text().splitlines() if line.startswith("prover low")]
        return done.returncode, told, done.stdout.splitlines()[-1], checks

    def over(self, said, **more):
        """Runs edits.py as the gate does, given what rt ci says."""
        return self.run("--over", str(self.folder / "built"), said=said, **more)


def change(name, word):
    """An edit of a function's body."""
    return f"file: src/lib.rt\nold: right // {name}\nnew: {word}\n"


def limit(number, breaks=""):
    """An edit outside of a body."""
    return f"file: src/lib.rt\nold: = 7;\nnew: = {number};\n{breaks and f'breaks: {breaks}'}\n"


# A name, the edits, of each whether it is refused, and what stands in each check of the crate with edits.
RUNS = [
    ("different functions", {"a": change("one", "searched"), "b": change("two", "by_hand"), "c": change("three", "searched // right // one")},
     {"a": "refused", "b": "refused", "c": "refused"}, ["by_hand searched searched; one_copy2 three two_copy3"]),
    ("a name that is gone, and more", {"a": change("one", "noted"), "b": change("three", "noted")},
     {"a": "refused", "b": "refused"}, ["noted noted; one_copy2 three"]),
    ("one function", {"a": change("one", "searched"), "b": change("one", "by_hand"), "c": change("two", "searched")},
     {"a": "refused", "b": "refused", "c": "refused"}, ["by_hand searched searched; one_copy2 one_copy3 two_copy4"]),
    ("one function, of which a copy is still proved", {"a": change("one", "searched"), "b": change("one", "same"), "c": change("one", "noted")},
     {"a": "refused", "b": "NOT REFUSED", "c": "refused"}, ["noted same searched; one_copy2 one_copy3 one_copy4"]),
    ("one function, whose copy says too little", {"a": change("one", "searched"), "b": change("one", "hidden")},
     {"a": "refused", "b": "refused"}, ["hidden searched; one_copy2 one_copy3", "hidden; one"]),
    ("one that calls itself", {"a": change("three", "searched"), "b": change("three", "by_hand"), "c": change("two", "searched")},
     {"a": "refused", "b": "refused", "c": "refused"}, ["searched searched; three two_copy2", "by_hand; three"]),
    ("what it calls is refused", {"a": change("one", "hidden"), "b": change("three", "searched")},
     {"a": "refused", "b": "refused"}, ["hidden searched; one_copy2 three", "hidden; one"]),
    ("what two call is refused", {"a": change("one", "hidden"), "b": change("three", "searched"), "c": change("two", "hidden")},
     {"a": "refused", "b": "refused", "c": "refused"}, ["hidden hidden searched; one_copy2 three two_copy3", "hidden hidden; one_copy2 two_copy3"]),
    ("still proved", {"a": change("one", "same"), "b": change("two", "searched")},
     {"a": "NOT REFUSED", "b": "refused"}, ["same searched; one_copy2 two_copy3"]),
    ("still proved, by itself", {"a": change("three", "right // same"), "b": change("two", "searched")},
     {"a": "NOT REFUSED", "b": "refused"}, ["searched; three two_copy2"]),
    ("a name that is gone", {"a": change("one", "named")}, {"a": "NOT REFUSED"}, ["named; one_copy2", "named; one"]),
    ("a text that is not read", {"a": change("one", "unread"), "b": change("two", "searched")},
     {"a": "NOT REFUSED", "b": "refused"}, [*["searched unread; one_copy2 two_copy3"] * 2, "unread; one", "searched; two"]),
    ("outside of a body, refused by a lemma", {"a": limit(8)}, {"a": "refused"}, ["LIMIT 8; "]),
    ("outside of a body, still proved", {"a": limit(9)}, {"a": "NOT REFUSED"}, ["LIMIT 9; "]),
    ("a clause", {"a": limit(8, "three least")}, {"a": "refused"}, ["LIMIT 8; three"]),
    ("a clause that is still proved", {"a": limit(9, "three least")}, {"a": "NOT REFUSED"}, ["LIMIT 9; three"]),
    ("any goal", {"a": limit(8, "three")}, {"a": "refused"}, ["LIMIT 8; three"]),
    ("a clause of another function", {"a": limit(8, "two least")}, {"a": "NOT REFUSED"}, ["LIMIT 8; two"]),
    ("another clause", {"a": limit(8, "three most")}, {"a": "NOT REFUSED"}, ["LIMIT 8; three"]),
    ("one clause twice", {"a": limit(8, "three least"), "b": limit(9, "three least")},
     {"a": "refused", "b": "NOT REFUSED"}, ["LIMIT 8; three", "LIMIT 9; three"]),
    ("clauses of two functions", {"a": limit(8, "three least"), "b": limit(9, "two least")},
     {"a": "refused", "b": "NOT REFUSED"}, ["LIMIT 8; three", "LIMIT 9; two"]),
    ("what cannot be applied", {"a": change("four", "searched"), "b": "file: src/none.rt\nold: a\nnew: b\n", "c": "file: src/lib.rt\n"},
     {"a": "NOT REFUSED", "b": "NOT REFUSED", "c": "NOT REFUSED"}, []),
]


# A text, a line of it, and the function in whose body that line stands: the names as the prover writes them.
PLACES = [
    ("pub fn one()\n    ensures { a }\n{\n    right\n}\n", 3, ("", "one")),
    ("pub fn one()\n    ensures { a }\n{\n    right\n}\n", 1, None),
    ("impl Flat {\n    fn one(&self) -> u8 {\n        right\n    }\n}\n", 2, ("Flat", "one")),
    ("impl<'a> Iterator for Pieces<'a> {\n    fn next(&mut self) {\n        right\n    }\n}\n", 2, ("PiecesIterator", "next")),
    ("impl From<Refusal> for Fault {\n    fn from(it: Refusal) -> Self {\n        right\n    }\n}\n", 2, ("FaultFromRefusal", "from")),
    ("impl fmt::Display for Fault {\n    fn fmt(&self) {\n        right\n    }\n}\n\nconst LIMIT: u8 = 7;\n", 6, None),
]
# A text in which the line `right` is changed to `wrong`: whether that can be made in a copy, and the copy.
COPIES = [
    ("#[tactic(auto)]\npub fn one()\n    ensures { a }\n{\n    right\n}\n", True, "\n#[tactic(auto)]\npub fn one_copy2()\n    ensures { a }\n{\n    wrong\n}\n"),
    ("impl<'a> Pieces<'a>\nwhere\n    A: B,\n{\n    fn one(&self) {\n        right\n    }\n}\n", True,
     "\nimpl<'a> Pieces<'a> where A: B, {\n    fn one_copy2(&self) {\n        wrong\n    }\n}\n"),
    ("impl Pieces {\n    ghost use A.{\n        b,\n    };\n    ghost use C;\n\n    fn one(&self) {\n        right\n    }\n}\n", True,
     "\nimpl Pieces {\n    ghost use A.{\n        b,\n    };\n    ghost use C;\n    fn one_copy2(&self) {\n        wrong\n    }\n}\n"),
    ("impl Drop for Pieces {\n    fn one(&self) {\n        right\n    }\n}\n", False, None),
    ("impl Measured for &[u8] {\n    fn one(&self) {\n        right\n    }\n}\n", False, None),
    ("impl Pieces {\n    fn one(&self) {\n        right\n        self.one();\n    }\n}\n", False, None),
    ("impl Pieces {\n    fn one(&self) {\n        right\n        self.two.one();\n    }\n}\n", True,
     "\nimpl Pieces {\n    fn one_copy2(&self) {\n        wrong\n        self.two.one();\n    }\n}\n"),
]
# A text, the function in it that is asked for, and the text with the other bodies gone.
HOLLOW = [
    ("pub fn one() {\n    right\n    wrong\n}\n\npub fn two()\n    ensures a { (record b {\n        c = d;\n    }) }\n{\n    right\n}\n", "two",
     "pub fn one() {\nloop {}\n\n}\n\npub fn two()\n    ensures a { (record b {\n        c = d;\n    }) }\n{\n    right\n}\n"),
    ("pub fn one() {\n    right\n}\n\npub fn two()\n    ensures a { (record b {\n        c = d;\n    }) }\n{\n    right\n}\n", "one",
     "pub fn one() {\n    right\n}\n\npub fn two()\n    ensures a { (record b {\n        c = d;\n    }) }\n{\nloop {}\n}\n"),
    ("trait Size {\n    fn one(&self) -> u64\n        ensures { a };\n\n    fn two(&self) -> u64;\n}\n\nimpl Flat {\n    pub(crate) fn three(\n        &self,\n    ) -> u64 {\n"
     "        right\n    }\n}\n", "one",
     "trait Size {\n    fn one(&self) -> u64\n        ensures { a };\n\n    fn two(&self) -> u64;\n}\n\nimpl Flat {\n    pub(crate) fn three(\n        &self,\n    ) -> u64 {\n"
     "loop {}\n    }\n}\n"),
    ("pub fn law()\n    ensures { a }\n{}\n\npub fn one() {\n    right\n}\n", "law", "pub fn law()\n    ensures { a }\n{}\n\npub fn one() {\nloop {}\n}\n"),
]
# A function, the functions that the prover names, and which of them it is; its file is src/low.rt.
NAMED = [
    (("", "one"), ["low::low::one", "low::high::one"], "low::low::one"),
    (("", "one"), ["low::high::one"], None),
    (("Flat", "one"), ["low::low::one", "low::flat::Flat::one"], "low::flat::Flat::one"),
    (("Flat", "one"), ["low::flat::FlatMap::one"], None),
    (("Flat", "one"), ["low::flat::Flat::one", "low::other::Flat::one"], None),
]


def run_of_names(tally, edits):
    for text, place, wanted in PLACES:
        found = edits.function_at(text.split("\n"), place)
        tally.want(f"line {place} of {text}", found and found[0], wanted)
    for function, told, wanted in NAMED:
        edit = edits.Edit("a", "src/low.rt", [], function, (0, 1), None)
        tally.want(f"{function} of {told}", edits.path_of("low", edit, told), wanted)
        copy = wanted and f"{wanted}_copy2"
        tally.want(f"a copy of {function} of {told}", edits.path_of("low", edit._replace(copy=2), told), copy)


def run_of_hollow(tally, edits):
    for text, asked, wanted in HOLLOW:
        tally.want(f"{text} without the bodies of others than {asked}", edits.hollow(text, lambda of, _: of[1] == asked), wanted)


def run_of_copies(tally, edits):
    for text, can_be, wanted in COPIES:
        lines = text.split("\n")
        function, within = edits.function_at(lines, next(it for it, line in enumerate(lines) if line.strip() == "right"))
        edit = edits.Edit("a", "src/low.rt", [("right", "wrong")], function, within, None, 2)
        tally.want(f"whether {text} is copied", edits.can_be_copied(edit, text), can_be)
        if can_be:
            made, (placed,) = edits.with_edits([edit], text)
            tally.want(f"the copy of {text}", made, text + wanted)
            tally.holds(f"the lines of the copy of {text}", "wrong" in "\n".join(made.split("\n")[placed.lines[0] : placed.lines[1]]))


def run(tally):
    run_of_names(tally, edits)
    run_of_copies(tally, edits)
    run_of_hollow(tally, edits)
    for name, edits_of_low, wanted, checks in RUNS:
        failed = sum(it != "refused" for it in wanted.values())
        ends = (int(failed > 0), wanted, f"{len(wanted) - failed} passed, {failed} failed", checks)
        with tempfile.TemporaryDirectory(prefix="nbdcheck-") as folder:
            tree = Tree(folder, edits_of_low)
            tally.want(name, tree.run(), ends)
            tally.want(f"{name}: behind rt ci", tree.over(SAID), ends)
    with tempfile.TemporaryDirectory(prefix="nbdcheck-") as folder:
        tree, refused = Tree(folder, {"a": change("one", "searched")}), {"a": "refused"}
        tally.want("one crate", tree.run("low"), (0, refused, "1 passed, 0 failed", ["searched; one_copy2"]))
        tally.want("a crate that is not proved", tree.run(FAILS="low"), (1, {}, "0 passed, 1 failed", []))
        tally.want("no such crate", tree.run("none"), (1, {}, "crates.txt has no crate none", []))
        # (where rt ci has proved it earlier it names no function, so all are asked for)
        kept = "rt: low is kept: an earlier run\nrt: high proved\n"
        tally.want("a crate that is kept", tree.over(kept), (0, refused, "1 passed, 0 failed", ["searched; "]))
        with tempfile.TemporaryDirectory(prefix="nbdcheck-") as other:
            two = {"a": change("one", "searched"), "b": change("one", "by_hand"), "c": change("one", "noted")}
            wanted = (0, dict.fromkeys(two, "refused"), "3 passed, 0 failed", ["searched; ", "by_hand noted; one_copy2 one_copy3"])
            tally.want("a crate that is kept, with several edits of a function", Tree(other, two).over(kept), wanted)
        tally.want("a crate that rt ci does not prove", tree.over("rt: low NOT PROVED\n"), (1, {}, "0 passed, 2 failed", []))
        two = {"a": change("one", "searched"), "b": change("one", "by_hand"), "c": change("three", "searched"), "d": change("three", "noted")}
        with tempfile.TemporaryDirectory(prefix="nbdcheck-") as other:
            tally.want("copies without their edits", Tree(other, two).run("--copies", "low"), (0, {}, "2 passed, 0 failed", ["; one_copy2 one_copy3"]))
        kept = Path(folder, "kept")
        tree.run("--keep", str(kept))
        tally.holds("what was checked is kept", (kept / "low/src/lib.rt").read_text() == LOW)
