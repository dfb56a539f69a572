"""The wrapper `nbdcheck` and tools/build behind it, over a small tree and stand-ins for the kit: what is built, when, and what is said."""

import os
import pty
import re
import shutil
import subprocess
import tempfile
import time
from pathlib import Path

from built import TOP

# A stand-in for rattle: notes where it runs and what it makes there, and where JOBS is set with which priority and on how many processors.
# It fails where a library that it is given is not there, and in the crate that FAILS names. It takes SLOW seconds. In the crate that HANGS
# names it notes its process and does not end. While it builds the crate that EDITED names, a source there changes.
RATTLE = """#!/usr/bin/env bash
own=$(basename "$PWD") jobs=$5 made=${@: -1}
[ "$1 $2 $3 $4" = "build --crate-name $own --jobs" ] || exit 1
echo "$own $([ "${made##*.}" = rlib ] && echo library || echo program)" >>"$NOTES"
[ -z "${JOBS:-}" ] || echo "$own $(nice) $jobs" >>"$NOTES"
echo "what rattle says"
[ "$own" != "${FAILS:-}" ] || exit 1
for word in "$@"; do
    case $word in *=*/crates/*) [ -e "${word#*=}" ] || exit 1 ;; esac
done
if [ "$own" = "${HANGS:-}" ]; then
    echo "$own process $$" >>"$NOTES"
    exec sleep 60
fi
[ "$own" != "${EDITED:-}" ] || echo "// edited" >>src/part.rt
if [ -n "${SLOW:-}" ]; then
    sleep "$SLOW"
    echo "$own ends" >>"$NOTES"
fi
printf '#!/bin/sh\\necho "%s $*"\\n' "$(case $own in nbdcheck) echo program ;; *) echo first ;; esac)" >"$made"
"""
# One for rattle-link, whose words are --target TRIPLE --toolchain FOLDER -o PROGRAM OBJECT..
LINK = """#!/bin/sh
[ "$(basename "$6")" != "${UNLINKED:-}" ] || { echo "what rattle-link says" && exit 1; }
cp "$7" "$6" && chmod +x "$6"
"""
BUILDS = ["low library", "nbdcheck program"]
FIRST_ENDS = "nbdcheck: built what check needs; the other commands are proved when they are first asked for\n"
PLAIN = ["check", "a.cap", "a.ord", "--start", "zero"]
PLAIN_BUILDS = ["nbdcheck_first program"]
CRATES = "low: # 60\nnbdcheck: low # 110\n"


class Tree:
    """A repository of two crates."""

    def __init__(self, folder):
        self.top, self.notes = Path(folder, "top"), Path(folder, "notes")
        self.command = []
        for name in ("top/crates/low/src", "top/crates/nbdcheck/src", "top/tools", "bin"):
            Path(folder, name).mkdir(parents=True)
        for name in ("nbdcheck", "tools/build"):
            shutil.copy(TOP / name, self.top / name)
        (self.top / "crates.txt").write_text(CRATES)
        (self.top / "HANDLES").touch()
        (self.top / "crates/low/src/lib.rt").touch()
        for name, text in {"rt": "", "rattle": RATTLE, "rattle-link": LINK}.items():
            Path(folder, "bin", name).write_text(text)
            Path(folder, "bin", name).chmod(0o755)
        Path(folder, "KIT-ID").write_text("a kit\n")
        path = f"{folder}/bin:{os.environ['PATH']}"
        self.environment = {"PATH": path, "NOTES": str(self.notes)}

    def run(self, *words, stderr=subprocess.PIPE, **more):
        """Runs the wrapper; answers its status, output and errors, and what it built."""
        self.notes.write_text("")
        command = [*self.command, str(self.top / "nbdcheck"), *words]
        done = subprocess.run(command, env={**self.environment, **more}, stdin=subprocess.DEVNULL,
                              stdout=subprocess.PIPE, stderr=stderr, text=True, timeout=60)
        return (done.returncode, done.stdout, done.stderr), self.notes.read_text().splitlines()

    @property
    def program(self):
        return self.top / "crates/nbdcheck/out/nbdcheck"

    def change(self):
        """Lets each crate have another source."""
        for crate in (self.top / "crates").iterdir():
            (crate / "src").mkdir(exist_ok=True)
            with open(crate / "src/part.rt", "a") as source:
                source.write("// another\n")

    def touch(self, name, seconds):
        """Lets a file be so much newer than the program."""
        changed = self.program.stat().st_mtime + seconds
        os.utime(self.top / name, (changed, changed))


def says(*crates, minutes=3, left=None, end=""):
    """What stands on standard error of a build of these crates, in this order; `left` are the minutes that are left at each."""
    lines = [f"nbdcheck: proving and building, which takes about {minutes} minutes the first time\n"]
    for number, crate in enumerate(crates, 1):
        minute = r"\d+" if left is None else left[number - 1]
        lines.append(f"nbdcheck: proving {crate}, {number} of COUNT crates, 0 minutes gone, about {minute} left\n")
    return "".join(lines), end


def told(tally, name, err, wanted, count):
    """Standard error has the lines of a build, and then its end."""
    lines, end = wanted
    tally.holds(f"{name}: says", re.fullmatch(lines.replace("COUNT", str(count)) + re.escape(end), err), err)


def built_by(tree):
    return f"nbdcheck: built {tree.top}/crates/nbdcheck/out/nbdcheck; tools/install PREFIX installs it\n"


def whole(tree, minutes=3):
    """What is said of a build of both crates. Where the lower one was built before it takes no time, and says nothing of the other's."""
    return says("low", "nbdcheck", minutes=minutes, left=(minutes, 2), end=built_by(tree))


def first_build(tally, tree):
    (status, out, err), built = tree.run("check", "a b")
    tally.want("first build", (status, out), (0, "program check a b\n"))
    told(tally, "first build", err, whole(tree), 2)
    tally.want("first build: crates", built, BUILDS)


def later_runs(tally, tree):
    again = (0, "program \n", "")
    tally.want("built before", tree.run(), (again, []))
    tree.touch("crates/low/src/lib.rt", -60)
    tally.want("an older source", tree.run(), (again, []))
    for name in ("crates/low/src/lib.rt", "crates.txt"):
        os.utime(tree.program, (1, 1))
        tree.touch(name, 60)
        tally.want(f"a newer {name} as it was", tree.run(), (again, []))
        tally.holds(f"a newer {name}: seen once", tree.program.stat().st_mtime > 61, name)
    (tree.top / "crates/low/src/lib.rt").write_text("// another\n")
    (status, out, err), built = tree.run()
    tally.want("another source", (status, out, built), (0, "program \n", BUILDS))
    told(tally, "another source", err, whole(tree), 2)
    (tree.top / "crates/nbdcheck/src/main.rt").write_text("// another\n")
    (status, out, err), built = tree.run()
    tally.want("another source above", (status, out, built), (0, "program \n", BUILDS[1:]))
    told(tally, "another source above", err, says("nbdcheck", minutes=2, left=(2,), end=built_by(tree)), 1)
    tree.program.write_text("#!/bin/sh\necho by rt\n")
    tree.touch("crates.txt", 1)
    (status, out, _), built = tree.run()
    tally.want("a program that something else built", (status, out, built), (0, "program \n", BUILDS[1:]))


def plain_check(tally, tree):
    """`check` with an order and a start is answered by nbdcheck_first until the whole program is built, and by that then."""
    write_crates(tree, {"low": ([], 60), "nbdcheck": (["low"], 110), "nbdcheck_first": (["low"], 60)})
    tree.touch("crates.txt", -60)
    tree.program.unlink()
    (status, out, err), built = tree.run(*PLAIN)
    tally.want("a plain check", (status, out), (0, "first check a.cap a.ord --start zero\n"))
    tally.want("a plain check: crates", built, PLAIN_BUILDS)
    told(tally, "a plain check", err, says("nbdcheck_first", minutes=1, left=(1,), end=FIRST_ENDS), 1)
    tally.want("a plain check again", tree.run(*PLAIN), ((0, "first check a.cap a.ord --start zero\n", ""), []))
    for words in (["check", "a.cap", "a.ord"], ["check", "a.cap", "--start", "zero", "a.ord"], ["show", "a.cap"], ["check", "--help"]):
        tree.program.unlink(missing_ok=True)
        (status, out, err), built = tree.run(*words)
        tally.want(f"{words}: the whole program", (status, out, built), (0, f"program {' '.join(words)}\n", BUILDS[1:]))
        told(tally, f"{words}: the whole program", err, says("nbdcheck", minutes=2, left=(2,), end=built_by(tree)), 1)
    tally.want("a plain check of the whole program", tree.run(*PLAIN), ((0, f"program {' '.join(PLAIN)}\n", ""), []))
    tree.program.unlink()
    (tree.top / "crates/nbdcheck_first/out/nbdcheck_first").unlink()
    (status, out, err), built = tree.run(*PLAIN, FAILS="nbdcheck_first")
    tally.want("a plain check that cannot be built", (status, out, built), (125, "", PLAIN_BUILDS))
    failed = "what rattle says\nnbdcheck: the build of nbdcheck_first failed\n"
    told(tally, "a plain check that cannot be built", err, says("nbdcheck_first", minutes=1, left=(1,), end=failed), 1)
    (tree.top / "crates.txt").write_text(CRATES)
    tree.run()


def faster_than_told(tally, tree):
    """Where what was built took less than its seconds, so will the rest."""
    write_crates(tree, {"low": ([], 7), "nbdcheck": (["low"], 100)})
    tree.change()
    (_, _, err), _ = tree.run(SLOW="2.2")
    told(tally, "a fast build", err, says("low", "nbdcheck", minutes=2, left=(2, 1), end=built_by(tree)), 2)
    (tree.top / "crates.txt").write_text(CRATES)
    tree.run()


def failed_build(tally, tree):
    tree.change()
    (status, out, err), built = tree.run("check", FAILS="low")
    tally.want("a failed build", (status, out, built), (125, "", BUILDS[:1]))
    told(tally, "a failed build", err, says("low", left=("[23]",), end="what rattle says\nnbdcheck: the build of low failed\n"), 2)
    (status, out, err), built = tree.run("check", UNLINKED="nbdcheck")
    tally.want("a program that cannot be linked", (status, out, built), (125, "", BUILDS))
    failed = "what rattle says\nwhat rattle-link says\nnbdcheck: the build of nbdcheck failed\n"
    told(tally, "a program that cannot be linked", err, says("low", "nbdcheck", left=(3, 2), end=failed), 2)
    tally.want("what was built stands", tree.run("check")[1], BUILDS[1:])


def edited_build(tally, tree):
    """What was built while a source changed counts for nothing, nor does what stands on it, also where the source is as it was before."""
    tree.change()
    source = tree.top / "crates/low/src/part.rt"
    before = source.read_text()
    tally.want("a source that changes", tree.run(EDITED="low")[1], BUILDS)
    source.write_text(before)
    tally.want("a source that is as it was", tree.run()[1], BUILDS)
    tally.want("a source that stays", tree.run()[1], [])


def no_kit(tally, tree):
    """Without the kit nothing is built, and it is said what is lacking."""
    tree.change()
    status, built = tree.run("check", PATH="/usr/bin:/bin")
    tally.want("no kit", (status, built), ((125, "", "nbdcheck: there is no rt: the kit is needed to build\n"), []))
    tree.run()


def ended_build(tally, tree):
    """Where a build is ended, so is what it began, and what it built stands where the next one finds it."""
    tree.change()
    tree.notes.write_text("")
    with subprocess.Popen([str(tree.top / "nbdcheck")], env={**tree.environment, "HANGS": "nbdcheck"}, stdin=subprocess.DEVNULL,
                          stdout=subprocess.PIPE, stderr=subprocess.PIPE, text=True) as child:
        last = time.monotonic() + 20
        while " process " not in tree.notes.read_text() and time.monotonic() < last:
            time.sleep(0.05)
        child.terminate()
        out, _ = child.communicate(timeout=30)
    tally.want("an ended build", (child.returncode != 0, out), (True, ""))
    process = tree.notes.read_text().split()[-1]
    while Path("/proc", process).exists() and time.monotonic() < last:
        time.sleep(0.05)
    tally.holds("an ended build: what it began", not Path("/proc", process).exists(), process)
    tally.want("an ended build: what stands", tree.run()[1], BUILDS[1:])


def two_builds(tally, tree):
    """A second build in the same copy of the repository waits for the first, and builds nothing where that one has."""
    tree.change()
    tree.notes.write_text("")
    how = {"env": {**tree.environment, "SLOW": "0.2"}, "stdin": subprocess.DEVNULL, "stdout": subprocess.PIPE, "stderr": subprocess.PIPE}
    both = [subprocess.Popen([str(tree.top / "nbdcheck"), "check"], text=True, **how) for _ in range(2)]
    said = [child.communicate(timeout=60) for child in both]
    tally.want("two builds", [(child.returncode, out) for child, (out, _) in zip(both, said)], [(0, "program check\n")] * 2)
    waiting = "nbdcheck: waiting for another build in this copy of the repository\n"
    tally.want("two builds: one waits", sorted(err == waiting for _, err in said), [False, True])
    tally.want("two builds: crates", [it for it in tree.notes.read_text().splitlines() if not it.endswith(" ends")], BUILDS)


def write_crates(tree, needs):
    """Lets the tree have these crates, by name what each needs and how long it takes."""
    for name in needs:
        (tree.top / "crates" / name).mkdir(exist_ok=True)
    lines = [f"{name}: {' '.join(below)} # {seconds}\n" for name, (below, seconds) in needs.items()]
    (tree.top / "crates.txt").write_text("".join(lines))
    tree.touch("crates.txt", 1)


def side_by_side(tally, tree):
    """No crate is begun before those that it stands on are built, however many are built at once."""
    needs = {"low": ["other"], "left": ["low"], "right": ["low", "other"], "nbdcheck": ["left", "right"]}
    write_crates(tree, {name: (below, 1) for name, below in needs.items()})
    tree.change()
    (status, out, err), built = tree.run(SLOW="0.2")
    tally.want("four crates", (status, out), (0, "program \n"))
    told(tally, "four crates", err, says("low", "left", "right", "nbdcheck", minutes=1, end=built_by(tree)), 4)
    tally.want("four crates: begun", sorted(built), sorted(
        [f"{name} {words}" for name in needs for words in ("program" if name == "nbdcheck" else "library", "ends")]))
    for name, below in needs.items():
        begins = next(i for i, line in enumerate(built) if line.startswith(name) and not line.endswith("ends"))
        for other in below:
            if other in needs:
                tally.holds(f"{other} is built before {name}", built.index(f"{other} ends") < begins, built)


def longest_way_first(tally, tree):
    """On one processor: the crate with the longest way to the program first, and none that the program does not need."""
    write_crates(tree, {
        "short": ([], 8), "low": ([], 1), "high": (["low"], 9), "unused": (["high"], 90), "nbdcheck": (["high", "short"], 1),
    })
    tree.change()
    tree.command = ["taskset", "-c", "0"]
    (status, out, err), built = tree.run(JOBS="yes")
    tree.command = []
    tally.want("one processor", (status, out), (0, "program \n"))
    told(tally, "one processor", err, says("low", "high", "short", "nbdcheck", minutes=1, end=built_by(tree)), 4)
    tally.want("one processor: begun", [it for it in built if not it.split()[1].isdigit()],
               ["low library", "high library", "short library", "nbdcheck program"])
    tally.want("one processor: jobs", {it.split()[2] for it in built if it.split()[1].isdigit()}, {"1"})


def longest_way_alone(tally, tree):
    """A crate that is not on the longest way runs at a lower priority and on one processor."""
    write_crates(tree, {"short": ([], 8), "low": ([], 1), "high": (["low"], 9), "nbdcheck": (["high", "short"], 1)})
    tree.change()
    (status, out, err), built = tree.run(SLOW="0.2", JOBS="yes")
    tally.want("priorities", (status, out), (0, "program \n"))
    # Where there is memory for one build alone the short one comes later.
    second, third = ("short", "high") if err.index("proving short,") < err.index("proving high,") else ("high", "short")
    told(tally, "priorities", err, says("low", second, third, "nbdcheck", minutes=1, end=built_by(tree)), 4)
    mine = os.nice(0)
    # Then nothing is built beside it.
    wanted = {"short": min(mine + 10, 19) if second == "short" else mine, "low": mine, "high": mine, "nbdcheck": mine}
    noted = {crate: (priority, int(jobs)) for crate, priority, jobs in (it.split() for it in built if it.split()[1].isdigit())}
    tally.want("priorities of crates", {name: priority for name, (priority, _) in noted.items()},
               {name: str(nice) for name, nice in wanted.items()})
    tally.want("jobs of a crate beside the longest way", noted["short"][1], 1)
    most = min(2, len(os.sched_getaffinity(0)))
    tally.holds("jobs of the others", all(1 <= noted[name][1] <= most for name in ("low", "high")), noted)
    tally.holds("jobs with nothing beside", noted["low"][1] >= noted["high"][1], noted)
    tally.want("jobs of a program", noted["nbdcheck"][1], 1)


def on_a_terminal(tally, tree):
    tree.change()
    shown, terminal = pty.openpty()
    # Slow builds leave the time in which a line is written.
    (status, out, _), built = tree.run(stderr=terminal, SLOW="0.2")
    os.close(terminal)
    err = b""
    try:
        while part := os.read(shown, 4096):
            err += part
    except OSError:
        # The terminal's other end is closed.
        pass
    os.close(shown)
    tally.want("on a terminal", (status, out, [it for it in built if not it.endswith(" ends")]), (0, "program \n", BUILDS))
    for line in (rb"\r\x1b\[Knbdcheck: proving low, 1 of 2 crates, 0:0\d gone, about (3:00|2:\d\d) left", rb"left\r\x1b\[Knbdcheck: built "):
        tally.holds("a line that is rewritten", re.search(line, err), err)


def run(tally):
    with tempfile.TemporaryDirectory(prefix="nbdcheck-") as folder:
        tree = Tree(folder)
        for part in (first_build, later_runs, plain_check, faster_than_told, failed_build, edited_build, no_kit, on_a_terminal, ended_build, two_builds):
            part(tally, tree)
        for part in (side_by_side, longest_way_first, longest_way_alone):
            part(tally, tree)
