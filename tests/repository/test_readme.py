"""The commands of README.md, run as they stand there; behind `$` with the output that stands there. Each ends with the status that
its answer has, and says nothing on standard error but what the wrapper says while it builds, or rt, that nothing was proved.
"""

import os
import re
import subprocess
import tempfile
from pathlib import Path

from built import PROGRAM, TOP
from repository.test_install import INSTALLED

YES = "yes requests 1 answered 1 improper 0\n"
# What commands without an output of their own print.
PRINTED = {
    "(cd crates/nbdcheck_first && rt try -- check data/first.cap data/first.ord --start zero)": YES,
    "./nbdcheck check examples/first.cap examples/first.ord --start zero": YES,
    "tools/install ~/.local": "".join(f"{{home}}/.local/{name}\n" for name in INSTALLED),
    # The session of converters/session.socat, in place of one over the network.
    "bin/socat-to-capture s.txt > s.cap && nbdcheck order s.cap --arrival > s.ord": "",
    "nbdcheck check s.cap s.ord --start zero": "yes requests 2 answered 2 improper 0\n",
}
# These need socat, nbdkit and nbdsh, which the gate has not.
RECORDING = ("socat ", "nbdsh ", "nbdkit ", "bin/nbdcheck-record ")
# What recording by hand takes: these packages of Debian, a server, and the end of a socat to which no client came.
NEEDED = ("nbdkit,", "python3-libnbd", "libnbd-bin", "socat:", "\nnbdkit memory ", "kill %1")
KIT = re.compile(r"logic [0-9a-f]{16}")
# These have the program built where it is not; what is said of that.
WRAPPED = ("./nbdcheck ", "tools/install ")
BUILDING = re.compile(r"(nbdcheck: (proving and building, which takes about \d+ minutes the first time|"
                      r"proving \w+, \d+ of \d+ crates, \d+ minutes gone, about \d+ left|"
                      r"built \S+/nbdcheck; tools/install PREFIX installs it|"
                      r"built what check needs; the other commands are proved when they are first asked for)\n|"
                      r"install: \S+/bin is not on your PATH: add it, or name the programs with their folder\n)*")


def blocks(page):
    """The lines of each block of commands; one that ends with a backslash goes on in the next."""
    parts = page.read_text().split("```\n")
    return [part.replace("\\\n    ", "").splitlines() for part in parts[1::2]]


def is_said(line, err):
    """Whether a command may say this on standard error."""
    if "rt try" in line:
        return "proved=no" in err
    return BUILDING.fullmatch(err) if line.startswith(WRAPPED) else err == ""


def try_command(tally, line, folder, home, output):
    path = f"{Path(PROGRAM).parent}:{os.environ['PATH']}"
    done = subprocess.run(["bash", "-c", line], cwd=folder, env={**os.environ, "PATH": path, "HOME": home},
                          stdin=subprocess.DEVNULL, capture_output=True, text=True, timeout=900)
    tally.want(line, (done.returncode, done.stdout), (int(output.startswith("no ")), output))
    tally.holds(f"{line}: standard error", is_said(line, done.stderr), done.stderr)


def shown(tally, lines, home):
    """Commands behind `$`, each with the lines that it prints."""
    wanted = {}
    for line in lines:
        if line.startswith("$ "):
            command = line[2:]
            wanted[command] = ""
        else:
            wanted[command] += line + "\n"
    for command, output in wanted.items():
        try_command(tally, command, TOP, home, output)


def alone(tally, lines, folder, home):
    for line in lines:
        if not line.startswith(RECORDING):
            where = folder if "s.txt" in line or "s.cap" in line else TOP
            wanted = PRINTED.get(line, "is no command that this test knows").replace("{home}", home)
            try_command(tally, line, where, home, wanted)


def kits(tally):
    """The kit that the pages name, and what `test` says where `rt version` names another one, before it goes on."""
    named = {name: set(KIT.findall((TOP / name).read_text())) for name in ("README.md", "docs/THEOREMS.md")}
    tally.holds("the pages name one kit", len(set.union(*named.values())) == 1 and all(named.values()), named)
    [wanted] = named["README.md"]
    asks = (TOP / "test").read_text().split("\nfi\n")[0] + "\nfi\necho goes on\n"
    asks = asks.replace('cd "$(dirname "$(readlink -f "${BASH_SOURCE[0]}")")"', f'cd "{TOP}"')
    other = f"test: rt version says '{{}}', and README.md '{wanted}': this is another kit\n"
    for says, told in ((f"rattle-kit-13x {wanted}", ""), ("rattle-kit-13x logic 0123456789abcdef", other.format("logic 0123456789abcdef")),
                       ("", other.format("nothing"))):
        done = subprocess.run(["bash", "-c", f"rt() {{ echo '{says}'; }}\n{asks}"], capture_output=True, text=True, timeout=60)
        tally.want(f"test, where rt version says {says!r}", (done.returncode, done.stdout, done.stderr), (0, "goes on\n", told))


def run(tally):
    page = TOP / "README.md"
    section = page.read_text().split("\n## Record your own session\n")[1].split("\n## ")[0]
    tally.want("what a recording takes", [part for part in NEEDED if part not in section], [])
    kits(tally)
    with tempfile.TemporaryDirectory(prefix="nbdcheck-") as folder:
        home = f"{folder}/home"
        os.symlink(TOP / "bin", f"{folder}/bin")
        Path(folder, "s.txt").write_text((TOP / "tests/converters/session.socat").read_text())
        for lines in blocks(page):
            if lines[0].startswith("$ "):
                shown(tally, lines, home)
            else:
                alone(tally, lines, folder, home)
