"""tools/install in a folder of its own, the completions against what the programs' helps name, and the installed tools."""

import os
import pty
import re
import select
import signal
import subprocess
import tempfile
import time
from pathlib import Path

from built import TOP

CONVERTERS = ("capture-to-pcap", "socat-to-capture", "pcap-to-capture", "cookies-to-order")
PROGRAMS = ("nbdcheck", "nbdcheck-record", "nbdcheck-picture", *CONVERTERS)
PARTS = ("*.py", "*.html", "*.css", "*.js")
# In the order in which they are installed.
INSTALLED = {
    **{f"bin/{name}": 0o755 for name in PROGRAMS},
    **{name: 0o644 for program in PROGRAMS
       for name in (f"share/man/man1/{program}.1", f"share/bash-completion/completions/{program}")},
    **{f"share/nbdcheck/recorder/{path.name}": 0o644 for path in sorted(TOP.glob("bin/recorder/*.py"))},
    **{f"share/nbdcheck/picture/{path.name}": 0o644 for part in PARTS for path in sorted(TOP.glob(f"bin/picture/{part}"))},
    **{f"share/nbdcheck/conversion/{path.name}": 0o644 for path in sorted(TOP.glob("bin/conversion/*.py"))},
}
SESSION = TOP / "examples/first.cap"


def ended(*words, **how):
    done = subprocess.run(list(map(str, words)), capture_output=True, text=True, timeout=600, **how)
    return done.returncode, done.stdout, done.stderr


def installs(tally, prefix):
    has_path = {**os.environ, "PATH": f"{os.environ['PATH']}:{prefix}/bin"}
    status, out, err = ended(TOP / "tools/install", prefix, env=has_path)
    tally.want("install", (status, err), (0, ""))
    tally.want("install says where", out.split(), [f"{prefix}/{name}" for name in INSTALLED])
    for name, mode in INSTALLED.items():
        path = prefix / name
        tally.want(f"mode of {name}", path.is_file() and path.stat().st_mode & 0o777, mode)
    found = sorted(str(path.relative_to(prefix)) for path in prefix.rglob("*") if path.is_file())
    tally.want("nothing else", found, sorted(INSTALLED))
    hint = f"install: {prefix}/bin is not on your PATH: add it, or name the programs with their folder\n"
    tally.want("install again, and not on PATH", ended(TOP / "tools/install", prefix), (0, out, hint))
    tally.want("install with a slash", ended(TOP / "tools/install", f"{prefix}/", env=has_path)[::2], (0, ""))
    found = ended(prefix / "bin/nbdcheck", "check", SESSION, SESSION.with_suffix(".ord"), "--start", "zero")
    tally.want("the program that was installed", found, (0, SESSION.with_suffix(".out").read_text(), ""))
    tally.want("the script that was installed", ended(prefix / "bin/capture-to-pcap", "/nonexistent"),
               (3, "", "capture-to-pcap: /nonexistent: No such file or directory\n"))


def occupied(tally, folder):
    """A folder where a file has to be, and a file where a folder has to be: nothing is installed."""
    for name in INSTALLED:
        prefix = Path(folder, "occupied", name.replace("/", "-"))
        (prefix / name).mkdir(parents=True)
        found = ended(TOP / "tools/install", prefix)
        tally.want(f"{name} is a folder", found, (1, "", f"install: {prefix}/{name} is a folder; nothing was installed\n"))
        tally.want(f"{name} is a folder: no file", [path for path in prefix.rglob("*") if not path.is_dir()], [])
    for name in ("", "bin", "share/man"):
        prefix = Path(folder, "file", name.replace("/", "-") or "prefix", "prefix")
        (prefix / name).parent.mkdir(parents=True, exist_ok=True)
        place = prefix / name
        place.touch()
        found = ended(TOP / "tools/install", prefix)
        tally.want(f"{place} is a file", found, (1, "", f"install: {place} is no folder; nothing was installed\n"))
        tally.want(f"{place} is a file: no other", [path for path in prefix.rglob("*") if path.is_file()], [place] * bool(name))


def words(tally, folder):
    status, usage, err = ended(TOP / "tools/install", "--help")
    tally.want("install --help", (status, err), (0, ""))
    tally.holds("install --help has an example", "tools/install ~/.local" in usage, usage)
    for name in {re.sub("/nbdcheck/(record|picture)(er)?/.*", r"/nbdcheck/\1\2, the parts of nbdcheck-\1", name) for name in INSTALLED}:
        name = re.sub("/conversion/.*", "/conversion, the parts of the last three programs", name)
        tally.holds(f"install --help has {name}", f"\n  /usr/local/{name}\n" in usage, usage)
    with open("/dev/full", "w") as full:
        there = subprocess.run([TOP / "tools/install", "--help"], stdout=full, stderr=subprocess.DEVNULL, cwd=folder,
                               env={**os.environ, "prefix": folder})
    tally.want("install --help to a full device", there.returncode, 1)
    for asked in ([], ["--prefix"], [""], ["a", "b"]):
        tally.want(f"install {asked}", ended(TOP / "tools/install", *asked, cwd=folder), (2, "", usage))
    tally.want("nothing installed", list(Path(folder).iterdir()), [])


def completed(prefix, folder, *line, command="nbdcheck"):
    """What the last of these words is completed to, behind the command's name."""
    script = ('source "$1"; shift; COMP_WORDS=("$@"); COMP_CWORD=$(($# - 1)); [[ $(complete -p "$1") =~ -F\\ ([a-z_]+) ]];'
              '${BASH_REMATCH[1]}; printf "%s\\n" "${COMPREPLY[@]}"')
    path = prefix / "share/bash-completion/completions" / command
    status, out, err = ended("bash", "-c", script, "bash", path, command, *line, cwd=folder)
    return set(out.split()) if (status, err) == (0, "") else (status, err)


def helped(program, *words):
    """The help of a command, where it is one."""
    status, out, err = ended(program, *words, "--help")
    return out if (status, err) == (0, "") else f"{status}: {err}"


def completions(tally, prefix, folder):
    program = prefix / "bin/nbdcheck"
    listed = helped(program).split("Commands:\n")[1].split("\n\n")[0]
    commands = set(re.findall(r"^  (\w+)", listed, re.MULTILINE))
    tally.want("commands", completed(prefix, folder, ""), commands | {"--help", "--version"})
    tally.want("help", completed(prefix, folder, "help", ""), commands)
    for command in commands - {"help"}:
        options = set(re.findall(r"--\w+(?=[ ,\n])", helped(program, command).split("Options:\n")[1].split("\n\n")[0]))
        tally.want(f"options of {command}", completed(prefix, folder, command, "-"), options)
    for name in ("one.cap", "one.ord", "two.cap"):
        Path(folder, name).touch()
    for line, wanted in (
        (["ch"], {"check"}),
        (["check", "on"], {"one.cap", "one.ord"}),
        (["check", "one.cap", "one.ord", "--start", ""], {"unknown", "zero", "image:", "contents:"}),
        (["check", "one.cap", "one.ord", "--start", "z"], {"zero"}),
        (["check", "one.cap", "one.ord", "--start", "image", ":"], {"one.cap", "one.ord", "two.cap"}),
        (["check", "one.cap", "one.ord", "--start", "image", ":", "tw"], {"two.cap"}),
        (["contents", "one.cap", "--against", "tw"], {"two.cap"}),
        (["show", "--profile", ""], {"base", "wide"}),
        (["order", "one.cap", "--profile", "w"], {"wide"}),
        (["show", "t"], {"two.cap"}),
    ):
        tally.want(f"completion of {line}", completed(prefix, folder, *line), wanted)


def typed(prefix, folder, line):
    """What stands on a line that was typed, with its tabs, into an interactive bash with the completions; for a second tab all choices."""
    script = prefix / f"share/bash-completion/completions/{line.split()[0]}"
    pid, terminal = pty.fork()
    if pid == 0:
        os.chdir(folder)
        os.environ.update(TERM="dumb", INPUTRC="/dev/null", HISTFILE="")
        os.execvp("bash", ["bash", "--noprofile", "--norc", "-i"])
    # Behind the line control-G prints it, so that it is known when it is complete.
    begin = f"PS1=; bind 'set bell-style none'; bind -x '\"\\C-g\": printf \"[%s]\" \"$READLINE_LINE\"'; source {script}; stty -echo\n"
    told, until = b"", time.monotonic() + 60
    for part in (f"{begin}printf '<%s>' begun\n".encode(), line.encode() + b"\7"):
        os.write(terminal, part)
        end = rb"<begun>" if part.endswith(b"\n") else rb"\[[^\]]*\]$"
        while not re.search(end, told) and time.monotonic() < until:
            if select.select([terminal], [], [], 1)[0]:
                told += os.read(terminal, 1 << 16)
    os.kill(pid, signal.SIGKILL)
    os.close(terminal)
    os.waitpid(pid, 0)
    return told.decode(errors="replace").split("<begun>")[-1]


def tabs(tally, prefix, folder):
    """What tabs make of words: no backslash before the colon of `image:`, no slash behind a word that a folder has as its name."""
    for name in ("base", "wide"):
        Path(folder, name).mkdir()
    for line, wanted in (
        ("nbdcheck check one.cap one.ord --start im\t", "nbdcheck check one.cap one.ord --start image:"),
        ("nbdcheck check one.cap one.ord --start im\ttw\t", "nbdcheck check one.cap one.ord --start image:two.cap "),
        ("nbdcheck-picture one.cap --start im\t", "nbdcheck-picture one.cap --start image:"),
        ("nbdcheck-record --start im\t", "nbdcheck-record --start image:"),
        ("nbdcheck-record --start c\ttw\t", "nbdcheck-record --start contents:two.cap "),
        ("nbdcheck show --profile w\t", "nbdcheck show --profile wide "),
        ("nbdcheck-record --profile b\t", "nbdcheck-record --profile base "),
        ("nbdcheck show wi\t", "nbdcheck show wide/"),
        ("cookies-to-order tw\t", "cookies-to-order two.cap "),
    ):
        tally.want(f"typed {line!r}", typed(prefix, folder, line).rpartition("[")[2], wanted + "]")
    for line in ("nbdcheck show --profile \t\t", "nbdcheck-record --profile \t\t", "nbdcheck-picture --profile \t\t"):
        tally.want(f"typed {line!r}", re.findall(r"\b(?:base|wide|one|two)\b\S*", typed(prefix, folder, line)), ["base", "wide"])


def converters(tally, prefix, folder):
    """The installed converters: their modules, their helps, their pages, and their completions."""
    for name in CONVERTERS:
        found = ended(prefix / "bin" / name, "--help", cwd=folder)
        tally.want(f"{name} --help", found, ended(TOP / "bin" / name, "--help"))
        options = set(re.findall(r"^  (?:-h, )?(--[\w-]+)", found[1].split("options:\n")[1].split("\n\n")[0], re.MULTILINE))
        page = (prefix / f"share/man/man1/{name}.1").read_text().replace("\\-", "-")
        tally.want(f"options of the page of {name}", set(re.findall(r"^\.B[I]? (--\w+)", page, re.MULTILINE)), options)
        tally.want(f"options of {name}", completed(prefix, folder, "-", command=name), options)
        for word, wanted in (("tw", {"two.cap"}), ("", {"one.cap", "one.ord", "two.cap"})):
            tally.want(f"completion of {name} {word}", completed(prefix, folder, word, command=name), wanted)
    tally.want("completion of a number", completed(prefix, folder, "--stream", "", command="pcap-to-capture"), set())
    here = TOP / "tests/converters"
    for name, recording in (("socat-to-capture", here / "session.socat"), ("pcap-to-capture", here / "session.pcap"),
                            ("pcap-to-capture", here / "session.pcapng")):
        tally.want(f"{name} of {recording.name}", ended(prefix / "bin" / name, recording, cwd=folder), ended(TOP / "bin" / name, recording))
    Path(folder, "log").write_text("0x1\n")
    alone = {name: value for name, value in os.environ.items() if name != "NBDCHECK"}
    tally.want("cookies-to-order, by the nbdcheck beside it",
               ended(prefix / "bin/cookies-to-order", SESSION, "log", cwd=folder, env=alone), (0, "1\n", ""))


def recorder(tally, prefix, folder):
    """The installed nbdcheck-record: its modules, its help, its page, and its completions."""
    program = prefix / "bin/nbdcheck-record"
    found = ended(program, "--help", cwd=folder)
    tally.want("nbdcheck-record --help", found, ended(TOP / "bin/nbdcheck-record", "--help"))
    tally.want("nbdcheck-record runs", ended(program, "--to", "1", "--", "true", "{uri}", cwd=folder),
               (3, "", "nbdcheck-record: no connection came: nothing was recorded\n"))
    tally.want("no file beside its modules", sorted(path.name for path in (prefix / "share/nbdcheck").iterdir()),
               ["conversion", "picture", "recorder"])
    options = set(re.findall(r"^  (?:-h, )?(--[\w-]+)", found[1].split("options:\n")[1].split("\n\n")[0], re.MULTILINE))
    page = (prefix / "share/man/man1/nbdcheck-record.1").read_text().replace("\\-", "-")
    tally.want("options of the manual page", {option for option in options if f"{option}" in page}, options)
    complete = {"command": "nbdcheck-record"}
    tally.want("options of nbdcheck-record", completed(prefix, folder, "-", **complete), options | {"--"})
    for line, wanted in (
        (["--start", ""], {"unknown", "zero", "image:", "contents:"}),
        (["--format", "j"], {"json", "junit"}),
        (["--refuse", "s"], {"starttls", "structured-reply", "set-meta-context"}),
        (["--start", "image", ":", "tw"], {"two.cap"}),
        (["--order", "on"], {"one.cap", "one.ord"}),
        (["--profile", ""], {"base", "wide"}),
        (["--to", "1", "--", "one.c"], {"one.cap"}),
    ):
        tally.want(f"completion of {line}", completed(prefix, folder, *line, **complete), wanted)


def picture(tally, prefix, folder):
    """The installed nbdcheck-picture: its modules, its help, its page, and its completions."""
    program = prefix / "bin/nbdcheck-picture"
    words = [SESSION, SESSION.with_suffix(".ord"), "--start", "zero"]
    status, page, err = ended(program, *words, cwd=folder)
    tally.want("nbdcheck-picture", (status, err, page), (0, "", ended(TOP / "bin/nbdcheck-picture", *words)[1]))
    tally.holds("nbdcheck-picture writes a page", page.startswith("<!DOCTYPE html>") and page.endswith("</html>\n"))
    options = set(re.findall(r"^  (?:-h, )?(--\w+)", helped(program).split("options:\n")[1].split("\n\n")[0], re.MULTILINE))
    page = (prefix / "share/man/man1/nbdcheck-picture.1").read_text().replace("\\-", "-")
    tally.want("options of its manual page", {option for option in options if option in page}, options)
    complete = {"command": "nbdcheck-picture"}
    tally.want("options of nbdcheck-picture", completed(prefix, folder, "-", **complete), options)
    for line, wanted in ((["--start", ""], {"unknown", "zero", "image:", "contents:"}), (["--start", "image", ":", "tw"], {"two.cap"}),
                         (["on"], {"one.cap", "one.ord"})):
        tally.want(f"completion of nbdcheck-picture {line}", completed(prefix, folder, *line, **complete), wanted)


def run(tally):
    with tempfile.TemporaryDirectory(prefix="nbdcheck-") as folder:
        prefix, empty = Path(folder, "prefix"), Path(folder, "empty")
        os.mkdir(empty)
        words(tally, empty)
        occupied(tally, folder)
        installs(tally, prefix)
        completions(tally, prefix, empty)
        recorder(tally, prefix, empty)
        picture(tally, prefix, empty)
        converters(tally, prefix, empty)
        tabs(tally, prefix, empty)
