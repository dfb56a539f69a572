"""nbdcheck-record between servers and clients that are installed; those that are not are skipped, and named."""

import contextlib
import os
import random
import re
import shutil
import signal
import socket
import subprocess
import tempfile
import time
from pathlib import Path

from built import PROGRAM, TOP
from record.recorded_ends import MIB, NONE, RECORD, SECONDS, Tool, run_parts
from record.test_record_tls import certificates

# A system's own programs stand before those of a python that was installed beside it.
PATH = "/usr/bin:" + os.environ["PATH"]
SOME = ["yes requests "]

BYTES = "for k in range(4): h.pwrite(bytes([k + 1]) * 512, 300 * k)"
READS = "assert h.pread(512, 700) == b'\\3' * 200 + b'\\4' * 312"
# The extents of the whole export, and one of a part of it; a server without contexts is asked for none.
MAPS = """if h.can_meta_context('base:allocation'):
    for count, flags in ((65536, 0), (2048, nbd.CMD_FLAG_REQ_ONE)):
        h.block_status(count, 0, lambda *_: 0, flags)
"""
NBDSH = ["nbdsh", "-u", "{uri}", "-c", BYTES, "-c", READS]
QEMU_IO = ["qemu-io", "-f", "raw", "-c", "write -P 7 4096 8192", "-c", "read -P 7 4096 8192", "{uri}"]
NBDCOPY = ["nbdcopy", "--no-extents", "{uri}", "null:"]
FIO = ["fio", "--name=nbd", "--ioengine=nbd", "--uri={uri}", "--rw=randrw", "--bs=4k", "--size=256k", "--iodepth=4",
       "--randseed=7", "--minimal"]

# Each client: its words, the tool's, and how each of its connections is answered: its first line begins with it.
CLIENTS = {
    "nbdsh": (NBDSH, ["--arrival"], ["yes requests 5 answered 5 improper 0"]),
    "nbdinfo": (["nbdinfo", "--size", "{uri}"], [], [NONE]),
    "nbdcopy": ([*NBDCOPY, "--connections=1", "--request-size=262144"], [], ["yes requests 4 answered 4 improper 0"]),
    "nbdcopy of extents": (["nbdcopy", "{uri}", "null:", "--connections=1"], [], SOME),
    "nbdinfo of contexts": (["nbdinfo", "{uri}"], [], SOME),
    "nbdinfo of extents": (["nbdinfo", "--map", "{uri}"], [], SOME),
    "nbdsh of extents": (["nbdsh", "--base-allocation", "-u", "{uri}", "-c", MAPS], [], SOME),
    "qemu-io": (QEMU_IO, [], SOME),
    "qemu-io of extents": ([*QEMU_IO[:-1], "-c", "map", QEMU_IO[-1]], [], SOME),
    "fio": (FIO, [], [NONE, *SOME]),
}

# Clients that a server which grants no context lets fail: the session is a yes, and the client's status is told.
FAILING = {("nbdinfo of extents", "nbdkit --no-sr"), ("nbdinfo of extents", "nbd-server")}


def is_there(name):
    return shutil.which(name, path=PATH) is not None


def image_of(folder, size=MIB):
    """An export of zeroes."""
    path = Path(folder, "image")
    path.write_bytes(b"")
    os.truncate(path, size)
    return str(path)


def free_port():
    with socket.create_server(("127.0.0.1", 0)) as held:
        return held.getsockname()[1]


def answers_there(address):
    """Whether something listens there."""
    path = "/" in address
    with socket.socket(socket.AF_UNIX if path else socket.AF_INET) as end:
        end.settimeout(1)
        return end.connect_ex(address if path else ("127.0.0.1", int(address))) == 0


@contextlib.contextmanager
def running(words, address, stderr=subprocess.DEVNULL):
    """A server, until the end of a test."""
    none = subprocess.DEVNULL
    child = subprocess.Popen(words, stdin=none, stdout=none, stderr=stderr, env={**os.environ, "PATH": PATH})
    try:
        until = time.monotonic() + SECONDS
        while not answers_there(address):
            if time.monotonic() > until:
                raise TimeoutError(f"{words[0]} did not begin")
            time.sleep(0.02)
        yield address
    finally:
        child.terminate()
        child.wait(SECONDS)
        if "/" in address and os.path.exists(address):
            os.unlink(address)


@contextlib.contextmanager
def nbdkit(folder, *words, size="1M", more=()):
    path = f"{folder}/nbdkit.sock"
    with running(["nbdkit", "-f", "-U", path, *words, "memory", size, *more], path) as address:
        yield address


@contextlib.contextmanager
def qemu_nbd(folder, *words, size=MIB):
    path = f"{folder}/qemu-nbd.sock"
    with running(["qemu-nbd", "-t", *words, "-f", "raw", "-k", path, image_of(folder, size)], path) as address:
        yield address


@contextlib.contextmanager
def nbd_server(folder, more=""):
    """nbd-server leaves its process for another one, whose number it writes."""
    port, config, number = free_port(), Path(folder, "config"), Path(folder, "number")
    config.write_text(f"[generic]\nlistenaddr = 127.0.0.1\nport = {port}\n[disk]\nexportname = {image_of(folder)}\n{more}")
    try:
        with running(["nbd-server", "-C", str(config), "-p", str(number)], str(port)) as address:
            yield address
    finally:
        if number.exists():
            os.kill(int(number.read_text()), signal.SIGTERM)


SERVERS = {
    "nbdkit": nbdkit,
    "nbdkit --no-sr": lambda folder: nbdkit(folder, "--no-sr"),
    "qemu-nbd": qemu_nbd,
    "nbd-server": nbd_server,
}


def words_of(server, client):
    """The client's words: nbd-server has a name for its export."""
    words, asked, wanted = CLIENTS[client]
    if server == "nbd-server":
        words = [word.replace("{uri}", "{uri}/disk") for word in words]
    return words, asked, wanted


def first_lines(out):
    """The first line of what is said of each connection, without its number."""
    lines = [re.sub(r"^connection \d+(, from [^:]*)?: ", "", line) for line in out.splitlines()]
    return [line for line in lines if line.startswith(("yes ", "no "))]


def judged(tally, server, client, address, folder):
    """What is said of a client's session with a server."""
    words, asked, wanted = words_of(server, client)
    keep = f"{folder}/{client}"
    with Tool("--to", address, "--start", "unknown" if client == "qemu-io" else "zero", "--keep", keep, *asked, "--", *words,
              env_more={"PATH": PATH}) as tool:
        status, out, err = tool.end()
    name, found = f"{client} and {server}", first_lines(out)
    same = len(found) == len(wanted) and all(line.startswith(part) for line, part in zip(found, wanted))
    ends = 10 if (client, server) in FAILING else 0
    tally.holds(name, status == ends and same, (status, out, err))
    captures = [f"nbdcheck-record: kept {keep}/session.{number}.cap" for number in range(1, len(wanted) + 1)]
    tally.holds(f"{name}: captures", set(captures) <= set(err.splitlines()), err)


def pairs(tally, folder):
    """Each server with each client."""
    for server, begin in SERVERS.items():
        if not is_there(server.split()[0]):
            continue
        for client in CLIENTS:
            if is_there(client.split()[0]):
                with tempfile.TemporaryDirectory(prefix="nbdcheck-") as own, begin(own) as address:
                    judged(tally, server, client, address, own)


def run_by_nbdkit(tally, folder):
    """nbdkit runs the tool, which runs the client."""
    if not (is_there("nbdkit") and is_there("nbdcopy")):
        return
    tool = f'{RECORD} --to "$unixsocket" --start zero -- nbdcopy --synchronous --no-extents "{{uri}}" null:'
    env = {**os.environ, "PATH": PATH, "NBDCHECK": PROGRAM}
    done = subprocess.run(["nbdkit", "-U", "-", "memory", "1M", "--run", tool], env=env, capture_output=True, text=True,
                          timeout=SECONDS)
    tally.holds("nbdkit --run", done.returncode == 0 and done.stdout.startswith("yes requests 4 answered 4 "), done)
    several = tool.replace(" --synchronous", "")
    done = subprocess.run(["nbdkit", "-U", "-", "memory", "64M", "--run", several], env=env, capture_output=True, text=True,
                          timeout=SECONDS)
    lines = [line.partition(" requests")[0] for line in done.stdout.splitlines()[:-1]]
    tally.want("nbdcopy of several connections", (done.returncode, lines), (0, [f"connection {number}: yes" for number in range(1, 5)]))


# fio's four jobs, each on a quarter of its own; each opens a connection before it and one for it.
JOBS = [*FIO, "--numjobs=4", "--offset_increment=256k"]


def strictly(tally, name, address, start, words, count, *asked):
    """A run that lets nothing pass but a yes whose contents were compared, with so many connections."""
    with Tool("--to", address, "--start", start, "--strict", *asked, "--", *words, env_more={"PATH": PATH}) as tool:
        status, out, err = tool.end()
    last = f"connections {count}: compared {count}, not compared 0, empty 0, not judged 0"
    is_right = status == 0 and len(first_lines(out)) == count and out.splitlines()[-1] == last
    tally.holds(name, is_right, (status, out, err))
    return out


def sparse(path):
    """A file that gives each of nbdcopy's four threads its part, of 128 MiB, with some bytes in each."""
    with open(path, "wb") as file:
        for part in range(4):
            file.seek(part * 128 * MIB + 300_000)
            file.write(random.Random(part).randbytes(200_000))
        file.truncate(512 * MIB)
    return path


def by_four(tally, folder):
    """nbdcopy's four connections to a server and from it, and fio's four jobs: each connection is compared."""
    source = sparse(Path(folder, "source"))
    for name, begin in (("nbdkit", lambda: nbdkit(folder, size="512M")), ("qemu-nbd", lambda: qemu_nbd(folder, "-e", "8", size=512 * MIB))):
        if not is_there(name):
            continue
        if is_there("nbdcopy"):
            with begin() as address:
                strictly(tally, f"nbdcopy to {name}", address, "zero", ["nbdcopy", str(source), "{uri}"], 4)
                strictly(tally, f"nbdcopy from {name}", address, f"image:{source}", ["nbdcopy", "{uri}", "null:"], 4)
        if is_there("fio"):
            with begin() as address:
                out = strictly(tally, f"fio's jobs and {name}", address, "zero", JOBS, 8, "--apart")
            tally.want(f"fio's jobs and {name}: alone", out.count("improper 0, compared alone\n"), 4)


def by_tls(tally, folder):
    """Clients without TLS and an nbdkit that requires it."""
    if not (is_there("nbdkit") and is_there("openssl")):
        return
    certificates(f"{folder}/tls")
    port = free_port()
    asks = ["--tls=require", f"--tls-certificates={folder}/tls", "--tls-verify-peer"]
    with running(["nbdkit", "-f", "-i", "127.0.0.1", "-p", str(port), *asks, "memory", "1M"], str(port)):
        for client in ("nbdsh", "nbdcopy", "nbdinfo of contexts", "qemu-io"):
            words, _, wanted = CLIENTS[client]
            if is_there(words[0]):
                with Tool("--to", f"localhost:{port}", "--start", "unknown", "--tls-certificates", f"{folder}/tls", "--", *words,
                          env_more={"PATH": PATH}) as tool:
                    status, out, err = tool.end()
                lines = out.splitlines()
                is_right = status == 0 and [line[:12] for line in first_lines(out)] == [line[:12] for line in wanted]
                tally.holds(f"{client} by TLS", is_right and "TLSv1.3 to the server, and none to the client" in lines, (status, out, err))


def converted(folder, head):
    """Runs the lines of docs/RECORDING.md that make an order of a log, behind this beginning of a paragraph; the order."""
    page = (TOP / "docs/RECORDING.md").read_text()
    Path(folder, "nbdkit-log.awk").write_text(page.split("```awk\n")[1].split("```")[0])
    block = page.split(head)[1].split("```\n")[1]
    lines = [line for line in block.split("\n") if not line.startswith(("nbdkit ", "qemu-nbd "))]
    for name, target in (("bin", TOP / "bin"), ("nbdcheck", PROGRAM)):
        if not Path(folder, name).exists():
            os.symlink(target, f"{folder}/{name}")
    env = {**os.environ, "PATH": f"{PATH}:{folder}", "NBDCHECK": PROGRAM}
    subprocess.run(["sh", "-c", "\n".join(lines)], cwd=folder, env=env, check=True, timeout=SECONDS)
    return Path(folder, "x.ord").read_text()


@contextlib.contextmanager
def traced(folder):
    """qemu-nbd with its trace events in q.log."""
    path = f"{folder}/traced.sock"
    with open(f"{folder}/q.log", "wb") as log:
        with running(["qemu-nbd", "-t", "-f", "raw", "-k", path, "--trace", "nbd_co_*", image_of(folder)], path, log) as address:
            yield address


LOGS = {
    "nbdkit": ("**nbdkit.**", lambda folder: nbdkit(folder, "--filter=noparallel", "--filter=log",
                                                    more=[f"logfile={folder}/n.log", "serialize=requests"])),
    "qemu-nbd": ("**qemu-nbd**", traced),
    "nbd-server": ("**nbd-server**", lambda folder: nbd_server(folder, f"transactionlog = {folder}/t.log\n")),
}


def logs(tally, folder):
    """The orders that docs/RECORDING.md makes of servers' logs: with one request in flight those in which the requests came."""
    for server, (head, begin) in LOGS.items():
        if not (is_there(server) and is_there("nbdsh")):
            continue
        with tempfile.TemporaryDirectory(prefix="nbdcheck-") as own:
            words, _, _ = words_of(server, "nbdsh")
            with begin(own) as address:
                with Tool("--to", address, "--start", "zero", "--keep", own, "--", *words, env_more={"PATH": PATH}) as tool:
                    status = tool.end()[0]
            os.rename(f"{own}/session.1.cap", f"{own}/x.cap")
            tally.want(f"the log of {server}", (status, converted(own, head)), (0, "1\n2\n3\n4\n5\n"))


PARTS = (pairs, run_by_nbdkit, by_four, by_tls, logs)


def run(tally):
    skipped = {name.split()[0] for name in (*SERVERS, *CLIENTS) if not is_there(name.split()[0])}
    for name in sorted(skipped):
        print(f"skipped: {name}", flush=True)
    if "nbdkit" in skipped:
        print("skipped: TLS to nbdkit", flush=True)
    run_parts(tally, PARTS)
