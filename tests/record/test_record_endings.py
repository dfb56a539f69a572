"""What nbdcheck-record leaves of a connection that breaks off: whole lines in a capture where the tool is killed, and which side closed
first, how, and what was under way then."""

import os
import signal
import socket
import struct
import threading
import time
from pathlib import Path

from messages import (CLIENT, DISC, DONE, READ, SERVER, begun, by_name, client_flags, content, extended_chunk,
                      extended_request, failed, greeting, longest_runs, option, read, records_of, request, simple, write)
from record.recorded_ends import GOOD, MIB, SECONDS, Ends, Tool, run_parts, runs_of
from recorder import captures

LOST = "the process that recorded it ended with status -9"
DATA = bytes((at * 7 + at // 251) % 256 for at in range(20_000))


def pages(tally, _):
    """No line passes the end of a page, whatever was written before, and the lines have the bytes."""
    for size in (1, 2, 700, 2043, 2044, 2045, 2046, 2047, 2048, 2050, 4090, 20_000):
        for at in (0, 1, 4089, 4090, 4091, 4092, 4093, 4094, 4095, 4096, 70_001):
            found = b"".join(captures.lines_of("C", DATA[:size], at))
            line_at, crossed = at, []
            for line in found.splitlines(True):
                if line_at // 4096 != (line_at + len(line) - 1) // 4096:
                    crossed.append(line_at)
                line_at += len(line)
            tally.want(f"{size} bytes from {at} on: lines over the end of a page", crossed, [])
            tally.want(f"{size} bytes from {at} on", longest_runs(records_of(found)), [(CLIENT, DATA[:size])])


def byte_of(end):
    """A byte of a connection, nothing where it has ended, or a sign that it goes on."""
    end.settimeout(1)
    try:
        return end.recv(1)
    except socket.timeout:
        return b"-"


def killed(tally, folder):
    """SIGKILL in the midst of large pieces, of the tool alone and of each of its processes: the capture ends with a whole line."""
    for number in range(6):
        with Ends(folder, f"killed{number}", env_more={"TMPDIR": folder}) as ends:
            client, server = ends.both()

            def push():
                try:
                    while True:
                        server.sendall(bytes(MIB))
                except OSError:
                    pass

            def pull():
                try:
                    while client.recv(MIB):
                        pass
                except OSError:
                    pass

            threads = [threading.Thread(target=each) for each in (push, pull)]
            [thread.start() for thread in threads]
            while not Path(ends.capture()).exists() or os.path.getsize(ends.capture()) < 2 * MIB:
                time.sleep(0.01)
            time.sleep(0.007 * number)
            if number % 2:
                ends.tool.signal(signal.SIGKILL)
            ends.tool.process.kill()
            ends.tool.process.wait()
            [thread.join() for thread in threads]
            client.close(), server.close()
            with open(ends.capture(), "rb") as file:
                file.seek(-5000, os.SEEK_END)
                last = file.read().splitlines(True)[1:]
            whole = all(line == b"\n" or line.startswith(b"S 0") and len(line) % 2 and line.endswith(b"\n") for line in last)
            tally.holds("SIGKILL leaves whole lines", last and whole, last[-1:])
            os.unlink(ends.capture())


def lost(tally, folder):
    """A process of the tool that relays is killed: its connection has no answer, others go on, and a new one is taken."""
    with Ends(folder, "lost") as ends:
        pairs = [ends.both() for _ in range(4)]
        for pair in pairs:
            ends.play(*pair, GOOD)
        os.kill(ends.tool.all()[0], signal.SIGKILL)
        told = [number for number, (client, _) in enumerate(pairs, 1) if len(byte_of(client)) == 0]
        tally.want("a process is killed: one connection ends", len(told), 1)
        pairs.append(ends.both())
        ends.play(*pairs[-1], GOOD)
        [end.close() for pair in pairs for end in pair]
        status, out, err = ends.interrupt()
    tally.want("a process is killed", (status, err), (3, f"nbdcheck-record: connection {told[0]}: {LOST}\n"))
    tally.want("a process is killed: captures", [runs_of(ends.capture(number)) for number in range(1, 6)], [longest_runs(GOOD)] * 5)
    with Ends(folder, "none") as ends:
        ends.connect().close()
        [os.kill(pid, signal.SIGKILL) for pid in ends.tool.all()[:-1]]
        status, _, err = ends.tool.end()
    tally.want("each process is killed", (status, err.splitlines()[-1]), (3, "nbdcheck-record: no process is left that relays"))


LEAVES = request(DISC, 9, 0, 0)
HALF_WRITE, HALF_READ = (CLIENT, write(3, 0, b"abcd")[1][:-2]), (CLIENT, read(3, 0, 4)[1][:9])
HALF_REPLY, HALF_HEAD = (SERVER, simple(3, b"abcd")[1][:-1]), (SERVER, simple(3)[1][:7])
EXTENDED = begun(True) + [extended_request(READ, 3, 0, 4), extended_request(READ, 4, 0, 4), extended_chunk(3, 1, 0, bytes(12), DONE)]
CHUNKED = begun(True) + [read(3, 0, 8), content(3, 0, b"abcd")]
QUIT = "by end of file, requests outstanding"
# What passes, which end closes then, and how that is told; nothing where it ended as sessions do.
ENDED = {
    "the client, after its requests": (GOOD, "client", None),
    "the client, by DISC": (GOOD + [LEAVES], "client", None),
    "the server behind DISC": (GOOD + [LEAVES], "server", None),
    "the server behind ABORT": (begun()[:2] + [option(2)], "server", None),
    "the server": (GOOD, "server", f"the server closed first, {QUIT} 0"),
    "the server, one request": (GOOD + [read(3, 0, 4)], "server", f"the server closed first, {QUIT} 1"),
    "the server, two of three requests": (GOOD + [read(3, 0, 4), write(4, 0, b"ab"), read(5, 0, 4), simple(4)], "server",
                                          f"the server closed first, {QUIT} 2"),
    "the client, one request": (GOOD + [read(3, 0, 4)], "client", f"the client closed first, {QUIT} 1"),
    "the client, one request behind DISC": (GOOD + [read(3, 0, 4), LEAVES], "client", f"the client closed first, {QUIT} 1"),
    "a failed request": (GOOD + [read(3, 0, 4), simple(3, error=5)], "client", None),
    "half a request's head": (GOOD + [HALF_READ], "client",
                              f"the client closed first, {QUIT} 0, the client in the middle of the head of a request"),
    "half a WRITE": (GOOD + [HALF_WRITE], "client", f"the client closed first, {QUIT} 0, the client in the middle of request 3"),
    "half a reply": (GOOD + [read(3, 0, 4), HALF_REPLY], "server",
                     f"the server closed first, {QUIT} 1, the server in the middle of the reply to request 3"),
    "half a reply's head": (GOOD + [read(3, 0, 4), HALF_HEAD], "server",
                            f"the server closed first, {QUIT} 1, the server in the middle of the head of a reply"),
    "half a reply in chunks": (CHUNKED, "server", f"the server closed first, {QUIT} 1"),
    "an error chunk": (CHUNKED + [failed(3)], "client", None),
    "extended headers": (EXTENDED, "server", f"the server closed first, {QUIT} 1"),
    "half an option": (begun()[:2] + [(CLIENT, b"IHAVEOPT\0\0")], "client",
                       f"the client closed first, {QUIT} 0, the client in the middle of an option"),
    "half the greeting": ([(SERVER, greeting()[1][:9])], "server",
                          f"the server closed first, {QUIT} 0, the server in the middle of the greeting"),
    "EXPORT_NAME with zeroes": ([greeting(1), client_flags(1), *by_name(b"", True), read(1, 0, 4)], "server",
                                f"the server closed first, {QUIT} 1"),
    "EXPORT_NAME without zeroes": ([*begun()[:2], *by_name(b""), read(1, 0, 4)], "server", f"the server closed first, {QUIT} 1"),
    "no byte": ([], "server", f"the server closed first, {QUIT} 0"),
    "no NBD": ([(SERVER, b"220 ready")], "server", f"the server closed first, {QUIT} unknown"),
    "neither": (GOOD + [read(3, 0, 4)], None, "neither side closed, requests outstanding 1"),
}


def told_ending(tally, folder):
    """Which side closed first, and with what under way."""
    for number, (name, (records, who, wanted)) in enumerate(ENDED.items()):
        with Ends(folder, f"e{number}") as ends:
            client, server = ends.both()
            ends.play(client, server, records)
            first, second = (client, server) if who == "client" else (server, client)
            if who is not None:
                first.close()
                tally.want(f"{name}: the end comes", second.recv(1), b"")
                second.close()
            status, out, err = ends.interrupt()
        line = "" if wanted is None else f"ended: {wanted}\n"
        tally.want(f"ended, {name}", (status, out.partition("\n")[2], err), (0, line, ""))


def at_once(tally, folder):
    """Both sides close while the tool is stopped: it does not say which came first."""
    for name, records, wanted in (("usual", GOOD, None), ("outstanding", GOOD + [read(3, 0, 4)], f"both sides closed, {QUIT} 1")):
        with Ends(folder, f"both{name}") as ends:
            client, server = ends.both()
            ends.play(client, server, records)
            ends.tool.signal(signal.SIGSTOP)
            server.close(), client.close()
            ends.tool.signal(signal.SIGCONT)
            status, out, err = ends.interrupt()
        line = "" if wanted is None else f"ended: {wanted}\n"
        tally.want(f"both close, {name}", (status, out.partition("\n")[2], err), (0, line, ""))


def connected(port):
    """A client's socket, as soon as the tool listens."""
    until = time.monotonic() + SECONDS
    while True:
        try:
            return socket.create_connection(("127.0.0.1", port), SECONDS)
        except OSError:
            if time.monotonic() > until:
                raise
            time.sleep(0.01)


def by_reset(tally, folder):
    """A side that resets its connection, and one that closes with bytes of the other side on their way."""
    for who in ("client", "server"):
        with socket.create_server(("127.0.0.1", 0)) as listener, socket.create_server(("127.0.0.1", 0)) as taken:
            port = taken.getsockname()[1]
            taken.close()
            with Tool("--listen", port, "--to", listener.getsockname()[1], "--out", f"{folder}/{who}") as tool:
                client = connected(port)
                server, _ = listener.accept()
                Ends.play(client, server, GOOD + [read(3, 0, 4)])
                first, second = (client, server) if who == "client" else (server, client)
                first.setsockopt(socket.SOL_SOCKET, socket.SO_LINGER, struct.pack("ii", 1, 0))
                first.close()
                tally.want(f"the {who} resets: the end comes", second.recv(1), b"")
                second.close()
                status, out, err = tool.end(signal.SIGINT)
        tally.want(f"the {who} resets", (status, out.splitlines()[1:]),
                   (0, [f"ended: the {who} closed first, by a reset, requests outstanding 1"]))
        tally.want(f"the {who} resets: told", err, f"nbdcheck-record: connection 1: the {who}: Connection reset by peer\n")


PARTS = (pages, killed, lost, told_ending, at_once, by_reset)


def run(tally):
    run_parts(tally, PARTS)
