"""nbdcheck-record between clients and servers of this file, which do what clients and servers should not; the captures
that are wanted are what these sent."""

import os
import pty
import resource
import signal
import socket
import struct
import threading

from messages import BLOCK_STATUS, CLIENT, DISC, PAYLOAD_LEN, SERVER, TRIM, WRITE, begun, extended_request, read, request, write
from record.recorded_ends import GOOD, MIB, Ends, Tool, all_of, bytes_of, of_side, player, run_parts, runs_of, sizes_of
from recorder.requests import Requests


def data_of(count, seed):
    """Bytes in which a piece is like another one only where it stands 65,521 bytes further on, or a multiple of it."""
    block = bytes((at * seed + at // 251) % 256 for at in range(65_521))
    return (block * (count // len(block) + 1))[:count]


def said(tally, name, err, *parts):
    """Standard error has these messages, each in a line of its own, and no traceback."""
    lines = err.splitlines()
    own = all(line.startswith("nbdcheck-record: ") for line in lines)
    tally.holds(f"{name}: says why", own and all(any(part in line for line in lines) for part in parts), err)


def turns(tally, folder):
    """Each side sends when it has all of the other: what it has is written down by then."""
    with Ends(folder) as ends:
        client, server = ends.both()
        sent = []
        for number, count in enumerate((1, 28, 70_000, 3 * MIB, 2)):
            for side, end, other in ((SERVER, server, client), (CLIENT, client, server)):
                data = data_of(count, 3 + number)
                sender = threading.Thread(target=end.sendall, args=(data,))
                sender.start()
                tally.want(f"{count} bytes of {side} pass", all_of(other, count) == data, True)
                sender.join()
                sent.append((side, data))
                tally.want(f"{count} bytes of {side} are written down first", runs_of(ends.capture()) == sent, True)
        client.close(), server.close()
        count = sum(len(data) for side, data in sent if side == CLIENT)
        tally.want("what was recorded", ends.interrupt(), (0, ends.listed("unknown", count, count), ""))


def halves(tally, folder):
    """One direction ends, and the other goes on."""
    for name in ("client", "server"):
        with Ends(folder, name) as ends:
            client, server = ends.both()
            first, second = (client, server) if name == "client" else (server, client)
            ours, other = (CLIENT, SERVER) if name == "client" else (SERVER, CLIENT)
            first.sendall(b"last")
            first.shutdown(socket.SHUT_WR)
            tally.want(f"the {name} ends: its end comes", all_of(second, 99), b"last")
            second.sendall(b"more")
            tally.want(f"the {name} ends: more comes", all_of(first, 4), b"more")
            second.close()
            tally.want(f"the {name} ends: both have ended", first.recv(1), b"")
            first.close()
            tally.want(f"the {name} ends: captured", runs_of(ends.capture()), [(ours, b"last"), (other, b"more")])
            ending = "" if name == "client" else ends.ended("the server closed first, by end of file, requests outstanding unknown")
            tally.want(f"the {name} ends: status", ends.interrupt(), (0, ends.listed(0, 4, 4) + ending, ""))


def slow_reader(tally, folder):
    """The client reads nothing of what the server sends, and its own bytes pass."""
    with Ends(folder) as ends:
        client, server = ends.both()
        many, few = data_of(16 * MIB, 5), data_of(MIB, 7)
        sender = threading.Thread(target=server.sendall, args=(many,))
        sender.start()
        for at in range(0, MIB, 4096):
            client.sendall(few[at : at + 4096])
            if all_of(server, 4096) != few[at : at + 4096]:
                tally.holds(f"bytes {at} of the client pass", False)
        held = len(bytes_of(ends.capture(), SERVER))
        tally.holds("a slow reader: what is held is bounded", 0 <= held < 8 * MIB, held)
        tally.want("a slow reader gets all", all_of(client, len(many)) == many, True)
        sender.join()
        tally.want("a slow reader: captured", bytes_of(ends.capture(), SERVER) == many, True)
        tally.want("a slow reader: the other direction", bytes_of(ends.capture(), CLIENT) == few, True)
        client.close(), server.close()
        tally.want("a slow reader: status", ends.interrupt(), (0, ends.listed("unknown", MIB, 16 * MIB), ""))


def leaving(tally, folder):
    """An end goes where the other still sends; TCP tells it by a reset."""
    with Ends(folder) as ends:
        client, server = ends.both()
        client.sendall(b"asks")
        all_of(server, 4)
        server.sendall(bytes(1000))
        client.close()
        try:
            while True:
                server.sendall(bytes(MIB))
        except OSError:
            tally.holds("the server is told that the client went", True)
        server.close()
        tally.want("the client went: its bytes", bytes_of(ends.capture(), CLIENT), b"asks")
        tally.want("the client went: the server's", bytes_of(ends.capture(), SERVER)[:1000], bytes(1000))
        line = ends.listed(0, 4, len(bytes_of(ends.capture(), SERVER)))
        tally.want("the client went: status", ends.interrupt(),
                   (0, line, "nbdcheck-record: connection 1: the client: Broken pipe\n"))
    with socket.create_server(("127.0.0.1", 0)) as listener:
        port, out = listener.getsockname()[1], f"{folder}/reset"
        client = player(folder, [(CLIENT, b"asks"), (SERVER, b"answer")])
        with Tool("--to", port, "--keep", out, "--", *client, stderr=-1) as tool:
            server, _ = listener.accept()
            all_of(server, 4)
            server.setsockopt(socket.SOL_SOCKET, socket.SO_LINGER, struct.pack("ii", 1, 0))
            server.close()
            status, told, err = tool.end()
        tally.want("a reset: status", (status, told.partition("\n")[0]), (1, "no at byte 1: OutOfTurn"))
        tally.holds("a reset: told", "connection 1: the server: Connection reset by peer" in err, err)
        tally.want("a reset: captured", runs_of(f"{out}/session.1.cap"), [(CLIENT, b"asks")])


def connections(tally, folder):
    """Two connections at once; none; and more than there are descriptors for."""
    with Ends(folder, "two") as ends:
        first, second = ends.both(), ends.both()
        for number, (client, server) in enumerate((second, first)):
            client.sendall(bytes([number]))
            tally.want("a connection of two", all_of(server, 1), bytes([number]))
        open_yet = ends.ended("neither side closed, requests outstanding 0, the client in the middle of the client flags")
        lines = "".join(ends.listed(0, 1, 0, number) + open_yet for number in (1, 2))
        status, out, err = ends.interrupt()
        tally.want("two connections", (status, out, err), (0, lines, ""))
        tally.want("each has its capture", [runs_of(ends.capture(number)) for number in (1, 2)],
                   [[(CLIENT, b"\1")], [(CLIENT, b"\0")]])
        tally.want("the socket is removed", os.path.exists(ends.here), False)
        tally.want("both ends are closed", (first[0].recv(1), second[1].recv(1)), (b"", b""))
    with Ends(folder, "refused") as ends:
        ends.listener.close()
        tally.want("a server that refuses: the client's end", ends.connect().recv(1), b"")
        status, out, err = ends.interrupt()
        tally.want("a server that refuses", (status, out, os.path.exists(ends.capture())), (3, "", False))
        said(tally, "a server that refuses", err, f"connection 1: cannot connect to {ends.there}: Connection refused")
    # Enough for the process that listens, and for three connections of each one that relays.
    with Ends(folder, "many", limits={resource.RLIMIT_NOFILE: 16}) as ends:
        ends.listener.listen(32)
        client, server = ends.both()
        others = [ends.connect() for _ in range(16)]
        client.sendall(b"still")
        tally.want("few descriptors: the first goes on", all_of(server, 5), b"still")
        client.close(), server.close()
        [other.close() for other in others]
        status, out, err = ends.interrupt()
        # How many of the others have a capture hangs on the descriptors that python itself has.
        tally.want("few descriptors: status", (status, out.splitlines(True)[:1]), (3, [ends.listed(0, 5, 0)]))
        tally.holds("few descriptors: told", "Too many open files" in err and "Traceback" not in err, err)


def full_queue(tally, folder):
    """A server whose queue is full is tried again until it takes connections."""
    with Ends(folder) as ends:
        ends.listener.listen(0)
        before = [socket.socket(socket.AF_UNIX) for _ in range(9)]
        waiting = 0
        for end in before:
            end.setblocking(False)
            waiting += end.connect_ex(ends.there) == 0
        client = ends.connect()
        client.sendall(b"waits")
        for _ in range(waiting):
            ends.listener.accept()[0].close()
        server, _ = ends.listener.accept()
        tally.want("a full queue", all_of(server, 5), b"waits")
        client.close()
        tally.want("a full queue: the end comes", server.recv(1), b"")
        server.close()
        [end.close() for end in before]
        ending = ends.ended("the client closed first, by end of file, requests outstanding 0, the client in the middle of an option")
        tally.want("a full queue: status", ends.interrupt(), (0, ends.listed(0, 5, 0) + ending, ""))


def full(tally, folder):
    """A capture that cannot be written ends with a whole line, and no byte that is not in it has passed."""
    data = data_of(40_000, 11)
    small = {resource.RLIMIT_FSIZE: 50_000}
    for name, limits, reason in (("large", small, "File too large"), ("full", None, "No space left on device")):
        with Ends(folder, name, limits=limits) as ends:
            if name == "full":
                os.symlink("/dev/full", ends.capture())
            client, server = ends.both()
            passed = b""
            try:
                for at in range(0, len(data), 1000):
                    server.sendall(data[at : at + 1000])
                    passed += all_of(client, 1000)
            except OSError:
                pass
            tally.holds(f"{name}: the connection ends", len(passed) < len(data), len(passed))
            status, out, err = ends.interrupt()
            tally.want(f"{name}: status", (status, out), (3, ends.listed(0, 0, len(passed))))
            said(tally, name, err, f"connection 1: cannot write {ends.capture()}: {reason}")
            written = b"" if name == "full" else bytes_of(ends.capture(), SERVER)
            tally.want(f"{name}: whole lines", written, data[: len(written)])
            tally.want(f"{name}: what passed is written", passed, written)


def interrupts(tally, folder):
    """A signal in the middle leaves whole lines, and ends the client."""
    # Below nohup it is ignored, and programs that are begun there ignore it too.
    signal.signal(signal.SIGHUP, signal.SIG_DFL)
    for number in (signal.SIGINT, signal.SIGTERM, signal.SIGHUP):
        with socket.create_server(("127.0.0.1", 0)) as listener:
            keep = f"{folder}/{number.name}"
            client = player(folder, [(CLIENT, b"asks"), (SERVER, b"answer")])
            with Tool("--to", listener.getsockname()[1], "--keep", keep, "--", *client) as tool:
                server, _ = listener.accept()
                all_of(server, 4)
                status, out, err = tool.end(number)
                tally.want(f"{number.name}: the server's end", server.recv(1), b"")
            path = f"{keep}/session.1.cap"
            tally.want(number.name, (status, out), (128 + number, ""))
            told = (f"nbdcheck-record: {line}\n" in err for line in (f"kept {path}", f"interrupted by {number.name}: no answer"))
            tally.holds(f"{number.name}: told", all(told), err)
            tally.want(f"{number.name}: captured", runs_of(path), [(CLIENT, b"asks")])
    with Ends(folder, "streaming") as ends:
        client, server = ends.both()
        server.setblocking(False)
        try:
            while True:
                server.send(data_of(100_000, 13))
        except BlockingIOError:
            pass
        client.recv(1)
        status, out, err = ends.interrupt()
        line = ends.listed(0, 0, len(bytes_of(ends.capture(), SERVER)))
        ending = ends.ended("neither side closed, requests outstanding unknown")
        tally.want("an interrupt while bytes pass", (status, out, err), (0, line + ending, ""))
        tally.holds("an interrupt while bytes pass: whole lines", len(runs_of(ends.capture())) == 1)


def counts(tally, _):
    """Requests are counted at their last bytes, however they are cut."""
    sent = of_side(GOOD, CLIENT)
    large = b"".join(data for _, data in (write(3, 0, bytes(5000)), read(4, 0, 1), request(2, 5, 0, 0)))
    # A WRITE without PAYLOAD_LEN, a WRITE and a BLOCK_STATUS with it, a TRIM of 2^40 bytes, and DISC.
    long = b"".join(data for _, data in (
        extended_request(WRITE, 1, 0, 300, bytes(300)), extended_request(WRITE, 2, 0, 7, bytes(7), flags=PAYLOAD_LEN),
        extended_request(BLOCK_STATUS, 3, 0, 12, bytes(12), flags=PAYLOAD_LEN), extended_request(TRIM, 4, 0, 2**40),
        extended_request(DISC, 5, 0, 0)))
    options = of_side(begun(), CLIENT)
    for name, data, wanted in (("a session", sent, 2), ("a large WRITE", sent + large, 4), ("in a WRITE", sent + large[:-57], 2),
                               ("its end", sent + large[:-56], 3), ("nothing", b"", 0), ("extended headers", options + long, 4),
                               ("in a filter", options + long[:-65], 2)):
        for size in (1, 7, 4096, len(data) + 1):
            count = Requests()
            for at in range(0, len(data), size):
                count.feed(data[at : at + size])
            tally.want(f"requests of {name} in pieces of {size}", (count.count, count.is_sure), (wanted, True))
    count = Requests()
    count.feed(sent + b"\x16\x03\x01" + bytes(99))
    tally.want("requests before other bytes", (count.count, count.is_sure), (2, False))
    for name, data in (("another head", sent + long[:32]), ("a shorter head", options + long + 2 * large[-28:])):
        count = Requests()
        count.feed(data)
        tally.want(f"{name}: not sure", count.is_sure, False)


def on_a_terminal(tally, folder):
    """The count of requests is shown where standard error is a terminal, and taken back."""
    terminal, stderr = pty.openpty()
    with Ends(folder, stderr=stderr) as ends:
        os.close(stderr)
        client, server = ends.both()
        ends.play(client, server, GOOD)
        shown = b""
        while b"2 requests, C " not in shown:
            shown += os.read(terminal, 4096)
        tally.holds("on a terminal", b"\r\x1b[Knbdcheck-record: 1 connections, " in shown, shown)
        ending = ends.ended("neither side closed, requests outstanding 0")
        tally.want("on a terminal, status", ends.interrupt()[:2], (0, ends.listed(2, *sizes_of(GOOD)) + ending))
        shown += os.read(terminal, 4096)
        tally.holds("on a terminal, at the end", shown.endswith(b"\r\x1b[K"), shown[-200:])
    os.close(terminal)


PARTS = (turns, halves, slow_reader, leaving, connections, full_queue, full, interrupts, counts, on_a_terminal)


def run(tally):
    run_parts(tally, PARTS)
