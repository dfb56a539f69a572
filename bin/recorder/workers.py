"""Processes that relay connections, so that several connections pass on several processors."""

import errno
import mmap
import os
import signal
import socket
import struct
import time
import traceback
from collections import namedtuple
from multiprocessing import Pipe
from selectors import EVENT_READ, DefaultSelector

from .captures import CLIENT, SERVER
from .connections import Connection
from .recorded import Recorded
from .room import INTERRUPTS

# Seconds until a unix socket whose queue was full is tried again.
AGAIN = 0.05
# How many bytes the number of a connection has, which goes with its socket.
NUMBER_SIZE = 8
# What a worker shows of its connections while they last: requests, bytes of the client and of the server, whether the requests
# are known, and when the last byte came.
SHOWN = struct.Struct("QQQ?d")

# What each connection is relayed by: the server's name and its addresses, the numbers of the options that are refused in its place,
# what TLS to it needs, or None, and the path of a connection's capture by its number.
Plan = namedtuple("Plan", "target places refused tls path_of")
# What a worker says: a line that is to be told, a connection that has ended, or that memory was refused.
TELLS, ENDED, NO_MEMORY = "tells", "ended", "no memory"


class Worker:
    """The connections of one process."""

    def __init__(self, plan, clients, pipe, shown):
        self.plan, self.clients, self.pipe, self.shown = plan, clients, pipe, shown
        self.selector = DefaultSelector()
        self.selector.register(clients, EVENT_READ, self.accept)
        # Those that are open, and those whose server has to be tried again.
        self.open, self.waiting, self.is_over = set(), [], False
        self.requests, self.bytes, self.is_known = 0, {CLIENT: 0, SERVER: 0}, True

    def accept(self, *_):
        """Takes a connection, whose number comes with it; the end of these is the end of the worker."""
        number, sockets, _, _ = socket.recv_fds(self.clients, NUMBER_SIZE, 1)
        if not number:
            self.selector.unregister(self.clients)
            self.is_over = True
            return
        recorded = Recorded(int.from_bytes(number, "big"), self.plan.refused)
        client = socket.socket(fileno=sockets[0]) if sockets else None
        connection = Connection(self, recorded, client)
        self.open.add(connection)
        if client is None:
            connection.fail(f"cannot take the connection: {os.strerror(errno.EMFILE)}")
        else:
            client.setblocking(False)
            connection.connect()

    def turn(self, seconds):
        """Serves what is ready, and waits for that no longer than so many seconds, or for ever where that is None."""
        for key, mask in self.selector.select(AGAIN if self.waiting else seconds):
            key.data(key.fileobj, mask)
        waiting, self.waiting = self.waiting, []
        for connection in waiting:
            connection.connect()

    def run(self):
        """Relays until the end; what came before it is taken, and ends of connections are seen."""
        while not self.is_over:
            self.turn(None)
        self.turn(0)
        for connection in list(self.open):
            connection.close()

    def note(self, recorded, side, piece):
        """Counts a piece that was written down."""
        requests = recorded.requests
        before = requests.count
        recorded.note(side, piece)
        self.requests += requests.count - before
        self.bytes[side] += len(piece)
        self.is_known = self.is_known and requests.is_sure
        SHOWN.pack_into(self.shown, 0, self.requests, self.bytes[CLIENT], self.bytes[SERVER], self.is_known, time.monotonic())

    def tell(self, line):
        self.pipe.send((TELLS, line))

    def ended(self, connection):
        """A connection has ended: all that is known of it is handed on."""
        self.open.discard(connection)
        self.pipe.send((ENDED, connection.recorded))


def run_worker(plan, clients, pipe, shown):
    """The life of a process that is a worker; its exit status."""
    for number in INTERRUPTS:
        signal.signal(number, signal.SIG_IGN)
    try:
        Worker(plan, clients, pipe, shown).run()
    except MemoryError:
        pipe.send((NO_MEMORY, None))
    except BrokenPipeError:
        # The process that would hear of it has gone.
        pass
    except BaseException:
        traceback.print_exc()
        return 1
    return 0


class Handle:
    """A worker, seen from the process that hands it connections."""

    def __init__(self, plan, others):
        self.clients, clients = socket.socketpair()
        self.pipe, pipe = Pipe()
        self.shown = mmap.mmap(-1, SHOWN.size)
        SHOWN.pack_into(self.shown, 0, 0, 0, 0, True, 0.0)
        # The numbers of its open connections.
        self.open = set()
        self.pid = os.fork()
        if self.pid == 0:
            status = 1
            try:
                for each in (self, *others):
                    each.clients.close()
                    each.pipe.close()
                status = run_worker(plan, clients, pipe, self.shown)
            finally:
                os._exit(status)
        clients.close()
        pipe.close()

    def give(self, number, client):
        """Hands a client's connection on."""
        self.open.add(number)
        try:
            socket.send_fds(self.clients, [number.to_bytes(NUMBER_SIZE, "big")], [client.fileno()])
        except BrokenPipeError:
            # The process has gone, which is heard next.
            pass

    def said(self):
        """What the worker says next, or None at its end."""
        try:
            return self.pipe.recv()
        except (EOFError, ConnectionResetError):
            return None

    def counts(self):
        """How many requests and bytes of each side have passed, whether the requests are known, and when the last byte came."""
        return SHOWN.unpack_from(self.shown)

    def end(self):
        """Asks for the end."""
        self.clients.close()

    def wait(self):
        """How the process ended: its exit status, or below 0 the signal."""
        self.pipe.close()
        return os.waitstatus_to_exitcode(os.waitpid(self.pid, 0)[1])
