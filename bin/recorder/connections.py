"""A connection between a client and a server: what comes is written down before it is forwarded."""

import errno
import os
import select
import selectors
import socket
import time

from .captures import CLIENT, SERVER, Capture
from .endings import NAMES
from .refusals import unsupported
from .room import reason_of
from .tls import Refused, Upgrade

READ, WRITE = selectors.EVENT_READ, selectors.EVENT_WRITE
# The most bytes that are taken at once, so that heads go along with 64 KiB: larger pieces are slower. One is held for each direction,
# until it is forwarded.
LARGEST = 2**16 + 2**10
# How many pieces of one direction are taken before others have their turn.
IN_A_ROW = 8


class Flow:
    """One direction of a connection."""

    def __init__(self, side, source, target):
        self.side, self.source, self.target = side, source, target
        # What is written down and not yet forwarded.
        self.held = b""
        # Whether more may come, and whether all that came was forwarded with its end, or the target has gone.
        self.is_open, self.is_ended = True, False
        # How many bytes are taken at once.
        self.most = LARGEST

    def is_ready(self):
        """Whether more is taken: where what came before was forwarded."""
        return self.is_open and not self.held and self.most > 0

    def forward(self):
        """Hands on what is held, as far as the target takes it, and then the end; the error where the target has gone."""
        try:
            while self.held:
                count = self.target.send(self.held)
                self.held = b"" if count == len(self.held) else memoryview(self.held)[count:]
        except BlockingIOError:
            return None
        except OSError as error:
            # Nothing more is taken for it. Its own bytes go on until they end.
            self.held, self.is_open, self.is_ended = b"", False, True
            return error
        if not self.is_open and not self.is_ended:
            self.is_ended = True
            end(self.target)
        return None


def end(target):
    """Tells an end that no more comes."""
    try:
        target.shutdown(socket.SHUT_WR)
    except OSError:
        pass


def has_closed(source):
    """Whether this end has closed, whatever of its bytes was not taken yet."""
    watched = select.poll()
    watched.register(source, getattr(select, "POLLRDHUP", 0))
    return bool(watched.poll(0))


def send_at_once(target):
    """Small pieces don't wait for others."""
    try:
        target.setsockopt(socket.IPPROTO_TCP, socket.TCP_NODELAY, 1)
    except OSError:
        pass


class Connection:
    """A client's connection, and the one to the server that it is relayed to."""

    def __init__(self, worker, recorded, client):
        self.worker, self.recorded, self.client, self.server = worker, recorded, client, None
        self.places = list(worker.plan.places)
        self.capture, self.flows = None, {}
        # The way to TLS, up to its end.
        self.upgrade = None
        self.begun = time.monotonic()
        # The events that each end is watched for.
        self.is_closed, self.watched = False, {}

    def connect(self):
        """Tries the server's addresses, until one is connected or on its way."""
        error = 0
        while self.places:
            family, where = self.places[0]
            try:
                self.server = socket.socket(family, socket.SOCK_STREAM)
                self.server.setblocking(False)
                error = self.server.connect_ex(where)
            except OSError as failure:
                return self.fail(f"cannot connect to {self.worker.plan.target}: {reason_of(failure)}")
            if error == 0:
                return self.begin()
            if error == errno.EINPROGRESS:
                return self.watch(self.server, WRITE)
            self.server.close()
            if error == errno.EAGAIN:
                return self.worker.waiting.append(self)
            self.places.pop(0)
        return self.fail(f"cannot connect to {self.worker.plan.target}: {os.strerror(error)}")

    def connected(self):
        """The server's address has answered."""
        error = self.server.getsockopt(socket.SOL_SOCKET, socket.SO_ERROR)
        if error == 0:
            return self.begin()
        self.watch(self.server, 0)
        self.server.close()
        self.places.pop(0)
        if self.places:
            return self.connect()
        return self.fail(f"cannot connect to {self.worker.plan.target}: {os.strerror(error)}")

    def begin(self):
        """Both ends are there."""
        path = self.worker.plan.path_of(self.recorded.number)
        try:
            self.capture = Capture(path)
        except OSError as error:
            return self.fail(f"cannot write {path}: {reason_of(error)}")
        self.recorded.path, self.recorded.has_begun = path, True
        for each in (self.client, self.server):
            if each.family != socket.AF_UNIX:
                send_at_once(each)
        self.begin_flows()
        if self.worker.plan.tls is not None:
            self.upgrade = Upgrade(self.server, self.worker.plan.tls)
            self.limit_flows()
        return self.watch_both()

    def begin_flows(self):
        self.flows = {CLIENT: Flow(CLIENT, self.client, self.server), SERVER: Flow(SERVER, self.server, self.client)}

    def limit_flows(self):
        """Takes no more of each side than passes in front of TLS."""
        for side, flow in self.flows.items():
            flow.most = self.upgrade.most(side)

    def ready(self, which, mask):
        """This end takes more, or more has come from it."""
        if self.is_closed:
            return
        try:
            self.serve(which, mask)
        except Refused as reason:
            self.fail(str(reason))

    def serve(self, which, mask):
        """The same, where TLS may fail."""
        if not self.flows:
            self.connected()
            return
        if self.is_upgrading():
            self.go_on()
            return
        ours, other = (CLIENT, SERVER) if which is self.client else (SERVER, CLIENT)
        if mask & WRITE:
            self.forward(self.flows[other])
        if mask & READ:
            self.take_some(self.flows[ours])
        if self.is_closed:
            return
        if all(flow.is_ended for flow in self.flows.values()):
            self.close()
        elif self.is_upgrading():
            self.go_on()
        else:
            self.watch_both()

    def is_upgrading(self):
        """Whether TLS is negotiated: the client's flags have been handed on."""
        return self.upgrade is not None and self.upgrade.is_under_way() and not self.flows[CLIENT].held

    def go_on(self):
        """Goes on with the negotiation of TLS, while nothing passes; then the server is spoken to by it."""
        if not self.upgrade.turn():
            self.watch(self.client, 0)
            self.watch(self.server, READ | (WRITE if self.upgrade.is_sending() else 0))
            return
        self.watch(self.server, 0)
        self.server, self.upgrade = self.upgrade.end, None
        self.recorded.tls = self.server.version()
        self.begin_flows()
        self.watch_both()

    def forward(self, flow):
        error = flow.forward()
        if error is not None:
            other = SERVER if flow.side == CLIENT else CLIENT
            self.recorded.ending.gone(other, error)
            self.tell_gone(other, error)

    def tell_gone(self, side, error):
        self.worker.tell(f"connection {self.recorded.number}: the {NAMES[side]}: {reason_of(error)}")

    def take_some(self, flow):
        """Takes what has come, as long as whole pieces come and are forwarded at once."""
        for _ in range(IN_A_ROW):
            if not flow.is_ready() or self.take(flow) < LARGEST:
                return

    def take(self, flow):
        """Writes down what has come, and then forwards it; how many bytes there were."""
        try:
            piece = flow.source.recv(flow.most)
        except BlockingIOError:
            return 0
        except OSError as error:
            self.tell_gone(flow.side, error)
            self.ended(flow, True)
            return 0
        if not piece:
            self.ended(flow, False)
        elif self.write_down(flow.side, piece):
            flow.held = piece
            if flow.side == CLIENT and self.worker.plan.refused and not self.refuse(flow, piece):
                return 0
            self.forward(flow)
            if self.upgrade is not None:
                self.upgrade.passed(flow.side, piece)
                self.limit_flows()
        return len(piece)

    def ended(self, flow, is_reset):
        """A direction has ended."""
        self.recorded.ending.ended(flow.side, is_reset, has_closed(flow.target))
        flow.is_open = False
        flow.held = self.recorded.refusals.left() if flow.side == CLIENT else b""
        self.forward(flow)

    def write_down(self, side, piece):
        """Writes a piece down and counts it; whether that could be done."""
        try:
            self.capture.add(side, piece)
        except OSError as error:
            self.fail(f"cannot write {self.capture.path}: {reason_of(error)}")
            return False
        self.worker.note(self.recorded, side, piece)
        return True

    def refuse(self, flow, piece):
        """Answers the options of a piece that are refused, and holds the rest of it; whether that could be done."""
        held = []
        for part in self.recorded.refusals.split(piece):
            if isinstance(part, bytes):
                held.append(part)
            elif not self.answer(self.flows[SERVER], part):
                return False
        flow.held = b"".join(held)
        return True

    def answer(self, flow, option):
        """Writes down the answer to an option that is refused, and sends it; whether the server's bytes are at a place for it."""
        replies = self.recorded.replies
        if replies.options + 1 < self.recorded.refusals.count or replies.middle() is not None:
            self.fail("an option to be refused came before the one before it had its answer")
            return False
        said = unsupported(option)
        if not self.write_down(SERVER, said):
            return False
        flow.held = bytes(flow.held) + said
        self.forward(flow)
        return True

    def watch_both(self):
        for which, ours, other in ((self.client, CLIENT, SERVER), (self.server, SERVER, CLIENT)):
            self.watch(which, (READ if self.flows[ours].is_ready() else 0) | (WRITE if self.flows[other].held else 0))

    def watch(self, which, mask):
        """Asks to be told of these events of an end."""
        before = self.watched.get(which, 0)
        if mask == before:
            return
        self.watched[which] = mask
        if before == 0:
            self.worker.selector.register(which, mask, self.ready)
        elif mask == 0:
            self.worker.selector.unregister(which)
        else:
            self.worker.selector.modify(which, mask, self.ready)

    def fail(self, reason):
        """Ends the connection, whose recording is not whole."""
        self.recorded.fault = reason
        self.worker.tell(f"connection {self.recorded.number}: {reason}")
        self.close()

    def close(self):
        """Closes both ends and the capture."""
        self.is_closed, self.recorded.seconds = True, time.monotonic() - self.begun
        self.recorded.ending.close()
        for which in (self.client, self.server):
            if which is not None and which.fileno() >= 0:
                self.watch(which, 0)
                which.close()
        if self.capture is not None:
            try:
                self.capture.close()
            except OSError as error:
                self.recorded.fault = self.recorded.fault or f"cannot write {self.capture.path}: {reason_of(error)}"
                self.worker.tell(f"connection {self.recorded.number}: {self.recorded.fault}")
        self.worker.ended(self)
