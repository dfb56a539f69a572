"""A recording: the relay, the client, and what is left of both at the end."""

import os
import subprocess
import sys
import time

from .addresses import Address, listen
from .output import begin_line, shared
from .progress import Progress
from .relay import Relay
from .room import Signals, Stopped, reason_of, remove, tell
from .tls import tls_of
from .words import names
from .workers import Plan

# Seconds without a byte after which connections are ended that are still open behind the client's end.
QUIET = 3
# Seconds that the client has to end after an interrupt.
PATIENCE = 5


class Recording:
    """What was recorded as the words ask, and how the client ended."""

    def __init__(self, words, room):
        self.words, self.room = words, room
        self.progress = Progress(sys.stderr)
        # The client's process and its exit status, or what a shell says of a command that can't be run, and why it can't.
        self.child, self.client_status, self.client_fault = None, 0, None
        self.relay, self.address, self.signals = None, None, None
        # Standard output, which a client shares.
        self.output = None

    def tell(self, line):
        self.progress.erase()
        tell(line)

    def path_of(self, number):
        """The path of a connection's capture."""
        if self.words.client is None:
            return f"{self.words.out}.{number}.cap"
        return os.path.join(self.words.keep or self.room.folder, f"session.{number}.cap")

    def make_folder(self):
        """The folder of the captures has to be there before a client comes."""
        try:
            if self.words.keep is not None:
                os.makedirs(self.words.keep, exist_ok=True)
            os.stat(os.path.join(os.path.dirname(self.path_of(1)), "."))
        except OSError as error:
            raise Stopped(f"cannot write {self.path_of(1)}: {reason_of(error)}") from None

    def wanted_address(self):
        """Where to listen: as asked, or as the client's words and the server's address suggest."""
        words = self.words
        if words.listen is not None:
            return words.listen
        if names(words.client, "{socket}") or words.to.path is not None and not names(words.client, "{port}"):
            return Address(None, None, self.room.path("socket"))
        return Address("127.0.0.1", 0, None)

    def listen(self):
        """Finds the server's addresses, and listens."""
        try:
            places = self.words.to.places()
        except OSError as error:
            raise Stopped(f"cannot find {self.words.to}: {reason_of(error)}") from None
        wanted = self.wanted_address()
        self.relay = Relay(Plan(self.words.to, places, self.words.refused, tls_of(self.words), self.path_of), self.tell)
        try:
            listener, self.address = listen(wanted)
        except OSError as error:
            self.relay.close()
            raise Stopped(f"cannot listen on {wanted}: {reason_of(error)}") from None
        self.relay.listen(listener)
        self.signals = Signals(self.relay.selector)
        if self.words.client is None and wanted.port == 0:
            self.tell(f"listening on {self.address}")

    def start_client(self):
        """Runs the client, whose words name the address."""
        named = {"{uri}": self.address.uri(), "{port}": str(self.address.port), "{socket}": str(self.address.path)}
        words = list(self.words.client)
        for name, value in named.items():
            words = [word.replace(name, value) for word in words]
        self.output = shared()
        try:
            self.child = subprocess.Popen(words, **self.output.words())
        except OSError as error:
            self.client_fault, self.client_status = f"cannot run the client {words[0]}: {reason_of(error)}", 127
        self.output.began()

    def client_has_ended(self):
        """Whether the client's end has come; without a client it never does."""
        if self.child is None:
            return self.words.client is not None
        self.client_status = self.child.poll() or 0
        return self.child.returncode is not None

    def seconds_of_end(self):
        """How long the connections that the client left may stay, or 0 where it is over."""
        if not self.relay.open:
            return 0
        left = QUIET - (time.monotonic() - self.relay.moved())
        if left <= 0:
            self.tell(f"connections still open {QUIET} seconds behind the client's end: {len(self.relay.open)}")
        return max(left, 0)

    def relay_all(self):
        """Relays until the client and its connections have ended, or an interrupt comes."""
        while self.signals.came is None and (self.relay.listener or self.relay.open or self.child):
            seconds = self.progress.between()
            if self.client_has_ended():
                self.relay.end()
                left = self.seconds_of_end()
                if left == 0:
                    return
                seconds = left if seconds is None else min(left, seconds)
            self.relay.turn(seconds)
            self.progress.paint(self.relay)
        # What came before the interrupt is taken, and ends of connections are seen.
        self.relay.stop()
        self.relay.turn(0)

    def end_client(self):
        """Ends a client that still runs."""
        if self.child is None or self.child.poll() is not None:
            return
        self.child.terminate()
        try:
            self.child.wait(PATIENCE)
        except subprocess.TimeoutExpired:
            self.child.kill()
            self.child.wait()

    def record(self):
        """Records until the end, or an interrupt; the signals that come then are kept."""
        self.make_folder()
        self.listen()
        try:
            if self.words.client is not None:
                self.start_client()
            self.relay_all()
        finally:
            self.progress.erase()
            self.relay.close()
            if self.address.path is not None:
                remove(self.address.path)
            self.end_client()

    def begin_line(self):
        """Ends a line that the client left unfinished on standard output."""
        if self.output is not None:
            begin_line(self.output)

    def could_connect(self):
        """Whether there was a client, or could be one."""
        return self.words.client is None or self.child is not None

    def recorded(self):
        """The connections that have a capture."""
        return [held for held in self.connections() if held.path is not None]

    def connections(self):
        return [] if self.relay is None else self.relay.connections

    def is_empty(self):
        """Whether not a byte passed on any connection, though each was recorded as a whole."""
        return all(held.is_empty() and held.fault is None for held in self.connections())

    def has_failed(self):
        """Whether a connection is not recorded as a whole."""
        return self.relay.fault is not None or any(held.fault is not None for held in self.relay.connections)

    def tell_kept(self, connections):
        for connection in connections:
            self.tell(f"kept {connection.path}")
