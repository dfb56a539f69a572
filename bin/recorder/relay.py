"""The relay: it listens, and hands the connections that it takes to workers."""

import errno
import os
import selectors
import time

from .recorded import Recorded
from .room import reason_of
from .workers import ENDED, NO_MEMORY, Handle

# How many processes relay connections, and how many connections are taken before others have their turn.
WORKERS, AT_ONCE = 4, 16
# What `accept` says of a client that has gone already.
GONE = (errno.ECONNABORTED, errno.EPROTO)


class Relay:
    """Connections from a listening socket to a server, each with its capture."""

    def __init__(self, plan, tell):
        self.plan, self.tell = plan, tell
        self.workers = []
        for _ in range(WORKERS):
            self.workers.append(Handle(plan, self.workers))
        self.selector = selectors.DefaultSelector()
        for worker in self.workers:
            self.selector.register(worker.pipe, selectors.EVENT_READ, self.hear)
        self.listener = None
        # What was recorded of each connection, and which of them are open, by their numbers.
        self.connections, self.open = [], set()
        # When the last connection came, and why one could not be taken.
        self.came, self.fault = time.monotonic(), None

    def listen(self, listener):
        """Takes connections from this socket."""
        self.listener = listener
        self.selector.register(listener, selectors.EVENT_READ, self.accept)

    def turn(self, seconds):
        """Serves what is ready, and waits for that no longer than so many seconds, or for ever where that is None."""
        for key, mask in self.selector.select(seconds):
            key.data(key.fileobj, mask)

    def accept(self, *_):
        """Takes connections that clients opened; whether there may be more of them."""
        for _ in range(AT_ONCE):
            if self.listener is None:
                return False
            try:
                client, _ = self.listener.accept()
            except BlockingIOError:
                return False
            except OSError as error:
                if error.errno not in GONE:
                    self.cannot_accept(error)
                    return False
                continue
            with client:
                self.give(client)
        return True

    def give(self, client):
        """Hands a connection to the worker that has the fewest."""
        recorded = Recorded(len(self.connections) + 1, self.plan.refused)
        self.connections.append(recorded)
        self.open.add(recorded.number)
        self.came = time.monotonic()
        min(self.workers, key=lambda worker: len(worker.open)).give(recorded.number, client)

    def cannot_accept(self, error):
        """Listens again when a connection has ended, or where there is none, not at all."""
        self.fault = f"cannot take a connection: {reason_of(error)}"
        self.tell(self.fault)
        if self.open:
            self.selector.unregister(self.listener)
        else:
            self.stop()

    def hear(self, pipe, *_):
        """What a worker says; whether it goes on."""
        worker = next(worker for worker in self.workers if worker.pipe is pipe)
        said = worker.said()
        if said is None:
            self.lost(worker)
            return False
        what, found = said
        if what == NO_MEMORY:
            raise MemoryError
        if what == ENDED:
            worker.open.discard(found.number)
            self.ended(found)
        else:
            self.tell(found)
        return True

    def ended(self, recorded):
        """A connection has ended."""
        self.connections[recorded.number - 1] = recorded
        self.open.discard(recorded.number)
        if self.listener is not None and self.listener not in self.selector.get_map():
            self.selector.register(self.listener, selectors.EVENT_READ, self.accept)

    def lost(self, worker):
        """A worker has ended; where that was not asked for, its connections are not recorded as a whole."""
        self.selector.unregister(worker.pipe)
        self.workers.remove(worker)
        worker.end()
        status = worker.wait()
        for number in worker.open:
            recorded, path = self.connections[number - 1], self.plan.path_of(number)
            recorded.path, recorded.last = path if os.path.exists(path) else None, time.monotonic()
            recorded.fault = f"the process that recorded it ended with status {status}"
            self.tell(f"connection {number}: {recorded.fault}")
            self.ended(recorded)
        if not self.workers and self.listener is not None:
            self.fault = "no process is left that relays"
            self.tell(self.fault)
            self.stop()

    def end(self):
        """Takes the connections that have come up to now, and no more."""
        if self.listener is not None:
            while self.accept():
                pass
            self.stop()
            self.came = time.monotonic()

    def stop(self):
        """Listens no longer."""
        if self.listener is not None:
            if self.listener in self.selector.get_map():
                self.selector.unregister(self.listener)
            self.listener.close()
            self.listener = None

    def close(self):
        """Ends what is still open."""
        self.stop()
        for worker in self.workers:
            worker.end()
        for worker in list(self.workers):
            while self.hear(worker.pipe):
                pass

    def moved(self):
        """When the last byte or the last connection came."""
        return max([self.came, *(worker.counts()[-1] for worker in self.workers)])

    def counts(self):
        """How many connections there were, their requests or None where these are not known, and the bytes of each side."""
        found = [worker.counts() for worker in self.workers]
        requests, client, server = (sum(counts[at] for counts in found) for at in range(3))
        return len(self.connections), requests if all(counts[3] for counts in found) else None, client, server
