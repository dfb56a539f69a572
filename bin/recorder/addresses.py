"""Addresses: a port of this machine, HOST:PORT, or the path of a unix socket."""

import os
import socket
from collections import namedtuple
from urllib.parse import quote

FORMS = "wanted is a port, HOST:PORT, or the path of a unix socket with a / in it"
# The hosts that mean each address of the machine, and how a client here names them.
ANY = {"": "127.0.0.1", "0.0.0.0": "127.0.0.1", "::": "::1"}


class Malformed(Exception):
    """A word of the command line that has not its form."""


class Address(namedtuple("Address", "host port path")):
    """Where a server listens: a host and a port, or the path of a unix socket."""

    def __str__(self):
        if self.path is not None:
            return self.path
        return f"[{self.host}]:{self.port}" if ":" in self.host else f"{self.host}:{self.port}"

    def places(self):
        """What the system calls it: families of sockets, each with an address."""
        if self.path is not None:
            return [(socket.AF_UNIX, self.path)]
        try:
            found = socket.getaddrinfo(self.host or None, self.port, type=socket.SOCK_STREAM, flags=socket.AI_PASSIVE)
        except UnicodeError:
            raise OSError(None, "no name of a host") from None
        return [(family, where) for family, _, _, _, where in found]

    def uri(self):
        """The URI for a client on this machine."""
        if self.path is not None:
            return "nbd+unix:///?socket=" + quote(os.fsencode(os.path.abspath(self.path)))
        host = ANY.get(self.host, self.host)
        return f"nbd://{Address(host, self.port, None)}"


def parse(text):
    """The address that a word of the command line names."""
    if "://" in text:
        raise Malformed(f"{text}: a URI; {FORMS}")
    if "/" in text:
        return Address(None, None, text)
    host, colon, port = text.rpartition(":")
    if not colon:
        host = "127.0.0.1"
    if host.startswith("[") and host.endswith("]"):
        host = host[1:-1]
    elif ":" in host:
        raise Malformed(f"{text}: {FORMS}; a host with colons stands in brackets")
    if not (port.isascii() and port.isdigit() and int(port) < 2**16):
        raise Malformed(f"{text}: {FORMS}")
    return Address(host, int(port), None)


def listen(address):
    """A socket that listens there, and the address with the port that it got."""
    family, where = address.places()[0]
    listener = socket.socket(family, socket.SOCK_STREAM)
    try:
        if family != socket.AF_UNIX:
            listener.setsockopt(socket.SOL_SOCKET, socket.SO_REUSEADDR, 1)
        listener.bind(where)
        listener.listen(128)
        listener.setblocking(False)
    except OSError:
        listener.close()
        raise
    if family == socket.AF_UNIX:
        return listener, address
    return listener, address._replace(port=listener.getsockname()[1])
