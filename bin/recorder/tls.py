"""TLS to the server, where the client speaks without it: what it is known by, how it is negotiated, and an end that speaks it."""

import os
import ssl
import struct
from collections import namedtuple

from .captures import CLIENT, SERVER
from .refusals import ANSWER_MAGIC
from .replies import GREETING, GREETING_SIZE
from .requests import ABORT, FLAGS_SIZE, OPTION
from .room import Stopped, reason_of

STARTTLS, ACK = 5, 1
# The flag of the greeting, and that of the client's flags, without which there is no STARTTLS.
FIXED_NEWSTYLE = 1
ANSWER = struct.Struct(">QIII")
ERRORS = {0x80000001: "NBD_REP_ERR_UNSUP", 0x80000002: "NBD_REP_ERR_POLICY", 0x80000003: "NBD_REP_ERR_INVALID",
          0x80000004: "NBD_REP_ERR_PLATFORM"}
# As much as is taken at once: with a record that is not whole it is less than is handed on at once, so nothing is left lying.
LARGEST = 2**15
# The files of a folder of certificates, as nbdkit, libnbd and qemu name them.
AUTHORITY, CERTIFICATE, KEY = "ca-cert.pem", "client-cert.pem", "client-key.pem"

# What TLS needs: a context of python's ssl, and the name that the server's certificate has to have, or None.
Tls = namedtuple("Tls", "context name")


class Refused(Exception):
    """Why there is no TLS."""


def said_of(error):
    """What went wrong with TLS, in the words of OpenSSL or of the system."""
    reason = getattr(error, "verify_message", None) or getattr(error, "reason", None)
    return reason_of(error) if reason is None else reason.replace("_", " ")


def has_keys():
    """Whether this python has TLS with keys that both sides know."""
    return hasattr(ssl.SSLContext, "set_psk_client_callback")


def by_certificates(folder):
    """A context with the certificates of a folder: the client's own is sent where it is there."""
    context = ssl.SSLContext(ssl.PROTOCOL_TLS_CLIENT)
    authority, certificate, key = (os.path.join(folder, name) for name in (AUTHORITY, CERTIFICATE, KEY))
    path = authority
    try:
        context.load_verify_locations(authority)
        path = certificate
        if os.path.exists(certificate):
            context.load_cert_chain(certificate, key)
    except OSError as error:
        raise Stopped(f"--tls-certificates {path}: {reason_of(error)}") from None
    return context


def by_key(path):
    """A context with the name and the key of the first line of a file, as psktool of GnuTLS writes it."""
    try:
        with open(path, encoding="utf-8", errors="replace") as file:
            name, _, key = file.readline().strip().partition(":")
        key = bytes.fromhex(key)
    except ValueError:
        key = b""
    except OSError as error:
        raise Stopped(f"--tls-psk {path}: {reason_of(error)}") from None
    if not name or not key:
        raise Stopped(f"--tls-psk {path}: its first line is not NAME:KEY, the key in hexadecimal")
    context = ssl.SSLContext(ssl.PROTOCOL_TLS_CLIENT)
    context.check_hostname, context.verify_mode = False, ssl.CERT_NONE
    context.maximum_version = ssl.TLSVersion.TLSv1_2
    context.set_ciphers("PSK")
    context.set_psk_client_callback(lambda _: (name, key))
    return context


def tls_of(words):
    """What TLS needs, or None where it is not asked for; a unix socket has no name that a certificate could have."""
    if words.certificates is not None:
        context = by_certificates(words.certificates)
        context.check_hostname = words.to.path is None
        return Tls(context, words.to.host or None)
    return Tls(by_key(words.psk), None) if words.psk is not None else None


class SecureEnd:
    """A server's socket with TLS, which is used as one without."""

    def __init__(self, raw, tls):
        self.raw, self.family = raw, raw.family
        self.incoming, self.outgoing = ssl.MemoryBIO(), ssl.MemoryBIO()
        self.tls = tls.context.wrap_bio(self.incoming, self.outgoing, server_hostname=tls.name)
        # What is ready to be sent, and how many bytes of the caller's it is that it was not told of yet.
        self.out, self.pending = b"", 0

    def fileno(self):
        return self.raw.fileno()

    def close(self):
        self.raw.close()

    def version(self):
        return self.tls.version()

    def flush(self):
        """Sends what is ready; BlockingIOError where not all of it is taken."""
        self.out += self.outgoing.read()
        while self.out:
            self.out = self.out[self.raw.send(self.out) :]

    def flush_or_hear(self):
        """Sends what is ready; where the other side has gone, what it said before is still to be heard."""
        try:
            self.flush()
        except BrokenPipeError:
            pass

    def pull(self):
        """Takes what has come, or its end."""
        piece = self.raw.recv(LARGEST)
        if piece:
            self.incoming.write(piece)
        else:
            self.incoming.write_eof()

    def handshake(self):
        """Goes on as far as it gets; whether TLS is there."""
        try:
            while True:
                try:
                    self.tls.do_handshake()
                    self.flush()
                    return True
                except ssl.SSLWantReadError:
                    self.flush_or_hear()
                    self.pull()
        except BlockingIOError:
            return False
        except ssl.SSLError:
            self.flush_or_hear()
            raise

    def send(self, data):
        """Takes all of it; where it cannot be sent yet the caller tries again with the same bytes."""
        if not self.pending:
            self.pending = self._done(self.tls.write, data)
        self.flush()
        count, self.pending = self.pending, 0
        return count

    def recv(self, count):
        """As many bytes as there are; none where the other side has ended."""
        parts, left = [], count
        while left:
            try:
                part = self._done(self.tls.read, left)
            except ssl.SSLWantReadError:
                if parts:
                    break
                self.pull()
                continue
            except (ssl.SSLZeroReturnError, ssl.SSLEOFError):
                break
            if not part:
                break
            parts.append(part)
            left -= len(part)
        return b"".join(parts)

    @staticmethod
    def _done(act, word):
        """What this gives; where TLS fails, nothing more can be known of the session."""
        try:
            return act(word)
        except (ssl.SSLWantReadError, ssl.SSLZeroReturnError, ssl.SSLEOFError):
            raise
        except ssl.SSLError as error:
            raise Refused(f"TLS with the server failed: {said_of(error)}") from None

    def shutdown(self, how):
        """Says that no more comes; what the other side says to that is not waited for."""
        try:
            self.tls.unwrap()
        except ssl.SSLError:
            pass
        try:
            self.flush()
        except OSError:
            pass
        self.raw.shutdown(how)


class Upgrade:
    """The way to TLS, in front of the client's first option: the greeting and the client's flags pass as they are."""

    def __init__(self, raw, tls):
        self.raw, self.tls = raw, tls
        self.greeting, self.flags = b"", b""
        # What is to be sent to the server, its answer, and the end with TLS.
        self.out, self.answer, self.end = OPTION + struct.pack(">II", STARTTLS, 0), b"", None

    def most(self, side):
        """How many bytes of a side pass now."""
        left = GREETING_SIZE - len(self.greeting)
        if side == SERVER:
            return left
        return 0 if left else FLAGS_SIZE - len(self.flags)

    def passed(self, side, piece):
        """Looks at what has passed: behind the client's flags comes STARTTLS."""
        if side == CLIENT:
            self.flags += piece
        else:
            self.greeting += piece
        if not GREETING.startswith(self.greeting[: len(GREETING)]):
            raise Refused("the server's greeting is none of newstyle")
        if len(self.greeting) == GREETING_SIZE and not self.greeting[-1] & FIXED_NEWSTYLE:
            raise Refused("the server's newstyle is not fixed")
        if len(self.flags) == FLAGS_SIZE and not self.flags[-1] & FIXED_NEWSTYLE:
            raise Refused("the client's flags do not say fixed newstyle")

    def is_under_way(self):
        """Whether the client's flags have come, and TLS is next."""
        return len(self.flags) == FLAGS_SIZE

    def turn(self):
        """Goes on as far as it gets; whether TLS is there."""
        try:
            if self.end is None:
                while self.out:
                    self.out = self.out[self.raw.send(self.out) :]
                self._read_answer()
                self.end = SecureEnd(self.raw, self.tls)
            return self.end.handshake()
        except BlockingIOError:
            return False
        except OSError as error:
            raise Refused(f"no TLS with the server: {said_of(error)}") from None

    def is_sending(self):
        """Whether the server has to take more."""
        return bool(self.out if self.end is None else self.end.out)

    def _read(self, size):
        """Takes the answer up to this size."""
        while len(self.answer) < size:
            piece = self.raw.recv(size - len(self.answer))
            if not piece:
                raise Refused("the server closed the connection at NBD_OPT_STARTTLS")
            self.answer += piece

    def _read_answer(self):
        """The answer to STARTTLS has to be an ACK."""
        self._read(ANSWER.size)
        magic, option, kind, length = ANSWER.unpack(self.answer[: ANSWER.size])
        if (magic, option, kind, length) == (ANSWER_MAGIC, STARTTLS, ACK, 0):
            return
        try:
            # A client that wants TLS and gets none ends the session.
            self.raw.send(OPTION + struct.pack(">II", ABORT, 0))
        except OSError:
            pass
        if magic == ANSWER_MAGIC and option == STARTTLS:
            raise Refused(f"the server refuses NBD_OPT_STARTTLS: {ERRORS.get(kind, hex(kind))}")
        raise Refused("the server's answer to NBD_OPT_STARTTLS is none")
