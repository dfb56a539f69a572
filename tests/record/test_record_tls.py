"""TLS to the server: the capture is the plain session, and the server is spoken to by TLS in front of the client's first option."""

import json
import shutil
import socket
import ssl
import subprocess
import sys
import threading
from pathlib import Path

from messages import (ABORT, ACK, CLIENT, SERVER, STARTTLS, ack, answer, client_flags, entered, greeting, longest_runs, option, read,
                      simple, write)
from record.recorded_ends import GOOD, MIB, Ends, Server, all_of, bytes_of, ended, player, run_parts, runs_of
from recorder.tls import has_keys

YES = "yes requests 2 answered 2 improper 0"
COUNTS = "connections 1: compared 1, not compared 0, empty 0, not judged 0"
ASKS = option(STARTTLS)[1]
KEPT = "nbdcheck-record: kept {0}/session.1.cap\n"


NEW_KEY = ("-newkey", "ec", "-pkeyopt", "ec_paramgen_curve:P-256", "-nodes")


def openssl(*words):
    subprocess.run(["openssl", *words], check=True, stdout=subprocess.DEVNULL, stderr=subprocess.DEVNULL, timeout=60)


def signed(folder, name, names, authority="ca"):
    """A certificate for these names, signed by an authority of the same folder, and its key."""
    key, request, certificate, more = (f"{folder}/{name}-{kind}.pem" for kind in ("key", "request", "cert", "names"))
    openssl("req", *NEW_KEY, "-keyout", key, "-out", request, "-subj", f"/CN={name}")
    Path(more).write_text(f"subjectAltName={names}\n")
    openssl("x509", "-req", "-in", request, "-CA", f"{folder}/{authority}-cert.pem", "-CAkey", f"{folder}/{authority}-key.pem",
            "-set_serial", "7", "-days", "2", "-extfile", more, "-out", certificate)


def certificates(folder):
    """A folder with an authority, a server's certificate and a client's."""
    Path(folder).mkdir()
    openssl("req", "-x509", *NEW_KEY, "-keyout", f"{folder}/ca-key.pem", "-out", f"{folder}/ca-cert.pem", "-days", "2",
            "-subj", "/CN=authority")
    signed(folder, "server", "DNS:localhost,IP:127.0.0.1")
    signed(folder, "client", "DNS:client")
    return folder


class SecureServer(Server):
    """A server that speaks TLS behind STARTTLS, and then plays its part of a session behind the client's flags."""

    def __init__(self, records, folder, name="server", newest=ssl.TLSVersion.TLSv1_3, wants_client=False, answers=(ack(STARTTLS),)):
        self.context = ssl.SSLContext(ssl.PROTOCOL_TLS_SERVER)
        self.context.load_cert_chain(f"{folder}/{name}-cert.pem", f"{folder}/{name}-key.pem")
        self.context.maximum_version = newest
        if wants_client:
            self.context.verify_mode = ssl.CERT_REQUIRED
            self.context.load_verify_locations(f"{folder}/ca-cert.pem")
        # What it answers to STARTTLS, all that it read in front of TLS, and how the client left.
        self.answers, self.plain, self.last = b"".join(data for _, data in answers), b"", None
        super().__init__(records)
        self.address = f"localhost:{self.listener.getsockname()[1]}"

    def _play(self, end):
        end.sendall(self.records[0][1])
        self.plain = all_of(end, 4 + len(ASKS))
        end.sendall(self.answers)
        if self.answers != ack(STARTTLS)[1]:
            self.plain += all_of(end, 16 if self.answers else 0)
            return
        with self.context.wrap_socket(end, server_side=True) as secure:
            for side, data in self.records[2:]:
                if side == SERVER:
                    secure.sendall(data)
                elif all_of(secure, len(data)) != data:
                    return
            self.last = secure.recv(1)


def ran(folder, server, records, *asked, keep="k"):
    """A run of the tool with a client that plays this session, over TLS to a server."""
    return ended("--to", server.address, "--start", "zero", "--tls-certificates", f"{folder}/tls", "--keep", f"{folder}/{keep}", *asked,
                 "--", *player(folder, records))


def judged(tally, folder):
    """The plain session is captured and judged; the server has the client's own flags, and the end by TLS too."""
    certificates(f"{folder}/tls")
    for number, (version, wants) in enumerate((("TLSv1.3", False), ("TLSv1.2", False), ("TLSv1.3", True))):
        newest = ssl.TLSVersion[version.replace(".", "_")]
        with SecureServer(GOOD, f"{folder}/tls", newest=newest, wants_client=wants) as server:
            found = ran(folder, server, GOOD, keep=number)
        tally.want(f"{version}, {wants}", found, (0, f"{YES}\n{version} to the server, and none to the client\n{COUNTS}\n",
                                                 KEPT.format(f"{folder}/{number}")))
        tally.want(f"{version}, {wants}: captured", runs_of(f"{folder}/{number}/session.1.cap"), longest_runs(GOOD))
        tally.want(f"{version}, {wants}: the server's", (server.plain, server.last), (GOOD[1][1] + ASKS, b""))
    flags = [greeting(1), client_flags(1), option(1), entered(padded=True), *GOOD[-4:]]
    with SecureServer(flags, f"{folder}/tls") as server:
        found = ran(folder, server, flags, "--format", "json")
    tally.want("other flags", (found[0], json.loads(found[1])["tls"], server.plain), (0, "TLSv1.3", flags[1][1] + ASKS))
    wrong = GOOD[:-1] + [simple(2, b"\0aB\0")]
    with SecureServer(wrong, f"{folder}/tls") as server:
        found = ran(folder, server, wrong)
    tally.want("a wrong byte", (found[0], found[1].splitlines()[0]), (1, "no content request 2 offset 2 in any order"))


def by_key(tally, folder):
    """A name and a key that both sides know, and another key, where this python has it."""
    if not has_keys():
        print("skipped: TLS by a key, which python has from 3.13 on", flush=True)
        return
    certificates(f"{folder}/tls")
    key = bytes(range(32))
    for name, said, wanted in (("a key", key, [YES, "TLSv1.2 to the server, and none to the client"]),
                               ("another key", key[::-1], ["no answer: no TLS with the server: "])):
        Path(folder, "keys").write_text(f"alice:{said.hex()}\n")
        with SecureServer(GOOD, f"{folder}/tls", newest=ssl.TLSVersion.TLSv1_2) as server:
            server.context.set_ciphers("PSK")
            server.context.set_psk_server_callback({"alice": key}.get)
            found = ended("--to", server.address, "--start", "zero", "--tls-psk", f"{folder}/keys", "--", *player(folder, GOOD))
        begins = [line[: len(part)] for line, part in zip(found[1].splitlines(), wanted)]
        tally.want(name, (found[0], begins), (0 if said is key else 3, wanted))


def large(tally, folder):
    """Large messages of both sides, cut as they come, and a client that sends its flags and its first option at once."""
    certificates(f"{folder}/tls")
    size = 3 * MIB
    data = bytes((at * 7 + at // 251) % 256 for at in range(size))
    records = [greeting(), client_flags(), option(1), entered(size=size), write(1, 0, data), simple(1), read(2, 0, size), simple(2, data)]
    with SecureServer(records, f"{folder}/tls") as server:
        found = ran(folder, server, records)
    tally.want("large messages", (found[0], found[1].splitlines()[0]), (0, YES))
    tally.want("large messages: captured", runs_of(f"{folder}/k/session.1.cap") == longest_runs(records), True)
    at_once = [GOOD[0], (CLIENT, GOOD[1][1] + GOOD[2][1]), *GOOD[3:]]
    with SecureServer(GOOD, f"{folder}/tls") as server:
        found = ran(folder, server, at_once)
    tally.want("flags and an option at once", (found[0], found[1].splitlines()[0], server.plain), (0, YES, GOOD[1][1] + ASKS))


def halves(tally, folder):
    """Each side may end its direction while the other goes on."""
    certificates(f"{folder}/tls")
    context = ssl.SSLContext(ssl.PROTOCOL_TLS_SERVER)
    context.load_cert_chain(f"{folder}/tls/server-cert.pem", f"{folder}/tls/server-key.pem")
    # A unix socket has no name that a certificate could have.
    with Ends(folder, "half", "--tls-certificates", f"{folder}/tls") as ends:
        client, raw = ends.both()
        ends.play(client, raw, GOOD[:2])
        tally.want("STARTTLS", all_of(raw, 16), ASKS)
        raw.sendall(ack(STARTTLS)[1])
        server = context.wrap_socket(raw, server_side=True, suppress_ragged_eofs=False)
        client.sendall(b"IHAVEOPT")
        client.shutdown(socket.SHUT_WR)
        tally.want("the client ends", (all_of(server, 8), server.recv(1)), (b"IHAVEOPT", b""))
        many = bytes(MIB)
        sender = threading.Thread(target=lambda: (server.sendall(many), server.close()))
        sender.start()
        tally.want("the server goes on", len(all_of(client, MIB + 1)), MIB)
        sender.join()
        client.close()
        status, out, err = ends.interrupt()
        tally.want("halves", (status, err, bytes_of(ends.capture(), SERVER) == GOOD[0][1] + many), (0, "", True))
        tally.holds("halves: the report", "TLSv1.3 to the server, and none to the client" in out.splitlines(), out)


def failures(tally, folder):
    """A server that refuses, or that is not the one that is wanted: no answer, and the client's end is closed."""
    certificates(f"{folder}/tls")
    certificates(f"{folder}/other")
    signed(f"{folder}/tls", "elsewhere", "DNS:elsewhere")
    policy = answer(STARTTLS, 0x80000002, b"not here")
    alone = Path(folder, "tls2")
    alone.mkdir()
    shutil.copy(f"{folder}/tls/ca-cert.pem", alone)
    for name, records, place, how, reason in (
        ("ERR_POLICY", GOOD, "tls", {"answers": (policy,)}, "the server refuses NBD_OPT_STARTTLS: NBD_REP_ERR_POLICY"),
        ("an odd answer", GOOD, "tls", {"answers": (answer(7, ACK),)}, "the server's answer to NBD_OPT_STARTTLS is none"),
        ("an end", GOOD, "tls", {"answers": ()}, "the server closed the connection at NBD_OPT_STARTTLS"),
        ("another authority", GOOD, "other", {}, "no TLS with the server: unable to get local issuer certificate"),
        ("another name", GOOD, "tls", {"name": "elsewhere"},
         "no TLS with the server: Hostname mismatch, certificate is not valid for 'localhost'."),
        ("a newstyle that is not fixed", [greeting(0)], "tls", {}, "the server's newstyle is not fixed"),
        ("no NBD", [(SERVER, b"220 ready to serve")], "tls", {}, "the server's greeting is none of newstyle"),
    ):
        with SecureServer(records, f"{folder}/{place}", **how) as server:
            status, out, err = ran(folder, server, GOOD)
        tally.want(f"{name}: status", (status, out.splitlines()[0]), (3, f"no answer: {reason}"))
        tally.holds(f"{name}: told", f"nbdcheck-record: connection 1: {reason}" in err.splitlines(), err)
        if name == "ERR_POLICY":
            tally.want("ERR_POLICY: the session ends", server.plain, GOOD[1][1] + ASKS + option(ABORT)[1])
    with SecureServer([greeting(), client_flags(0)], f"{folder}/tls") as server:
        found = ran(folder, server, [greeting(), client_flags(0), GOOD[2]])
    tally.want("flags that do not say fixed", found[1].splitlines()[0], "no answer: the client's flags do not say fixed newstyle")
    with SecureServer(GOOD, f"{folder}/tls", wants_client=True) as server:
        found = ended("--to", server.address, "--tls-certificates", alone, "--", *player(folder, GOOD))
    # The server may reset the connection before what it says of it is read.
    told = ("connection 1: TLS with the server failed: TLSV13 ALERT CERTIFICATE REQUIRED", "connection 1: the server: ")
    tally.holds("a client's certificate is missing", found[0] in (1, 3, 10) and any(line in found[2] for line in told), found)


def mistakes(tally, folder):
    """What the words name is told before a client is run."""
    certificates(f"{folder}/tls")
    Path(folder, "broken").mkdir()
    Path(folder, "broken/ca-cert.pem").write_text("no certificate")
    here = ["--to", "1", "--", "touch", f"{folder}/came", "{uri}"]
    status, out, err = ended("--tls-certificates", f"{folder}/none", *here)
    tally.want("no folder", (status, out, err),
               (3, "", f"nbdcheck-record: --tls-certificates {folder}/none/ca-cert.pem: No such file or directory\n"))
    status, out, err = ended("--tls-certificates", f"{folder}/broken", *here)
    tally.holds("no certificate", status == 3 and err.startswith(f"nbdcheck-record: --tls-certificates {folder}/broken/ca-cert.pem: "), err)
    Path(folder, "tls/client-key.pem").unlink()
    status, out, err = ended("--tls-certificates", f"{folder}/tls", *here)
    tally.holds("no key", status == 3 and err.startswith(f"nbdcheck-record: --tls-certificates {folder}/tls/client-cert.pem: "), err)
    tally.want("no client was run", Path(folder, "came").exists(), False)
    status, out, err = ended("--tls-certificates", "d", "--tls-psk", "f", *here)
    tally.want("both", (status, "not allowed with" in err), (2, True))
    Path(folder, "keys").write_text("user\n")
    status, out, err = ended("--tls-psk", f"{folder}/keys", *here)
    if has_keys():
        line = f"nbdcheck-record: --tls-psk {folder}/keys: its first line is not NAME:KEY, the key in hexadecimal\n"
        tally.want("--tls-psk, no key", (status, err), (3, line))
    else:
        line = f"--tls-psk: python 3.13 or later is needed for it, and this is {sys.version.split()[0]}"
        tally.want("--tls-psk", (status, out, line in err.splitlines()[-1]), (2, "", True))


PARTS = (judged, by_key, large, halves, failures, mistakes)


def run(tally):
    if shutil.which("openssl") is None:
        print("skipped: TLS, since openssl is not installed", flush=True)
        return
    run_parts(tally, PARTS)
