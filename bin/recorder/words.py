"""The command line of nbdcheck-record."""

import argparse
import platform
from collections import namedtuple

from .addresses import Malformed, parse
from .refusals import OPTIONS
from .tls import has_keys

# The profiles that nbdcheck has; it is asked for the second where none is named: most clients ask for metadata contexts.
PROFILES = ("base", "wide")
FORMATS = ("text", "json", "junit")

USAGE = """nbdcheck-record --to ADDRESS [OPTIONS] -- CLIENT [WORD ...]
       nbdcheck-record --to ADDRESS --listen ADDRESS [OPTIONS]"""
PURPOSE = """\
Records the sessions of an NBD client with an NBD server, and asks nbdcheck whether both kept the protocol and whether
every read returned the right bytes. It stands between the two: it runs CLIENT, whose words name it by {uri}, {port} or
{socket}, relays each connection to the server and writes down what passes, before it hands it on."""
REST = """\
ADDRESS is a port of this machine, HOST:PORT, or the path of a unix socket, which has a / in it. Without --listen
nbdcheck-record chooses a free port of 127.0.0.1, or where the server has a unix socket, one of its own.

Of a connection nbdcheck looks for an order of service that explains it; with --arrival it is the order in which the
requests came, with --order the one of a file. Connections that come one after another are judged each from what the
ones before left, and the line says so. Of those that overlap in time contents are compared where no other one changed
what this one touched; else only the protocol is judged, and the line says so, and which two requests meet. Captures
without a yes are kept, and their paths told on standard error.

Without CLIENT it records until it is interrupted, to OUT.1.cap, OUT.2.cap and so on, and answers where --start,
--arrival or --order asks for it.

Behind a session that is not refused nbdcheck lint tells which rules of proto.md it breaks; a side that was seen to close
before it may breaks one too.

The report has a line for each connection where all is well, and ends with a line that counts connections. With --format
json it has an object for each connection, with --format junit a test case.

Examples:
  nbdcheck-record --to 127.0.0.1:10809 --start zero -- nbdcopy --synchronous --no-extents '{uri}' null:
  nbdcheck-record --to 10809 --start zero --strict --format junit --report nbd.xml -- ./my-test '{uri}'

Exit status, of several the first in the order 1, 2, 4, 3, 5, 6, 7, 10:
  0   each answer is yes, and the client ended with 0
  1   a no: the lines say where and why
  2   the command line is malformed
  3   no answer: an address or a file failed, not a byte passed, or no connection came, though no client failed
  4   no answer: out of memory
  5   the search for an order gave up, and nothing is proved
  6   not judged: nobody broke a rule, and nbdcheck does not follow the session
  7   --strict refuses a yes: the lines say what
  10  the client failed or could not be run, and each answer is yes, or no connection came
  128 and the signal's number: interrupted; without CLIENT an interrupt is the end, and not told so"""

# What the words name; `client` is None where there is none.
Words = namedtuple("Words", "to listen client start arrival order apart profile lint strict format report refused "
                   "certificates psk keep out asks")


def make_parser():
    parser = argparse.ArgumentParser(prog="nbdcheck-record", usage=USAGE, description=PURPOSE, epilog=REST, allow_abbrev=False,
                                     formatter_class=argparse.RawDescriptionHelpFormatter)
    parser.add_argument("--to", metavar="ADDRESS", required=True, help="the server")
    parser.add_argument("--listen", metavar="ADDRESS", help="where clients connect")
    parser.add_argument("--start", metavar="START",
                        help="what the export held at first: unknown, zero, image:PATH or contents:PATH (unknown)")
    judged = parser.add_mutually_exclusive_group()
    judged.add_argument("--arrival", action="store_true", help="the server takes one request after the other")
    judged.add_argument("--order", metavar="FILE", help="the order of service, as the server logged it")
    parser.add_argument("--apart", action="store_true",
                        help="judges connections that come one after another as those that overlap, from START")
    parser.add_argument("--profile", metavar="NAME", default="wide", help="handed on to nbdcheck: base or wide (wide)")
    parser.add_argument("--no-lint", action="store_true", help="does not ask nbdcheck lint")
    parser.add_argument("--strict", action="store_true", help="refuses a yes with improper requests, requests without a reply, "
                        "broken musts or contents not compared, and a connection without a byte")
    parser.add_argument("--format", metavar="FORMAT", default="text", help="of the report: text, json or junit (text)")
    parser.add_argument("--report", metavar="PATH", help="writes the report to this file, and its text to standard output")
    parser.add_argument("--refuse", metavar="OPTIONS", default="", help="answers these options in the server's place, by "
                        "ERR_UNSUP: " + ", ".join(OPTIONS))
    tls = parser.add_mutually_exclusive_group()
    tls.add_argument("--tls-certificates", metavar="DIR", help="speaks TLS to the server, and none to the client: ca-cert.pem of this "
                     "folder verifies it, client-cert.pem and client-key.pem are sent where they are there")
    tls.add_argument("--tls-psk", metavar="FILE", help="speaks TLS to the server by the name and the key of this file (python 3.13)")
    parser.add_argument("--keep", metavar="DIR", help="keeps each capture, as DIR/session.1.cap and so on, and "
                        "what its connection left as DIR/session.1.con")
    parser.add_argument("--out", metavar="OUT", help="without CLIENT: the captures' names (session)")
    return parser


def split(words):
    """The words before the first `--`, and those behind it, or None."""
    if "--" not in words:
        return words, None
    at = words.index("--")
    return words[:at], words[at + 1 :]


def names(client, name):
    return any(name in word for word in client)


def check_client(client, listen):
    """Refuses words of the client that cannot name the address where it has to connect."""
    if not client or not client[0]:
        raise Malformed("no client behind --")
    named = [name for name in ("{uri}", "{port}", "{socket}") if names(client, name)]
    if listen is None and not named:
        raise Malformed("the client's words name neither {uri}, {port} nor {socket}, and --listen is missing")
    if "{port}" in named and "{socket}" in named:
        raise Malformed("the client's words name {port} and {socket}, of which there is only one")
    if listen is not None and "{port}" in named and listen.path is not None:
        raise Malformed("{port} where --listen is a unix socket")
    if listen is not None and "{socket}" in named and listen.path is None:
        raise Malformed("{socket} where --listen is a port")


def refused_of(found):
    """The names of the options to be refused."""
    return found.refuse.split(",") if found.refuse else []


def check_values(found):
    """Refuses values that are none of those that are wanted."""
    start = found.start
    kind, _, path = (start or "unknown").partition(":")
    if start not in (None, "unknown", "zero") and not (kind in ("image", "contents") and path):
        raise Malformed(f"--start {start}: wanted is unknown, zero, image:PATH or contents:PATH")
    if found.profile not in PROFILES:
        raise Malformed(f"--profile {found.profile}: wanted is base or wide")
    for name in refused_of(found):
        if name not in OPTIONS:
            raise Malformed(f"--refuse {name}: wanted are {', '.join(OPTIONS)}")
    if found.format not in FORMATS:
        raise Malformed(f"--format {found.format}: wanted is text, json or junit")
    if found.tls_psk is not None and not has_keys():
        raise Malformed(f"--tls-psk: python 3.13 or later is needed for it, and this is {platform.python_version()}")


def check_others(found, client, asks):
    """Refuses options that do not go together."""
    if client is None and found.listen is None:
        raise Malformed("neither --listen nor a client behind --")
    if client is None and found.keep is not None:
        raise Malformed("--keep is for a client behind --; --out names the captures without one")
    if client is not None and found.out is not None:
        raise Malformed("--out is for a recording without a client; --keep keeps the captures of one")
    if found.strict and not asks:
        raise Malformed("--strict where no answer is asked for, by --start, --arrival or --order")


def read_words(words):
    """What the command line asks for; ends the program where it is malformed, or asks for help."""
    parser = make_parser()
    ours, client = split(words)
    found = parser.parse_args(ours)
    asks = client is not None or found.start is not None or found.arrival or found.order is not None
    try:
        check_values(found)
        check_others(found, client, asks)
        to, listen = parse(found.to), found.listen and parse(found.listen)
        if client is not None:
            check_client(client, listen)
        if to.port == 0:
            raise Malformed("--to: the port 0")
    except Malformed as reason:
        parser.error(str(reason))
    refused = {OPTIONS[name] for name in refused_of(found)}
    return Words(to, listen, client, found.start or "unknown", found.arrival, found.order, found.apart, found.profile,
                 not found.no_lint, found.strict, found.format, found.report, refused, found.tls_certificates, found.tls_psk,
                 found.keep, found.out or "session", asks)
