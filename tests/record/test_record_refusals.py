"""Options that nbdcheck-record refuses in the server's place: the server does not see them, and the capture is what the client saw."""

import json

from messages import EXTENDED_HEADERS, LIST, STARTTLS, STRUCTURED_REPLY, answer, longest_runs, option
from record.recorded_ends import GOOD, Ends, Server, ended, player, run_parts, runs_of

UNSUPPORTED = 0x80000001
YES = "yes requests 2 answered 2 improper 0"
COUNTS = "connections 1: compared 1, not compared 0, empty 0, not judged 0"


def refused(number, data=b""):
    """An option, and the answer that it is not supported."""
    return [option(number, data), answer(number, UNSUPPORTED)]


def seen(*options):
    """GOOD as a client sees it that asks for these options first."""
    return GOOD[:2] + [record for each in options for record in each] + GOOD[2:]


def judged(tally, folder):
    """A session that is judged, since the option was refused."""
    for number, (names, records, told) in enumerate((
        ("starttls", seen(refused(STARTTLS)), "starttls"),
        ("starttls,extended-headers", seen(refused(EXTENDED_HEADERS), refused(STARTTLS)), "extended-headers, starttls"),
        ("list", seen(refused(LIST, b"data that is longer")), "list"),
        ("structured-reply", seen(refused(STRUCTURED_REPLY)), "structured-reply"),
    )):
        with Server(GOOD) as server:
            keep = f"{folder}/{number}"
            found = ended("--to", server.address, "--start", "zero", "--refuse", names, "--keep", keep, "--", *player(folder, records))
        tally.want(f"--refuse {names}", found, (0, f"{YES}\nrefused in the server's place: {told}\n{COUNTS}\n",
                                               f"nbdcheck-record: kept {keep}/session.1.cap\n"))
        tally.want(f"--refuse {names}: the client's view", runs_of(f"{keep}/session.1.cap"), longest_runs(records))
    with Server(GOOD) as server:
        found = ended("--to", server.address, "--start", "zero", "--refuse", "starttls", "--format", "json", "--",
                      *player(folder, seen(refused(STARTTLS))))
    tally.want("--refuse in JSON", json.loads(found[1])["refused"], ["starttls"])
    with Server(GOOD) as server:
        found = ended("--to", server.address, "--start", "zero", "--refuse", "starttls", "--", *player(folder, GOOD))
    tally.want("--refuse of what is not asked", found, (0, f"{YES}\n{COUNTS}\n", ""))


def passed(tally, folder):
    """However the client's bytes are cut, all pass but those of the option."""
    asks = [option(STARTTLS), option(EXTENDED_HEADERS), option(STRUCTURED_REPLY)]
    sent = GOOD[1][1] + b"".join(data for _, data in asks) + b"IHAVEOPT\0"
    wanted = GOOD[1][1] + asks[2][1] + b"IHAVEOPT\0"
    told = answer(STARTTLS, UNSUPPORTED)[1] + answer(EXTENDED_HEADERS, UNSUPPORTED)[1]
    for size in (1, 7, 1000):
        with Ends(folder, f"cut{size}", "--refuse", "starttls,extended-headers") as ends:
            client, server = ends.both()
            ends.play(client, server, GOOD[:1])
            for at in range(0, len(sent), size):
                client.sendall(sent[at : at + size])
            client.shutdown(1)
            tally.want(f"pieces of {size}: the server's", everything(server), wanted)
            server.close()
            tally.want(f"pieces of {size}: the client's", everything(client), told)
            client.close()
            status, out, err = ends.interrupt()
        tally.want(f"pieces of {size}", (status, out.splitlines()[1], err),
                   (0, "refused in the server's place: starttls, extended-headers", ""))


def everything(end):
    data = b""
    while part := end.recv(4096):
        data += part
    return data


def too_early(tally, folder):
    """An option to be refused behind one that has no answer yet: the connection ends, and is no answer."""
    with Ends(folder, "early", "--refuse", "starttls") as ends:
        client, server = ends.both()
        ends.play(client, server, GOOD[:2])
        client.sendall(option(STRUCTURED_REPLY)[1] + option(STARTTLS)[1])
        tally.want("too early: the end comes", client.recv(1), b"")
        server.close(), client.close()
        status, _, err = ends.interrupt()
    tally.want("too early", (status, err), (3, "nbdcheck-record: connection 1: an option to be refused came before the one before it had "
                                            "its answer\n"))


def words(tally, _):
    for asked in ("tls", "starttls,", "STARTTLS"):
        status, out, err = ended("--to", "1", "--refuse", asked, "--", "true", "{uri}")
        name = asked.removeprefix("starttls,")
        tally.want(f"--refuse {asked}", (status, out, f"--refuse {name}: wanted are list, starttls, info, go, " in err), (2, "", True))


PARTS = (judged, passed, too_early, words)


def run(tally):
    run_parts(tally, PARTS)
