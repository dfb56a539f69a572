"""What the page shows of a session, as data: numbers in lists, so that many requests take little room."""

from itertools import zip_longest

from .faults import FAILED, Fault
from .places import Places
from .refused import refused_messages
from .service import expected, history, moments, read_order
from .session import Session, set_lanes
from .verdict import verdict_of

# The largest whole number that is one in a browser too; a larger one is told as a text.
EXACT = 2**53 - 1


def number(value):
    return value if value is None or value <= EXACT else str(value)


def read_session(nbdcheck, capture, offset):
    """The session of a capture, and the line in words of each message."""
    with open(capture, "rb") as file:
        session, told = Session(Places(file), offset, nbdcheck.is_wide), []
    changed = Fault(FAILED, "the capture changed while it was read")
    for line, words in zip_longest(nbdcheck.lines(), nbdcheck.lines("--names")):
        if line is None or words is None or session.end is not None:
            raise changed
        try:
            session.add(line)
        except (LookupError, ValueError):
            raise changed from None
        told.append(words.decode(errors="backslashreplace"))
    if session.end is None:
        raise changed
    return session, told[:-1]


def differences(numbers):
    """The first number, and then the step to each next one: small numbers in place of large ones."""
    return [value - before for before, value in zip([0, *numbers], numbers)]


def messages_data(session):
    return {
        "sides": "".join(session.sides),
        "firsts": differences(session.firsts),
        "spans": [last - first for first, last in zip(session.firsts, session.lasts)],
        "requests": session.numbers,
    }


def requests_data(requests):
    return {
        "commands": [request.command for request in requests],
        "offsets": [number(request.offset) for request in requests],
        "lengths": [number(request.length) for request in requests],
        "results": "".join(str(request.result) for request in requests),
        "improper": [request.number for request in requests if request.is_improper],
        "lanes": [request.lane for request in requests],
    }


def services_data(entries, requests, end):
    return {
        "requests": [entry.request for entry in entries],
        "offsets": [number(entry.offset) for entry in entries],
        "lengths": [number(entry.length) for entry in entries],
        "at": moments(entries, requests, end),
    }


def guilt_data(session, verdict, entries, end, capture):
    """What is marked in red, and what belongs to it."""
    told = [] if verdict.offset is None else history(entries, session.requests, verdict.offset)
    wrote, place = None, None
    if verdict.kind in ("content", "any"):
        place = session.requests[verdict.requests[0] - 1].place
    if verdict.kind == "content":
        wrote = expected(told, session.requests, verdict.requests[0])
    is_refused = verdict.kind == "place"
    return {
        "kind": verdict.kind,
        "fault": verdict.fault,
        "place": verdict.place if is_refused else place,
        "entry": verdict.entry,
        "requests": verdict.requests,
        "offset": number(verdict.offset),
        "expected": None if wrote is None else entries[wrote].request,
        "wrote": None if wrote is None else wrote + 1,
        "messages": [list(message) for message in refused_messages(session, verdict, capture)] if is_refused else [],
        "bytes": [[request.number, request.byte] for request in session.requests if request.byte is not None],
    }


def breaches_data(breaches):
    """The rules that were not kept: each with the message, from 0, that first shows it."""
    return [{**{name: breach[name] for name in ("level", "side", "rule", "text", "section", "more")},
             "byte": number(breach["byte"]), "message": breach["message"] - 1} for breach in breaches]


def order_of(nbdcheck, verdict, path):
    """The entries of the order that was given or is found, and which of the two it is."""
    if path is not None:
        with open(path, "rb") as file:
            text, source = file.read(), "given"
    elif verdict.kind == "yes":
        text, source = nbdcheck.found_order(), "found"
    else:
        return [], None
    try:
        return read_order(text), source
    except ValueError:
        raise Fault(FAILED, "the order changed while it was read") from None


def facts(nbdcheck, capture, order, names):
    """All that the page shows, and the line of each message. The names are those of the capture, the order and the start."""
    nbdcheck.try_out()
    explained, said = nbdcheck.explain()
    verdict = verdict_of(explained[0])
    session, told = read_session(nbdcheck, capture, verdict.offset)
    end = verdict.place if verdict.kind == "place" else session.places.length
    entries, source = order_of(nbdcheck, verdict, order)
    requests = session.requests
    data = {
        **names,
        "verdict": verdict.line,
        "explained": "".join(f"{each['line']}\n" for each in explained),
        "said": said,
        "bytes": end,
        "unread": session.places.length - end,
        "size": number(session.export.size),
        "source": source,
        "messages": messages_data(session),
        "lanes": set_lanes(requests, end),
        "requests": requests_data(requests),
        "services": services_data(entries, requests, end),
        "guilt": guilt_data(session, verdict, entries, end, capture),
        "breaches": breaches_data(nbdcheck.breaches()),
    }
    return data, told
