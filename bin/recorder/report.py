"""The report: what is said of all connections, as text, as JSON or as JUnit's XML."""

import json
import os
import re
import xml.etree.ElementTree as xml

from .answers import NO, NOT_JUDGED, STRICT, YES
from .captures import CLIENT, SERVER
from .judging import COMPARED, EMPTY, UNASKED, UNCOMPARED
from .room import reason_of

# What XML cannot say.
UNSAYABLE = re.compile("[^\t\n\r -\ud7ff\ue000-\ufffd\U00010000-\U0010ffff]")


def bytes_of(held):
    """How many bytes of each side were written down."""
    return held.counts[CLIENT], held.counts[SERVER]


def requests_of(held):
    """How many requests came, or None where that is not known."""
    return held.requests.count if held.requests.is_sure else None


def listed(held):
    """What was recorded of a connection."""
    requests, (client, server) = requests_of(held), bytes_of(held)
    told = "unknown" if requests is None else requests
    return f"{held.path}: requests {told}, bytes {client} of the client, {server} of the server"


def ending_lines(held):
    """How a connection ended, where that was not as usual."""
    return [] if held.fault is not None or not held.has_begun or held.ending.is_usual() else [held.ending.line()]


def refused_lines(held):
    """The options that were refused in the server's place."""
    return [f"refused in the server's place: {', '.join(held.refusals.names())}"] if held.refusals.refused else []


def tls_lines(held):
    """That TLS was between."""
    return [f"{held.tls} to the server, and none to the client"] if held.tls is not None else []


def strict_lines(judged):
    return [f"strict: {doubt}" for doubt in judged.doubts] if judged.status == STRICT else []


def said_of(judged, is_one):
    """The lines of a connection: one where all is well."""
    held, line, more = judged.held, judged.line, judged.more
    if judged.kind == UNASKED:
        return [listed(held), *refused_lines(held), *tls_lines(held), *ending_lines(held)] if held.path is not None else []
    if judged.apart.reason is not None:
        line, more = f"{line}, {judged.apart.line()}", []
    elif judged.is_alone():
        line = f"{line}, compared alone"
    from_what = "" if judged.start is None else judged.start.line()
    first = line if is_one else f"connection {held.number}{from_what}: {line}"
    return [first, *more, *judged.linted.lines(), *strict_lines(judged), *refused_lines(held), *tls_lines(held), *ending_lines(held)]


def as_json(judged, kept, name):
    """A connection as an object on one line; the capture's path is null where it was not kept."""
    held = judged.held
    client, server = bytes_of(held)
    _, answered, improper = judged.counts or (None, None, None)
    is_kept = held.path is not None and held in kept
    return json.dumps({
        "name": name, "connection": held.number, "capture": held.path if is_kept else None, "verdict": judged.line or None,
        "result": judged.kind, "status": judged.status, "judged": judged.kind in (COMPARED, UNCOMPARED),
        "from": None if judged.start is None else judged.start.left_by,
        "compared": judged.kind == COMPARED, "alone": judged.is_alone(), "meeting": judged.apart.meeting_as_json(),
        "requests": requests_of(held), "answered": answered, "improper": improper,
        "client_bytes": client, "server_bytes": server, "seconds": round(held.seconds, 3),
        "ended": held.ending.as_json(), "strict": judged.doubts, "text": judged.more, "fault": held.fault,
        "refused": held.refusals.names(), "tls": held.tls, "lint": judged.linted.as_json(),
    })


def sayable(text):
    return UNSAYABLE.sub("?", text)


def outcome(judged):
    """The element of a test case that did not pass, or None."""
    if judged.status == NO:
        return "failure", judged.line
    if judged.status == STRICT:
        return "failure", f"strict: {'; '.join(judged.doubts)}"
    if judged.status == NOT_JUDGED or judged.status == YES and judged.kind in (EMPTY, UNASKED):
        return "skipped", judged.line or "not asked"
    return None if judged.status == YES else ("error", judged.line or judged.held.fault)


def add_case(suite, name, seconds, found, lines):
    """A test case of a suite, with what is said of it."""
    case = xml.SubElement(suite, "testcase", classname=suite.get("name"), name=name, time=f"{seconds:.3f}")
    if found is not None:
        xml.SubElement(case, found[0], message=sayable(found[1]), type=found[0]).text = sayable("\n".join(lines))
    elif lines:
        xml.SubElement(case, "system-out").text = sayable("\n".join(lines))
    return found and found[0]


def as_junit(judged, kept, troubles, name):
    """A suite with a case for each connection, and one for each trouble of the recording and of the client."""
    suite = xml.Element("testsuite", name=sayable(name))
    found = []
    for each in judged:
        lines = said_of(each, True)
        if each.held in kept:
            lines.append(f"kept {each.held.path}")
        found.append(add_case(suite, f"connection {each.held.number}", each.held.seconds, outcome(each), lines))
    found += [add_case(suite, who, 0, ("error", line), [line]) for who, line, _ in troubles]
    for kind, plural in (("failure", "failures"), ("error", "errors"), ("skipped", "skipped")):
        suite.set(plural, str(found.count(kind)))
    suite.set("tests", str(len(found)))
    suite.set("time", f"{sum(each.held.seconds for each in judged):.3f}")
    xml.indent(suite)
    return f'<?xml version="1.0" encoding="UTF-8"?>\n{xml.tostring(suite, encoding="unicode")}\n'


class Report:
    """The report of a recording: text goes to standard output as it comes, the others at the end, or to a file."""

    def __init__(self, words, tell):
        self.path, self.format, self.tell = words.report, words.format, tell
        self.lines = []

    def name(self):
        """What a suite calls the recording: the name of the report's file."""
        return os.path.splitext(os.path.basename(self.path))[0] if self.path else "nbdcheck-record"

    def say(self, *lines):
        """Lines of the text."""
        self.lines += lines
        if lines and (self.format == "text" or self.path is not None):
            print(*lines, sep="\n", flush=True)

    def add(self, judged, is_one):
        self.say(*said_of(judged, is_one))

    def _whole(self, judged, kept, troubles):
        if self.format == "json":
            return "".join(f"{as_json(each, kept, self.name())}\n" for each in judged)
        if self.format == "junit":
            return as_junit(judged, kept, troubles, self.name())
        return "".join(f"{line}\n" for line in self.lines)

    def end(self, judged, kept, troubles):
        """Writes what is not written yet; whether that could be done. What a file had before is gone where it could not."""
        if self.path is None:
            if self.format != "text":
                print(self._whole(judged, kept, troubles), end="", flush=True)
            return True
        try:
            with open(self.path, "w", encoding="utf-8", errors="replace") as file:
                file.write(self._whole(judged, kept, troubles))
        except OSError as error:
            self.tell(f"cannot write {self.path}: {reason_of(error)}")
            return False
        return True
