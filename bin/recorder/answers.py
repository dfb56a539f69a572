"""What nbdcheck says of captures, and the exit status of all of it."""

import json
import os
import subprocess
import sys
from collections import namedtuple

from .room import ran, reason_of, running

# The exit statuses, the gravest first: a no, words that nbdcheck does not take, out of memory, a file that could not be
# read or written, a search that gave up, a session that is not judged, a yes that --strict refuses, and a client that failed.
NO, MALFORMED, MEMORY, FILES, GAVE_UP, NOT_JUDGED, STRICT, CLIENT_FAILED, YES = 1, 2, 4, 3, 5, 6, 7, 10, 0
GRAVEST = (NO, MALFORMED, MEMORY, FILES, GAVE_UP, NOT_JUDGED, STRICT, CLIENT_FAILED, YES)
# Those of nbdcheck.
ITS_OWN = (YES, NO, MALFORMED, FILES, MEMORY, GAVE_UP)
# More than the last line of `show` has.
LAST = 2**12


def gravest(statuses):
    return min(statuses, key=GRAVEST.index, default=YES)


def find_nbdcheck(folder):
    """The program: the one that NBDCHECK names, the one beside this tool, or the repository's."""
    named = os.environ.get("NBDCHECK")
    beside = os.path.join(folder, "nbdcheck")
    if named:
        return named
    return beside if os.path.isfile(beside) else os.path.join(os.path.dirname(folder), "nbdcheck")


class Answer(namedtuple("Answer", "status verdict facts")):
    """What nbdcheck says of a capture: its status, NOT_JUDGED in place of a no where nobody broke a rule, the object of its verdict,
    which is empty where there is none, and those of the lines behind that."""

    def line(self):
        return self.verdict.get("line", "")

    def more(self):
        """The lines behind the first: of a yes those alone on requests that the client should not have sent."""
        facts = self.facts
        if self.status == YES:
            at = [number for number, fact in enumerate(facts) if fact["fact"] == "improper"]
            facts = facts[at[0] :] if at else []
        return [fact["line"] for fact in facts]

    def is_refused(self):
        """Whether the session broke the protocol, or is not followed."""
        return self.verdict.get("kind") == "session"

    def counts(self):
        """How many requests a yes counts, how many have a reply, and how many the client should not have sent; else None."""
        return tuple(self.verdict[name] for name in ("requests", "answered", "improper")) if self.verdict.get("verdict") == "yes" else None


NO_ANSWER = Answer(YES, {}, [])
# Of a connection that was not recorded as a whole.
NOT_WHOLE = Answer(FILES, {}, [])


def answer_of(status, text):
    verdict, *facts = [json.loads(line) for line in text.splitlines()] or [{}]
    return Answer(NOT_JUDGED if status == NO and not verdict.get("judged", True) else status, verdict, facts)


class Nbdcheck:
    """Runs of nbdcheck with the same words behind the files and the start."""

    def __init__(self, program, profile, tell):
        self.program, self.tell = program, tell
        self.profile_alone = [] if profile is None else ["--profile", profile]
        # With hints: the log of a suite has the reason behind a fault.
        self.profile = [*self.profile_alone, "--hints"]

    def can_run(self):
        """Whether it runs; the repository's is built here, where it is not built yet."""
        try:
            status, _, _ = ran([self.program, "--version"], stdout=subprocess.DEVNULL)
        except OSError as error:
            self.tell(f"cannot run {self.program}: {reason_of(error)}")
            return False
        if status != 0:
            self.tell(f"cannot run {self.program}: it ended with status {status}")
        return status == 0

    def _status(self, returned):
        if returned in ITS_OWN:
            return returned
        self.tell(f"{self.program} ended with status {returned}" if returned > 0 else
                  f"{self.program} was ended by signal {-returned}")
        return FILES

    def _answer(self, returned, text):
        """What a run said; lines that are no objects are no answer, nor is a run that says nothing and does not tell why."""
        status = self._status(returned)
        if not text.strip() and status in (YES, NO, GAVE_UP):
            self.tell(f"{self.program}: it ended with status {status} and said nothing")
            return answer_of(FILES, b"")
        try:
            return answer_of(status, text)
        except ValueError:
            self.tell(f"{self.program}: its lines are no JSON")
            return answer_of(FILES, b"")

    def can_start(self, start):
        """Whether the start, if it is a contents text, has the form of one, as an empty capture shows; nbdcheck tells the fault."""
        if not start.startswith("contents:"):
            return True
        words = [self.program, "check", os.devnull, os.devnull, "--start", start, "--hints"]
        status, _, err = ran(words, stdout=subprocess.DEVNULL, stderr=subprocess.PIPE)
        if self._status(status) not in (FILES, MEMORY):
            return True
        sys.stderr.buffer.write(err)
        return False

    def explain(self, capture, start, order=None):
        """Whether an order explains the session: this one, or some."""
        words = ["explain", capture, *([] if order is None else [order]), "--start", start, *self.profile, "--json"]
        status, out, _ = ran([self.program, *words], stdout=subprocess.PIPE)
        return self._answer(status, out)

    def arrival(self, capture, order):
        """Writes the order in which the requests came to the path `order`: the status, and standard error."""
        with open(order, "wb") as file:
            status, _, err = ran([self.program, "order", capture, "--arrival", *self.profile], stdout=file, stderr=subprocess.PIPE)
        return status, err

    def explain_arrival(self, capture, start, order):
        """Whether that order explains the session."""
        status, err = self.arrival(capture, order)
        if status == NO:
            # A session that is refused has no order; what is wrong with it needs none.
            return self.explain(capture, start)
        sys.stderr.buffer.write(err)
        if status == YES:
            return self.explain(capture, start, order)
        if status == FILES:
            self.tell(f"no order in {order}")
        return self._answer(status, b"")

    def contents(self, capture, order, start, path):
        """Writes to a path what an order leaves, or without one each order: the status, and the line that is no text."""
        words = ["contents", capture, *([] if order is None else [order]), "--start", start, *self.profile_alone]
        with open(path, "wb") as file:
            status, _, _ = ran([self.program, *words], stdout=file)
        with open(path, "rb") as file:
            return self._status(status), file.read(LAST).decode(errors="replace").rstrip("\n") if status == NO else ""

    def protocol(self, capture):
        """The last line of `show`: whether both sides kept the protocol."""
        words = [self.program, "show", "--names", capture, *self.profile, "--json"]
        with running(words, stdout=subprocess.PIPE) as shown:
            last = b""
            while part := shown.stdout.read1(2**16):
                last = (last + part)[-LAST:]
        return self._answer(shown.returncode, last.rstrip(b"\n").rpartition(b"\n")[2])

    def lint(self, capture, allowed):
        """The status of `lint`, and its objects, an object a line; these rules are left out."""
        words = ["lint", capture, "--level", "hint", "--json", *(word for rule in allowed for word in ("--allow", rule))]
        status, out, _ = ran([self.program, *words, *self.profile_alone], stdout=subprocess.PIPE)
        return self._status(status), out
