"""What is said of each connection: whether an order explains it, what was compared, which rules it breaks, and what --strict refuses."""

from collections import namedtuple

from .answers import FILES, GAVE_UP, NO, NO_ANSWER, NOT_JUDGED, NOT_WHOLE, STRICT, YES, gravest
from .apart import BESIDE_NONE
from .chain import LOST, Chain, is_wrong
from .linting import MUST, UNASKED as NO_LINT, lint

EMPTY_LINE = "empty: no byte passed"
# What became of a connection, as the last line counts it: its contents were compared, or the protocol alone was judged; not a byte
# passed; nobody broke a rule, and nbdcheck does not follow the session; or there is no answer, or none was asked for.
COMPARED, UNCOMPARED, EMPTY, OUTSIDE, NONE, UNASKED = "compared", "not compared", "empty", "not judged", "no answer", "not asked"
COUNTED = (COMPARED, UNCOMPARED, EMPTY, OUTSIDE)


class Judged(namedtuple("Judged", "held kind status line more doubts apart linted counts start",
                        defaults=(BESIDE_NONE, NO_LINT, None, None))):
    """A connection, what became of it, its exit status, nbdcheck's line with the lines behind it, what --strict refuses,
    also unasked, what is said of it beside the other connections, which rules it breaks, what a yes counts, and what it was
    judged from where contents were compared."""

    def is_alone(self):
        """Whether it was compared, though other connections changed what it does not touch."""
        return self.kind == COMPARED and self.apart.is_alone


def doubts_of(held, answer, kind, apart=BESIDE_NONE, linted=NO_LINT):
    """What a suite may not want to pass, where there is no no."""
    requests, answered, improper = answer.counts() or (0, 0, 0)
    left = held.ending.client_left()
    found = (
        (kind == EMPTY, EMPTY_LINE),
        (kind == UNCOMPARED, apart.line()),
        (improper, f"improper requests {improper}"),
        (requests > answered, f"requests without a reply {requests - answered}"),
        (linted.count(MUST), f"broken musts {linted.count(MUST)}"),
        (left, f"the client left in the middle of {left}"),
    )
    return [text for holds, text in found if holds]


def kind_of(answer, compares):
    """What became of a connection that nbdcheck was asked about."""
    if answer.status == NOT_JUDGED:
        return OUTSIDE
    if answer.status not in (YES, NO):
        return NONE
    return COMPARED if compares and not answer.is_refused() else UNCOMPARED


class Judge:
    """Answers for the connections of a recording."""

    def __init__(self, nbdcheck, recording):
        self.nbdcheck, self.recording, self.words = nbdcheck, recording, recording.words
        self.chain = Chain(nbdcheck, recording)

    def _ask(self, held, compares, start):
        """Whether the order that is given, that of arrival or some order explains the session, or whether it kept the protocol."""
        if not compares:
            return self.nbdcheck.protocol(held.path)
        has_others = len(self.recording.recorded()) > 1
        order = None if has_others and held.requests.is_none() else self.words.order
        if order is None and self.words.arrival:
            return self.nbdcheck.explain_arrival(held.path, start, self.recording.room.path("order"))
        return self.nbdcheck.explain(held.path, start, order)

    def _judged_from(self, held, compares):
        """What is said of a connection, and what it was judged from: an export of another size than before is another."""
        link = self.chain.link(held)
        answer = self._ask(held, compares, link.start.word)
        if link.start.left_by is None or answer.verdict.get("kind") != "image":
            return answer, link.start
        link.is_other = True
        return self._ask(held, compares, LOST.word), LOST

    def _linted(self, held, answer):
        """The rules that a session breaks which is not refused."""
        is_whole = answer.status in (YES, NO, GAVE_UP) and not answer.is_refused()
        return lint(self.nbdcheck, held) if self.words.lint and is_whole else NO_LINT

    def _answered(self, held):
        apart = self.chain.link(held).connections.apart(held)
        answer, start = self._judged_from(held, apart.reason is None)
        kind = kind_of(answer, apart.reason is None)
        linted = self._linted(held, answer)
        doubts = doubts_of(held, answer, kind, apart, linted) if answer.status == YES else []
        status = gravest([STRICT if doubts and self.words.strict else answer.status, linted.status])
        more = answer.more() if apart.reason is None else [apart.line()]
        more += start.assumed() if apart.reason is None and is_wrong(answer) else []
        line = answer.line() or f"no answer: status {answer.status}"
        self.chain.note(held, answer, status == YES)
        start = start if apart.reason is None else None
        return Judged(held, kind, status, line, more, doubts, apart, linted, answer.counts(), start)

    def one(self, held):
        """What is said of a connection."""
        if not self.words.asks:
            return Judged(held, UNASKED, YES if held.fault is None else FILES, "", [], [])
        if held.fault is not None:
            self.chain.note(held, NOT_WHOLE if held.has_begun else NO_ANSWER, True)
            return Judged(held, NONE, FILES, f"no answer: {held.fault}", [], [])
        if not held.is_empty():
            return self._answered(held)
        self.chain.note(held, NO_ANSWER, True)
        status = FILES if self.recording.is_empty() else STRICT if self.words.strict else YES
        return Judged(held, EMPTY, status, EMPTY_LINE, [], doubts_of(held, NO_ANSWER, EMPTY))


def counted(judged):
    """The last line: how many connections there were, and what became of them."""
    kinds = [each.kind for each in judged]
    counts = [f"{kind} {kinds.count(kind)}" for kind in COUNTED]
    if NONE in kinds:
        counts.append(f"{NONE} {kinds.count(NONE)}")
    return f"connections {len(judged)}: {', '.join(counts)}"
