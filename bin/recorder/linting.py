"""What `nbdcheck lint` tells of a session that is not refused, and what a recorder knows beside it: which side closed first."""

import json
from collections import namedtuple

from .answers import NO, YES
from .endings import NAMES

MUST, SHOULD, HINT = "must", "should", "hint"
# How a capture ends is a hint, since who hung up is not in it.
OF_ENDS = ("ended-without-disconnect", "abort-unanswered", "disc-unanswered")
# Rules on errors that a server answers to options, which say nothing of it where the recorder answered in its place.
OF_REFUSALS = ("baseline-unsupported", "tls-mode")


class Breach(namedtuple("Breach", "level byte message request side rule text section lines more")):
    """A rule that a side broke, with the members that `nbdcheck lint --json` gives it."""

    def line(self):
        """The line that `nbdcheck lint` has for it."""
        more = f" ({self.more} more)" if self.more else ""
        return f'{self.level} at byte {self.byte}: {self.side}: {self.rule}: {self.text} ("{self.section}"){more}'


class Linted(namedtuple("Linted", "status breaches is_asked", defaults=(YES, (), False))):
    """The exit status of `nbdcheck lint`, YES where it told all or was not asked, and what it told: musts and shoulds."""

    def count(self, level):
        return sum(breach.level == level for breach in self.breaches)

    def lines(self):
        """The last line of `nbdcheck lint`, and the breaches behind it; none where there are none."""
        counts = f"lint must {self.count(MUST)} should {self.count(SHOULD)}"
        return [counts, *(breach.line() for breach in self.breaches)] if self.breaches else []

    def as_json(self):
        if not self.is_asked:
            return None
        return {"must": self.count(MUST), "should": self.count(SHOULD), "breaches": [breach._asdict() for breach in self.breaches]}


# Where nothing was asked.
UNASKED = Linted()


def known(breach, breaches, first):
    """The breach as one who saw this side close first knows it: a side that closes breaks a must, unless the other broke one before."""
    is_first = breach.rule in OF_ENDS and breach.side == NAMES.get(first)
    excused = any(each.level == MUST and each.side != breach.side for each in breaches)
    return breach._replace(level=MUST) if is_first and not excused else breach


def read_breaches(text):
    """The objects of `nbdcheck lint --json`, without the last one, which counts them."""
    told = [json.loads(line) for line in text.splitlines()]
    return [Breach(*(each.get(name) for name in Breach._fields)) for each in told if "rule" in each]


def lint(nbdcheck, held):
    """What is told of a connection whose session is not refused."""
    status, text = nbdcheck.lint(held.path, OF_REFUSALS if held.refusals.refused else ())
    if status not in (YES, NO):
        return Linted(status)
    breaches = read_breaches(text)
    breaches = [known(each, breaches, held.ending.first) for each in breaches]
    return Linted(YES, [each for each in breaches if each.level != HINT], True)
