"""Connections one after another: each is judged from what the ones before left, as `nbdcheck contents` has it."""

import os
from collections import namedtuple

from .answers import GAVE_UP, NO, YES
from .apart import Connections
from .room import reason_of, remove

CAPTURE, TEXT, PART = ".cap", ".con", ".part"
# What `nbdcheck contents` says of a session that came to no export, and of a start of another size.
NO_EXPORT, NO_IMAGE = "no export", "no image "


class Start(namedtuple("Start", "word left_by is_lost is_open", defaults=(None, False, False))):
    """What an export held before a connection: nbdcheck's word for it; the number of the connection that left it, where
    the word names a text of this recording; whether it is unknown because of the connections before; and whether one of
    these ended with a request that had no reply."""

    def line(self):
        """What is said of it behind the number of a connection that is judged from it."""
        if self.left_by is not None:
            return f", from what connection {self.left_by} left"
        return ", from an unknown start" if self.is_lost else ""

    def assumed(self):
        """What stands behind a wrong byte of a connection that is judged from it."""
        there = f"connection {self.left_by}'s changes are there for the next connection"
        late = ", what was not answered before is carried out before this connection or not at all" if self.is_open else ""
        return [] if self.left_by is None else [f"assumes: {there}, nobody else changed the export{late}"]

    def text(self):
        """The path of the text, or None."""
        return None if self.left_by is None else self.word.partition(":")[2]


LOST = Start("unknown", is_lost=True)


def groups_of(connections):
    """Connections in groups that come one after another; those that overlap in time are in one. A connection lasts from
    when it was taken to its last reply: the client's leave behind that may pass beside the next one."""
    groups, last = [], None
    for held in connections:
        if last is None or held.begun > last:
            groups.append([])
        groups[-1].append(held)
        last = held.last if last is None else max(last, held.last)
    return groups


def text_of(held):
    """The path of the text beside a connection's capture."""
    return held.path.removesuffix(CAPTURE) + TEXT


def may_change(held):
    """Whether a connection may have changed the export."""
    return not held.requests.is_sure or held.requests.has_change


def is_wrong(answer):
    """Whether the server was wrong on what the export held."""
    return answer.status == NO and answer.verdict.get("kind") in ("content", "status", "requests")


def loses_all(answer):
    """Whether nothing is taken as known behind this answer: the server was wrong once, or the session was refused."""
    return is_wrong(answer) or answer.is_refused() or answer.status not in (YES, NO, GAVE_UP)


def is_open(answer):
    """Whether some request may have had no reply."""
    counts = answer.counts()
    return counts is None or counts[0] > counts[1]


class Link:
    """Connections that overlap, what the export held before them, and what nbdcheck said of each."""

    def __init__(self, group, ordered):
        self.group, self.start, self.answers = group, None, []
        recorded = [held for held in group if held.path is not None]
        self.connections = Connections(recorded, ordered)
        self.names = {held.requests.name for held in recorded if not held.requests.is_none()}
        # Whether it is another export than the one before: it has another name, or another size.
        self.is_other = False

    def begin(self, start, names):
        """Begins behind connections that asked exports of these names, where they asked any."""
        self.is_other = bool(names) and not self.names <= names
        self.start = LOST if self.is_other else start

    def last_word(self):
        """The connection whose contents are those of all: the one that may have changed anything, or one that asked."""
        there = [held for held in self.group if held.path is not None and not held.is_empty()]
        return max(there, key=lambda held: (may_change(held), not held.requests.is_none()), default=None)

    def loses_all(self):
        is_one = len(self.names) <= 1 and sum(map(may_change, self.group)) <= 1
        return self.is_other or not is_one or any(map(loses_all, self.answers))


class Chain:
    """The links of a recording; with --apart all connections are in one."""

    def __init__(self, nbdcheck, recording):
        self.nbdcheck, self.tell, self.words = nbdcheck, recording.tell, recording.words
        self.order = recording.room.path("order")
        # Whether all texts stay; else those that a capture needs which is kept.
        self.keeps_all, self.needed = self.words.keep is not None or self.words.client is None, set()
        connections, ordered = recording.connections(), recording.recorded() if self.words.order is not None else []
        groups = [connections] if self.words.apart else groups_of(connections)
        self.links = [Link(group, ordered) for group in groups]
        self.by_number = {held.number: link for link in self.links for held in link.group}
        self.names = set()
        if self.links:
            self.links[0].begin(Start(self.words.start), self.names)
        self._remove_old(recording.recorded())

    def _remove_old(self, recorded):
        """Removes texts of an earlier recording that stand beside the captures of this one, but for the start."""
        start = os.path.realpath(self.words.start.partition(":")[2])
        for path in map(text_of, recorded if self.words.asks else []):
            if os.path.realpath(path) != start:
                remove(path)

    def link(self, held):
        return self.by_number[held.number]

    def note(self, held, answer, has_passed):
        """What was said of a connection, and whether that was a yes. Behind the last one of a link the next begins."""
        link = self.link(held)
        link.answers.append(answer)
        if not has_passed:
            self.needed.add(link.start.text())
        if len(link.answers) == len(link.group) and self.words.asks and not self.words.apart:
            self._end(link)

    def _end(self, link):
        self.links.remove(link)
        self.names = link.names or self.names
        left, text = self._left(link), link.start.text()
        is_over = text is not None and (not self.links or left.text() != text)
        if is_over and not self.keeps_all and text not in self.needed:
            remove(text)
        if self.links:
            self.links[0].begin(left, self.names)

    def _left(self, link):
        """What the connections of a link left."""
        held = link.last_word()
        if link.loses_all():
            return LOST
        if held is None or not (self.keeps_all or self.links and may_change(held)):
            return link.start
        left = self._told(link, held, link.answers[link.group.index(held)])
        return left if may_change(held) else link.start

    def _told(self, link, held, answer):
        """What a connection left, in a text beside its capture, which may be the start itself up to then."""
        path, order = text_of(held), self._order(link, held, answer)
        part = path + PART
        try:
            status, line = self.nbdcheck.contents(held.path, order, link.start.word, part)
            if status == YES:
                os.replace(part, path)
                return Start(f"contents:{path}", held.number, is_open=link.start.is_open or any(map(is_open, link.answers)))
        except OSError as error:
            self.tell(f"cannot write {path}: {reason_of(error)}")
            return LOST
        finally:
            remove(part)
        # (of a start that was given each session says that it has another size)
        is_as_before = line == NO_EXPORT or link.start.left_by is None and line.startswith(NO_IMAGE)
        return link.start if status == NO and is_as_before else LOST

    def _order(self, link, held, answer):
        """The order that explains a session, where it was given or is that of arrival: a found one is one of many."""
        if answer.status != YES or held.requests.is_none() or link.connections.apart(held).reason is not None:
            return None
        if self.words.arrival:
            return self.order if self.nbdcheck.arrival(held.path, self.order)[0] == YES else None
        return self.words.order
