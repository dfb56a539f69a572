"""Whether contents of a connection can be compared beside other connections: the start has to be right for all that it touches."""

from collections import namedtuple

from .ranges import KINDS, changes, meetings, ranges_of

NO_MESSAGE = "bytes that are no message of the protocol"


class Apart(namedtuple("Apart", "reason is_alone meeting", defaults=(False, None))):
    """What is said of a connection beside others: why its contents are not compared, or None; whether others have changed what it does
    not touch; and the two requests that meet, or None."""

    def line(self):
        return f"contents not compared: {self.reason}"

    def meeting_as_json(self):
        if self.meeting is None:
            return None
        own, other = self.meeting
        return {"request": own.request, "connection": other.connection, "other_request": other.request, "offset": self.meeting.offset()}


BESIDE_NONE = Apart(None)


def told(each):
    """The type of a range's request."""
    return KINDS.get(each.kind, f"of type {each.kind}")


def line_of(meeting):
    own, other = meeting
    return (f"request {own.request}, {told(own)}, meets request {other.request} of connection {other.connection}, {told(other)}, "
            f"at offset {meeting.offset()}")


class Two:
    """The first of some connections, and the first with another key than that one."""

    def __init__(self, connections, key):
        self.key, self.first, self.second = key, None, None
        for held in connections:
            if self.first is None:
                self.first = held
            elif self.second is None and key(held) != key(self.first):
                self.second = held

    def beside(self, held):
        """One with another key than this connection's, or None."""
        return self.second if self.first is not None and self.key(self.first) == self.key(held) else self.first


def first_change(held):
    """The first range that a connection changes, or None."""
    return next((each for each in ranges_of(held) if changes(each)), None) if held.requests.has_change else None


def number_of(held):
    return held.number


def name_of(held):
    """The name of a connection's export: with another name it may be another export, or the same."""
    return held.requests.name


class Connections:
    """Connections, and which of them can be compared; an order is that of one of `ordered`."""

    def __init__(self, connections, ordered):
        asking = [held for held in connections if not held.requests.is_none()]
        changing = [held for held in asking if not held.requests.is_sure or first_change(held) is not None]
        self.ordered = Two([held for held in ordered if not held.requests.is_none()], number_of)
        self.changing = Two(changing, number_of)
        self.strange = Two([held for held in changing if not held.requests.is_sure], number_of)
        self.renamed = Two(changing, name_of)
        self.meetings, named = {}, {}
        for held in asking if changing else ():
            named.setdefault(name_of(held), []).append(held)
        for same in named.values():
            self.meetings.update(meetings(each for held in same for each in ranges_of(held)))

    def apart(self, held):
        """What is to be said of a connection."""
        if held.requests.is_none():
            return BESIDE_NONE
        other = self.ordered.beside(held)
        if other is not None:
            return Apart(f"the order is of one connection, and connection {other.number} has requests too")
        if self.changing.beside(held) is None:
            return BESIDE_NONE
        other = self.strange.beside(held)
        if other is not None or not held.requests.is_sure:
            who = "this connection" if other is None else f"connection {other.number}"
            return Apart(f"{who} has {NO_MESSAGE}")
        return self._beside_changes(held)

    def _beside_changes(self, held):
        other, met = self.renamed.beside(held), self.meetings.get(held.number)
        if other is not None:
            change = first_change(other)
            return Apart(f"request {change.request} of connection {other.number}, {told(change)}, is to an export of another name")
        if met is not None:
            return Apart(line_of(met), meeting=met)
        return Apart(None, is_alone=True)
