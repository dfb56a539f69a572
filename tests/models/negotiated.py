"""A reader of negotiations for tests: a second opinion of what `check` says of one, and of the contexts and the block sizes that are
in force behind it. It is written from the rules of the protocol, message after message, and shares no code with the program or with the tables.
"""

import struct
from collections import namedtuple

MAGIC, OPTION, ANSWER = b"NBDMAGIC", b"IHAVEOPT", 0x0003E889045565A9
FOLLOWED = {"base": (3, 6, 7, 8), "wide": (3, 6, 7, 8, 9, 10, 11)}
MOST = 2**63 - 1

# Where and with what the session was refused (None: it was not); whether transmission began, with what size and flags of the
# export, with structured replies or without, and with extended headers or without; the names of the contexts that are in force, by
# their ids; the block sizes that are in force, the least and the largest, or None; and the place behind what was read.
Read = namedtuple("Read", "place fault entered size flags structured extended contexts sizes behind")


class Refused(Exception):
    """The session breaks a rule at this byte."""

    def __init__(self, place, fault):
        super().__init__(place, fault)
        self.place, self.fault = place, fault


class Over(Exception):
    """The capture ends between two messages."""


def cut_name(data):
    """A name behind its length, and what follows it; None where it is not there whole."""
    if len(data) < 4 or len(data) - 4 < int.from_bytes(data[:4], "big"):
        return None
    end = 4 + int.from_bytes(data[:4], "big")
    return data[4:end], data[end:]


def cut_queries(data):
    """The name and the count of queries, where the data of LIST_META_CONTEXT or SET_META_CONTEXT has its form."""
    name, rest = cut_name(data) or (None, b"")
    if len(rest) < 4:
        return None
    count, rest = int.from_bytes(rest[:4], "big"), rest[4:]
    for _ in range(count):
        query = cut_name(rest)
        if query is None:
            return None
        rest = query[1]
    return None if rest else (name, count)


def export_of(choice):
    """The name of an export in an option that names one; else no byte."""
    number, data = int.from_bytes(choice[8:12], "big"), choice[16:]
    if number == 1:
        return data
    return (cut_name(data) or (b"",))[0] if number in (6, 7, 9, 10) else b""


def is_proper(number, data):
    if number in (3, 8, 11):
        return data == b""
    if number in (6, 7):
        _, rest = cut_name(data) or (None, b"")
        return len(rest) >= 2 and len(rest) == 2 + 2 * int.from_bytes(rest[:2], "big")
    return number in (9, 10) and cut_queries(data) is not None


def asks_sizes(data):
    """Whether the data of a GO that has its form asks for the block sizes."""
    _, rest = cut_name(data)
    return 3 in (number for (number,) in struct.iter_unpack(">H", rest[2:]))


def is_power(number):
    """Whether a number is a power of two."""
    return number.bit_count() == 1


def are_sizes(least, preferred, largest):
    """Whether block sizes may be announced: of the largest nothing is asked but that it is not 0."""
    is_least = is_power(least) and least <= 65536
    is_preferred = is_power(preferred) and preferred >= 512 and preferred >= least
    return is_least and is_preferred and largest != 0


def has_form(kind, payload, profile):
    """Whether an answer's payload has the form of its kind. Block sizes have any values in `base`."""
    if kind == 2:
        return cut_name(payload) is not None
    if kind == 3:
        info = int.from_bytes(payload[:2], "big")
        is_long = len(payload) == {0: 12, 3: 14}.get(info, max(2, len(payload)))
        if is_long and info == 3 and profile == "wide":
            return are_sizes(*struct.unpack(">III", payload[2:]))
        return is_long and (info != 0 or payload[11] & 1 == 1)
    return kind != 4 or len(payload) >= 4


class Reader:
    """A session up to its transmission, with what it has agreed on."""

    def __init__(self, records, profile):
        self.sides = "".join(side * len(data) for side, data in records)
        self.data = b"".join(data for _, data in records)
        self.at, self.profile = 0, profile
        self.structured, self.extended, self.padded = False, False, True
        # The export and the contexts of the last SET_META_CONTEXT, their names by their ids, and whether it ended well.
        self.export, self.named, self.is_granted = None, {}, False
        # The size and the flags of the export, and the block sizes, as last told in answer to the option; and whether it is a GO that
        # asked for the sizes and was granted.
        self.told, self.sizes, self.is_held = None, None, False

    def take(self, side, count, begins=True):
        """So many bytes of a side whose turn it is."""
        first = self.at
        while self.at < first + count:
            if self.at == len(self.data):
                raise Over if begins and self.at == first else Refused(self.at, "Unfinished")
            if self.sides[self.at] != side:
                raise Refused(self.at + 1, "OutOfTurn")
            self.at += 1
        return self.data[first : self.at]

    def need(self, is_so, fault):
        if not is_so:
            raise Refused(self.at, fault)

    def flags(self):
        head = self.take("S", 18)
        self.need(head[:16] == MAGIC + OPTION, "BadMagic")
        self.need(head[17] & 1, "NotFixedNewstyle")
        taken = int.from_bytes(self.take("C", 4), "big")
        self.need(taken & 1, "NotFixedNewstyle")
        self.need(taken & ~(head[17] & 3) == 0, "BadClientFlags")
        self.padded = taken & 2 == 0

    def choices(self):
        """Options and their answers, until one leads to transmission."""
        while True:
            head = self.take("C", 16)
            self.need(head[:8] == OPTION, "BadMagic")
            number, length = struct.unpack(">II", head[8:])
            data = self.take("C", length, begins=False)
            if number == 1:
                return self.exported(data)
            if number == 10:
                name, _ = cut_name(data) or (None, b"")
                self.export, self.named, self.is_granted = name, {}, False
            if self.answers(number, data) and number == 7:
                self.is_held = asks_sizes(data)
                return cut_name(data)[0]

    def exported(self, name):
        self.told = size, flags = struct.unpack(">QH", self.take("S", 10))
        self.need(flags & 1, "BadExport")
        self.need(size <= MOST, "ExportTooLarge")
        if self.padded:
            self.need(self.take("S", 124, begins=False) == bytes(124), "BadExport")
        return name

    def answers(self, number, data):
        """All answers to an option; whether the last is an ACK."""
        self.told = self.sizes = None
        while True:
            kind, payload = self.answer(number, data)
            if kind == 1:
                self.structured |= number in (8, 11)
                self.extended |= number == 11
                self.is_granted |= number == 10
            if kind == 4 and number == 10:
                self.named[int.from_bytes(payload[:4], "big")] = payload[4:]
            if kind == 3 and payload[:2] == bytes(2):
                self.told = struct.unpack(">QH", payload[2:])
            if kind == 3 and payload[:2] == b"\0\3":
                self.sizes = struct.unpack(">III", payload[2:])[::2]
            if number == 2:
                self.take("nobody", 1)
            if kind == 1 or kind >= 2**31:
                return kind == 1

    def answer(self, number, data):
        magic, of, kind, length = struct.unpack(">QIII", self.take("S", 20))
        self.need(magic == ANSWER, "BadMagic")
        self.need(of == number, "WrongOption")
        is_error, is_fine = kind >= 2**31, number == 2 or is_proper(number, data)
        if not is_error:
            self.kinds(number, data, kind)
            self.need(kind != 1 or length == 0, "BadReplyPayload")
            if kind == 1 and number in (6, 7) and is_fine:
                self.need(self.told is not None, "MissingExportInfo")
                self.need(number == 6 or self.told[0] <= MOST, "ExportTooLarge")
        payload = self.take("S", length, begins=False)
        if not is_error:
            self.need(has_form(kind, payload, self.profile), "BadReplyPayload")
            self.need(kind != 4 or number != 10 or int.from_bytes(payload[:4], "big") not in self.named, "BadReplyPayload")
            self.need(is_fine, "SuccessOfImproper")
        return kind, payload

    def kinds(self, number, data, kind):
        """The kinds of success that an option takes."""
        takes = {2: [1], 3: [1, 2], 6: [1, 3], 7: [1, 3], 8: [1], 9: [1, 4], 10: [1, 4], 11: [1]}
        if number == 10 and (cut_queries(data) or (b"", 1))[1] == 0:
            takes[10] = [1]
        self.need(number == 2 or number in FOLLOWED[self.profile], "OutOfProfile")
        self.need(kind in takes[number], "BadReplyKind")


def read(records, profile):
    """What becomes of a session until its transmission begins."""
    reader = Reader(records, profile)
    try:
        reader.flags()
        name = reader.choices()
    except Refused as refused:
        return Read(refused.place, refused.fault, False, 0, 0, False, False, {}, None, refused.place)
    except Over:
        return Read(None, None, False, 0, 0, False, False, {}, None, reader.at)
    is_in_force = reader.is_granted and reader.structured and reader.export == name
    contexts = reader.named if is_in_force else {}
    sizes = reader.sizes if reader.is_held and profile == "wide" else None
    return Read(None, None, True, *reader.told, reader.structured, reader.extended, contexts, sizes, reader.at)
