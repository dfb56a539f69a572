"""Mistakes at random in sessions: in the bytes, lines and words of a text, in messages, and in orders."""

import struct

from messages import (
    ALLOCATION, BLOCK_STATUS, CACHE, DEPTH, DISC, DONE, ERROR, EXTENDED_HEADERS, FLUSH, GO, INFO, LIST_META_CONTEXT, META_CONTEXT,
    OFFSET_DATA, OFFSET_HOLE, PAYLOAD_LEN, READ, REQ_ONE, SET_META_CONTEXT, STATUS, STATUS_EXT, TRIM, WRITE, WRITE_ZEROES, ack,
    answer, context, done, error, extended_chunk, extended_extents, extended_request, extents, failed, named, option, queries,
    records_of, simple, status, text,
)
from messages import NONE as NO_CONTENT
from models import negotiated
from models.extending import can_be_extended
from models.extending import extended as with_extended_headers

NUMBERS = [0, 1, 2, 3, 4, 5, 6, 7, 8, 9, 11, 12, 16, 255, 256, 65535, 2**31, 2**32 - 1, 2**63 - 1, 2**63, 2**64 - 1]
WIDTHS = {"flags": 16, "command": 16, "kind": 16, "id": 32, "option": 32, "error": 32}
# A length in a line of a message with this name; of others 32.
LENGTHS = {b"extended-request": 64}
WORDS = [b"0", b"1", b"2", b"01", b"-1", b"18446744073709551616", b"C", b"S", b"ok", b"no", b"gave", b"up", b"padded=1", b"x" * 300]
# What a status may say of eight bytes.
EXTENTS = [
    [(8, 2)], [(8, 2)], [(8, 3)], [(4, 0), (4, 2)], [(3, 0), (2**32 - 1, 1)], [(8, 0), (1, 0)], [(0, 2)], [],
    [(2**32 - 1, 0), (1, 0), (1, 2)],
]
# The least, the preferred and the largest block size; the last of these are malformed.
SIZES = [(1, 4096, 2**25), (2, 512, 4), (2, 512, 2**32 - 1), (4, 512, 4), (512, 4096, 32768), (1, 512, 2), (4096, 4096, 4096)]
ODD_SIZES = [(0, 512, 512), (3, 512, 6), (2**17, 2**17, 2**17), (2, 256, 4), (1024, 512, 1024), (2, 512, 5), (2, 512, 0), (1, 513, 1)]


def is_go(record):
    """Whether a record is a whole GO or INFO that has its form."""
    side, data = record
    number = int.from_bytes(data[8:12], "big")
    return side == "C" and data[:8] == b"IHAVEOPT" and number in (GO, INFO) and negotiated.is_proper(number, data[16:])


def asking(data):
    """The data of GO or INFO, with the block sizes among the kinds of info."""
    name, kinds = negotiated.cut_name(data)
    return named(name) + (int.from_bytes(kinds[:2], "big") + 1).to_bytes(2, "big") + kinds[2:] + b"\0\3"


class Mutator:
    """Mistakes that are made at random."""

    def __init__(self, chance):
        self.chance = chance

    def number(self, width=64):
        choice = self.chance.choice(NUMBERS) if self.chance.random() < 0.8 else self.chance.getrandbits(width)
        return choice % 2**width

    def bytes(self, data):
        """A text with one mistake."""
        chance, at = self.chance, self.chance.randrange(len(data) + 1)
        rest = data[at + 1 :]
        match chance.randrange(9):
            case 0:
                return data[:at] + chance.choice(b"0123456789abcdefABCDEFg").to_bytes(1, "big") + rest
            case 1:
                return data[:at] + chance.choice([b"C ", b"S ", b"\n", b"\r\n", b" ", b"#", b"\0", b"\xff"]) + data[at:]
            case 2:
                return data[:at] + rest
            case 3:
                return data[:at]
            case 4:
                return data[:at] + bytes([chance.getrandbits(8)]) + rest
            case 5:
                other = chance.randrange(len(data) + 1)
                first, last = min(at, other), max(at, other)
                return data[:last] + data[first:last][:4096] + data[last:]
            case 6:
                return data[:at] + b"%016x" % self.number() + data[at + 16 :]
            case 7:
                return self.words(data)
        return self.lines(data)

    def words(self, data):
        """A text with a word dropped, doubled, exchanged or put in."""
        lines, chance = data.split(b"\n"), self.chance
        at = chance.randrange(len(lines))
        words = lines[at].split(b" ")
        which = chance.randrange(len(words))
        match chance.randrange(4):
            case 0:
                del words[which]
            case 1:
                words.insert(which, words[which])
            case 2:
                words[which] = chance.choice(chance.choice(lines).split(b" "))
            case 3:
                words.insert(which, chance.choice(WORDS))
        lines[at] = b" ".join(words)
        return b"\n".join(lines)

    def lines(self, data):
        """A text with lines dropped, doubled, swapped, moved to the other side, or empty."""
        lines, chance = data.split(b"\n"), self.chance
        at, other = chance.randrange(len(lines)), chance.randrange(len(lines))
        match chance.randrange(5):
            case 0:
                del lines[at]
            case 1:
                lines.insert(other, lines[at])
            case 2:
                lines[at], lines[other] = lines[other], lines[at]
            case 3:
                lines[at] = (b"C" if lines[at][:1] == b"S" else b"S") + lines[at][1:]
            case 4:
                lines.insert(at, chance.choice([b"", b"C ", b"S ", b"# remark", b"ok", b"C 00", b"S 00"]))
        return b"\n".join(lines)

    def script(self, script):
        """Message lines with one mistake."""
        if self.chance.random() < 0.5:
            return self.lines(script)
        lines = script.split(b"\n")
        at = self.chance.randrange(len(lines))
        fields = lines[at].split(b" ")
        if len(fields) > 2:
            which = self.chance.randrange(2, len(fields))
            name, _, value = fields[which].partition(b"=")
            fields[which] = name + b"=" + self.value(fields[1], name.decode("latin-1"), value)
            lines[at] = b" ".join(fields)
        return b"\n".join(lines)

    def contexts(self, capture):
        """The session with options on contexts before one of its own options, and at times a status in its transmission."""
        try:
            records = records_of(capture)
        except ValueError:
            return capture
        places = [at for at, (side, data) in enumerate(records) if side == "C" and data[:8] == b"IHAVEOPT"]
        if not places:
            return capture
        at = self.chance.choice(places)
        name = negotiated.export_of(records[self.chance.choice(places[-2:])][1])
        added = [one for _ in range(self.chance.choice([1, 1, 2, 3])) for one in self.option(name)]
        statuses = self.status() if self.chance.random() < 0.5 else []
        last = len(records) - (records[-1][1][6:8] == DISC.to_bytes(2, "big"))
        return text(records[:at] + added + records[at:last] + statuses + records[last:])

    def sizes(self, capture):
        """The session with block sizes in answer to one of its GOs and INFOs, and most often with a client that asks for them."""
        try:
            records = records_of(capture)
        except ValueError:
            return capture
        chance, places = self.chance, [at for at, record in enumerate(records) if is_go(record)]
        if not places:
            return capture
        at = places[-1] if chance.random() < 0.8 else chance.choice(places)
        number, data = int.from_bytes(records[at][1][8:12], "big"), records[at][1][16:]
        if chance.random() < 0.8:
            records[at] = option(number, asking(data))
        for _ in range(chance.choice([1, 1, 1, 1, 2])):
            told = struct.pack(">HIII", 3, *chance.choice(ODD_SIZES if chance.random() < 0.15 else SIZES))
            records.insert(at + 1 + chance.randrange(2), answer(number, 3, told))
        return text(records)

    def headers(self, capture):
        """The session said again with extended headers, and at times one request more; where it cannot be, at times with the option that
        asks for them."""
        try:
            records = records_of(capture)
        except ValueError:
            return capture
        chance = self.chance
        if can_be_extended(records) and chance.random() < 0.95:
            records = with_extended_headers(records, chance.random() < 0.5)
            side, rest = records[-1]
            last = len(records) - 2 * (side == "C" and rest[5:7] == DISC.to_bytes(2, "big"))
            return text(records[:last] + (self.exchange() if chance.random() < 0.5 else []) + records[last:])
        places = [at for at, (side, data) in enumerate(records) if side == "C" and data[:8] == b"IHAVEOPT"]
        if not places or chance.random() < 0.7:
            return capture
        at, number = chance.choice(places), EXTENDED_HEADERS
        told = chance.choice([[ack(number)]] * 6 + [[error(number)], [answer(number, 2)], [answer(number, 1, b"x")], []])
        return text(records[:at] + [option(number, b"x" * (chance.random() < 0.1)), *told] + records[at:])

    def exchange(self):
        """A request with an extended header, and most often a reply, which may be odd."""
        chance, cookie = self.chance, 2**40
        command = chance.choice([READ, WRITE, FLUSH, TRIM, CACHE, WRITE_ZEROES, BLOCK_STATUS, BLOCK_STATUS, BLOCK_STATUS, 42])
        offset, length, data = chance.choice([0, 0, 0, 4, 7, 2**63]), chance.choice([8, 8, 8, 4, 1, 0, 2**32, 2**64 - 1]), b""
        flags = chance.choice([0, 0, PAYLOAD_LEN, PAYLOAD_LEN, REQ_ONE, REQ_ONE | PAYLOAD_LEN])
        if command == WRITE or flags & PAYLOAD_LEN:
            ids = chance.choice([(), (1,), (1,), (2,), (1, 2), (2, 1), (1, 1), (3,)])
            data = struct.pack(f">Q{len(ids)}I", length, *ids) if command == BLOCK_STATUS else bytes(chance.randrange(9))
            data = data[:-1] if chance.random() < 0.1 else data
            length = len(data)
        at = self.number() if chance.random() < 0.1 else offset
        pieces = [(*self.piece(offset), 0) for _ in range(chance.choice([0, 0, 1, 1, 2]))]
        pieces += chance.choice([[(NO_CONTENT, b"", DONE)], [(NO_CONTENT, b"", DONE)], [(ERROR, b"\0\0\0\x16\0\0", DONE)], []])
        told = [extended_chunk(cookie, kind, at, payload, is_last) for kind, payload, is_last in pieces]
        return [extended_request(command, cookie, offset, length, data, flags), *told]

    def piece(self, offset):
        """What a chunk with an extended header has: its type, and its payload."""
        chance, begin = self.chance, offset.to_bytes(8, "big")
        parts = extended_extents(chance.choice([0, 1, 1, 1, 2]), *chance.choice(EXTENTS), count=chance.choice([None, None, None, 0, 1, 2]))
        return chance.choice([(STATUS_EXT, parts), (STATUS_EXT, parts), (OFFSET_DATA, begin + bytes(8)), (OFFSET_DATA, begin + bytes(1)),
                              (OFFSET_HOLE, begin + b"\0\0\0\x08"), (OFFSET_HOLE, begin + b"\xff" * 4), (STATUS, parts), (ERROR, begin)])

    def option(self, name):
        """LIST_META_CONTEXT or SET_META_CONTEXT and its answers, which may be odd."""
        chance, number = self.chance, self.chance.choice([LIST_META_CONTEXT, SET_META_CONTEXT, SET_META_CONTEXT])
        wanted = chance.choice([(), (ALLOCATION,), (ALLOCATION,), (ALLOCATION, DEPTH), (ALLOCATION, DEPTH)])
        data = queries(chance.choice([*[name] * 8, b"", b"disk"]), *wanted)
        if chance.random() < 0.1:
            data = chance.choice([data[:-1], data + b"x", data[: chance.randrange(len(data))]])
        ids = chance.sample([0, 1, 2, 2**32 - 1], chance.choice([0, 1, 1, 1, 2, 3]) if wanted else chance.choice([0, 0, 0, 1]))
        if chance.random() < 0.1:
            ids += ids[:1]
        told = [context(one, chance.choice([ALLOCATION, DEPTH, b""]), number) for one in ids]
        if chance.random() < 0.05:
            told.append(answer(number, chance.choice([2, 3, META_CONTEXT, 5, 2**31 - 1]), bytes(chance.randrange(4))))
        end = chance.choice([[ack(number)]] * 14 + [[error(number)]] * 4 + [[answer(number, 1, b"x")], []])
        return [option(number, data), *told, *end]

    def status(self):
        """A BLOCK_STATUS, and at times a reply, which may be odd."""
        cookie, chance = 2**40, self.chance
        flags = chance.choice([0, 0, 0, 1, 2, REQ_ONE, REQ_ONE, 1 | REQ_ONE])
        asked = status(cookie, 0, chance.choice([8, 8, 8, 4, 0, 9]), flags)
        told = [(chance.choice([0, 1, 1, 1, 2]), chance.choice(EXTENTS)) for _ in range(chance.choice([0, 1, 1, 1, 2, 3]))]
        last = chance.randrange(len(told)) if told and chance.random() < 0.1 else len(told) - 1
        is_done = chance.random() < 0.6
        chunks = [extents(cookie, number, *parts, flags=DONE * (is_done and at == last))
                  for at, (number, parts) in enumerate(told)]
        end = chance.choice([[done(cookie)], [failed(cookie)], [simple(cookie, error=22)], [simple(cookie)], []])
        return [asked, *chunks, *([] if is_done and told else end)]

    def value(self, message, name, value):
        if name == "padded":
            return self.chance.choice([b"0", b"1"])
        if name != "payload":
            return b"%d" % self.number(LENGTHS.get(message, 32) if name == "length" else WIDTHS.get(name, 64))
        at = 2 * self.chance.randrange(len(value) // 2 + 1)
        byte = b"%02x" % self.chance.getrandbits(8)
        return self.chance.choice([value[:at], value[:at] + byte + value[at:], value[:at] + byte + value[at + 2 :]])

    def order(self, order):
        """An order with one mistake: in its entries, in its text, or another text."""
        numbers, chance = order.split(b"\n")[:-1], self.chance
        at = chance.randrange(len(numbers) + 1)
        match chance.randrange(7):
            case 0:
                numbers.insert(at, b"%d" % self.number())
            case 4:
                numbers[at : at + 1] = [b"%d %d %d" % (self.number(3), self.number(4), self.number(4))]
            case 5:
                return self.words(order)
            case 6:
                return chance.choice([b"no", b"no content request 1 offset 0 in any order\n", b"gave up: ", b"", b"\n"]) + order
            case 1:
                numbers = numbers[:at] + numbers[at + 1 :]
            case 2:
                chance.shuffle(numbers)
            case 3:
                return self.bytes(order)
        return b"".join(number + b"\n" for number in numbers)
