#!/usr/bin/env python3
"""tools/right.py N [--seed N]: N sessions at random of a client and a server that keep every mandatory sentence of proto.md, and use what it
leaves open: the three modes of TLS, shutdown, options that are refused, contexts, block sizes, extended headers, replies that come in
pieces and between one another, errors beside content. `nbdcheck lint` accepts each of them, and tells of none a line of level must.

A session of which that does not hold is printed, and the last line counts: `N sessions, M wrong`. The program is NBDCHECK, or else the
one that is built here.
"""

import argparse
import multiprocessing
import random
import struct
import sys
from pathlib import Path

sys.path.insert(0, str(Path(__file__).resolve().parent.parent / "tests"))

from built import Room, build
from messages import (
    ABORT, BLOCK_STATUS, CACHE, DISC, DONE, ERROR, ERROR_OFFSET, EXPORT_NAME, EXTENDED_HEADERS, FLUSH, GO, INFO, LIST, LIST_META_CONTEXT,
    META_CONTEXT, NONE, OFFSET_DATA, OFFSET_HOLE, PAYLOAD_LEN, READ, REQ_ONE, SERVER_NAME, SET_META_CONTEXT, STARTTLS, STATUS, STATUS_EXT,
    STRUCTURED_REPLY, TRIM, WRITE, WRITE_ZEROES, ack, answer, asking, chunk, client_flags, entered, error, export_info, extended_chunk,
    extended_extents, extended_request, greeting, named, option, queries, request, simple, text,
)

UNSUP, POLICY, INVALID, PLATFORM, TLS_REQD, UNKNOWN, SHUTDOWN, SIZE_REQD, TOO_BIG, EXT_REQD = (2**31 + number for number in range(1, 11))
OPEN = (POLICY, INVALID, PLATFORM, TOO_BIG, EXT_REQD)
EPERM, EIO, ENOMEM, EINVAL, ENOSPC, EOVERFLOW, ENOTSUP, ESHUTDOWN = 1, 5, 12, 22, 28, 75, 95, 108
HAS_FLAGS, FLUSHES, FUAS, TRIMS, ZEROES, DFS, CACHES, FAST = 1, 4, 8, 32, 64, 128, 1024, 2048
FUA, NO_HOLE, DF, FAST_ZERO = 1, 2, 4, 16
CONTEXTS = (b"base:allocation", b"base:other", b"qemu:allocation-depth", b"x-own:a")
LETTERS = ["a", "é", "€", "😀", " ", "\x01", "\x7f"]


class Session:
    """A session that grows message by message."""

    def __init__(self, seed):
        self.random = random.Random(seed)
        self.records = [greeting(), client_flags()]
        self.structured = self.extended = self.gone = self.shut = False
        self.mode = self.pick("none", "none", "none", "forced", "selective", "selective")
        self.size = self.pick(0, 512, 1000, 4096, 1 << 17, 1 << 20, 1 << 40)
        self.offers = self.random.getrandbits(12) & (FLUSHES | FUAS | TRIMS | ZEROES | CACHES) | HAS_FLAGS
        self.fast = self.offers & ZEROES and self.coin()
        self.sizes = self.pick(None, None, (1, 512, 512), (512, 512, 4096), (1, 4096, 1 << 25), (4096, 65536, 0xFFFFFFFF))
        self.unasked = self.coin()
        self.contexts = self.random.sample(CONTEXTS, self.random.randrange(1, 5))
        self.selected, self.for_name = {}, None

    def pick(self, *choices):
        return self.random.choice(choices)

    def coin(self, chance=0.5):
        return self.random.random() < chance

    def send(self, *records):
        self.records += records

    def string(self, most=300):
        count = self.pick(0, 1, 3, 10, 100, most, 4096 if most > 255 and self.coin(0.05) else 2)
        data = "".join(self.pick(*LETTERS) for _ in range(count)).encode()
        return data[:4096].decode(errors="ignore").encode()

    def name(self):
        return self.pick(b"", b"", b"disk", b"secret", b"none", self.string(60))

    # The negotiation.

    def flags(self):
        """Transmission flags, as the server has them now."""
        return self.offers | (DFS if self.structured else 0) | (FAST if self.fast else 0)

    def refuse(self, number, kind):
        self.send(error(number, kind) if self.coin() else answer(number, kind, self.string(40)))
        self.shut |= kind == SHUTDOWN

    def is_refused(self, number, name=None):
        """An option that the server refuses, whatever it says."""
        if self.shut or self.coin(0.01):
            self.refuse(number, SHUTDOWN)
        elif self.mode == "forced" or self.mode == "selective" and name == b"secret" and number in (INFO, GO):
            self.refuse(number, TLS_REQD)
        elif self.coin(0.06):
            self.refuse(number, self.pick(*OPEN))
        else:
            return False
        return True

    def list(self):
        self.send(option(LIST))
        if not self.is_refused(LIST):
            for _ in range(self.random.randrange(3)):
                self.send(answer(LIST, SERVER_NAME, named(self.name()) + self.string(40)))
            self.send(ack(LIST))

    def starttls(self):
        self.send(option(STARTTLS))
        self.refuse(STARTTLS, SHUTDOWN if self.shut else self.pick(UNSUP, PLATFORM, POLICY, INVALID) if self.mode == "none" else POLICY)

    def ask(self, number, name, wanted):
        """INFO or GO with these infos: whether it was granted."""
        self.send(asking(*wanted, number=number, name=name))
        if self.is_refused(number, name):
            return False
        if name == b"none":
            self.refuse(number, UNKNOWN)
            return False
        told = [export_info(self.size, self.flags())]
        told += [struct.pack(">HIII", 3, *self.sizes)] if self.sizes and (3 in wanted or self.unasked) else []
        told += [b"\0\1" + name] if 1 in wanted else []
        told += [b"\0\2described"] if 2 in wanted else []
        if self.sizes and 3 not in wanted and not self.unasked and self.coin():
            self.send(answer(number, 3, struct.pack(">HIII", 3, *self.sizes)))
            self.refuse(number, SIZE_REQD)
            return False
        self.random.shuffle(told)
        self.send(*[answer(number, 3, one) for one in told], ack(number))
        self.asked_sizes = 3 in wanted
        self.told_sizes = self.sizes if self.sizes and (3 in wanted or self.unasked) else None
        return True

    def grant(self, number):
        """STRUCTURED_REPLY or EXTENDED_HEADERS."""
        self.send(option(number))
        if not self.is_refused(number):
            if self.coin(0.2):
                self.refuse(number, UNSUP)
            else:
                self.send(ack(number))
                self.structured = True
                self.extended |= number == EXTENDED_HEADERS

    def query(self):
        return self.pick(b"base:", b"qemu:", b"x-own:", b"base:none", b"other:a", *CONTEXTS)

    def list_contexts(self):
        wanted = [self.query() for _ in range(self.random.randrange(4))]
        self.send(option(LIST_META_CONTEXT, queries(self.pick(b"", b"disk"), *wanted)))
        if not self.is_refused(LIST_META_CONTEXT):
            for name in self.contexts:
                space = name.split(b":")[0] + b":"
                if not wanted or name in wanted or space in wanted:
                    self.send(answer(LIST_META_CONTEXT, META_CONTEXT, struct.pack(">I", self.pick(0, 0, 7)) + name))
            self.send(ack(LIST_META_CONTEXT))

    def set_contexts(self):
        name = self.pick(b"", b"disk")
        wanted = [self.query() for _ in range(self.random.randrange(4))]
        self.send(option(SET_META_CONTEXT, queries(name, *wanted)))
        self.selected, self.for_name = {}, None
        if self.is_refused(SET_META_CONTEXT):
            return
        for name_of in self.contexts:
            space = name_of.split(b":")[0] + b":"
            if name_of in wanted or space in wanted and space != b"base:":
                number = len(self.selected) + 5
                self.selected[number] = name_of
                self.send(answer(SET_META_CONTEXT, META_CONTEXT, struct.pack(">I", number) + name_of))
        self.send(ack(SET_META_CONTEXT))
        self.for_name = name

    def negotiate(self):
        """Whether it leads into transmission."""
        for _ in range(self.random.randrange(14)):
            if self.shut:
                break
            what = self.random.randrange(9)
            if what == 0:
                self.list()
            elif what == 1 and not self.structured:
                self.starttls()
            elif what == 2:
                name, wanted = self.name(), self.infos()
                if self.ask(INFO, name, wanted) and self.coin() and not self.shut and self.ask(GO, name, wanted):
                    return self.enter(name)
            elif what == 3 and not self.structured:
                self.grant(STRUCTURED_REPLY)
            elif what == 4 and not self.extended:
                self.grant(EXTENDED_HEADERS)
            elif what == 5:
                self.list_contexts()
            elif what in (6, 7) and self.structured:
                self.set_contexts()
        if self.shut or self.coin(0.1):
            self.send(option(ABORT, self.pick(b"", b"bye")))
            self.send(*self.pick([], [ack(ABORT)], [error(ABORT, TLS_REQD)] if self.mode == "forced" else [ack(ABORT)]))
            return False
        if self.coin(0.1) and self.mode != "forced":
            name = self.pick(b"", b"disk")
            self.send(option(EXPORT_NAME, name), entered(size=self.size, flags=self.flags()))
            self.asked_sizes, self.told_sizes = False, None
            return self.enter(name)
        name = self.for_name if self.selected and self.coin(0.9) else self.name()
        return self.ask(GO, name, self.infos()) and self.enter(name)

    def infos(self):
        return self.random.sample((0, 1, 2, 3, 9), self.random.randrange(4))

    def enter(self, name):
        self.agreed = self.selected if name == self.for_name and self.structured else {}
        self.flags_now = self.flags()
        self.least = self.told_sizes[0] if self.told_sizes else 1
        self.most = self.told_sizes[2] if self.told_sizes else 1 << 25
        return True

    # Transmission.

    def range_of(self, most):
        """An offset and a length in the export that are multiples of the least block size."""
        blocks = self.size // self.least
        first = self.random.randrange(blocks + 1)
        count = self.random.randrange(min(blocks - first, max(most // self.least, 1)) + 1)
        return first * self.least, count * self.least

    def requested(self, cookie):
        """A request that a client may send: its type, flags, offset and length."""
        offered = [READ, READ, READ, WRITE, CACHE]
        offered += [FLUSH] * bool(self.flags_now & FLUSHES) + [TRIM] * bool(self.flags_now & TRIMS)
        offered += [WRITE_ZEROES] * bool(self.flags_now & ZEROES) + [BLOCK_STATUS] * 2 * bool(self.agreed)
        command = self.pick(*offered)
        offset, length = (0, 0) if command == FLUSH else self.range_of(self.pick(512, 9000, min(self.most, 70000)))
        flags = FUA if self.flags_now & FUAS and self.coin(0.2) else 0
        flags |= {READ: DF if self.flags_now & DFS else 0, WRITE_ZEROES: NO_HOLE | (FAST_ZERO if self.flags_now & FAST else 0),
                  BLOCK_STATUS: REQ_ONE}.get(command, 0) & self.random.getrandbits(8)
        data = bytes(length) if command == WRITE else b""
        if self.extended:
            flags |= PAYLOAD_LEN if command == WRITE and self.coin(0.8) else 0
            self.send(extended_request(command, cookie, offset, length, data, flags=flags))
        else:
            self.send(request(command, cookie, offset, length, data, flags=flags))
        return command, flags, offset, length

    def chunk(self, cookie, kind, offset, data=b"", flags=0):
        self.send(extended_chunk(cookie, kind, offset, data, flags) if self.extended else chunk(cookie, kind, data, flags))

    def error_of(self, asked):
        """An error that a server may give such a request, but in a DF READ of which content was sent."""
        command, flags, _, length = asked
        errors = [EPERM, EIO, ENOMEM, EINVAL, ENOSPC, ESHUTDOWN]
        errors += [EOVERFLOW] * (not (command == READ and flags & DF) or length > 65536)
        errors += [ENOTSUP] * (command != WRITE_ZEROES or bool(flags & FAST_ZERO) or not self.flags_now & FAST)
        return self.pick(*errors)

    def failing(self, asked, cookie):
        """The chunks of a reply that only fails."""
        command, _, offset, length = asked
        chosen = self.error_of(asked)
        message = self.string(min(40, self.most))[: self.most].decode(errors="ignore").encode()
        head = struct.pack(">IH", chosen, len(message)) + message
        if command != FLUSH and length and self.coin() and chosen != EOVERFLOW:
            return [(ERROR_OFFSET, head + struct.pack(">Q", offset + self.random.randrange(length)))]
        return [(ERROR, head)]

    def pieces(self, asked):
        """The content of a READ, in pieces; of one with DF in one."""
        _, flags, offset, length = asked
        left, at, found = length, offset, []
        most = length if flags & DF else max(1, min(self.most, 20000))
        while left:
            count = min(left, most, left if flags & DF else self.random.randrange(1, most + 1))
            is_hole = self.coin(0.3) and count < 2**32
            found.append((OFFSET_HOLE, struct.pack(">QI", at, count)) if is_hole else (OFFSET_DATA, struct.pack(">Q", at) + bytes(count)))
            at, left = at + count, left - count
        self.random.shuffle(found)
        return found

    def reading(self, asked, cookie):
        """The chunks of a READ: its content, some of it, or errors behind it."""
        _, flags, offset, length = asked
        if flags & DF and length > max(65536, self.most):
            return self.failing(asked, cookie)
        found = self.pieces(asked)
        if length and self.coin(0.15):
            found = found[: self.random.randrange(len(found) + 1)]
            places = [offset + self.random.randrange(length) for _ in range(self.random.randrange(1, 3))]
            chosen = self.pick(EIO, EINVAL, ENOSPC)
            found += [(ERROR_OFFSET, struct.pack(">IHQ", chosen, 0, place)) for place in places]
        return found

    def status(self, asked):
        """The statuses of each context, in extents that are multiples of the least block size."""
        _, flags, offset, length = asked
        found = []
        for number, name in self.agreed.items():
            room = 4 if self.most < 100 else 20
            extents, left, bits = [], length // self.least, 3
            while left and len(extents) < room:
                count = self.random.randrange(1, left + 1)
                extents.append((min(count * self.least, (2**32 - 1) // self.least * self.least), self.random.getrandbits(2)))
                left -= count
                if flags & REQ_ONE:
                    break
            if self.extended:
                found.append((STATUS_EXT, extended_extents(number, *extents)))
            else:
                found.append((STATUS, struct.pack(">I", number) + b"".join(struct.pack(">II", *one) for one in extents)))
        return found

    def reply(self, asked, cookie):
        """The chunks of a reply; the last one gets DONE. None where a simple reply serves."""
        command, _, _, length = asked
        if not self.structured or command not in (READ, BLOCK_STATUS) and not self.extended and self.coin():
            return None
        if self.coin(0.15) or command == BLOCK_STATUS and not length:
            return self.failing(asked, cookie)
        if command == READ:
            found = self.reading(asked, cookie)
        else:
            found = self.status(asked) if command == BLOCK_STATUS else []
        return found + [(NONE, b"")] * (not found or self.coin(0.3))

    def answer_simply(self, asked, cookie):
        command, _, _, length = asked
        if self.coin(0.15) and not (self.structured and command in (READ, BLOCK_STATUS)):
            self.send(simple(cookie, error=self.error_of(asked)))
        else:
            self.send(simple(cookie, bytes(length) if command == READ else b""))

    def transmit(self):
        """Requests, and the chunks of their replies one between the other."""
        pending, cookie, left = {}, 0, self.random.randrange(12)
        while left or pending and not self.coin(0.02):
            if left and (not pending or self.coin()):
                cookie, left = cookie + 1, left - 1
                asked = self.requested(cookie)
                pending[cookie] = (asked, self.reply(asked, cookie))
                continue
            one = self.pick(*pending)
            asked, chunks = pending[one]
            if chunks is None:
                self.answer_simply(asked, one)
                del pending[one]
                continue
            kind, data = chunks.pop(0)
            self.chunk(one, kind, asked[2], data, 0 if chunks else DONE)
            if not chunks:
                del pending[one]
        if self.coin(0.8):
            head = extended_request if self.extended else request
            self.send(head(DISC, cookie + 1, 0, 0))


def session(seed):
    one = Session(seed)
    if one.negotiate():
        one.transmit()
    return text(one.records)


def judged(seeds):
    """Those of these sessions that are refused or get a line of level must, and what is said of them."""
    wrong = []
    with Room() as room:
        for seed in seeds:
            found = room.run("lint", room.put("capture", session(seed)), "--level", "hint")
            if found.status or found.err.strip() and b"empty" not in found.err:
                wrong.append((seed, found.out.decode() + found.err.decode()))
    return wrong


def main():
    words = argparse.ArgumentParser(description=__doc__, formatter_class=argparse.RawDescriptionHelpFormatter)
    words.add_argument("count", type=int, nargs="?", default=20000)
    words.add_argument("--seed", type=int, default=1)
    asked = words.parse_args()
    build()
    seeds = [f"{asked.seed}-{number}" for number in range(asked.count)]
    with multiprocessing.Pool(2) as pool:
        found = [one for part in pool.imap(judged, [seeds[at::64] for at in range(64)]) for one in part]
    for seed, said in found[:10]:
        print(f"{seed}:\n{said}", end="")
    print(f"{asked.count} sessions, {len(found)} wrong")
    return bool(found)


if __name__ == "__main__":
    sys.exit(main())
