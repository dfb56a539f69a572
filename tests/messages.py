"""Messages of the protocol as bytes, and captures of them: the one vocabulary of all tests.

A capture is a list of records (side, bytes). The numbers are those of the NBD project's doc/proto.md.
"""

import struct

CLIENT, SERVER = "C", "S"

EXPORT_NAME, ABORT, LIST, STARTTLS, INFO, GO, STRUCTURED_REPLY = 1, 2, 3, 5, 6, 7, 8
LIST_META_CONTEXT, SET_META_CONTEXT, EXTENDED_HEADERS = 9, 10, 11
ACK, SERVER_NAME, EXPORT_INFO, META_CONTEXT = 1, 2, 3, 4
READ, WRITE, DISC, FLUSH, TRIM, CACHE, WRITE_ZEROES, BLOCK_STATUS = range(8)
REQ_ONE, PAYLOAD_LEN = 8, 32
NONE, OFFSET_DATA, OFFSET_HOLE, STATUS, STATUS_EXT, ERROR, ERROR_OFFSET = 0, 1, 2, 5, 6, 0x8001, 0x8002
DONE = 1

# The names of two metadata contexts.
ALLOCATION, DEPTH = b"base:allocation", b"qemu:allocation-depth"


def greeting(flags=3):
    return (SERVER, b"NBDMAGICIHAVEOPT" + struct.pack(">H", flags))


def client_flags(flags=3):
    return (CLIENT, struct.pack(">I", flags))


def option(number, data=b"", length=None):
    length = len(data) if length is None else length
    return (CLIENT, b"IHAVEOPT" + struct.pack(">II", number, length) + data)


def answer(number, kind, data=b""):
    return (SERVER, struct.pack(">QIII", 0x0003E889045565A9, number, kind, len(data)) + data)


def ack(to=SET_META_CONTEXT):
    return answer(to, ACK)


def error(to=SET_META_CONTEXT, kind=0x80000003):
    """An answer that refuses an option."""
    return answer(to, kind)


def export_info(size=8, flags=0x6D):
    return struct.pack(">HQH", 0, size, flags)


def named(name):
    """A name behind its length."""
    return struct.pack(">I", len(name)) + name


def go_data(name=b""):
    """The data of GO and INFO: the name of an export, and no kinds of info."""
    return named(name) + bytes(2)


def queries(name, *wanted, count=None):
    """The data of LIST_META_CONTEXT and SET_META_CONTEXT: the name of an export, and queries behind their count."""
    count = len(wanted) if count is None else count
    return named(name) + struct.pack(">I", count) + b"".join(map(named, wanted))


def context(number, name, to=SET_META_CONTEXT):
    """An answer that names a metadata context by its id."""
    return answer(to, META_CONTEXT, struct.pack(">I", number) + name)


def listing(*wanted, name=b"", **how):
    return option(LIST_META_CONTEXT, queries(name, *wanted, **how))


def setting(*wanted, name=b"", **how):
    return option(SET_META_CONTEXT, queries(name, *wanted, **how))


def allocation(number, to=SET_META_CONTEXT):
    return context(number, ALLOCATION, to)


def granted(number=1, name=b""):
    """SET_META_CONTEXT for base:allocation, which the server has."""
    return [setting(ALLOCATION, name=name), allocation(number), ack()]


def asking(*infos, number=GO, name=b""):
    """GO, or INFO, with the kinds of info that it asks for."""
    return option(number, named(name) + struct.pack(f">{len(infos) + 1}H", len(infos), *infos))


def export(to=GO, **how):
    """The info on the export."""
    return answer(to, EXPORT_INFO, export_info(**how))


def sizes(*numbers, to=GO):
    """The info on the least, the preferred and the largest block size."""
    return answer(to, EXPORT_INFO, struct.pack(">HIII", 3, *numbers))


def go(name=b"", **told):
    """GO, its info on the export, and ACK."""
    return [option(GO, go_data(name)), export(**told), ack(GO)]


def entered(padded=False, **told):
    """The answer to EXPORT_NAME: the export's size and flags, and zeroes where the client did not agree to leave them out."""
    return (SERVER, export_info(**told)[2:] + bytes(124 if padded else 0))


# The zeroes behind it, in four records.
ZEROES = [(SERVER, bytes(31))] * 4


def by_name(name, padded=False):
    """EXPORT_NAME and its answer."""
    return [option(EXPORT_NAME, name), entered(padded)]


def request(command, cookie, offset, length, data=b"", flags=0):
    head = struct.pack(">IHHQQI", 0x25609513, flags, command, cookie, offset, length)
    return (CLIENT, head + data)


def write(cookie, offset, data):
    return request(WRITE, cookie, offset, len(data), data)


def read(cookie, offset, length):
    return request(READ, cookie, offset, length)


def simple(cookie, data=b"", error=0):
    return (SERVER, struct.pack(">IIQ", 0x67446698, error, cookie) + data)


def chunk(cookie, kind, data=b"", flags=0):
    return (SERVER, struct.pack(">IHHQI", 0x668E33EF, flags, kind, cookie, len(data)) + data)


def content(cookie, offset, data, flags=0):
    return chunk(cookie, OFFSET_DATA, struct.pack(">Q", offset) + data, flags)


def hole(cookie, offset, size, flags=0):
    return chunk(cookie, OFFSET_HOLE, struct.pack(">QI", offset, size), flags)


def status(cookie, offset, length, flags=0):
    return request(BLOCK_STATUS, cookie, offset, length, flags=flags)


def extents(cookie, number, *parts, flags=0):
    """A chunk on the context with this id: extents, each of a length and its flags."""
    return chunk(cookie, STATUS, struct.pack(">I", number) + b"".join(struct.pack(">II", *part) for part in parts), flags)


def told_last(cookie, number, *parts):
    """A chunk on a context that ends its reply."""
    return extents(cookie, number, *parts, flags=DONE)


def failed(cookie, error=22):
    """A chunk that ends a reply with an error, without a message."""
    return chunk(cookie, ERROR, struct.pack(">IH", error, 0), DONE)


def failed_at(cookie, offset, error=5):
    """The same, with the offset at which it failed."""
    return chunk(cookie, ERROR_OFFSET, struct.pack(">IHQ", error, 0, offset), DONE)


def done(cookie):
    return chunk(cookie, NONE, flags=DONE)


def extended_request(command, cookie, offset, length, data=b"", flags=0):
    """A request with an extended header."""
    head = struct.pack(">IHHQQQ", 0x21E41C71, flags, command, cookie, offset, length)
    return (CLIENT, head + data)


def extended_chunk(cookie, kind, offset, data=b"", flags=0, length=None):
    """A chunk with an extended header: the offset is that of its request."""
    length = len(data) if length is None else length
    return (SERVER, struct.pack(">IHHQQQ", 0x6E8A278C, flags, kind, cookie, offset, length) + data)


def extended_extents(number, *parts, count=None):
    """The payload of a chunk with an extended header on the context with this id: extents behind their count."""
    count = len(parts) if count is None else count
    return struct.pack(">II", number, count) + b"".join(struct.pack(">QQ", *part) for part in parts)


# 22 bytes; 58 with structured replies; 132 with GO behind these.
FLAGS = [greeting(), client_flags()]
STRUCTURED = [option(STRUCTURED_REPLY), ack(STRUCTURED_REPLY)]
CHUNKS = FLAGS + STRUCTURED


def begun(structured=False, size=8, flags=0x6D):
    """A negotiation with GO: 96 bytes, or 132 with structured replies."""
    return (CHUNKS if structured else FLAGS) + go(size=size, flags=flags)


def cut(message, count):
    """The first bytes of a message, and the others."""
    side, data = message
    return (side, data[:count]), (side, data[count:])


def text(records):
    """A capture text with a line for each record."""
    return "".join(f"{side} {data.hex()}\n" for side, data in records).encode()


def records_of(capture):
    """The records of a well-formed capture text."""
    lines = (line for line in capture.decode("latin-1").split("\n") if line and line[0] != "#")
    return [(line[0], bytes.fromhex(line[2:])) for line in lines]


def one_by_one(records):
    """The same bytes as records of one byte."""
    return [(side, data[at : at + 1]) for side, data in records for at in range(len(data))]


def longest_runs(records):
    """The same bytes as the longest records of one side."""
    runs = []
    for side, data in records:
        if not data:
            continue
        if runs and runs[-1][0] == side:
            runs[-1][1].append(data)
        else:
            runs.append((side, [data]))
    return [(side, b"".join(parts)) for side, parts in runs]


def front(records, count):
    """The records up to so many bytes."""
    taken = []
    for side, data in records:
        if count <= 0:
            break
        taken.append((side, data[:count]))
        count -= len(data)
    return taken


def damaged(records, at):
    """The records with the byte at this place, from 0, inverted."""
    changed = list(records)
    for number, (side, data) in enumerate(records):
        if at < len(data):
            other = data[:at] + bytes([data[at] ^ 0xFF]) + data[at + 1 :]
            changed[number] = (side, other)
            return changed
        at -= len(data)
    raise IndexError(at)
