"""Where each side's bytes stand in a capture."""

from bisect import bisect_right

SIDES = ("C", "S")


class Stream:
    """The bytes of one side: from which of its bytes on they stand at which place of the capture, both from 0."""

    def __init__(self):
        self.begins, self.places, self.length = [], [], 0

    def add(self, place, length):
        self.begins.append(self.length)
        self.places.append(place)
        self.length += length

    def place(self, at):
        """The place of a byte of this side, counted from 1 over both sides, as nbdcheck counts."""
        run = bisect_right(self.begins, at) - 1
        return self.places[run] + at - self.begins[run] + 1

    def before(self, place):
        """How many bytes of this side stand up to a place, counted from 1, with it."""
        run = bisect_right(self.places, place - 1) - 1
        if run < 0:
            return 0
        behind = self.begins[run + 1] if run + 1 < len(self.begins) else self.length
        return min(self.begins[run] + place - self.places[run], behind)


class Places:
    """The places of a capture's bytes. The capture is well-formed: nbdcheck has read it."""

    def __init__(self, file):
        self.streams, self.length = {side: Stream() for side in SIDES}, 0
        for line in file:
            side, count = line[:1].decode("latin-1"), (len(line) - 3) // 2
            if side in SIDES and count > 0:
                self.streams[side].add(self.length, count)
                self.length += count

    def side_at(self, place):
        """The side whose byte stands at this place."""
        for side, stream in self.streams.items():
            count = stream.before(place)
            if count > 0 and stream.place(count - 1) == place:
                return side
        return None


def bytes_of(file, side, begin, end):
    """The bytes of a side from this one to before that one."""
    taken, at = b"", 0
    for line in file:
        if line[:1].decode("latin-1") != side:
            continue
        count = (len(line) - 3) // 2
        if at + count > begin:
            taken += bytes.fromhex(line[2:].decode())[max(0, begin - at) : end - at]
        at += count
        if at >= end:
            break
    return taken
