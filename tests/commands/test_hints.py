"""What the built program says beside an answer or a fault: on a terminal and with `--hints`, of a line that is malformed, of sides that
are exchanged."""

import os
import subprocess

from built import Ended, Room
from commands.said import CAPTURE, EMPTY, FOUND, LF, SEARCHED, YES, fault, on_a_terminal, sides


def terminals(tally, room):
    """A second line for a person: which file could not be opened and why, and behind a no how to learn more."""
    good, order, none = room.put("good", CAPTURE), room.put("order", b"1\n"), room.path("none")
    why = f"{none}: No such file or directory (os error 2)\n".encode()
    for what, words in (
        ("capture", ["check", none, order]),
        ("order", ["check", good, none]),
        ("image", ["check", good, order, "--start", f"image:{none}"]),
        ("contents", ["check", good, order, "--start", f"contents:{none}"]),
        ("capture", ["contents", none]),
        ("order", ["contents", good, none]),
        ("against", ["contents", good, "--against", none]),
        ("order", ["explain", good, none]),
        ("capture", ["explain", none]),
        ("capture", ["order", none, "--arrival"]),
        ("capture", ["show", none]),
        ("script", ["make", none]),
    ):
        wanted = Ended(3, b"", f"fault {what} read\n".encode() + why)
        tally.want(f"{words} on a terminal", on_a_terminal(room, *words), wanted)
        tally.want(f"{words} with hints", room.run(*words, "--hints"), wanted)
    tally.want("a yes with hints", room.run("check", good, order, "--hints"), Ended(0, YES, b""))
    tally.want("a yes on a terminal", on_a_terminal(room, "check", good, order), Ended(0, YES, b""))
    found = on_a_terminal(room, "check", room.put("found", FOUND), order, "--start", "zero")
    hint = b"'nbdcheck explain' with the same words says why\n"
    tally.want("a no on a terminal", found, Ended(1, b"no content request 1 offset 0\n", hint))
    found = room.run("check", "--hints", room.put("found", FOUND), order, "--start", "zero")
    tally.want("a no with hints", found, Ended(1, b"no content request 1 offset 0\n", hint))
    hint = b"'nbdcheck explain' with the same words, but for --whole, says why, and of the profile base whether wide has an order\n"
    found = room.run("order", "--hints", room.put("found", FOUND), "--start", "zero", "--whole")
    tally.want("a no of order with hints", found, Ended(1, b"no content request 1 offset 0 in any order\n", hint))
    found = room.run("explain", "--hints", room.put("found", FOUND), "--start", "zero")
    tally.want("what this hint names", (found.status, found.out.split(LF)[0]), (1, b"no content request 1 offset 0 in any order"))


def directories(tally, room):
    """An input that is a directory is named as one."""
    good, order, folder = room.put("good", CAPTURE), room.put("order", b"1\n"), room.path("folder")
    os.mkdir(folder)
    why = f"{folder}: it is a directory\n".encode()
    for what, words in (("capture", ["check", folder, order]), ("order", ["check", good, folder]),
                        ("image", ["check", good, order, "--start", f"image:{folder}"]), ("capture", ["show", folder]),
                        ("contents", ["check", good, order, "--start", f"contents:{folder}"]),
                        ("against", ["contents", good, "--against", folder]),
                        ("script", ["make", folder])):
        tally.want(f"{words} of a folder with hints", room.run(*words, "--hints"), Ended(3, b"", f"fault {what} read\n".encode() + why))
        tally.want(f"{words} of a folder", room.run(*words), fault(f"{what} read"))


def bad_words(tally, room):
    """A start, a profile and a limit that are malformed: what they have to be."""
    good = room.put("good", CAPTURE)
    for words, what, why in (
        (["--start", "image"], "start", b"a start is unknown, zero, or image: or contents: and the path of a file\n"),
        (["--profile", "Wide"], "profile", b"a profile is base or wide\n"),
        (["--steps", "1x"], "limit", b"a limit is a number from 0 to 18446744073709551615\n"),
        (["--steps", "+1"], "limit", b"a limit is a number from 0 to 18446744073709551615\n"),
        (["--states", ""], "limit", b"a limit is a number from 0 to 18446744073709551615\n"),
    ):
        for command in ("order", "explain"):
            told = f"fault {what}\n".encode()
            tally.want(f"{command} {words} with hints", room.run(command, good, *words, "--hints"), Ended(2, b"", told + why))
            tally.want(f"{command} {words}", room.run(command, good, *words), Ended(2, b"", told))


def with_reason(tally, room, name, words, told, reason):
    """A fault of a malformed line, and behind it the reason on a terminal and with hints, and nowhere else."""
    told, reason = told.encode() + LF, reason + LF
    tally.want(f"{name}, on a terminal", on_a_terminal(room, *words), Ended(3, b"", told + reason))
    tally.want(f"{name}, with hints", room.run(*words, "--hints"), Ended(3, b"", told + reason))
    tally.want(name, room.run(*words), Ended(3, b"", told))


def bad_script_lines(tally, room):
    """What is wrong with the line of a script."""
    other, number = b"another field stands here in this message", b"behind = stands a decimal number"
    great = b"the number is greater than its field holds"
    for name, line, what in (
        ("no message", b"C reqest flags=0\n", b"a line begins with the words of a message, as 'C request' or 'S simple'"),
        ("the other side", b"S client-flags flags=0\n", b"a line begins with the words of a message, as 'C request' or 'S simple'"),
        ("no field", b"S greeting\n", other + b", at byte 12 of the line"),
        ("another field", b"S simple cookie=1 error=0 payload=\n", other + b", at byte 10 of the line"),
        ("the second field", b"S simple error=0 flags=1 payload=\n", other + b", at byte 18 of the line"),
        ("no number", b"S greeting flags=\n", number + b", at byte 12 of the line"),
        ("a sign", b"S greeting flags=+1\n", number + b", at byte 12 of the line"),
        ("hexadecimal", b"S simple error=0 cookie=0x1 payload=\n", number + b", at byte 18 of the line"),
        ("a leading zero", b"S greeting flags=03\n", b"a number begins with a zero, at byte 12 of the line"),
        ("above u16", b"S greeting flags=65536\n", great + b", at byte 12 of the line"),
        ("above u64", b"S simple error=0 cookie=18446744073709551616 payload=\n", great + b", at byte 18 of the line"),
        ("no payload", b"S simple error=0 cookie=1\n", b"the last field of this message is payload=, at byte 27 of the line"),
        ("half a byte", b"S simple error=0 cookie=1 payload=abc\n", b"the number of hexadecimal digits is odd, at byte 27 of the line"),
        ("no digit", b"S simple error=0 cookie=1 payload=xx\n",
         b"there is another character than a hexadecimal digit, at byte 27 of the line"),
        ("a word too many", b"S greeting flags=3 more\n", b"behind the last field stands nothing"),
        ("two spaces", b"S greeting  flags=3\n", other + b", at byte 12 of the line"),
        ("a WRITE without its bytes", b"C request flags=0 command=1 cookie=1 offset=0 length=4 payload=\n",
         b"no message has these numbers and this payload"),
        ("a carriage return", b"S greeting flags=3\r\n", b"a carriage return ends the line"),
        ("no line feed", b"S greeting flags=3", b"no line feed ends the line"),
    ):
        bad = room.put("bad", b"S greeting flags=3\n" + line)
        with_reason(tally, room, f"a script, {name}", ["make", bad], "fault script line 2", what)


def bad_capture_lines(tally, room):
    """On a terminal each command says what is wrong with the line of a capture that it names."""
    order = room.put("order", b"1\n")
    for name, line, what in (
        ("half a byte", b"C 0\n", b"the number of hexadecimal digits is odd"),
        ("no digit", b"S 00x1\n", b"there is another character than a hexadecimal digit, at byte 5 of the line"),
        ("no digit at the end", b"S 001x\n", b"there is another character than a hexadecimal digit, at byte 6 of the line"),
        ("digits in groups", b"S 00 01\n", b"there is another character than a hexadecimal digit, at byte 5 of the line"),
        ("a small side", b"c 00\n", b"the side is C or S, and no small letter"),
        ("another side", b"X 00\n", b"a line begins with C or S and one space"),
        ("a side alone", b"C\n", b"behind C or S stands one space"),
        ("no space", b"C00\n", b"behind C or S stands one space"),
        ("two spaces", b"C  00\n", b"behind C or S stands one space"),
        ("a tab", b"S\t00\n", b"behind C or S stands one space"),
        ("a space in front", b" S 00\n", b"the line begins with a space"),
        ("a byte order mark", b"\xef\xbb\xbfC 00\n", b"a byte order mark begins the line"),
        ("a carriage return", b"C 00\r\n", b"a carriage return ends the line"),
        ("no line feed", b"C 00", b"no line feed ends the line"),
    ):
        bad = room.put("bad", CAPTURE + line)
        told = f"fault capture line {CAPTURE.count(LF) + 1}"
        for words in (["check", bad, order], ["explain", bad], ["order", bad], ["contents", bad], ["order", "--arrival", bad], ["show", bad],
                      ["show", "--names", bad]):
            with_reason(tally, room, f"{name}: {' '.join(words[:-1])}", words, told, what)


def bad_order_lines(tally, room):
    """On a terminal `check` and `explain` say what is wrong with the line of an order; of a search's answer they always say so."""
    good = room.put("good", CAPTURE)
    count = b"an entry is one number, or three: a request, an offset and a length"
    space = b"one space stands between two numbers, and no other"
    for name, line, what in (
        ("no digit", b"x\n", b"there is another character than a digit, at byte 1 of the line"),
        ("a sign", b"1 -1 2\n", b"there is another character than a digit, at byte 3 of the line"),
        ("a carriage return", b"1\r\n", b"a carriage return ends the line"),
        ("no line feed", b"1", b"no line feed ends the line"),
        ("nothing", LF, b"the line is empty"),
        ("a leading zero", b"1 00 1\n", b"a number begins with a zero"),
        ("2^64", b"18446744073709551616\n", b"a number is too long: it is 2^64 or more"),
        ("two numbers", b"1 2\n", count),
        ("four numbers", b"1 0 2 3\n", count),
        ("two spaces", b"1  2 3\n", space),
        ("a space in front", b" 1\n", space),
        ("a space behind", b"1 \n", space),
    ):
        bad = room.put("bad", b"1\n" + line)
        for command in ("check", "explain"):
            with_reason(tally, room, f"{command}, {name}", [command, good, bad], "fault order line 2", what)
    for line in (b"no content request 1 offset 0 in any order\n", b"gave up: too many steps at request 1 offset 0\n"):
        bad = room.put("bad", line)
        for command in ("check", "explain"):
            found = room.run(command, good, bad)
            tally.want(f"{command} of a search's answer", found, Ended(3, b"", b"fault order line 1\n" + SEARCHED))
    bad = room.put("bad", b"1\nno order: the session was refused\n")
    tally.want("an answer behind an entry", room.run("check", good, bad), fault("order line 2"))


def bad_contents_lines(tally, room):
    """On a terminal the commands that read contents say what is wrong with the line that they name, by it and by what came before it."""
    good, order = room.put("good", CAPTURE), room.put("order", b"1\n")
    first = b"the first line is size, one space and a number of bytes"
    words = b"a line has a word, an offset, and how many bytes or which, with one space between two"
    kind = b"a line begins with zero, unknown or data and one space"
    digit = b"another character stands in a number than a digit"
    offset = b"a line begins at the offset where the one before ended, the first one at 0"
    ends = b"the text ends before it told all bytes of its size"
    hexadecimal = b"there is another character than a hexadecimal digit"
    for name, number, text, what in (
        ("nothing", 1, b"", ends),
        ("a remark alone", 2, b"# size 8\n", ends),
        ("no size", 1, b"zero 0 8\n", first),
        ("no size behind a remark", 3, b"# of a disk\n\nzero 0 8\n", first),
        ("a size alone", 2, b"size 8\n", ends),
        ("a size of no number", 1, b"size eight\n", digit),
        ("a size without a number", 1, b"size \n", b"one space stands between two numbers, and no other"),
        ("a size of 2^63", 1, b"size 9223372036854775808\n", b"a size is at most 9223372036854775807"),
        ("a size with a zero in front", 1, b"size 08\n", b"a number begins with a zero"),
        ("a second size", 3, b"size 8\nzero 0 4\nsize 8\n", b"the size is told once, before all bytes"),
        ("a byte too few", 5, b"size 8\nzero 0 4\n\ndata 4 010203\n", ends),
        ("a byte too many", 2, b"size 8\nzero 0 9\n", b"the line passes the size"),
        ("a byte of data too many", 3, b"size 8\nunknown 0 7\ndata 7 0102\n", b"the line passes the size"),
        ("behind the size", 4, b"size 8\nzero 0 8\n# all\nzero 8 1\n", b"the line passes the size"),
        ("the first at 1", 2, b"size 8\nzero 1 7\n", offset),
        ("before the end of zeroes", 3, b"size 8\nzero 0 4\nzero 3 5\n", offset),
        ("behind the end of data", 5, b"size 8\ndata 0 0102\n# a remark\n\nunknown 3 5\n", offset),
        ("an offset of 2^64", 2, b"size 8\nzero 18446744073709551616 8\n", b"a number is too long: it is 2^64 or more"),
        ("an offset in hexadecimal", 2, b"size 8\nzero 0x0 8\n", digit),
        ("no byte", 2, b"size 8\nzero 0 0\n", b"a line tells of one byte or more"),
        ("a length with a zero in front", 2, b"size 8\nunknown 0 08\n", b"a number begins with a zero"),
        ("a length of no number", 2, b"size 8\nunknown 0 all\n", digit),
        ("half a byte", 2, b"size 8\ndata 0 012\n", b"the number of hexadecimal digits is odd"),
        ("no digit", 2, b"size 8\ndata 0 0x\n", hexadecimal),
        ("no data", 2, b"size 8\ndata 0 \n", words),
        ("no length", 2, b"size 8\nzero 0\n", words),
        ("two spaces", 2, b"size 8\nzero 0  8\n", words),
        ("a space behind", 2, b"size 8\nzero 0 8 \n", words),
        ("capitals", 2, b"size 8\nZERO 0 8\n", kind),
        ("a space in front", 2, b"size 8\n zero 0 8\n", kind),
        ("a carriage return", 1, b"size 8\r\nzero 0 8\r\n", b"a carriage return ends the line"),
        ("no line feed", 2, b"size 8\nzero 0 8", b"no line feed ends the line"),
    ):
        start = ["--start", f"contents:{room.put('bad', text)}"]
        for words in (["check", good, order], ["explain", good], ["order", good], ["contents", good]):
            told = f"fault contents line {number}"
            with_reason(tally, room, f"contents, {name}: {words[0]}", [*words, *start], told, what)


def looks_of_captures(tally, room):
    """What is said of a capture beside the answer: that its sides are exchanged, or that nothing was recorded."""
    order, none = room.put("order", b"1\n"), room.put("none", b"")
    exchanged = b"the first bytes of C are a server's (NBDMAGIC): C and S are exchanged in this capture\n"
    swapped = CAPTURE.translate(bytes.maketrans(b"CS", b"SC"))
    client, server = sides(swapped)
    pieces = b"".join(b"C %02x\n" % byte for byte in client)
    for name, capture, line in (
        ("one text", swapped, b"no at byte 1: OutOfTurn\n"),
        ("other digits", CAPTURE.translate(bytes.maketrans(b"CSabcdef", b"SCABCDEF")), b"no at byte 1: OutOfTurn\n"),
        ("pieces of a byte", pieces, b"no at byte 1: OutOfTurn\n"),
        ("behind the other side", b"S %s\n" % server.hex().encode() + pieces, b"no at byte 18: BadMagic\n"),
    ):
        other = room.put("other", capture)
        for words in (["check", other, order], ["order", other], ["explain", other], ["show", other], ["contents", other]):
            found = room.run(*words)
            told = found._replace(out=found.out[: len(line)])
            tally.want(f"exchanged sides, {name}: {words[0]}", told, Ended(1, line, exchanged))
        found, wanted = room.run("order", "--arrival", other), b"no order: the session was refused\n" + exchanged
        tally.want(f"exchanged sides, {name}: arrival", found, Ended(1, b"", wanted))
    for name, capture in (("another magic", b"C 4e42444d41474944\n"), ("too short", b"C 4e42444d414749\n"), ("no client", b"S 00\n")):
        found = room.run("check", room.put("other", capture), order)
        tally.want(f"no exchanged sides, {name}", (found.status, found.err), (1, b""))
    yes = b"yes requests 0 answered 0 improper 0\n"
    for words, out in ((["check", none, none], yes), (["explain", none], yes), (["order", none], b""), (["order", "--arrival", none], b""),
                       (["show", none], b"ok\n"), (["contents", none], b"no export\n")):
        name = f"an empty capture: {' '.join(words[:-1])}"
        found = room.run(*words)
        wanted = Ended(int(out.startswith(b"no ")), out, EMPTY)
        tally.want(name, found._replace(out=found.out[: found.out.find(b"\n") + 1]), wanted)
    pipe = room.path("pipe")
    os.mkfifo(pipe)
    other = room.put("other", swapped)
    with subprocess.Popen(["/bin/sh", "-c", 'cat "$1" > "$2"', "sh", other, pipe]):
        tally.want("exchanged sides through a pipe", room.run("check", pipe, order), Ended(1, b"no at byte 1: OutOfTurn\n", b""))


def run(tally):
    with Room() as room:
        for part in (terminals, directories, bad_words, bad_capture_lines, bad_order_lines, bad_script_lines, bad_contents_lines, looks_of_captures):
            part(tally, room)
