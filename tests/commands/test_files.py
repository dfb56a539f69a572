"""Files and outputs of the built program: which file is opened when, what cannot be read or written, and what is too large."""

import os
import subprocess
import time

from built import PROGRAM, Ended, Room
from commands.said import CAPTURE, SCRIPT, YES, fault
from messages import begun, text, write

# A line of 32 MiB, and the same message in a script.
LONG = text(begun() + [write(1, 0, bytes(1 << 24))])
LONG_SCRIPT = b"C option id=3 payload=" + b"00" * (1 << 24) + b"\n"


def files(tally, room):
    """Files that cannot be opened, folders, and which comes first."""
    good, order, bad = room.put("good", CAPTURE), room.put("order", b"1\n"), room.put("bad", b"C 0\n")
    none, folder, image = room.path("none"), room.folder, "image:" + room.path("none")
    of_folder = f"image:{folder}"
    for capture, numbers, start, what in (
        (none, none, image, "capture read"),
        (none, order, "zero", "capture read"),
        (folder, order, "zero", "capture read"),
        (good, none, image, "order read"),
        (good, folder, "zero", "order read"),
        (good, order, image, "image read"),
        (good, order, of_folder, "image read"),
        # All are opened before any is read.
        (bad, none, "zero", "order read"),
        (bad, order, image, "image read"),
        (folder, none, "zero", "order read"),
        (good, folder, image, "image read"),
        # The capture is read first, then the order, then the image.
        (bad, folder, of_folder, "capture line 1"),
        (folder, folder, of_folder, "capture read"),
        (good, folder, of_folder, "order read"),
        (good, bad, of_folder, "order line 1"),
    ):
        found = room.run("check", capture, numbers, "--start", start)
        tally.want(f"check {capture} {numbers} {start}", found, fault(what))
    for path in (none, folder):
        tally.want(f"show {path}", room.run("show", path), fault("capture read"))
        tally.want(f"make {path}", room.run("make", path), fault("script read"))


def outputs(tally, room):
    """An output that takes nothing."""
    full, tried = fault("write"), (("check", room.check(CAPTURE, b"1\n", stdout="/dev/full")),
                                   ("show", room.show(CAPTURE, stdout="/dev/full")),
                                   ("make", room.make(SCRIPT, stdout="/dev/full")),
                                   ("help", room.run("check", "--help", stdout="/dev/full")))
    for name, found in tried:
        tally.want(f"{name} to a full device", found, full)


def memory(tally, room):
    """Too little memory for an input of 32 MiB."""
    capture, order, script = room.put("capture", LONG), room.put("order", b""), room.put("script", LONG_SCRIPT)
    for asked in (["check", capture, order], ["show", capture], ["make", script]):
        limited = ["-c", 'ulimit -v 24576; exec "$@"', "sh", PROGRAM, *asked]
        found = room.run(*limited, program="/bin/sh")
        tally.want(f"{asked[0]} in 24 MiB", found, fault("memory", 4))
    image, size = room.path("large"), 1 << 28
    small, one = room.put("small", CAPTURE), room.put("one", b"1\n")
    with open(image, "wb") as file:
        file.truncate(size)
    asked = ["check", small, one, "--start", f"image:{image}"]
    found = room.run("-c", 'ulimit -v 24576; exec "$@"', "sh", PROGRAM, *asked, program="/bin/sh")
    tally.want("an image of 256 MiB in 24 MiB", found, Ended(1, f"no image {size} size 8\n".encode(), b""))


def images(tally, room):
    """Images of other sizes than the export's: a regular file's size is asked for, a pipe is read; none has more than 2^40 bytes."""
    capture, order, image = room.put("capture", CAPTURE), room.put("order", b"1\n"), room.path("image")
    refused = room.put("refused", b"S 00\n")
    for size in (7, 9, 20 << 30, 1 << 40, (1 << 40) + 1):
        # What may have so large a file depends on the folder's file system.
        try:
            with open(image, "wb") as file:
                file.truncate(size)
        except OSError:
            continue
        answer, start = Ended(1, f"no image {size} size 8\n".encode(), b""), ("--start", f"image:{image}")
        unfinished = Ended(1, b"no at byte 1: Unfinished\n", b"")
        if size > 1 << 40:
            answer = unfinished = fault("image read")
            why = f"fault image read\n{image}: it has more than 1099511627776 bytes, the most that an input may have\n".encode()
            tally.want("check, an image that is too large, with hints", room.run("check", capture, order, *start, "--hints"), Ended(3, b"", why))
        began = time.monotonic()
        tally.want(f"check, an image of {size} bytes", room.run("check", capture, order, *start), answer)
        tally.want(f"order, an image of {size} bytes", room.run("order", capture, *start), answer)
        explained = room.run("explain", capture, order, *start)
        tally.want(f"explain, an image of {size} bytes", (explained.status, explained.out[: len(answer.out)], explained.err), answer)
        tally.want(f"refused, an image of {size} bytes", room.run("check", refused, order, *start), unfinished)
        tally.holds(f"an image of {size} bytes is not read", time.monotonic() - began < 5)
    os.mkfifo(room.path("fifo"))
    with subprocess.Popen(["/bin/sh", "-c", 'head -c 100000 /dev/zero > "$1"', "sh", room.path("fifo")]):
        found = room.run("check", capture, order, "--start", f"image:{room.path('fifo')}")
        tally.want("an image from a pipe", found, Ended(1, b"no image 100000 size 8\n", b""))


def pipes(tally, room):
    """A pipe is one input, under whatever name: where another names it too, that is a fault of the other. Two pipes are two inputs."""
    capture, order = room.put("capture", CAPTURE), room.put("order", b"1\n")
    # What writes to a pipe may find that the program has ended.
    recorded, ordered = (f"cat {path} 2>/dev/null" for path in (capture, order))
    for words, what in (
        ("check /dev/stdin /dev/stdin", "order"),
        ("check /dev/stdin /dev/fd/0", "order"),
        (f"check /dev/stdin {order} --start image:/dev/stdin", "image"),
        (f"check /dev/stdin {order} --start contents:/proc/self/fd/0", "contents"),
        ("explain /dev/stdin /dev/stdin", "order"),
        ("order /dev/stdin --start image:/dev/stdin", "image"),
        ("contents /dev/stdin --against /dev/stdin", "against"),
    ):
        found = room.run("-c", f"{recorded} | {PROGRAM} {words}", program="/bin/bash")
        tally.want(f"{words} of a pipe", found, fault(f"{what} read"))
    found = room.run("-c", f"{recorded} | {PROGRAM} check /dev/stdin /dev/stdin --hints", program="/bin/bash")
    why = b"fault order read\n/dev/stdin: it is a pipe that another input is read from, and can be read once\n"
    tally.want("a pipe named twice, with hints", found, Ended(3, b"", why))
    for words in (f"/dev/stdin {order}", f"{capture} <({ordered})", f"<({recorded}) <({ordered})", f"/dev/stdin <({ordered})"):
        found = room.run("-c", f"{recorded} | {PROGRAM} check {words} --start zero", program="/bin/bash")
        tally.want(f"check {words}", found, Ended(0, YES, b""))
    found = room.run("-c", f"{PROGRAM} check /dev/stdin /dev/stdin <{capture}", program="/bin/bash")
    tally.want("a regular file named twice", found, fault("order line 1"))
    tally.want("no bytes twice", room.run("check", "/dev/null", "/dev/null"), Ended(0, b"yes requests 0 answered 0 improper 0\n", b""))


def run(tally):
    with Room() as room:
        for part in (files, outputs, memory, images, pipes):
            part(tally, room)
