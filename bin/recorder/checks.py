"""Files that the command line names: what is wrong with them is told before a client is run."""

import errno
import os
import stat

from .room import Stopped


def refuse(word, path, number):
    raise Stopped(f"{word}{path}: {os.strerror(number)}") from None


def check_readable(word, path):
    try:
        mode = os.stat(path).st_mode
    except OSError as error:
        refuse(word, path, error.errno)
    if stat.S_ISDIR(mode):
        refuse(word, path, errno.EISDIR)
    if not os.access(path, os.R_OK):
        refuse(word, path, errno.EACCES)
    if not stat.S_ISREG(mode) and not stat.S_ISBLK(mode):
        raise Stopped(f"{word}{path}: it is no regular file, and is read once for each connection")


def refuse_twice(parser, *paths):
    """Refuses, as malformed words, a pipe or the like that several of these paths name: the second input would be empty."""
    found, empty = [], os.stat(os.devnull)
    for path in paths:
        try:
            told = os.stat(path)
        except (OSError, ValueError):
            continue
        if stat.S_ISREG(told.st_mode) or os.path.samestat(told, empty):
            continue
        if any(os.path.samestat(told, other) for other in found):
            name = path if path.isprintable() else repr(path)
            parser.error(f"{name}: it is named twice, and what is no regular file can be read once")
        found.append(told)


def opened(path):
    """The file behind a name of one of this program's own, as /dev/stdin, which is not nbdcheck's."""
    return os.path.realpath(path) if path.startswith(("/dev/", "/proc/")) else path


def empty(path):
    """Makes a report's file, or empties it, so that an earlier report is not taken for this one."""
    if os.path.exists(path) and not os.path.isfile(path) and not os.path.isdir(path):
        return
    try:
        with open(path, "w"):
            pass
    except OSError as error:
        refuse("--report ", path, error.errno)


def check_files(words):
    """Refuses a start or an order that cannot be read, and a report that cannot be written; the words as nbdcheck gets them."""
    kind, colon, path = words.start.partition(":")
    if colon:
        check_readable(f"--start {kind}:", path)
        words = words._replace(start=f"{kind}:{opened(path)}")
    if words.order is not None:
        check_readable("--order ", words.order)
        words = words._replace(order=opened(words.order))
    if words.report is not None:
        empty(words.report)
    return words
