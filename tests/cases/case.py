"""A case of `check`: what its capture is made of, its order, its start, and its line, as the rules want it."""

from collections import namedtuple

# The start is `zero`, `unknown`, or the bytes of an image. The profile is what stands behind `--profile`; without one the
# option is not given.
Case = namedtuple("Case", "name capture order want start profile", defaults=["zero", None])

# The lines of a session in `base` and in `wide`.
Told = namedtuple("Told", "name records order base wide start")


def at(place, fault="OutOfProfile"):
    return f"no at byte {place}: {fault}\n"


def yes(requests, improper=0):
    return f"yes requests {requests} answered {requests} improper {improper}\n"


def followed(name, records, base, wide, order="", start="zero"):
    """A session with contexts."""
    return Told(name, records, order, base, wide, start)


def cases(told):
    """A session in `wide`, in `base`, and without a profile, which is `base`."""
    for profile, line in (("wide", told.wide), ("base", told.base), (None, told.base)):
        name = f"{told.name}, --profile {profile}" if profile else told.name
        yield Case(name, told.records, told.order, line, told.start, profile)


def upto(count):
    """The order of the requests from 1 to this."""
    return "".join(f"{number}\n" for number in range(1, count + 1))
