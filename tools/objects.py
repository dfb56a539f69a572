"""The lines that objects of `--json` stand for (docs/json.md)."""

import json

LETTERS = {"client": "C", "server": "S"}


def field(name, value):
    """A field of a line of `show`, in which a cookie is decimal too."""
    return f"{name}={int(value, 16) if name == 'cookie' else value}"


def line_of(told):
    """The line of an object."""
    if "line" in told:
        return told["line"]
    if "text" in told:
        return f"{LETTERS[told['side']]} {told['text']}"
    if "message" in told:
        side, kind, *fields = told.items()
        return " ".join([LETTERS[side[1]], kind[1], *(field(*each) for each in fields)])
    return " ".join(str(number) for number in told.values())


def lines_of(out):
    """What a run would have written without `--json`. Whatever is no object a line is a ValueError, and so is a format that does not
    stand in the first object alone."""
    objects = [json.loads(line) for line in out.decode().splitlines()]
    formats = [told.pop("format", None) for told in objects]
    if formats != [1, *[None] * (len(objects) - 1)][: len(objects)]:
        raise ValueError(f"formats {formats}")
    return "".join(f"{line_of(told)}\n" for told in objects).encode()
