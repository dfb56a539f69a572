"""The page of a session: one file with its data, its script and its look, which refers to nothing else."""

import html
import json
import os

HERE = os.path.dirname(os.path.realpath(__file__))
# In the order in which they stand in the page.
SCRIPTS = ("data.js", "view.js", "bars.js", "export.js", "table.js", "header.js", "main.js")


def part(name):
    with open(os.path.join(HERE, name), encoding="ascii") as file:
        return file.read()


def escaped(data):
    """Data as JSON in ASCII, in which nothing ends a script element."""
    text = json.dumps(data, separators=(",", ":"))
    return text.replace("&", "\\u0026").replace("<", "\\u003c").replace(">", "\\u003e")


def page(data, lines):
    """The parts of the page's text, with the line of each message. What a capture holds stands there alone, and in the title."""
    front, rest = part("page.html").split("@data@")
    between, back = rest.split("@lines@")
    yield front.replace("@style@", part("page.css")).replace("@title@", html.escape(data["name"]))
    yield escaped(data)
    yield between
    yield "\n".join(map(escaped, lines))
    yield back.replace("@script@", "\n".join(part(name) for name in SCRIPTS))
