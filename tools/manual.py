#!/usr/bin/env python3
"""tools/manual.py: prints the section FAULTS of docs/nbdcheck.1, made of the rules in crates/nbd_story."""

import re
import textwrap
from pathlib import Path

TOP = Path(__file__).resolve().parent.parent
TEXT = r'"((?:[^"\\]|\\[\s\S])*)"'
BREAKERS = {"Client": "the client", "Server": "the server", "Sender": "the sender", "Nobody": "nobody"}


def source():
    return (TOP / "crates/nbd_story/src/rules.rt").read_text()


def unquoted(text):
    return text.replace('\\"', '"')


def breakers():
    """Who broke the rule of a wire fault; the server, where the function does not name the fault."""
    body = function("breaker_of")
    found = {}
    for faults, breaker in re.findall(r"((?:\|?\s*WireFault::\w+\s*)+)=>\s*(?:\{\s*)?Breaker::(\w+)", body):
        found.update({fault: BREAKERS[breaker] for fault in re.findall(r"WireFault::(\w+)", faults)})
    return found


def function(name):
    return source().split(f"fn {name}(")[1].split("\n}\n")[0]


def table(name):
    """Each fault of a table, its rule, and where it stands."""
    choice = unquoted(re.search(rf"const CHOICE: &str = {TEXT}", source())[1])
    rows = unquoted(re.search(rf"const {name}: &str = {TEXT}", source())[1]).removeprefix("\\\n").split("\n\n")
    return [(*rule.split(": ", 1), section or choice) for rule, _, section in (row.partition("\n") for row in rows)]


def rules():
    """Each wire fault, who broke its rule, the rule and its section."""
    broke = breakers()
    return [(fault, broke.get(fault, "the server"), sentence, section) for fault, sentence, section in table("WIRE")]


def order_rules():
    return [(fault, sentence) for fault, sentence, _ in table("ORDER")]


def manual():
    """The section of the manual page."""
    lines = [".SH FAULTS", "Each fault, who broke the rule", ".RB ( explain",
             "says where it is nobody after all), the rule, and where it stands."]
    for fault, breaker, sentence, section in rules():
        lines += [".TP", f'.BR {fault} " (' + breaker + ')"', *textwrap.wrap(sentence, 120), ".br", section]
    lines.append(".PP")
    lines.append("Of an order:")
    for fault, sentence in order_rules():
        lines += [".TP", f".B {fault}", *textwrap.wrap(sentence, 120)]
    return "\n".join(lines) + "\n"


if __name__ == "__main__":
    print(manual(), end="")
