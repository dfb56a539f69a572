"""The rules in crates/nbd_story against docs/nbdcheck.1, which prints them, and against docs/PROFILE.md."""

import re

from built import TOP
from manual import manual, order_rules, rules


def rows():
    """The rows of docs/PROFILE.md's table of faults: a fault's name, who broke the rule, and the sections."""
    page = (TOP / "docs/PROFILE.md").read_text().split("| Fault | Who broke the rule |")[1].split("\n\n")[0]
    found = {}
    for line in page.splitlines()[2:]:
        cells = [cell.strip() for cell in line.strip("|").split("|")]
        name = cells[0] or name
        who, sections = found.setdefault(name, (cells[1], set()))
        sections.update(re.findall(r'"([^"]+)"', cells[5]))
    return found


def run(tally):
    page = (TOP / "docs/nbdcheck.1").read_text()
    tally.holds("the manual page has the rules", manual() in page, "tools/manual.py prints them")
    declared = re.findall(r"^    (\w+),$", (TOP / "crates/nbd_wire/src/fault.rt").read_text(), re.MULTILINE)
    tally.want("each fault has a rule", [rule[0] for rule in rules()], declared)
    verdicts = (TOP / "crates/nbd_wire/src/verdict.rt").read_text()
    of_orders = re.findall(r"^    (\w+),$", verdicts.split("pub enum OrderFault")[1].split("\n}\n")[0], re.MULTILINE)
    tally.want("each fault of an order has a rule", [rule[0] for rule in order_rules()], of_orders)
    profile = rows()
    tally.want("the faults of docs/PROFILE.md", list(profile), declared)
    for fault, breaker, _, section in rules():
        who, sections = profile[fault]
        tally.want(f"who broke {fault}", who.split(",")[0].removeprefix("the "), breaker.removeprefix("the "))
        tally.holds(f"sections of {fault}", sections <= set(re.findall(r'"([^"]+)"', section)), (sections, section))
