"""What is wrong, and with what: the first object of `explain`."""

from collections import namedtuple

# By what a no is about, what the picture marks; a no without an order is drawn otherwise than one with it.
KINDS = {"session": "place", "requests": "none"}
# Where there is no order, only a wrong byte of one READ is one that no order explains.
ANY = {"content": "any"}

Verdict = namedtuple("Verdict", "line kind place fault entry requests offset")


def kind_of(told):
    """The kind of a verdict, as the picture has it: also `yes`, and `other` where the search came to no end."""
    if told["verdict"] != "no":
        return "yes" if told["verdict"] == "yes" else "other"
    kind = told["kind"]
    return ANY.get(kind, KINDS.get(kind, kind)) if told.get("any_order") else KINDS.get(kind, kind)


def verdict_of(told):
    requests = told.get("wrong") or ([told["request"]] if "request" in told and told["verdict"] == "no" else [])
    return Verdict(told["line"], kind_of(told), told.get("byte"), told.get("fault"), told.get("entry"), requests, told.get("offset"))
