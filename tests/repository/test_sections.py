"""The sections of proto.md that the program, its texts, the pages and the comments of the sources name: each is a heading of proto.md.

headings.txt has these headings, those of nbd 3.26.1. A name is a text in quotation marks that begins with a capital letter and a small one,
unless it is a heading of the page itself ("Contents" below) or of a page that stands before it (docs/PROFILE.md, "Contents").
"""

import re

from built import TOP

PAGES = ("README.md", "CONTRIBUTING.md", *(f"docs/{name}" for name in (
    "CHAINS.md", "DECISIONS.md", "DEFINITIONS.md", "GLOSSARY.md", "ORDER.md", "PERFORMANCE.md", "PROFILE.md", "RECORDING.md", "THEOREMS.md")))
# What quotation marks hold that is no section: the words that mark a choice.
WORDS = {"This project's choice"}
NAMED = re.compile(r"(?P<page>\w+/\w+\.md, )?\"(?P<name>[A-Z][a-z][^\"]*)\"(?P<here>,? (?:below|above))?")
# What the program says of where a rule stands.
STANDS = re.compile(r'proto\.md, ("[^"\n]+"(?:, "[^"\n]+")*)')
COMMENT = re.compile(r"\s*(?:--|//[/!]?) ?")


def headings(page):
    """The headings of a page of this repository."""
    return set(re.findall(r"(?m)^#+ (.*)$", (TOP / page).read_text()))


def in_one_line(text):
    return re.sub(r"\s+", " ", text)


def unknown(text, known, own):
    """The names in a text that are no section of proto.md, nor of the page that is named, or of the text itself."""
    for found in NAMED.finditer(in_one_line(text)):
        there = headings(found["page"][:-2]) if found["page"] else own if found["here"] else known
        if found["name"] not in there | WORDS:
            yield found["name"]


def comments(path):
    """The comments of a source, as one text."""
    lines = path.read_text().split("\n")
    return "\n".join(COMMENT.sub("", line, count=1) for line in lines if COMMENT.match(line))


def stated(path):
    """The sections in what a source, the manual page or `explain` says of where a rule stands."""
    return [name for names in STANDS.findall(path.read_text().replace('\\"', '"')) for name in re.findall(r'"([^"]+)"', names)]


def run(tally):
    known = set((TOP / "tests/repository/headings.txt").read_text().splitlines())
    for page in PAGES:
        tally.want(f"sections in {page}", list(unknown((TOP / page).read_text(), known, headings(page))), [])
    for crate in sorted((TOP / "crates").iterdir()):
        sources = [*crate.glob("specs/**/*.antt"), *crate.glob("proofs/**/*.antt"), *crate.glob("src/**/*.rt")]
        wrong = [(str(path.relative_to(TOP)), name) for path in sorted(sources) for name in unknown(comments(path), known, set())]
        tally.want(f"sections in the comments of {crate.name}", wrong, [])
    said = [TOP / "crates/nbd_story/src/rules.rt", TOP / "docs/nbdcheck.1",
            *sorted((TOP / "tests/explain/explained").glob("*.txt")), *sorted((TOP / "examples").glob("*.why"))]
    for path in said:
        tally.want(f"sections in {path.relative_to(TOP)}", [name for name in stated(path) if name not in known], [])
    tally.holds("sections that the rules name", len(set(stated(said[0]))) > 10, stated(said[0]))
