"""Files of specs/: what their first lines and docs/CLAIM.md say of them.

Each term in the list that begins a file must be defined in this file, or be a file of the folder with its name. Of each
file that the table in docs/CLAIM.md names, the number there must be that of its lines without comments and imports.
"""

import re

from pages import text_of


def missing_terms(path):
    """The terms that the list at the beginning of a file of specs/ has, and the file neither defines nor passes on."""
    head, *rest = re.split(r"(?m)^(?=(?:unfoldable )?(?:pub )?use )", text_of(path), maxsplit=1)
    body = "".join(rest)
    groups = re.findall(r"(?m)^(?:unfoldable )?pub use [^{]*\{(.*)\}", body)
    passed_on = {name for group in groups for name in group.split(", ")}
    rows = re.findall(r"^--     (\S.*?)      ", head, re.MULTILINE)
    terms = [term for row in rows for term in re.split(r",\s*", row) if ".." not in term and " " not in term]
    return [
        term
        for term in terms
        if term not in passed_on
        and not re.search(rf"(?m)^(?:[a-z]+ )*{re.escape(term)}(?![\w-])|^ +(?:\| )?{re.escape(term)}(?![\w-])", body)
        and not (path.with_suffix("") / f"{term}.antt").exists()
    ]


def wrong_counts(top):
    """The files of specs/ of which docs/CLAIM.md does not have the number of lines of definitions."""
    for name, count in re.findall(r"(?m)^\| `([\w/]+\.antt)`.*\| (\d+) \|$", text_of(top / "docs/CLAIM.md")):
        lines = text_of(top / name).splitlines()
        here = sum(not re.match(r"\s*(--|$)|(pub |unfoldable )*use ", line) for line in lines)
        if here != int(count):
            yield f"{name} has {here} lines of definitions"


def check(top):
    specs = sorted(top.glob("crates/*/specs/**/*.antt"))
    faults = [f"docs/CLAIM.md: {fault}" for fault in wrong_counts(top)]
    faults += [f"{path.relative_to(top)}: it does not define {term}" for path in specs for term in missing_terms(path)]
    return len(specs), faults
