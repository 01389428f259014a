"""Must-fail edits: docs/WRONG-BODIES.md must have one line for each, in one of its two lists, and no other line."""

import collections
import re

from pages import text_of

# The sections of the page that list must-fail edits.
EDIT_LISTS = ["What any port may get wrong", "More wrong bodies"]


def check(top):
    sections = dict(re.findall(r"(?ms)^## ([^\n]*)\n(.*?)(?=^## |\Z)", text_of(top / "docs/WRONG-BODIES.md")))
    lines = [line for title in EDIT_LISTS for line in re.findall(r"(?m)^- .*(?:\n  .*)*", sections.get(title, ""))]
    names = [re.findall(r"`(\w+/[^`/\s]+-[^`/\s]+)`", line) for line in lines]
    listed = collections.Counter(name for of_line in names for name in of_line)
    edits = [f"{path.parts[-3]}/{path.stem}" for path in sorted(top.glob("crates/*/must-fail/*.edit"))]
    faults = [f"there is no section {title}" for title in EDIT_LISTS if title not in sections]
    faults += [f"this line names no edit, or several: {line}" for line, of_line in zip(lines, names) if len(of_line) != 1]
    faults += [f"two lines name the edit {name}" for name, count in listed.items() if count > 1]
    faults += [f"no line names the edit {name}" for name in edits if name not in listed]
    faults += [f"there is no edit {name}" for name in listed if name not in edits]
    return len(edits), [f"docs/WRONG-BODIES.md: {fault}" for fault in faults]
