"""What scripts/gate/shown-code checks, one kind of statement of the pages in each file.

Each file has a function that returns how many statements it read, and its faults: lines that begin with the page.
"""


def pages_of(top):
    """The pages of the repository."""
    return [
        *(top / name for name in ("README.md", "CALLING.md", "CONTRIBUTING.md")),
        *sorted(top.glob("docs/**/*.md")),
        *sorted(top.glob("crates/*/README.md")),
    ]


def text_of(path):
    return path.read_text(encoding="utf-8")


def table(page, first):
    """The head of the table that begins with a cell, and its rows by their first cells."""
    lines = page.splitlines()
    begins = next((at for at, line in enumerate(lines) if line.startswith(f"| {first}")), None)
    if begins is None:
        return [], {}
    rows = []
    for line in lines[begins:]:
        if not line.startswith("|"):
            break
        rows.append([cell.strip() for cell in line.split("|")[1:-1]])
    head, _, *rows = rows
    return head, {row[0]: row for row in rows}
