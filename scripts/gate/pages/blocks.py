"""Blocks of code: each must be in a crate, word for word, at any indentation; the gate proves the crates.

They are those of the pages and of the documentation of the crate `enumset`. A block of at most FEW lines may leave out
lines of its file. A block after the line "In Rust:" is in no crate, and pages that a script writes are not read.
"""

import re

from pages import pages_of, text_of

FEW = 5


def shown(text):
    """The blocks of code of a page: where each begins, and what it says."""
    if text.startswith("<!-- scripts/"):
        return
    for block in re.finditer(r"^```(?:rust|antt)\n(.*?)^```$", text, re.DOTALL | re.MULTILINE):
        before = text[: block.start()].rstrip()
        if not before.endswith("In Rust:"):
            yield before.count("\n") + 3, block.group(1)


def unindented(text):
    return "".join(line.lstrip() for line in text.splitlines(keepends=True))


def has_block(source, block):
    """Whether an unindented source has the block, at any indentation."""
    block = unindented(block)
    lines, rest = block.splitlines(), iter(source.splitlines())
    return block in source or len(lines) <= FEW and all(line in rest for line in lines)


def check(top):
    sources = [
        unindented(text_of(path))
        for folder in ("src", "specs", "proofs")
        for path in top.glob(f"crates/*/{folder}/**/*")
        if path.suffix in (".rt", ".antt")
    ]
    blocks = [(page, line, block) for page in pages_of(top) for line, block in shown(text_of(page))]
    library = top / "crates/enumset/src/lib.rt"
    documentation = re.sub(r"(?m)^//! ?", "", text_of(library))
    blocks += [(library, line, block) for line, block in shown(documentation)]
    return len(blocks), [
        f"{page.relative_to(top)}:{line}: this code is in no crate"
        for page, line, block in blocks
        if not any(has_block(source, block) for source in sources)
    ]
