"""Tests: docs/TRUST.md must have the numbers of tests, of must-fail edits and of stored replies of the Rust crate."""

import re

from pages import text_of


def replies_of_rust(top):
    """How many stored replies of runs come from the Rust crate."""
    count = 0
    for path in top.glob("crates/enumset_run/transcripts/*.txt"):
        head, _, runs = text_of(path).partition("\n\n")
        if head.startswith("# Replies of the Rust crate"):
            left_out = r"compare .*" if "recorder's own" in head else r"-"
            count += len(re.findall(rf"(?m)^(?!{left_out})\w.* -> (?!K\d)", runs))
    return count


def check(top):
    page = text_of(top / "docs/TRUST.md")
    tests = sum(text_of(path).count("#[test]") for path in top.glob("crates/*/src/**/*.rt"))
    edits = len(list(top.glob("crates/*/must-fail/*.edit")))
    rows = (f"| {tests} tests |", f"| {edits} |", f"| {replies_of_rust(top):,} |")
    return tests, [f"docs/TRUST.md: no row ends in {row}" for row in rows if row not in page]
