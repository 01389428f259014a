"""crates.txt: it may name only crates of the repository, and of ALLOWED."""

import re

from pages import text_of

# The crates of the toolchain, besides std, that the repository depends on.
ALLOWED = {"serde_json"}


def check(top):
    lines = [line.partition(":") for line in re.sub(r"#.*", "", text_of(top / "crates.txt")).splitlines()]
    depends = {name.split()[0]: set(crates.split()) for name, _, crates in lines if name.strip()}
    foreign = sorted(set().union(*depends.values()) - depends.keys() - ALLOWED)
    return len(depends), [f"crates.txt names {crate}, which the repository may not depend on" for crate in foreign]
