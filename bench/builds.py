"""What the scripts that time our libraries beside Rust's crates share: how they run commands and build our side."""

import os
import pathlib
import subprocess
import sys

sys.path.insert(0, str(pathlib.Path(__file__).resolve().parent.parent / "scripts"))
from sources import TOP, copy_libraries  # noqa: E402


def run(command, folder, given="", **variables):
    """What a command prints, with these variables in its environment. If it fails, so does the script."""
    environment = os.environ | variables
    ended = subprocess.run(
        command, cwd=folder, env=environment, input=given, capture_output=True, text=True, check=False
    )
    if ended.returncode != 0:
        sys.exit(f"{command[0]}: status {ended.returncode}\n{ended.stdout[-3000:]}\n{ended.stderr[-3000:]}")
    return ended.stdout


def new_crate(folder, name, line, elements):
    """Makes the sources of a crate over a copy of the libraries, and returns their folder.

    The libraries are proved here first, so that each copy has what is proved. The crate is to have this line of
    crates.txt, and gets a module `elements` of these enums.
    """
    run(["rt", "lib"], TOP / "crates" / "enumset")
    copy_libraries(folder, line, "incremental")
    sources = folder / "crates" / name / "src"
    sources.mkdir(parents=True, exist_ok=True)
    run([TOP / "bin" / "enumset_derive", name, "elements", "-o", sources / "elements.rt"], folder, elements)
    return sources
