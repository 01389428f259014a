"""Links, files and names: each that a page has must exist.

Each link must lead to a file and a heading, a mark or a line. Each file that a page names, and each file of docs/ that a source names,
must exist; in a page a word of PLACEHOLDERS may be any name. Each name with an underscore in a page must be in a file
that is not a page.
"""

import os
import pathlib
import re

from pages import pages_of, text_of

# Names of std and of the Rust crate that are in no file of ours.
ELSEWHERE = {"as_chunks_mut", "split_first_chunk_mut", "for_each", "enum_from_u32_checked"}
ELSEWHERE |= {"rattle_alloc", "rattle_dealloc", "rattle_realloc"}
# Words that stand for any name in the names of files.
PLACEHOLDERS = ["CALL", "CRATE", "FUNCTION", "METHOD", "MODULE", "TYPE", "WRONG"]


def anchors(page):
    """The names by which a link reaches the headings and the marks of a page, or the lines of a source."""
    text = text_of(page)
    if page.suffix != ".md":
        return [f"L{number}" for number, _ in enumerate(text.splitlines(), start=1)]
    headings = re.findall(r"(?m)^#+ (.*)", text)
    names = [re.sub(r"[^\w -]", "", heading.lower()).replace(" ", "-") for heading in headings]
    return names + re.findall(r'<a id="([\w-]+)">', text)


def dead_links(page):
    """The links of a page that lead to no file, or to nothing in it."""
    for link in re.findall(r"\]\((?!https?:)([^)]*)\)", text_of(page)):
        name, _, anchor = link.partition("#")
        target = page.parent / name if name else page
        if not target.exists() or anchor and anchor not in anchors(target):
            yield f"the link {link} leads nowhere"


def files_below(top):
    """The files and folders of the repository, without what rt and git keep."""
    for folder, below, names in os.walk(top):
        below[:] = [name for name in below if name not in (".git", "out")]
        yield from (pathlib.Path(folder, name) for name in below + names)


def missing_names(page, paths, words):
    """The files and the names in the sentences of a page that do not exist."""
    prose = re.sub(r"(?ms)^```.*?^```$", "", text_of(page))
    any_name = re.compile(rf"\b({'|'.join(PLACEHOLDERS)})\b")
    for name in set(re.findall(r"`([^`\n]+)`", prose)):
        if re.fullmatch(r"[\w.+-]+(/[\w.+-]+)+/?|[\w.+-]+\.(rt|antt|md|txt|csv)|[\w.+-]+/", name):
            # A must-fail edit may be named by its crate and itself.
            pattern = any_name.sub("[^/]+", re.escape(name.rstrip("/")).replace("/", "/(must-fail/)?", 1))
            if not re.search(rf"(?m)/{pattern}(\.edit)?$", paths):
                yield f"there is no file {name}"
        elif lost := set(re.findall(r"\b[A-Za-z]\w*_\w+", name)) - words:
            yield f"nothing has the name {lost}"


def check(top):
    files = list(files_below(top))
    paths = "\n".join(f"/{path.relative_to(top)}" for path in files)
    texts = [path.read_text("utf-8", "replace") for path in files if path.is_file() and path.suffix != ".md"]
    words = ELSEWHERE.union(*(re.findall(r"\w+", text) for text in texts))
    pages = pages_of(top)
    faults = [f"{page.relative_to(top)}: {fault}" for page in pages for fault in dead_links(page)]
    faults += [f"{page.relative_to(top)}: {fault}" for page in pages for fault in missing_names(page, paths, words)]
    named = {name for text in texts for name in re.findall(r"\bdocs/[\w./-]*\w", text)}
    faults += [f"a source names {name}, which is not there" for name in sorted(named) if not (top / name).exists()]
    return len(pages), faults
