"""Reads the sources of the crates: the items of a file, with their sentences and clauses, and their paths.

The scripts that write pages use it. It finds modules by what `lib.rt` declares, and items by what the files say. For
scripts that check or time code over the libraries it also copies them to another repository.
"""

import pathlib
import re
import shutil
from dataclasses import dataclass, field

TOP = pathlib.Path(__file__).resolve().parent.parent
LIBRARIES = ["enumset_repr", "enumset_array", "enumset_sets", "enumset_mixed", "enumset"]
# The crates whose functions are the cookbook.
COOKBOOK = ["example_rights", "example_set_facts"]
KIND = re.compile(
    r"(?P<ghost>ghost )|(?P<shown>pub(?:\((?:crate|super)\))? )?(?:(?:final|const|unsafe) (?=[\w ]*fn ))*"
    r"(?P<kind>(?:fn|struct|enum|trait|const|type|impl|mod|use)\b|macro_rules!)"
)
# The kinds of items that a path can name.
NAMED = ("fn", "struct", "enum", "trait", "const", "type")


@dataclass
class Item:
    """An item of a file: a function, a type, a trait, an impl, a macro, a module, an import, or a ghost member."""

    kind: str
    name: str
    is_public: bool
    doc: str
    attributes: list
    # The text without sentences, attributes and body, as it is in the file.
    head: str
    # The whole text, with its body.
    text: str
    members: list = field(default_factory=list)
    # Where it is: the crate, and the names of the modules; and the line of its file.
    module: tuple = ()
    line: int = 0

    @property
    def first_sentence(self):
        """The first sentence of what is said of it."""
        return first_sentence(self.doc)


def anchor(heading):
    """The name by which a link reaches a heading."""
    return re.sub(r"[^\w -]", "", heading.lower()).replace(" ", "-")


def first_sentence(text):
    """The first sentence of a text, on one line, without its full stop."""
    paragraph = " ".join(text.strip().split("\n\n")[0].split())
    return re.split(r"(?<=[a-z0-9`)\]])[.] (?=[A-Z`\[])", paragraph)[0].removesuffix(".")


def masked(text):
    """The text with spaces for comments, strings and characters, in which brackets match."""
    hide = re.compile(r"//[^\n]*|\"(?:\\.|[^\"\\])*\"|'(?:\\.|[^'\\\n])'", re.S)
    return hide.sub(lambda found: re.sub(r"[^\n]", " ", found[0]), text)


def balanced(text, start):
    """Where the bracket that opens at a place of a masked text closes."""
    depth = 0
    for found in re.compile(r"[([{]|[)\]}]").finditer(text, start):
        depth += 1 if found[0] in "([{" else -1
        if depth == 0:
            return found.start()
    raise ValueError(text[start : start + 80])


def past(text, place, stops):
    """The first index from here on at which a stop is outside of round and square brackets."""
    while not re.match(stops, text[place:]):
        place = balanced(text, place) + 1 if text[place] in "([" else place + 1
    return place


def without_margin(text):
    """A text without the spaces that all its lines after the first begin with."""
    lines = text.split("\n")
    margin = min((len(line) - len(line.lstrip()) for line in lines if line.strip()), default=0)
    return "\n".join(line[margin:] for line in lines)


def ends_of(code, place, kind):
    """Where the head of an item ends, and where the item ends."""
    if kind in ("const", "type", "use", "ghost"):
        while code[place] != ";":
            place = balanced(code, place) + 1 if code[place] in "([{" else place + 1
        return place + 1, place + 1
    if kind == "macro_rules!":
        end = balanced(code, code.index("{", place)) + 1
        return end, end
    place = past(code, place, r"\s(?:requires|ensures|ghost)\s|\s?\{|;")
    while clause := re.match(r"\s*(?:requires|ensures|ghost)\s+\w*:?\s*\{", code[place:]):
        place = balanced(code, place + clause.end() - 1) + 1
    head = place
    place += re.match(r"\s*", code[place:]).end()
    return head, (balanced(code, place) if code[place] == "{" else place) + 1


def clauses_of(head):
    """The signature of a call, and its clauses: each its kind, its name and what it says."""
    code = masked(head)
    place = past(code + ";", 0, r"\s(?:requires|ensures)\s|;")
    signature, clauses = head[:place], []
    while clause := re.match(r"\s*(requires|ensures)\s+(\w*)\s*\{", code[place:]):
        opening = place + clause.end() - 1
        place = balanced(code, opening) + 1
        clauses.append((clause[1], clause[2], head[opening + 1 : place - 1].strip()))
    return signature, clauses


def above(lines, number):
    """The sentences and the attributes in the lines above a line, from the last blank line or item on."""
    doc, attributes = [], []
    while number > 0 and (line := lines[number - 1].strip()).startswith(("//", "#[", "#![")):
        number -= 1
        if line.startswith("#["):
            attributes.insert(0, line)
        elif not line.startswith("//!"):
            doc.insert(0, re.sub(r"^///? ?", "", line))
    return "\n".join(doc), attributes


def items_in(text, indent=0, module=(), lines=0):
    """The items of a text at this depth of indentation, which is after so many lines of its file."""
    code = masked(text)
    items = []
    ended = 0
    for line in re.finditer(rf"(?m)^ {{{indent}}}(?=\S)", code):
        begins = line.end()
        found = KIND.match(code, begins)
        if begins < ended or not found:
            continue
        kind = "ghost" if found["ghost"] else found["kind"]
        start = found.end() if kind == "ghost" else found.start("kind")
        head_end, ended = ends_of(code, found.end(), kind)
        name = re.sub(r"\s+", " ", code[start:head_end]).strip()
        if kind == "use":
            name = name.removeprefix("use ").removesuffix(";")
        elif kind != "impl":
            whole = f"ghost {name}" if kind == "ghost" else name
            name = re.match(r"(?:(?:const )?fn |macro_rules! |\w+ )?(\w+)", whole)[1]
        number = text[:begins].count("\n")
        doc, attributes = above(text[:begins].splitlines() or [""], number)
        whole = without_margin(" " * indent + text[begins:ended])
        head = without_margin(" " * indent + text[begins:head_end])
        is_public = (found["shown"] or "").strip() == "pub"
        item = Item(kind, name, is_public, doc, attributes, head, whole, module=module, line=lines + number + 1)
        if kind in ("trait", "impl"):
            opening = code.index("{", head_end)
            before = lines + text[: opening + 1].count("\n")
            item.members = items_in(text[opening + 1 : ended - 1], indent + 4, module, before)
        items.append(item)
    return items


@dataclass
class Module:
    """A module: its path, its title, its items, the modules below it, and what it hands on."""

    path: tuple
    title: str
    is_public: bool
    file: pathlib.Path
    items: list
    below: dict
    # For each name that is handed on: the path that it comes from.
    handed_on: dict


def names_used(path):
    """The names that an import brings, each with the path that it comes from."""
    path = path.strip()
    if group := re.match(r"(.*?)::\{(.*)\}$", path, re.S):
        for part in re.split(r",\s*(?![^{]*\})", group[2].strip().rstrip(",")):
            yield from names_used(f"{group[1]}::{part}")
        return
    path, _, other = path.partition(" as ")
    segments = tuple(path.split("::"))
    yield other or segments[-1], segments


def module_at(path, file, is_public):
    """The module in a file, with those below it."""
    text = file.read_text(encoding="utf-8")
    title = re.match(r"//! ?(.*(?:\n//! ?.*)*)", text)
    items = items_in(text, 0, path)
    folder = file.parent if file.stem in ("lib", "main") else file.with_suffix("")
    below = {}
    for item in items:
        if item.kind == "mod" and (folder / f"{item.name}.rt").exists():
            below[item.name] = module_at((*path, item.name), folder / f"{item.name}.rt", item.is_public)
    handed_on = {}
    for item in items:
        if item.kind == "use" and item.is_public:
            handed_on |= dict(names_used(item.name))
    said = re.sub(r"\n//! ?", "\n", title[1]) if title else ""
    return Module(path, said, is_public, file, items, below, handed_on)


def crate_of(name):
    """The root module of a crate."""
    source = TOP / "crates" / name / "src"
    root = source / "lib.rt"
    return module_at((name,), root if root.exists() else source / "main.rt", True)


def all_modules(module):
    """A module and those below it, in the order in which they are declared."""
    yield module
    for other in module.below.values():
        yield from all_modules(other)


def declared(module, name):
    """The item of this name that a module declares, or None."""
    return next((item for item in module.items if item.kind in NAMED and item.name == name), None)


def looked_up(crates, module, segments):
    """What a path means in a module: an item, a module, or None if it is of no crate here."""
    here = module
    segments = list(segments)
    if segments[0] == "crate":
        here = crates[module.path[0]]
        segments = segments[1:]
    elif segments[0] == "super":
        here = crates[module.path[0]]
        for name in module.path[1:-1]:
            here = here.below[name]
        segments = segments[1:]
    elif segments[0] in crates:
        here = crates[segments[0]]
        segments = segments[1:]
    for place, name in enumerate(segments):
        if name in here.below:
            here = here.below[name]
        elif found := declared(here, name):
            return found
        elif name in here.handed_on:
            found = looked_up(crates, here, here.handed_on[name])
            if not isinstance(found, Module):
                return found
            here = found
        else:
            return None
    return here


def reached(crates, module, path=None):
    """Each public item that a path from a module reaches: the path, and the item."""
    path = path or module.path
    for item in module.items:
        if item.kind in NAMED and item.is_public:
            yield (*path, item.name), item
    for name, segments in module.handed_on.items():
        found = looked_up(crates, module, segments)
        if isinstance(found, Module):
            yield from reached(crates, found, (*path, name))
        elif found:
            yield (*path, name), found
    for name, below in module.below.items():
        if below.is_public:
            yield from reached(crates, below, (*path, name))


def macros_of(module):
    """The macros that a crate exports."""
    for each in all_modules(module):
        for item in each.items:
            if item.kind == "macro_rules!" and "#[macro_export]" in item.attributes:
                yield item


def outside_angles(text):
    """The signs of a text outside of angle brackets, each with its place. A bracket that closes counts too."""
    depth = 0
    for place, sign in enumerate(text):
        if sign == "<":
            depth += 1
        elif sign == ">" and text[place - 1] not in "-=":
            depth -= 1
        if depth == 0:
            yield place, sign


def head_of(text):
    """The first lines of a file of specs/, up to its imports."""
    return re.split(r"(?m)^(?!--)", text, maxsplit=1)[0]


def head_rows(text):
    """What the first lines of a file of specs/ say of its terms: the terms of each row, and what they mean.

    A row that goes back to the one before it, as by "the same", is joined with it.
    """
    rows = []
    for row in re.findall(r"(?m)^--     (\S.*(?:\n--         .*)*)", head_of(text)):
        terms, _, meaning = re.sub(r"\n--         ", " ", row).partition("      ")
        terms, meaning = terms.split(", "), re.sub(r"\s+", " ", meaning).strip()
        if rows and re.search(r"^the same\b|\bthat number\b|\b(is|returns) that\b", meaning):
            before, said = rows.pop()
            terms, meaning = before + terms, f"{said}; {meaning}"
        rows.append((terms, meaning))
    return rows


def declaring_modules(module):
    """The names that a file of specs/ passes on, each with the module that declares it."""
    _, crate, _, *names = module.split(".")
    path = TOP / "crates" / crate / "specs" / ("/".join(names) + ".antt")
    found = {}
    for other, group in re.findall(r"(?m)^(?:unfoldable )?pub use (Rattle[\w.]+)\.\{([^}]*)\}", path.read_text(encoding="utf-8")):
        further = declaring_modules(other) if other.split(".")[1] in LIBRARIES else {}
        found |= {name: further.get(name, other) for name in group.split(", ")}
    return found


def library_names():
    """The names of the calls of the libraries, and of their macros, each of these with its `!`."""
    crates = {name: crate_of(name) for name in LIBRARIES}
    names = {path[-1] for path, item in reached(crates, crates["enumset"]) if item.kind == "fn"}
    for crate in crates.values():
        names |= {f"{item.name}!" for item in macros_of(crate)}
        for module in all_modules(crate):
            for item in module.items:
                names |= {m.name for m in item.members if item.kind in ("impl", "trait") and m.kind == "fn"}
    return names


def copy_libraries(folder, line, *left_out):
    """Copies the libraries, without files of these names, to a repository in a folder.

    A further crate there is to have this line of crates.txt.
    """
    for crate in LIBRARIES:
        copy = folder / "crates" / crate
        shutil.rmtree(copy, ignore_errors=True)
        shutil.copytree(TOP / "crates" / crate, copy, ignore=shutil.ignore_patterns(*left_out))
    lines = (TOP / "crates.txt").read_text(encoding="utf-8").splitlines()
    kept = [each for each in lines if each.split(":")[0] in LIBRARIES]
    (folder / "crates.txt").write_text("\n".join([*kept, line]) + "\n", encoding="utf-8")
