"""Laws, the public functions of modules `laws`: some code must call each of them."""

import re

from pages import text_of


def check(top):
    files = {path: text_of(path) for path in sorted(top.glob("crates/*/src/**/*.rt"))}
    code = {path: re.sub(r"//.*", "", text) for path, text in files.items()}
    laws = [
        (path, name)
        for path, text in code.items()
        if path.stem == "laws" or path.parent.name == "laws"
        for name in re.findall(r"(?m)^pub fn (\w+)", text)
    ]
    return len(laws), [
        f"{path.relative_to(top)}: nothing calls the law {name}"
        for path, name in laws
        if not any(re.search(rf"(?<!fn )\b{name}(::<[^(]*>)?\(", text) for text in code.values())
    ]
