#!/usr/bin/env python3
"""Brings the repository's own definitions and lemmas to the spelling of the toolchain's library: words in snake case.

usage: python3 tools/respell.py    at the top of the repository, once, after the toolchain's own port.py

It goes by text: every .antt and .rt file under crates/, every must-fail edit (under edits/ too) and the pages. Names that begin with a capital,
text in quotes in .rt files, and everything else stay as they are.
"""
import os
import re

WORD = re.compile(r"[A-Za-z_][A-Za-z0-9_'′₀-₉-]*")
COMMENT = re.compile(r"(?:^|(?<=\s))(?:--|//)[^\n]*", re.M)

# Lemmas, constructors and fields that would have the name of a definition or function: the file, the old name, the new one.
APART = [
    ("crates/params/proofs/", "block_in", "block_in_lem"),
    ("crates/params/proofs/", "put_item", "put_item_lem"),
    ("crates/token/proofs/", "first_byte", "first_byte_lem"),
    ("crates/token/proofs/", "is_control", "is_control_lem"),
    ("crates/ranges/proofs/Chain.antt", "is_open", "is_open_lem"),
    ("crates/model/proofs/Stored.antt", "pin_of", "pin_of_lem"),
    ("crates/model/proofs/Told.antt", "tries_of", "tries_of_lem"),
]


def snake(word):
    return re.sub(r"(?<=[a-z0-9])([A-Z])", lambda m: "_" + m.group(1).lower(), word)


def files(folder, ends):
    for here, dirs, names in os.walk(folder):
        dirs[:] = sorted(d for d in dirs if d not in ("out", "target", ".git"))
        for name in sorted(names):
            if name.endswith(ends):
                yield os.path.join(here, name)


def read(path):
    with open(path, encoding="utf-8") as f:
        return f.read()


def turn(text, new, whole):
    """The text with each word that new names written as it says; whole: also in quotes."""
    parts = [text] if whole else re.split(r'("(?:[^"\\\n]|\\.)*")', text)
    for i in range(0, len(parts), 2):
        parts[i] = WORD.sub(lambda m: new.get(m.group(0), m.group(0)), parts[i])
    return "".join(parts)


def main():
    own, dashed = set(), set()
    for path in files("crates", (".antt", ".rt")):
        code = COMMENT.sub("", read(path))
        for word in WORD.findall(code):
            if re.match(r"[a-z]", word) and re.search(r"[a-z0-9][A-Z]", word):
                own.add(word)
        if path.endswith(".antt") and "/specs/" in path:
            # what specs declare: definitions, constructors and fields
            for m in re.finditer(r"^ *(?:(?:abbrev|unfoldable|pub) )*([a-z][a-z0-9]*(?:-[a-z0-9]+)+) (?:\(.*\) )?:", code, re.M):
                dashed.add(m.group(1))
    new = {word: snake(word) for word in own}
    # what port.py has turned already, in the texts that it leaves
    known = {word for path in files("crates", (".antt", ".rt")) for word in WORD.findall(read(path))}
    for path in [*files("crates", ".edit"), *files("edits", ".edit"), *files("docs", ".md"), "README.md"]:
        for word in WORD.findall(read(path)):
            if re.match(r"[a-z]", word) and snake(word) != word and snake(word) in known:
                new[word] = snake(word)
    new.update({word: word.replace("-", "_") for word in dashed})
    new["getD"] = "get_or"  # the library's word, which port.py leaves in the edits
    for path in files("crates", ".antt"):
        for place, old, name in APART:
            if path.startswith(place):
                t = read(path)
                u = WORD.sub(lambda m: name if m.group(0) == old else m.group(0), t)
                if u != t:
                    with open(path, "w", encoding="utf-8") as f:
                        f.write(u)
    pages = [*files("docs", ".md"), "README.md"]
    for path in [*files("crates", (".antt", ".rt", ".edit")), *files("edits", ".edit"), *pages]:
        t = read(path)
        u = turn(t, new, not path.endswith(".rt"))
        if u != t:
            with open(path, "w", encoding="utf-8") as f:
                f.write(u)
    print(f"{len(own)} words in camel case, {len(dashed)} with a dash: {' '.join(sorted(dashed))}")


if __name__ == "__main__":
    main()
