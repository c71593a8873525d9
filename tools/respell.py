#!/usr/bin/env python3
"""Respells the repository's own antt names: words in snake case, types and facts in camel case.

Usage: python3 tools/respell.py, at the top, after the kit's port.py, once.

A name of our own is one with a dash that is defined here and not imported from the library, or that stands in a specs/ file
or in a lemma file right in proofs/ and is none of the library's. Names that the prover makes from the code stay as they are.
"""

import os
import re
import sys

KIT = "/opt/rattle/rattle"
WORD = r"[^\W\d][\w']*(?:-[\w']+)+"
TOKEN = re.compile(rf"(?<![\w'\-]){WORD}(?![\w'\-])")
LOCAL = re.compile(rf"^\s*(?:abbrev |pub |unfoldable )*({WORD}) :(?! goal\.)")
MADE = ("Answers.antt", "Invariants.antt")


def text_of(path):
    with open(path, encoding="utf-8", errors="replace") as f:
        return f.read()


def files(top, endings):
    for folder, dirs, names in os.walk(top):
        dirs[:] = sorted(d for d in dirs if d != "out")
        for name in sorted(names):
            if name.endswith(endings):
                yield os.path.join(folder, name)


def library():
    found = set()
    for part in ("std", "logic", "antt", "borrow"):
        for path in files(os.path.join(KIT, part), ".antt"):
            found.update(TOKEN.findall(text_of(path)))
    return found


def own_names():
    stand, defined, imported = set(), set(), set()
    for path in files("crates", ".antt"):
        if os.path.basename(path) not in MADE:
            stand.update(TOKEN.findall(text_of(path)))
        for line in text_of(path).splitlines():
            local = LOCAL.match(line)
            if local:
                defined.add(local.group(1))
            if line.startswith("use Rattle.std."):
                imported.update(TOKEN.findall(line))
    return (stand - library()) | (defined - imported)


def respelled(name):
    parts = name.split("-")
    if name[0].isupper():
        return "".join(part[0].upper() + part[1:] for part in parts)
    return "_".join(parts)


def main():
    names = sorted(own_names())
    turned = {name: respelled(name) for name in names}
    present = set()
    for path in files("crates", (".antt", ".rt")):
        present.update(re.findall(r"[^\W\d][\w']*", text_of(path)))
    for name, new in turned.items():
        if new in present:
            print(f"look: {name} becomes {new}, which stands somewhere already")
    if "--dry" in sys.argv:
        return
    changed = 0
    for path in files("crates", (".antt", ".rt")):
        old = text_of(path)
        lines = old.splitlines(keepends=True)
        for i, line in enumerate(lines):
            code, comment = (line, "")
            if path.endswith(".rt") and line.lstrip().startswith("//"):
                continue
            lines[i] = TOKEN.sub(lambda m: turned.get(m.group(), m.group()), code) + comment
        new = "".join(lines)
        if new != old:
            with open(path, "w", encoding="utf-8") as f:
                f.write(new)
            changed += 1
    print(f"respell: {len(turned)} names, {changed} files")


if __name__ == "__main__":
    main()
