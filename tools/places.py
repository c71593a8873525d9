#!/usr/bin/env python3
"""Counts the places in src/ that an older form of the language left behind.

    python3 tools/places.py [-v] [FOLDER]

FOLDER is a checkout (by default the one that this file stands in). A line for each search; with -v also each place found.
A search finds candidates: whether one is a place that a plainer form would serve is for a reader to say.
"""
import os
import re
import sys
from itertools import combinations

SEARCHES = [
    ("1a", "enums", r"^\s*(?:pub(?:\(super\))? )?enum \w+"),
    ("1b", "fields that are flags", r"^\s+(?:pub(?:\(super\))? )?\w+: bool,"),
    ("1c", "kinds, makers and commands by number", r"\b(?:kind|maker): u8\b|\bMAKER\b|K::number\(\)|\bmatch (?:kind|number|byte) \{|^const [A-Z]+: u8 = 0x"),
    ("1d", "options and results taken apart by hand", r"\b(?:None|Some\(_\)|Err\(_\)) => (?:None|false|true|0|Err\(.*\)|Ok\(.*\)),|\bSome\((\w+)\) => Some\(|^\s*return (?:false|None);|\bOk\((\w+)\) => Ok\("),
    ("3a", "while and loop", r"^\s*(?:'\w+: )?(?:while|loop)\b"),
    ("3b", "for over a range", r"^\s*(?:'\w+: )?for \w+ in [^{]*\.\."),
    ("3c", "for with a count beside", r"^\s*for \(\w+, \w+\) in .*enumerate\(\)"),
    ("3d", "for that sums, searches or fills", r"^\s*for \w+ in (?![^{]*\.\.)"),
    ("3e", "bounds tested by two comparisons", r"\b1 <= (\w+) && \1 <=|\b64 <= (\w+) && \2 <="),
    ("4a", "conversions by a function", r"\bfn (?:\w+_of|decoded|number|name|digit|sides)\("),
    ("4b", "printing, equality and order by an impl", r"^impl.*\b(?:Display|Debug|PartialEq|Ord|PartialOrd) for "),
    ("5a", "job, list and tables passed together", r"\bjob: &Job,?[\s\w:&<>]*?(?:list: &L|tables: &Tables)"),
    ("5b", "inputs, samples and values passed together", r"inputs: &\[u8\], samples: &\[i64\], values"),
    ("5c", "requires that are products", r"requires (?:\w+ )?\{[^{}]*×[^{}]*\}"),
    ("5d", "the model of a list written out", r"(?:table x\.adders|formula self\.now|grained self\.now|waiting self\.now)"),
    ("6a", "buffers with a length beside", r"\blives: &\[[^\]]*\], count: usize|let count = .*(?:read_input|_values)\("),
    ("6b", "tables of a fixed size", r"\[[^\]\[]+; ?(?:16|40|64|MOST_BYTES)\]"),
    ("7a", "switches on a kind of unit or operation", r"\bmatch (?:kind|number|operation|operation_at\(.*\)|K::\w+\(\)) \{"),
    ("8", "requires and clauses by position in proofs", r"\.requires\.[01]\b"),
]


def files(top, part, suffix):
    crates = os.path.join(top, "crates")
    for crate in sorted(os.listdir(crates)):
        for folder, _, names in sorted(os.walk(os.path.join(crates, crate, part))):
            for name in sorted(names):
                if name.endswith(suffix):
                    yield os.path.join(folder, name)


def functions(text):
    """Each function's name and its body's tokens."""
    for found in re.finditer(r"\bfn (\w+)[^{};]*?(?=\n\s*(?:requires|ensures)|\{|;)", text):
        at = found.end()
        while re.match(r"\s*(?:requires|ensures)\b", text[at:]):
            at = text.index("{", at)
            at = closing(text, at)
        rest = re.match(r"\s*\{", text[at:])
        if rest:
            start = at + rest.end() - 1
            body = text[start:closing(text, start)]
            yield found.group(1), re.findall(r"\w+|[^\w\s]", body), found.start()


def closing(text, at):
    depth = 0
    for i in range(at, len(text)):
        depth += {"{": 1, "}": -1}.get(text[i], 0)
        if depth == 0:
            return i + 1
    return len(text)


def are_twins(a, b):
    """The same but for types, constants and one called name."""
    if len(a) != len(b) or len(a) < 9:
        return False
    names = {}
    for x, y in zip(a, b):
        if x == y:
            continue
        constant = all(re.fullmatch(r"\d\w*|[A-Z]\w*|[ui]\d+", t) for t in (x, y))
        if not constant and not (re.fullmatch(r"\w+", x) and re.fullmatch(r"\w+", y)):
            return False
        if not constant:
            names[x] = y
    return len(names) <= 1


def main(argv):
    loud = "-v" in argv
    rest = [a for a in argv if a != "-v"]
    top = rest[0] if rest else os.path.join(os.path.dirname(os.path.abspath(__file__)), "..")
    texts = {}
    for path in files(top, "src", ".rt"):
        with open(path, encoding="utf-8") as f:
            texts[path] = re.sub(r"//[^\n]*", "", f.read())
    proofs = {}
    for path in files(top, "proofs", ".antt"):
        with open(path, encoding="utf-8") as f:
            proofs[path] = f.read()
    for key, label, pattern in SEARCHES:
        places = []
        for path, text in (proofs if key == "8" else texts).items():
            for m in re.finditer(pattern, text, re.M):
                line = text.count("\n", 0, m.start()) + 1
                places.append((path, line, m.group(0).strip()))
        tell(top, loud, key, label, places)
    every = [(path, name, body, text.count("\n", 0, at) + 1)
             for path, text in texts.items() for name, body, at in functions(text)]
    group = list(range(len(every)))
    for i, j in combinations(range(len(every)), 2):
        if group[i] != group[j] and are_twins(every[i][2], every[j][2]):
            group = [group[i] if g == group[j] else g for g in group]
    twins = [(path, line, f"{name}, group {g}") for g, (path, name, _, line) in sorted(zip(group, every)) if group.count(g) > 1]
    print(f"2g  {len({g for g in group if group.count(g) > 1}):4}  groups of such functions")
    tell(top, loud, "2", "functions that are the same as another but for types, constants and one name", twins)


def tell(top, loud, key, label, places):
    print(f"{key:3} {len(places):4}  {label}")
    if loud:
        for path, line, found in places:
            print(f"        {os.path.relpath(path, top)}:{line}: {' '.join(found.split())}")


main(sys.argv[1:])
