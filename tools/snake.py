#!/usr/bin/env python3
"""Brings the definitions and lemmas of this repository to snake case, and its types to camel case, once.

usage: python3 tools/snake.py       at the top of the repository, after the port of 2026-11: crates/, docs/, README.md, bench/, oracle/

A hyphenated name of specs/ or of a lemma file in proofs/ that is no name of the library gets its hyphens turned: `rule-word` is
`rule_word`, `Demand-3` is `Demand3`. The same names are turned in contracts, in the proofs of functions, in must-fail edits and, where
they stand in backquotes, in the pages. What Rattle itself names (goals, steps) keeps its dashes.
"""

import os
import re
import sys

NAME = re.compile(r"(?<![\w'◌-])[\w◌][\w'◌-]*")
USE = re.compile(r"^\s*(?:ghost )?use ([\w.·+\-◌']+)\.\{([^}]*)\}", re.M)
LIBRARIES = ("std", "core", "io", "libc", "os")
# written behind its module, as in `Memᴰ.not-nil`, so no import line shows that it is the library's
BEHIND_MODULES = {"not-nil"}
LEMMA_FILE = re.compile(r"crates/\w+/(?:specs|proofs)/[^/]+\.antt$")
ABOVE_FIELD = re.compile(r"^\s+(?:pub )?([\w][\w'-]*)\s+:", re.M)


def files():
    for top in ("crates", "docs", "bench", "oracle"):
        for folder, dirs, names in os.walk(top):
            dirs[:] = sorted(d for d in dirs if d != "out")
            for name in sorted(names):
                yield os.path.join(folder, name)
    yield "README.md"


def read(path):
    with open(path, encoding="utf-8") as f:
        return f.read()


def code(text):
    return re.sub(r"--\s.*", "", text)


def is_library(module):
    parts = module.split(".")
    return parts[0] != "Rattle" or parts[1] in LIBRARIES


def library_names(texts):
    """Names that a file takes from the library: they keep their spelling."""
    found = set()
    for text in texts:
        for module, names in USE.findall(text):
            if is_library(module):
                found.update(n.strip().split(" as ")[0].strip() for n in names.split(","))
    return found


def turned(name):
    if re.match(r"[A-Z]", name):
        head, *rest = name.split("-")
        return head + "".join(part[:1].upper() + part[1:] for part in rest)
    return name.replace("-", "_")


def main():
    paths = list(files())
    antt = {p: read(p) for p in paths if p.endswith((".antt", ".rt"))}
    lemmas = {p: t for p, t in antt.items() if LEMMA_FILE.match(p)}
    kept = library_names(antt.values()) | BEHIND_MODULES
    own, fields = set(), set()
    for text in lemmas.values():
        plain = code(text)
        own.update(n for n in NAME.findall(plain) if "-" in n and n not in kept)
        fields.update(n for n in ABOVE_FIELD.findall(plain) if "-" in n)
    known = {turned(n) for n in own}
    for text in lemmas.values():
        known.update(n for n in NAME.findall(code(text)) if "_" in n)

    def everywhere(match):
        return turned(match.group(0)) if match.group(0) in own else match.group(0)

    def in_function_proof(match):
        name = match.group(0)
        before = match.string[match.start() - 1:match.start()]
        return turned(name) if name in own and (before != "." or name in fields) else name

    def as_now(match):
        name = match.group(0)
        return turned(name) if "-" in name and turned(name) in known else name

    for path in paths:
        if path in lemmas or path.endswith(".rt"):
            text = NAME.sub(everywhere, antt[path])
        elif path in antt:
            text = NAME.sub(in_function_proof, antt[path])
        elif path.endswith(".edit"):
            text = NAME.sub(as_now, read(path))
        elif path.endswith(".md"):
            text = re.sub(r"`[^`\n]*`", lambda m: NAME.sub(as_now, m.group(0)), read(path))
        else:
            continue
        if text != read(path):
            with open(path, "w", encoding="utf-8") as f:
                f.write(text)


if __name__ == "__main__":
    sys.exit(main())
