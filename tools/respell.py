#!/usr/bin/env python3
"""Spells the repository's own definitions, fields and lemmas as the Rattle library does: words in snake case, a dash only between two names.

usage: tools/respell.py        at the top of the repository, once, after port.py

- A definition or field in camel case is written in snake case: queueOf becomes queue_of.
- A field with dashes is written in snake case: landed-new becomes landed_new.
- A lemma with dashes keeps a dash where it is made of names of definitions only (length-overTo becomes length-over_to),
  and has `_` for each otherwise. A lemma that would have a definition's name ends in _lem. A name that would still meet another one stays.
- Names that Rattle itself makes (goals, steps) and names of src/ stay.

It rewrites specs/ and proofs/, the clauses of src/, and what stands between backticks in README.md and docs/.
It prints each name that it turned.
"""

import os
import re
import sys

TOKEN = re.compile(r"(?<![^\s(){}\[\],;.←`:])[^\s(){}\[\],;.←`:]+(?![^\s(){}\[\],;.←`:])")
DECLARED = re.compile(r"^( *)(?:(?:unfoldable|abbrev|pub|mutual) )*([^\s:=(){},;]+)\s*:(?!=)", re.M)
TYPE = re.compile(r"^(?:pub |abbrev )*(?:data|record) (?:pub )?([^\s:=(){}]+)", re.M)
PLAIN = set("one to by is at only then same".split())
LIBRARY = "length append map join take drop sum max min sets set get_or".split()
# the repository's own names that port.py respelled, by the name that the pages still have
BY_PORT = {
    "cellAt": "cell_at", "tailAt": "tail_at", "markOf": "mark_of", "firstOf": "first_of", "pastOf": "past_of",
    "isNone": "is_none", "passMark": "pass_mark",
}


def read(path):
    with open(path, encoding="utf-8") as f:
        return f.read()


def write(path, text):
    with open(path, "w", encoding="utf-8") as f:
        f.write(text)


def crates():
    return sorted(c for c in os.listdir("crates") if os.path.isdir(f"crates/{c}"))


def files(ending, *tops):
    for c in crates():
        for top in tops:
            for above, folders, names in os.walk(f"crates/{c}/{top}"):
                folders.sort()
                for name in sorted(names):
                    if name.endswith(ending):
                        yield os.path.join(above, name)


def is_shared(path):
    """Whether it is a file right in specs/ or proofs/: those below name only what Rattle makes."""
    return os.path.basename(os.path.dirname(path)) in ("specs", "proofs")


def snake(name):
    name = re.sub(r"(?<=[a-z0-9'])([A-Z])", r"_\1", name)
    return name.lower()


def names():
    """Returns each declared name of specs/ and proofs/, and whether it is only ever a field."""
    found = {}
    for path in files(".antt", "specs", "proofs"):
        if not is_shared(path):
            continue
        text = read(path)
        for spaces, name in DECLARED.findall(text):
            found[name] = found.get(name, True) and bool(spaces)
        for name in TYPE.findall(text):
            found[name] = False
    return found


def turned():
    """Returns the new name of each name that gets one."""
    own = names()
    camel = {n: snake(n) for n in own if re.match(r"[^\W\dA-Z][\w']*[A-Z]", n) and "-" not in n}
    known = {camel.get(n, n) for n in own if "-" not in n and not own[n]} | set(LIBRARY)
    known -= PLAIN
    new = dict(camel)
    for name, is_field in own.items():
        if "-" not in name:
            continue
        parts = [camel.get(p, snake(p) if re.match(r"[A-Z]\d+$", p) else p) for p in name.split("-")]
        joins = not is_field and all(p in known for p in parts)
        text = ("-" if joins else "_").join(parts)
        if text != name:
            new[name] = text
    return new


def code_of(text, is_source):
    """Yields the stretches of a file that are code that names stand in, and those that are not."""
    for line in text.splitlines(keepends=True):
        if is_source:
            yield line, bool(re.match(r"\s*(ghost use|requires|ensures|ghost)\b", line))
        else:
            at = line.find("--")
            ok = at >= 0 and (at == 0 or line[at - 1] == " ")
            if ok:
                yield line[:at], True
                yield line[at:], False
            else:
                yield line, True


def tokens(path):
    found = set()
    for text, is_code in code_of(read(path), path.endswith(".rt")):
        if is_code:
            found |= set(TOKEN.findall(text))
    return found


def without_clashes(new, paths):
    """Ends a lemma's name in _lem where it would meet another name in some file, and drops a new name that still would."""
    found = {p: tokens(p) for p in paths}
    while True:
        clash = set()
        for path, here in found.items():
            after = {}
            for name in here:
                after.setdefault(new.get(name, name), set()).add(name)
            for name, olds in after.items():
                if len(olds) > 1:
                    lemmas = {o for o in olds if "-" in o}
                    clash |= {(o, name, path) for o in lemmas or olds if o in new}
        if not clash:
            return new
        for old, name, path in sorted(clash):
            if new.get(old) != name:
                continue
            if "-" in old and not name.endswith("_lem"):
                new[old] = name + "_lem"
            else:
                print(f"clash: {old} would be {name} in {path}: it stays")
                del new[old]


def main():
    if not os.path.isfile("crates.txt"):
        sys.exit("respell: no crates.txt here")
    paths = list(files(".antt", "specs", "proofs")) + list(files(".rt", "src"))
    new = without_clashes(turned(), [p for p in paths if p.endswith(".rt") or is_shared(p)])
    for path in paths:
        text = read(path)
        out = "".join(
            TOKEN.sub(lambda m: new.get(m.group(), m.group()), part) if is_code else part
            for part, is_code in code_of(text, path.endswith(".rt"))
        )
        if out != text:
            write(path, out)
    pages = ["README.md"] + sorted(f"docs/{f}" for f in os.listdir("docs") if f.endswith(".md"))
    both = {**BY_PORT, **new}
    for path in pages:
        text = read(path)
        out = re.sub(r"`[^`\n]+`", lambda q: TOKEN.sub(lambda m: both.get(m.group(), m.group()), q.group()), text)
        if out != text:
            write(path, out)
    for old, name in sorted(new.items()):
        print(f"turned: {old} {name}")


main()
