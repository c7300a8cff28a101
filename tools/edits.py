#!/usr/bin/env python3
"""Sees that each must-fail edit is refused for a fact, and each slip of an edit in its own function.

usage: tools/edits.py [CRATE..]        at the top of the repository; with names, the edits of these crates alone

`rt ci` sees that each edit is refused. This applies each one to a copy of the crates, checks the copy there, and reads what the check says:

- No error is about a name: a proof that names what the edit took away would be refused whatever the edit means.
- An edit can have slips in several functions, each told by a line '# slip FUNCTION: ..'. Each named function must be refused itself, and not for what it calls.

First each crate is checked as it stands: it must be proved, or a refusal says nothing. The edits begin with what that check kept. The last line counts the edits and
the slips. The status is 1 where one is not refused so, or is not told well.
"""

import concurrent.futures
import os
import re
import shutil
import subprocess
import sys
import tempfile

# what the check says of a name that is not there
NAMES = re.compile(r"^\S+:\d+:\d+: error: .*(is not in scope|has no field|has no `[^`]*` that can be named)", re.M)
# what it says of a function that is refused itself
OWN = re.compile(r"not proved$|no proof: expected (answers|a measure) in \S+; `search` did not prove `[^;]*$")


def read(path):
    with open(path, encoding="utf-8") as f:
        return f.read()


def write(path, text):
    with open(path, "w", encoding="utf-8") as f:
        f.write(text)


def copied(folder, to):
    """Copies a folder, what was proved in it by links: a check makes such a file anew, and changes none."""

    def link(one, other):
        try:
            if one.endswith(".oantt"):
                return os.link(one, other)
        except OSError:
            pass  # another disk
        return shutil.copy2(one, other)

    shutil.copytree(folder, to, symlinks=True, copy_function=link)


def apply(text, folder):
    """Writes the edit's files."""
    path, old = None, None
    for line in text.split("\n"):
        if line.startswith("file: "):
            path = os.path.join(folder, line[len("file: ") :].strip())
        elif line.startswith("old: "):
            old = line[len("old: ") :]
        elif line.startswith("new:"):
            now = read(path)
            if now.count(old) != 1:
                raise ValueError(f"{path} has this text {now.count(old)} times and not once: {old}")
            write(path, now.replace(old, line[len("new:") :].removeprefix(" ")))


def check(folder):
    """Returns whether the crate is proved, whether it is refused, and what the check says."""
    ran = subprocess.run(["rt", "check", "--jobs", "1"], cwd=folder, stdin=subprocess.DEVNULL, stdout=subprocess.PIPE, stderr=subprocess.STDOUT, text=True, errors="replace")
    verdict = re.findall(r"^logic=(\S+)", ran.stdout, re.M)[-1:]
    return ran.returncode == 0 and verdict == ["proved"], ran.returncode == 1 and verdict == ["not-proved"], ran.stdout


def faults(crate, text, refused, said):
    """Yields what is wrong with how the edit is refused."""
    functions = re.findall(r"^# slip ([\w:]+): ", text, re.M)
    if len(re.findall(r"^#\s*slip\b", text, re.M)) != len(functions) or len(set(functions)) != len(functions):
        yield "a slip that is not told by its function, or two in one function"
    if not refused:
        yield f"it is not refused; the check ended with: {said.strip()[-200:]}"
    for name in NAMES.finditer(said):
        yield f"refused for a name: {name[0][:200]}"
    for function in functions:
        told = re.search(rf"^fn {crate}::{re.escape(function)}: (.*)$", said, re.M)
        if not told or not OWN.match(told[1]):
            yield f"the slip in {function} is not refused by itself: {told[1][:200] if told else 'no word of it'}"


def slips(text):
    return len(re.findall(r"^# slip ", text, re.M))


def tried(base, crate, text):
    """Tries an edit on a copy of its own, and returns what is wrong."""
    with tempfile.TemporaryDirectory(prefix="edit-") as room:
        copied(base, f"{room}/all")
        folder = f"{room}/all/crates/{crate}"
        apply(text, folder)
        _, refused, said = check(folder)
    return list(faults(crate, text, refused, said))


def main():
    crates = [it for it in sys.argv[1:] or sorted(os.listdir("crates")) if os.path.isdir(f"crates/{it}/must-fail")]
    edits = [(crate, it, read(f"crates/{crate}/must-fail/{it}")) for crate in crates for it in sorted(os.listdir(f"crates/{crate}/must-fail"))]
    wrong = []
    with tempfile.TemporaryDirectory(prefix="edits-") as base, concurrent.futures.ThreadPoolExecutor(min(4, len(os.sched_getaffinity(0)))) as pool:
        for it in ("crates.txt", "HANDLES"):
            if os.path.isfile(it):
                shutil.copy2(it, base)
        copied("crates", f"{base}/crates")
        for crate in crates:
            proved, _, said = check(f"{base}/crates/{crate}")
            if not proved:
                wrong.append(f"{crate} is not proved as it stands: {said.strip()[-200:]}")
        # the longest first
        edits.sort(key=lambda it: slips(it[2]), reverse=True)
        found = pool.map(lambda it: tried(base, it[0], it[2]), edits if not wrong else [])
        wrong += [f"{crate}/{name}: {it}" for (crate, name, _), its in zip(edits, found) for it in its]
    for it in wrong:
        print(f"edits: {it}")
    counted = f"{len(edits)} edits with {sum(slips(text) for _, _, text in edits)} slips"
    print(f"edits: {counted}" + (f": {len(wrong)} faults" if wrong else ", each refused for a fact, and each slip in its own function"))
    return 1 if wrong or not edits else 0


sys.exit(main())
