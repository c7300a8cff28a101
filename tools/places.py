#!/usr/bin/env python3
"""Lists the places of the code that an older form may stand in: docs/DESIGN-PASS.md counts them by it.

usage: tools/places.py [POINT..]        at the top of the repository; POINT is 1 to 7, all of them if none is named
"""

import collections
import glob
import re
import sys

# point -> what is counted, as (what it is, pattern of a line)
LINES = {
    1: [
        ("an own enum's case for nothing", r"^    (None|Not|Nothing|NotUnderstood|Other),$"),
        ("a refusal or a missing value handed back as a number", r"^\s+return ([1-9]|1[0-2]);$|^\s+0$|Refused\([0-9]+\)"),
        ("a refusal tested as a number", r"\b(k|refusal) (!=|==) 0\b"),
        ("a number or flag beside a value that says whether it counts", r"\b(refusal: u32|more: bool|count: 4)\b|\bNO_KEY\b"),
        ("a parameter or field that is a kind's number", r"\bkind: u32\b"),
    ],
    3: [
        ("a loop by while", r"\bwhile\b.*\{$"),
        ("a loop over numbers", r"\bfor \w+ in [^{]*\.\."),
    ],
    4: [
        ("equality, order or a test of cases by hand", r"\bfn (same|is_none|ends|carries_\w+|all_zero|larger|smaller|both|either|pick|is_kind|is_open|starts)\("),
        ("a conversion by hand", r"\bfn (wide|kind|place|event_of|event_in|numbers|list|said_of\w*|three_of\w*|three_numbers|with_one|with_by|digit_of|read_number|write_number|made|number)\("),
        ("printing by hand", r"\bfn put_\w+\("),
        ("a blank or idle record by hand", r"^\s+(index|item|tries): 0,$"),
    ],
    6: [
        ("a buffer with its length or place beside it", r"\b(carry|out|block|room|image)\b: &.*\b(len|at|n|from|count): usize|^    (len|at|from|n|count|most|left): usize,$"),
        ("a struct of equal numbers in place of an array", r"^    pub (first|second|third|fourth|fifth): u32,$"),
    ],
    7: [
        ("a switch on which step to run", r"\bmatch (\w+\.)*(kind|place|e|phase|w|k|six) \{$|\b(single|which): bool\b"),
    ],
}


def functions(text):
    """Yields each function of a file: its name, and its text from its head to its closing brace."""
    for m in re.finditer(r"^( *)(?:pub )?(?:extern \"C\" )?(?:final )?fn (\w+)", text, re.M):
        end = re.compile(r"^%s\}|^%s[^\n]*\}$" % (m[1], m[1]), re.M).search(text, text.find("{\n", m.start()))
        yield m[2], text[m.start() : end.end() if end else len(text)]


def parameters(function):
    head = re.search(r"\((.*?)\)\s*(?:->|\n|requires|ensures|\{)", function, re.S)
    return re.findall(r"(\w+): ([^,()]+(?:\([^)]*\))?)", head[1]) if head else []


def skeleton(function):
    """A function with its names and numbers taken out, each by the order in which it first comes."""
    body = re.sub(r"//[^\n]*", "", function)
    seen = {}
    keep = {"fn", "pub", "let", "mut", "if", "else", "return", "match", "for", "while", "in", "true", "false", "self", "ensures", "requires", "result", "as"}
    out = []
    for token in re.findall(r"[A-Za-z_]\w*(?:::\w+)*|\d+|[^\s]", body):
        if token in keep or not re.match(r"\w", token):
            out.append(token)
        elif token[0].isdigit():
            out.append("0")
        else:
            out.append(seen.setdefault(token, f"n{len(seen)}"))
    return " ".join(out)


def main():
    points = [int(it) for it in sys.argv[1:]] or list(range(1, 8))
    files = {name: open(name).read() for name in sorted(glob.glob("crates/*/src/**/*.rt", recursive=True))}
    all_functions = [(name, f, text) for name, source in files.items() for f, text in functions(source)]
    for point in points:
        print(f"point {point}")
        for what, pattern in LINES.get(point, []):
            found = [(name, i, line.strip()) for name, source in files.items() for i, line in enumerate(source.split("\n"), 1) if re.search(pattern, line)]
            print(f"  {len(found)} {what}")
            for name, i, line in found:
                print(f"      {name}:{i}: {line}")
        if point == 2:
            groups = collections.defaultdict(list)
            for name, f, text in all_functions:
                groups[skeleton(text)].append(f"{name} {f}")
            twins = [it for it in groups.values() if len(it) > 1]
            print(f"  {sum(map(len, twins))} functions of one shape with another, in {len(twins)} groups")
            for it in twins:
                print("      " + ", ".join(it))
        if point == 5:
            facts = collections.defaultdict(set)
            pairs = collections.defaultdict(set)
            for name, f, text in all_functions:
                for clause in re.findall(r"requires(?: \w+)? \{(.*)\}\s*$", text, re.M):
                    for fact in clause.split("×"):
                        fact = re.sub(r"\b(self|s|t)\.((old|new|now)\.)?(?=\w)(?!(old|new|now)\b)", "", fact.strip().strip("()"))
                        fact = re.sub(r"\b\w+\.(now|old|new)\b", "m", fact)
                        facts[re.sub(r"\b(cells|g\.cells)\b", "R", re.sub(r"\b(threads|g\.threads)\b", "n", fact))].add(f"{name} {f}")
                names = parameters(text)
                for i in range(len(names)):
                    for j in range(i + 1, len(names)):
                        for k in range(j + 1, len(names)):
                            pairs[tuple(f"{a}: {b}" for a, b in (names[i], names[j], names[k]))].add(f"{name} {f}")
            often = {it: at for it, at in facts.items() if len(at) >= 3}
            print(f"  {len(often)} facts in the contracts of three or more functions, {len(set().union(*often.values()) if often else set())} functions")
            for it, at in sorted(often.items(), key=lambda p: -len(p[1])):
                print(f"      {len(at)}: {it}")
            often = {it: at for it, at in pairs.items() if len(at) >= 3}
            print(f"  {len(often)} threes of parameters in three or more functions, {len(set().union(*often.values()) if often else set())} functions")
            for it, at in sorted(often.items(), key=lambda p: -len(p[1])):
                print(f"      {len(at)}: {', '.join(it)}")


if __name__ == "__main__":
    main()
