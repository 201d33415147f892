#!/usr/bin/env python3
"""Lists the lines of src/ that may be a place of a point of the design pass.

    python3 tools/places.py            the working tree
    python3 tools/places.py COMMIT     the tree of a commit

A line that is listed is only a candidate: docs/DESIGN-PASS.md says which of them are places, and what became of them.
"""
import re
import subprocess
import sys
from collections import defaultdict

COMMIT = sys.argv[1] if len(sys.argv) > 1 else None


def run(*args):
    return subprocess.run(args, capture_output=True, text=True, check=True).stdout


def files():
    if COMMIT:
        names = run("git", "ls-tree", "-r", "--name-only", COMMIT, "crates").split("\n")
    else:
        names = run("git", "ls-files", "crates").split("\n")
    for name in names:
        if re.fullmatch(r"crates/\w+/src/.*\.rt", name):
            text = run("git", "show", f"{COMMIT}:{name}") if COMMIT else open(name).read()
            yield name[len("crates/"):], text


def lines(text):
    for number, line in enumerate(text.split("\n"), 1):
        if not line.strip().startswith("//"):
            yield number, line


LINES = [
    ("1 enums, sentinels, flags, numbers for kinds", r"\benum \w|let mut \w+ = (None|false)|break '|: usize, index|table: \d|\bblank\(\)|let \([\w, ]+\) = (place|pair);|or the length|fn places"),
    ("3 loops", r"^\s*('\w+: )?(for|while|loop)\b|\+= 1;"),
    ("4 equality, order, conversion, printing by hand", r"^impl.*\b(From|TryFrom|Display|PartialEq|PartialOrd|Ord)\b|fn \w+_of\b|fn (rises|good|preferred|push_\w+|digits_of)\b|\.push\(b'"),
    ("6 arrays with a length, hand searches", r"\[[\w:]+; ?\d+\]|\bmiddle\b|\bcount\b.*usize"),
    ("7 switches and tables of functions", r"match .*\bby\b|\bfn\(|\bdyn\b|=> (plan|judge)\w*\("),
]


def main():
    texts = list(files())
    for title, pattern in LINES:
        found = [(n, i, l) for n, t in texts for i, l in lines(t) if re.search(pattern, l)]
        print(f"== {title}: {len(found)} lines")
        for name, number, line in found:
            print(f"   {name}:{number}: {line.strip()[:110]}")

    # Point 2 is found by reading pairs: functions of one shape, their names and numbers taken out.
    shapes = defaultdict(list)
    groups = defaultdict(set)
    clauses = defaultdict(set)
    for name, text in texts:
        for m in re.finditer(r"^\s*(?:pub(?:\(\w+\))? )?fn (\w+)(?:<[^>]*>)?\((.*?)\)(.*?)\n(\s*)\{(.*?)\n\4\}", text, re.S | re.M):
            fn, params, between, _, body = m.groups()
            where = f"{name}:{fn}"
            shape = re.sub(r"\w+", lambda w: w.group() if w.group() in KEYWORDS else "x", body)
            shape = re.sub(r"\s+", " ", shape).strip()
            if len(shape) > 12:
                shapes[shape].append(where)
            names = re.findall(r"(\w+):", re.sub(r"<[^<>]*>", "", params))
            for i, a in enumerate(names):
                for b in names[i + 1:]:
                    groups[(a, b)].add(where)
            for clause in re.findall(r"(?:requires|ensures)(?: \w+)? \{(.*)\}", between):
                for part in clause.split("×"):
                    part = re.sub(r"\s+", " ", part.strip(" ()"))
                    part = re.sub(r"\.(now|old|new|entry)\b", "", part)
                    if len(part) > 12:
                        clauses[part].add(where)
    print("== 2 functions of one shape")
    for shape, where in shapes.items():
        if len(where) > 1:
            print(f"   {', '.join(where)}: {shape[:70]}")
    print("== 5 parameters that travel together (three functions or more)")
    for pair, where in sorted(groups.items(), key=lambda g: -len(g[1])):
        if len(where) > 2:
            print(f"   {pair[0]}, {pair[1]}: {len(where)} functions")
    print("== 5 facts in the contracts of three functions or more")
    for fact, where in sorted(clauses.items(), key=lambda c: -len(c[1])):
        if len(where) > 2:
            print(f"   {len(where)}: {fact[:110]}")


KEYWORDS = {"if", "else", "for", "in", "while", "loop", "match", "return", "let", "mut", "Some", "None", "Ok", "Err", "true", "false", "break"}

if __name__ == "__main__":
    main()
