#!/usr/bin/env python3
"""Spells the names that this repository defines in antt as Rattle spells them now.

usage: python3 tools/respell.py [--list]     at the top, right after the toolchain's own porting script

Types, records and facts (names that begin with a capital) go from Parts-like-this to PartsLikeThis; words, lemmas, fields
and local names go from parts-like-this to parts_like_this. Names that Rattle makes (goals, and the steps of a proof) and
names of the library stay. It goes by text, and stops where two names would fall together.
"""

import os
import re
import sys

# a name of antt, whole: what stands between blanks, brackets, dots and the like
NAME = re.compile(r"[^\s(){}\[\];.,@\"◌λ]+")
TEXT = re.compile(r'"(?:\\.|[^"\\])*"')
# names that would fall together with another, or that need more than their letters
OWN = {
    # the struct has this name
    "List-book": "WrittenBook",
    # functions of src/ have these names
    "greatest-at": "largest_at",
    "greatest-in": "largest_in",
    "greatest-under": "largest_under",
    "greatest-worth": "largest_worth",
    "plan-text": "text_of_plan",
    # theorems of functions of these names
    "kinds-agree": "kinds_agree_lem",
    "line-faults-are-exact": "line_faults_are_exact_lem",
    "plans-agree": "plans_agree_lem",
    "premises-can-be-met": "premises_can_be_met_lem",
    "reading-is-exact": "reading_is_exact_lem",
    # the library's T, and a word
    "T-or-not": "T-or_not",
}
# fields of records and lemmas that share a name with a field or a function of another type or crate
SHARED = {"few_conditions", "few_parts", "few_remedies", "first_visit", "is_inside", "shares_fit", "some_condition", "some_parts", "some_remedy"}
# in the proof of a function: a path that begins so goes on with a name that Rattle makes
MADE_ROOTS = {"c", "l", "w", "goal"}


def files(root, ends):
    for folder, dirs, names in os.walk(os.path.join(root, "crates")):
        dirs[:] = sorted(d for d in dirs if d not in ("out", "target"))
        for name in sorted(names):
            if name.endswith(ends):
                yield os.path.join(folder, name)


def spelled(name):
    if name in OWN:
        return OWN[name]
    if re.match(r"[A-Z]", name):
        return "".join(part[:1].upper() + part[1:] for part in re.split("[-_]", name))
    return name.replace("-", "_")


def bare(line):
    return re.sub(r"--( .*)?$", "", TEXT.sub('""', line))


def defined(path, text):
    """The names with a dash that a file declares or binds, but for goals."""
    found = set()
    goals = set()
    for line in text.split("\n"):
        line = bare(line)
        head = re.match(r"\s*((?:abbrev |unfoldable |opaque |pub |instance |record |data )*)([^():=→]+?)(?: [({].*)? : ?(.*)$", line)
        if head and not line.lstrip().startswith(("use ", "let ", "λ")):
            for name in head.group(2).split():
                (goals if re.match(r"(goal|need|given|Goals|Given)\.", head.group(3)) else found).add(name)
        for m in re.finditer(r"\blet ([^\s:=()]+)", line):
            found.add(m.group(1))
        for m in re.finditer(r"[({]([^(){}:.→]+?) : ", line):
            found.update(m.group(1).split())
        for m in re.finditer(r"λ ((?:[^\s().]+ ?)+)\.", line):
            found.update(m.group(1).split())
        # parameters named at the left of a definition, and the names under which things are imported
        m = re.match(r"\s*[^\s(){}:=]+((?: [^\s(){}:=]+)+) =$", line)
        if m:
            found.update(m.group(1).split())
        found.update(re.findall(r" as ([A-Z][^\s,}]+)", line))
        m = re.match(r"\s*\| ([^\s:]+)(?: : .*)?$", line)
        if m:
            found.add(m.group(1))
    made = {n for n in found if re.search(r"[+·]|-via-", n)}
    # a type that the toolchain's script turned as if it were a word
    half = {n for n in found if re.match(r"[A-Z]\w*_", n)}
    return {n for n in found - goals - made if ("-" in n or n in half) and NAME.fullmatch(n)}, {n for n in goals if "-" in n}


def imported(text):
    """The names that a file takes from the library."""
    found = set()
    for m in re.finditer(r"use (?:Rattle\.(?:std|core)|lib|mathlib|Prim)\b[^{\n]*\{([^}]*)\}", text):
        found.update(n.strip().split(" as ")[0] for n in m.group(1).split(","))
    return found


def turned_path(path, names, roots=()):
    """A path of names, its parts parted by dots; a step that Rattle makes keeps its name."""
    parts = path.split(".")
    for i, part in enumerate(parts):
        made = i == 1 and parts[0] in roots
        if part in names and not made:
            parts[i] = names[part]
    return ".".join(parts)


PATH = re.compile(r"[^\s(){}\[\];,@\"◌λ]+")


def turned(line, names, comment, roots):
    """A line with its names turned, text in quotes kept."""
    out = []
    at = line.find(comment)
    code, said = (line[:at], line[at:]) if at >= 0 and '"' not in line[:at] else (line, "")
    for k, piece in enumerate(re.split(r'("(?:\\.|[^"\\])*")', code)):
        out.append(piece if k % 2 else PATH.sub(lambda m: turned_path(m.group(), names, roots), piece))
    return "".join(out) + turned_words(said, names)


def turned_words(said, names):
    """In words for a reader: names between backquotes, and names that begin with a capital."""
    said = re.sub(r"`([^`\n]+)`", lambda m: "`" + PATH.sub(lambda n: turned_path(n.group(), names), m.group(1)) + "`", said)
    return re.sub(r"(?<![\w`-])[A-Z][\w]*(?:-[\w]+)+", lambda m: names.get(m.group(), m.group()), said)


def main():
    root = os.getcwd()
    texts = {p: open(p, encoding="utf-8").read() for p in files(root, (".antt", ".rt", ".edit"))}
    found, goals = set(), set()
    for p, t in texts.items():
        if p.endswith(".antt"):
            mine, made = defined(p, t)
            found |= mine
            goals |= made
            goals |= imported(t)
    found -= goals
    names = {n: spelled(n) for n in sorted(found)}
    spelt = {}
    for n, s in names.items():
        spelt.setdefault(s, []).append(n)
    plain = set()
    for t in texts.values():
        plain.update(NAME.findall(t))
    clash = [f"{s}: {', '.join(ns)}" for s, ns in spelt.items() if len(ns) > 1]
    clash += [f"{s}: {ns[0]}, and a name spelled so already" for s, ns in spelt.items() if s in plain - SHARED]
    if "--list" in sys.argv:
        print("\n".join(f"{n} {s}" for n, s in names.items()))
        print("\n".join("clash: " + c for c in clash))
        return
    if clash:
        raise SystemExit("\n".join("clash: " + c for c in clash))
    for p, t in texts.items():
        comment = "--" if p.endswith(".antt") else "//"
        roots = MADE_ROOTS if " as goal" in t else ()
        new = "\n".join(turned(line, names, comment, roots) for line in t.split("\n"))
        if new != t:
            with open(p, "w", encoding="utf-8") as f:
                f.write(new)
    for folder, dirs, pages in os.walk(root):
        dirs[:] = [d for d in dirs if d in ("docs",)] if folder == root else []
        for page in pages:
            if page.endswith(".md") and not page.startswith("PORT"):
                p = os.path.join(folder, page)
                t = open(p, encoding="utf-8").read()
                new = turned_words(t, names)
                if new != t:
                    with open(p, "w", encoding="utf-8") as f:
                        f.write(new)


if __name__ == "__main__":
    main()
