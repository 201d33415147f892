#!/usr/bin/env python3
"""Shows that a round can only be led in its order: what does otherwise does not compile.

  python3 scripts/misused.py     from the repository's root

The function below leads a lock through one visit by the four calls. It is checked as it stands, and then with one line changed
for each misuse, in a copy of the crates that `rounds` stands on; the compiler must say the words beside the change. Prints a
line for each, and how many went otherwise.
"""
import pathlib
import re
import shutil
import subprocess
import sys
import tempfile

CRATE = """#![tactic(auto)]

use model::Book;
use rounds::refusal::RoundRefusal;
use rounds::state::begin;

pub fn one_visit<B: Book>(book: &B, remedies: &[u8], condition: usize, next: usize) -> Result<i64, RoundRefusal> {
    let arrived = begin(book, 1, condition)?;
    let treated = arrived.treat(book, remedies).map_err(|declined| declined.refusal)?;
    let arrived = treated.report(book, next).map_err(|declined| declined.refusal)?;
    arrived.settle(book).map_err(|declined| declined.refusal)
}
"""
TREAT, REPORT, SETTLE = CRATE.split("\n")[8:11]
MISUSES = [
    ("a report before the treatment", TREAT, "    let treated = arrived;", "no method named `report` found for type `Arrived`"),
    ("a settling of a treated lock", REPORT, "    let arrived = treated;", "no method named `settle` found for type `Treated`"),
    ("a second treatment", REPORT, "    let _again = arrived.treat(book, remedies);\n" + REPORT, "use of moved value: `arrived`"),
    ("a second report", REPORT, REPORT + "\n    let _again = treated.report(book, next);", "use of moved value: `treated`"),
    ("a second settling", SETTLE, "    let _again = arrived.settle(book);\n" + SETTLE, "use of moved value: `arrived`"),
    ("a copy of a lock", REPORT, "    let _copy = treated.clone();\n" + REPORT, "the method `clone` exists for `Treated`, but its bounds are not met"),
    ("a lock of its own making", TREAT, "    let arrived = rounds::state::Arrived { visits: 1, visit: 2, condition, collected: 0 };\n" + TREAT, "private"),
]


def depended(name, listed):
    names = [name]
    for other in listed.get(name, []):
        names += depended(other, listed)
    return names


def main():
    root = pathlib.Path(__file__).resolve().parent.parent
    lines = re.findall(r"^(\w+):(.*)$", (root / "crates.txt").read_text(), re.M)
    listed = {name: below.split() for name, below in lines}
    others = 0
    with tempfile.TemporaryDirectory() as folder:
        copy = pathlib.Path(folder)
        needed = [name for name in listed if name in depended("rounds", listed)]
        for name in needed:
            for part in ("src", "specs", "proofs"):
                if (root / "crates" / name / part).exists():
                    shutil.copytree(root / "crates" / name / part, copy / "crates" / name / part)
        entries = [f"{name}: {' '.join(listed[name])}" for name in needed]
        (copy / "crates.txt").write_text("\n".join(entries + ["misused: model rounds"]) + "\n")
        source = copy / "crates" / "misused" / "src" / "lib.rt"
        source.parent.mkdir(parents=True)
        for what, old, new, words in [("as it stands", "", "", "logic=proved")] + MISUSES:
            source.write_text(CRATE.replace(old, new) if old else CRATE)
            run = subprocess.run(["rt", "check"], cwd=source.parent.parent, capture_output=True, text=True)
            said = run.stdout + run.stderr
            right = words in said and (run.returncode == 0) == (not old)
            print(f"{what}: {'as expected' if right else 'OTHERWISE'}")
            if not right:
                others += 1
                print(said[-2000:])
    print(f"{others} went otherwise")
    return others > 0


if __name__ == "__main__":
    sys.exit(main())
