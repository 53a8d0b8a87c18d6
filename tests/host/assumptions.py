# Holds every definition and proof to assuming nothing: no axiom, no hole, and neither excluded middle nor choice stands in the crates.
# Run: python3 tests/host/assumptions.py. The status is 0 if nothing is assumed.
# It tries itself first: each of these lines must be found, and the others must not.
import re
import sys
from pathlib import Path

CRATES = Path(__file__).resolve().parents[2] / "crates"
FOUND = [
    "axiom lost : ⊥",
    "axiom pub lost : ⊥",
    "  lost = ?",
    "lost c = search ?rules",
    "lost c = f (?) x",
    "use Prim.Axiom.{lem}",
    "lost = lem _",
    "lost = ac",
]
FINE = ["-- an axiom? no", "lost = refl", "lost x? = x?", "let place : ac-like = lemma in place", "axioms = 3"]
# a declaration that assumes, a hole, and the two principles of the logic that a crate may not use
ASSUMES = re.compile(r"(^|\s)axiom\s|(^|[\s(=])\?[\w-]*($|[\s)])|Prim\.Axiom|(^|[\s(])(lem|ac)($|[\s)])")


def assumed(text):
    without_comments = re.sub(r"--.*", "", text)
    return [line for line in without_comments.split("\n") if ASSUMES.search(line)]


def complaints():
    for line in FOUND:
        if not assumed(line):
            yield f"not found: {line}"
    for line in FINE:
        if assumed(line):
            yield f"found, and is fine: {line}"
    # what rt makes of them stands in out/
    files = [file for file in sorted(CRATES.rglob("*.antt")) if file.relative_to(CRATES).parts[1] != "out"]
    if len(files) < 100:
        yield f"only {len(files)} files of antt were read"
    for file in files:
        for line in assumed(file.read_text()):
            yield f"{file.relative_to(CRATES.parent)}: {line.strip()}"


def main():
    found = list(complaints())
    print("\n".join(found))
    sys.exit(1 if found else 0)


main()
