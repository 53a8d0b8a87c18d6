# Holds every promise to being proved: a statement of specs/, `unfoldable pub NameRight : Type 0`, has its proof in proofs/ of its crate,
# `pub name_right : NameRight`. The prover checks each proof that is there, and does not miss one that is gone.
# Run: python3 tests/host/promises.py. The status is 0 if every promise has its proof.
# It tries itself first on crates of one promise each.
import re
import sys
from pathlib import Path

# As many as there are: one that is taken away together with its proof is missed here alone.
LEAST = 163
CRATES = Path(__file__).resolve().parents[2] / "crates"
PROMISE = re.compile(r"^unfoldable pub ([A-Z]\w*) : Type 0$", re.MULTILINE)
STATED = "-- a promise\nunfoldable pub SumRight : Type 0\nSumRight = 1 ≡ 1\n"
PROVED = "pub sum_right : SumRight\nunfolding SumRight\nsum_right = refl\n"
# proofs that are none: none at all, of another promise, one that is not handed out, one in a comment, one that is only part of a line
UNPROVED = [
    "",
    PROVED.replace("Sum", "Product"),
    PROVED.replace("sum_", "product_"),
    PROVED.replace("pub ", "", 1),
    "-- " + PROVED,
    PROVED.replace(": SumRight", ": SumRight → SumRight"),
]


# The name of a promise's proof: SumRight is proved by sum_right.
def proof_of(name):
    return re.sub(r"(?<=[a-z0-9])(?=[A-Z])|(?<=[A-Z])(?=[A-Z][a-z])", "_", name).lower()


# The promises of a crate's specs that its proofs do not have.
def unproved(specs, proofs):
    return [name for name in PROMISE.findall(specs) if not re.search(rf"^pub {proof_of(name)} : {name}$", proofs, re.MULTILINE)]


def text_of(folder):
    return "\n".join(file.read_text() for file in sorted(folder.glob("*.antt")))


def complaints():
    if unproved(STATED, PROVED) or any(unproved(STATED, proofs) != ["SumRight"] for proofs in UNPROVED):
        yield "a promise without its proof goes unnoticed, or one with it is found"
    promises = 0
    for crate in sorted(CRATES.iterdir()):
        specs = text_of(crate / "specs")
        promises += len(PROMISE.findall(specs))
        yield from (f"{crate.name}: {name} is not proved" for name in unproved(specs, text_of(crate / "proofs")))
    if promises < LEAST:
        yield f"only {promises} promises were read, not {LEAST}"


def main():
    found = list(complaints())
    print("\n".join(found))
    sys.exit(1 if found else 0)


main()
