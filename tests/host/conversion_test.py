# Runs the linked converters one behind the other, and bench behind the one that old sheets need: each legal sheet must come back as it was,
# and what is printed of an old one must be what the model prints of its numbers.
# Run: python3 tests/host/conversion_test.py FOLDER, where the programs are, or with --control behind it for wrong pipes, each of which must
# be noticed. The status is 0, or 1 where something differs, is missing or goes unnoticed.
import os
import sys

from print_test import from_files

import conversion_sheets
import model
from editions import NEW, OLD
from sheets import sheet

SHEETS = 650  # how many are sent through each pipe
ANY = 500  # of these have any numbers

# The two programs, the edition of the sheets that go in, and what comes out of these numbers.
PIPES = (
    ("to_six_columns", "to_four_columns", OLD, lambda case, table: sheet(case, table, OLD)),
    ("to_four_columns", "to_six_columns", NEW, lambda case, table: sheet(case, table, NEW)),
    ("to_six_columns", "bench", OLD, lambda case, table: model.bench(sheet(case, table, NEW))),
)

# The right pipe, and wrong ones, each of which the first few sheets must notice.
FEW = 20
RIGHT = '"$0" | "$1"'
WRONG = (
    *('"$0"', '"$1"', '"$0" | sed "1s/0$/1/" | "$1"', """"$0" | sed '$d' | "$1" """),
    *(f"{RIGHT} | head -c -1", f"{RIGHT}; exit 3", f"{RIGHT}; echo >&2"),
)


# How many sheets were sent through, and those of which something else came out.
def compare(folder, pipe, script, limit=None):
    first, second, edition, wanted = pipe
    numbers = list(conversion_sheets.narrow(ANY))[:limit]
    command = ["/bin/sh", "-c", script, os.path.join(folder, first), os.path.join(folder, second)]
    runs = from_files(command, (sheet(case, table, edition) for case, table in numbers))
    differing = []
    for (text, status, printed, said), (case, table) in zip(runs, numbers, strict=True):
        if (status, printed, said) != (0, wanted(case, table), b""):
            differing.append(f"{first} and {second} differ on {text[:80]!r}: status {status}, {printed[:60]!r}, {said[:60]!r}")
    return len(numbers), differing


def test(folder, script=RIGHT, limit=None):
    for pipe in PIPES:
        compared, differing = compare(folder, pipe, script, limit)
        print(f"{pipe[0]} and {pipe[1]}: {compared} sheets, {len(differing)} differ")
        yield from differing[:5]
        if compared != SHEETS:
            yield f"{pipe[0]} and {pipe[1]}: {SHEETS} sheets are wanted"


# The test itself must complain, of each pipe, about a wrong one and about too few sheets.
def silent_pipes(folder):
    if [pipe[:2] for pipe in PIPES] != [("to_six_columns", "to_four_columns"), ("to_four_columns", "to_six_columns"), ("to_six_columns", "bench")]:
        yield "other pipes are tried"
    complaints = list(test(folder, "cat >/dev/null; echo wrong", 1))
    for first, second, *_ in PIPES:
        if not any(complaint.startswith(f"{first} and {second} differ") for complaint in complaints):
            yield f"the test says nothing of a wrong pipe of {first} and {second}"
        if f"{first} and {second}: {SHEETS} sheets are wanted" not in complaints:
            yield f"the test says nothing of too few sheets for {first} and {second}"


# What differs must be the wrong pipe's doing, so the right one must not.
def control(folder):
    yield from silent_pipes(folder)
    for pipe in PIPES:
        for script in (RIGHT, *WRONG):
            compared, differing = compare(folder, pipe, script, FEW)
            print(f"{pipe[0]} and {pipe[1]} by {script}: {compared} sheets, {len(differing)} differ")
            if bool(differing) == (script == RIGHT):
                yield f"{'the right pipe differs' if differing else 'not noticed'}: {script}"


def main():
    folder = os.path.abspath(sys.argv[1])
    found = list(control(folder) if sys.argv[2:] == ["--control"] else test(folder))
    for complaint in found:
        print(complaint)
    sys.exit(1 if found else 0)


main()
