# Holds what docs/PERFORMANCE.md says of the calls' stack to what tests/speed/stack.c finds: whoever overwrites that stack goes by the page, and
# no contract can see it.
# Run: python3 tests/host/stack.py PAGE FOUND, the page and what stack.c printed. The status is 0 if every figure is as it was found.
import re
import sys
from pathlib import Path

SAID = re.compile(
    r"takes (\d+) bytes of stack for a plain call under each method, (\d+) for a frame, (\d+) for a selection, (\d+) for a screen and"
    r" (\d+|none) for clearing"
)
CALLS = ["plain_call", "encrypt_frame", "select", "screen", "clear"]


# What the page says of each call.
def figures_said(page):
    match = SAID.search(" ".join(page.split()))
    return dict(zip(CALLS, (0 if figure == "none" else int(figure) for figure in match.groups()), strict=True)) if match else {}


# What was found of each call, under each method where it has one.
def figures_found(rows):
    found = {}
    for call, figure in re.findall(r"^\| `cippazhey_(\w+)`.* \| (\d+) \|$", rows, re.MULTILINE):
        found.setdefault(call, set()).add(int(figure))
    return found


def main():
    said = figures_said(Path(sys.argv[1]).read_text())
    found = figures_found(Path(sys.argv[2]).read_text())
    wrong = [call for call in CALLS if found.get(call) != {said.get(call)}]
    for call in wrong:
        print(f"{call}: the page says {said.get(call)}, found {sorted(found.get(call, ()))}")
    sys.exit(1 if wrong or found.keys() != set(CALLS) else 0)


main()
