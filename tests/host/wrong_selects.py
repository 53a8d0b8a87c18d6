# The control of tests/host/select_test.c: wrong selections, each of which the group named beside it must notice. A wrong selection is a right
# one with an edit, exported in the place of the archive's call. In a common fault it is the reference that has the edit, and stands in
# both places: what is known of the results has to notice it; and it has to notice a reference that alone is wrong.
# All of them are in one program, and the environment says which it takes: to build one for each would take long.
# Run: python3 tests/host/wrong_selects.py (status 0 if the right ones pass whole and every wrong one is noticed, 1 otherwise, with a line for
# each that is not).
import subprocess
import sys
from pathlib import Path

from controls import end_control

HOST = Path(__file__).resolve().parent
sys.path.insert(0, str(HOST.parent / "model"))
from edits import edited
from select_edits import COMMON_FAULTS, RIGHT, WRONG_SELECTS

# Fewer random calls than the test has are enough here.
COMPILE = ["cc", "-std=c99", "-O2", f"-I{HOST}", f"-I{HOST.parents[1] / 'include'}", "-DRANDOM_CALLS=4000"]
TEST = ("select_test", "select_trial", "pages", "numbers", "groups")

REFERENCE = (HOST / "select_reference.c").read_text()

# One of the functions, under a name of its own, with what it calls.
FUNCTION = """#define {name} select_{number}
#define taken taken_{number}
#define half half_{number}
#define refusal refusal_{number}
#define word word_{number}
{text}
#undef {name}
#undef taken
#undef half
#undef refusal
#undef word
"""
# Both calls go to functions that are chosen by their numbers.
CHOICE = """#include <stdlib.h>
#define PARAMETERS uint32_t width, uint32_t z0, uint32_t z1, uint32_t z2, uint32_t c0, uint32_t c1, uint32_t c2, uint32_t t1, uint32_t t2, \\
    uint32_t b, uint8_t *share0, uint8_t *share1, uint8_t *share2
#define CHOSEN(name, call) uint32_t call(PARAMETERS) {{ \\
    static uint32_t (*chosen)(PARAMETERS); \\
    if (!chosen) chosen = functions[atoi(getenv(name))]; \\
    return chosen(width, z0, z1, z2, c0, c1, c2, t1, t2, b, share0, share1, share2); }}
static uint32_t (*const functions[])(PARAMETERS) = {{{names}}};
CHOSEN("CALL", cippazhey_select)
CHOSEN("COMPARED_WITH", reference_select)
"""


def texts():
    """All functions: the right ones first, each with its own name."""
    yield "cippazhey_select", RIGHT
    yield "reference_select", REFERENCE
    for edits in WRONG_SELECTS.values():
        yield from (("cippazhey_select", edited(RIGHT, *edit)) for edit in edits.values())
    for edits in COMMON_FAULTS.values():
        yield from (("reference_select", edited(REFERENCE, *edit)) for edit in edits.values())


def build(folder):
    functions = [FUNCTION.format(name=name, number=number, text=text) for number, (name, text) in enumerate(texts())]
    names = ", ".join(f"select_{number}" for number in range(len(functions)))
    (folder / "selects.c").write_text("".join(functions) + CHOICE.format(names=names))
    sources = [HOST / f"{name}.c" for name in TEST]
    subprocess.run([*COMPILE, *sources, folder / "selects.c", "-o", folder / "test"], check=True, timeout=120)


# The test program over one function, compared with another, run on a group, or on all.
def run(folder, call, compared_with, *group):
    chosen = {"CALL": str(call), "COMPARED_WITH": str(compared_with)}
    return subprocess.run([folder / "test", *group], capture_output=True, text=True, timeout=60, env=chosen)


# A wrong one makes a comparison come out ill, or is stopped by the system.
def noticed(done):
    return done.returncode < 0 or (done.returncode == 1 and "DIFFERS: " in done.stdout)


RIGHT_CALL, RIGHT_REFERENCE, FIRST_WRONG = 0, 1, 2
# So many must have been tried.
TRIED = 200


# The number of each wrong function, its name and group, and which two stand in the places of call and reference.
def trials():
    number = FIRST_WRONG
    for group, edits in WRONG_SELECTS.items():
        for name in edits:
            yield f"wrong selection, {name}", group, number, RIGHT_REFERENCE
            number += 1
    for group, edits in COMMON_FAULTS.items():
        for name in edits:
            yield f"common fault, {name}", group, number, number
            yield f"wrong reference, {name}", group, RIGHT_CALL, number
            number += 1


def complaints(folder):
    build(folder)
    for call in (RIGHT_CALL, RIGHT_REFERENCE):
        if run(folder, call, RIGHT_REFERENCE).returncode != 0:
            yield "a right one does not pass"
    tried = 0
    for name, group, call, compared_with in trials():
        done = run(folder, call, compared_with, group)
        tried += 1
        if not noticed(done):
            yield f"{name}: {group} does not notice it\n{done.stdout}"
    print(tried, "wrong selections and references")
    if tried != TRIED:
        yield f"{tried} were tried, and not {TRIED}"


end_control(complaints)
