# Holds the C header to the archive and to the Rattle source. Run: python3 tests/host/header_test.py TEST ARCHIVE, where TEST is
#   declaration   the declarations are those that the source makes: the types, and the parameters' names in their order; the refusals
#                 stand in the order of checking;
#   c, c++        tests/host/header_test.c compiles with the header in that language, and passes;
#   control       edited copies of the header (header_edits.py), each of which those tests must notice.
# The status is 0 if the test passes, and 1 otherwise, with what it found.
import re
import shutil
import subprocess
import sys
import tempfile
from pathlib import Path

from header_edits import wrong_headers

ROOT = Path(__file__).resolve().parents[2]
HEADER = ROOT / "include" / "cippazhey.h"
SOURCE = ROOT / "crates" / "cippazhey" / "src" / "lib.rt"
PROGRAM = ROOT / "tests" / "host" / "header_test.c"
COMPILERS = {"c": ["cc", "-std=c99", "-x", "c"], "c++": ["c++", "-std=c++11", "-x", "c++"]}
# The functions of the archive, and the macros by which the program calls them.
CALLS = {
    "cippazhey_plain_call": "CALL_BY_NAME",
    "cippazhey_encrypt_frame": "FRAME_BY_NAME",
    "cippazhey_select": "SELECT_BY_NAME",
    "cippazhey_screen": "SCREEN_BY_NAME",
    "cippazhey_clear": "CLEAR_BY_NAME",
}
# In the order of checking, which the header's list has.
REFUSALS = [0, 2, 3, 4, 5, 6, 7, 20, 21, 10, 11, 12, 26, 27, 13, 19]
WARNINGS = ["-Wall", "-Wextra", "-Wpedantic", "-Werror"]
# What the source's parameters and results are in C. A slice is a pointer and a length, an array a pointer; columns of a block follow each
# other.
PARAMETER = {
    "u32": "uint32_t {name}",
    "&mut u8": "uint8_t *{name}",
    "&[u8]": "const uint8_t *{name}, size_t {length}",
    "&mut [u8]": "uint8_t *{name}, size_t {length}",
    "&[u8; 16]": "const uint8_t {name}[16]",
    "&mut [u8; 16]": "uint8_t {name}[16]",
    "&[[u8; 4]; 4]": "const uint8_t {name}[16]",
    "&mut [[u8; 4]; 4]": "uint8_t {name}[16]",
}
RESULT = {"": "void", "u16": "uint16_t", "u32": "uint32_t", "u64": "uint64_t"}


# The header's declarations, by the function's name. The functions that it defines are not among them.
def declared(header):
    found = re.findall(r"^(\w[\w *]*?(\w+)\([^)]*\));", header, re.MULTILINE)
    return {name: " ".join(declaration.split()) for declaration, name in found}


# The parameters in C of those in the source. A length is called after its slice, or just length where the slice is all that is taken.
def parameters_in_c(parameters):
    named = re.findall(r"(\w+): ([^,]+)", parameters)
    lengths = [f"{name}_length" if len(named) > 1 else "length" for name, _ in named]
    return ", ".join(PARAMETER[kind.strip()].format(name=name, length=length) for (name, kind), length in zip(named, lengths))


# The declarations that the source makes, by the function's name.
def wanted_declarations(source):
    functions = re.findall(r'pub extern "C" fn (\w+)\(([^)]*)\)(?: -> (\w+))?', source)
    return {name: f"{RESULT[result]} {name}({parameters_in_c(parameters)})" for name, parameters, result in functions}


def listed_refusals(header):
    return [int(number) for number in re.findall(r"CIPPAZHEY_(?:ACCEPTED|REFUSED_\w+) = (\d+)", header)]


def test_declaration(header):
    got, wanted = declared(header), wanted_declarations(SOURCE.read_text())
    wrong = [name for name in sorted({*got, *wanted}) if got.get(name) != wanted.get(name)]
    found = [f"declared: {got.get(name)}\nand not:  {wanted.get(name)}" for name in wrong]
    found += [f"no test calls {name}" for name in sorted({*wanted} - {*CALLS})]
    if listed_refusals(header) != REFUSALS:
        found.append(f"the refusals are not in the order of checking: {listed_refusals(header)}")
    return "\n".join(found) or None


# What a step that fails has to say, or None.
def complaint(*command):
    done = subprocess.run(command, stdout=subprocess.PIPE, stderr=subprocess.STDOUT, text=True, timeout=60)
    return done.stdout + f"status {done.returncode}" if done.returncode else None


# A call whose arguments are the names of the parameters, in the header's order.
def call_by_name(header, name):
    names = re.findall(r"(\w+)(?:\[\d+\])?[,)]", declared(header).get(name, ""))
    return f"{name}({', '.join(names)})"


def test_compiled(language, header, archive):
    calls = [f"-D{macro}={call_by_name(header, name)}" for name, macro in CALLS.items()]
    with tempfile.TemporaryDirectory() as folder:
        (Path(folder) / HEADER.name).write_text(header)
        program = f"{folder}/header_test"
        built = complaint(*COMPILERS[language], *WARNINGS, f"-I{folder}", *calls, PROGRAM, "-x", "none", archive, "-o", program)
        return built or complaint(program)


def test(kind, header, archive):
    return test_declaration(header) if kind == "declaration" else test_compiled(kind, header, archive)


# The edits that a test does not notice.
def unnoticed(header, archive):
    kinds = [kind for kind in ("declaration", *COMPILERS) if kind not in COMPILERS or shutil.which(COMPILERS[kind][0])]
    yield from (f"the header itself fails {kind}" for kind in kinds if test(kind, header, archive))
    copies = list(wrong_headers(header))
    for noticing, what, copy in copies:
        yield from (f"{what}: {kind} passes" for kind in noticing if kind in kinds and test(kind, copy, archive) is None)
    print(f"{len(copies)} edits of the header")


def main():
    kind, archive = sys.argv[1:]
    header = HEADER.read_text()
    found = "\n".join(unnoticed(header, archive)) if kind == "control" else test(kind, header, archive)
    print(found or "as it must be")
    sys.exit(1 if found else 0)


main()
