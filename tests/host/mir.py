# Prints the code of every library that an archive for C stands on, as rt compiles it, a line of JSON for each library; the last line has
# what these call of the kit's own libraries, or hand on with a type, and all that this calls in turn. rt keeps this MIR with a library, in which every number has
# its width. Run: python3 tests/host/mir.py, after `make lib` and the like. The status is 1 if the MIR of a library is missing.
import json
import re
import subprocess
import sys
from pathlib import Path

ROOT = Path(__file__).resolve().parents[2]
LINE = re.compile(r"^(\w+)( staticlib)?:([\w ]*)", re.MULTILINE)


# The archives, and what each crate stands on.
def read_crates(text):
    lines = LINE.findall(re.sub("#.*", "", text))
    return [name for name, kind, _ in lines if kind], {name: below.split() for name, _, below in lines}


# The libraries of the repository that the archives stand on.
def libraries(archives, below):
    found, waiting = set(), list(archives)
    while waiting:
        for name in below[waiting.pop()]:
            if name in below and name not in found:
                found.add(name)
                waiting.append(name)
    return sorted(found)


# The names of the functions that a term calls at any depth, and of those that it hands on with a type, in an impl's list.
def called(term):
    if isinstance(term, dict):
        if "Fn" in term:
            yield term["Fn"][0]
        yield from term.get("methods", [])
        term = list(term.values())
    if isinstance(term, list):
        for piece in term:
            yield from called(piece)


# Where the kit has its libraries: beside the page that it names.
def kit_libraries():
    page = subprocess.run(["rt", "doc"], check=True, capture_output=True, text=True).stdout.strip()
    return Path(page).parent / "rlibs"


def mir_of(folder, name):
    return folder / f"{name}.rlib" / "toolchain" / "mir.json"


# Of the kit's libraries, what the functions call that were read, and what that calls. What is not found is left out.
def called_of_kit(functions):
    folder, libraries_read, found = kit_libraries(), {}, {}
    waiting = sorted(set(called(list(functions.values()))) - functions.keys())
    while waiting:
        name = waiting.pop()
        library = name.split("::")[0]
        if library not in libraries_read:
            file = mir_of(folder, library)
            libraries_read[library] = dict(json.loads(file.read_text())) if file.exists() else {}
        if name not in found and name in libraries_read[library]:
            found[name] = libraries_read[library][name]
            waiting.extend(called(found[name]))
    return found


def main():
    archives, below = read_crates((ROOT / "crates.txt").read_text())
    names = libraries(archives, below)
    files = [mir_of(ROOT / "crates" / name / "out" / "rlib", name) for name in names]
    missing = [name for name, file in zip(names, files, strict=True) if not file.exists()]
    for name in missing:
        print(f"there is no MIR of {name}", file=sys.stderr)
    functions = {}
    for file in files:
        if file.exists():
            text = file.read_text()
            functions.update(json.loads(text))
            print(text.replace("\n", " "))
    print(json.dumps(sorted(called_of_kit(functions).items()), separators=(",", ":")))
    sys.exit(1 if missing or not files else 0)


main()
