# The cases and expected outputs that the programs' crates store, as the model makes them. Run: python3 tests/model/stored.py writes them;
# with --check it compares them instead, after showing that it notices a change of each (status 0 if all are as made, 1 otherwise).
import struct
import sys
import tempfile
from pathlib import Path

import chain_cases
import conversion
import conversion_sheets
import count_cases
import count_sheets
import counts
import document
import frame_records
import logged_cases
import model
import page
import sbox
import screening_cases
import selection_cases
import sheets
import small_cases

CRATES = Path(__file__).resolve().parents[2] / "crates"


# How many cases the programs have: that some are left out is noticed here alone.
CASES = {
    **{"test_small_calls": 1377, "test_logged_calls": 967, "test_chained_calls": 1184, "test_selections": 6060, "test_count_sheets": 1584},
    **{"test_frames": 91, "test_screening": 310, "test_case_sheets": 1069, "test_conversions": 1222, "test_count_prints": 524},
    "test_pages": 583,
}


def require_all(name, cases):
    if len(cases) != CASES[name]:
        raise ValueError(f"{name} has {len(cases)} cases, not {CASES[name]}")


# The records of a test program's cases, and its answers, a line of numbers each.
def program_files(name, module):
    cases = list(module.cases())
    require_all(name, cases)
    lines = [" ".join(map(str, module.answer(case))) + "\n" for case in cases]
    return {f"{name}/data/cases": b"".join(map(module.record, cases)), f"{name}/stdout": "".join(lines).encode()}


# The inputs of a print, and what it makes of them. A record is an input's length as two little-endian bytes, and its bytes.
def print_files(name, texts, printed):
    require_all(name, texts)
    records = [struct.pack("<H", len(text)) + text for text in texts]
    return {f"{name}/data/cases": b"".join(records), f"{name}/stdout": b"".join(map(printed, texts))}


def sample_files(name, text, printed):
    return {f"{name}/stdin": text, f"{name}/stdout": printed(text)}


# What each file below crates/ must hold.
def made_files():
    return {
        **program_files("test_small_calls", small_cases),
        **program_files("test_logged_calls", logged_cases),
        **program_files("test_chained_calls", chain_cases),
        **program_files("test_screening", screening_cases),
        **program_files("test_frames", frame_records),
        **program_files("test_selections", selection_cases),
        **program_files("test_count_sheets", count_cases),
        **print_files("test_case_sheets", [*sheets.all_sheets(), *sheets.small_tables()], model.bench),
        **print_files("test_pages", list(sheets.page_sheets()), page.page),
        **print_files("test_count_prints", list(count_sheets.all_sheets()), counts.counts),
        **print_files("test_conversions", list(conversion_sheets.cases()), conversion_sheets.answer),
        **sample_files("bench", document.SAMPLE_INPUT, model.bench),
        **sample_files("page", document.SAMPLE_INPUT, page.page),
        **sample_files("counts", count_sheets.SAMPLE, counts.counts),
        **sample_files("to_six_columns", document.OLD_SAMPLE_INPUT, conversion.to_six_columns),
        **sample_files("to_four_columns", document.SAMPLE_INPUT, conversion.to_four_columns),
        "sbox_print/stdout": sbox.printed(),
    }


# What rt runs the programs on, and what it holds them to.
def stored_files(crates):
    paths = [path for pattern in ("args", "stdin", "stdout", "data/**/*") for path in crates.glob(f"*/{pattern}") if path.is_file()]
    return {str(path.relative_to(crates)): path.read_bytes() for path in paths}


def write(crates, files):
    for name, content in files.items():
        (crates / name).parent.mkdir(parents=True, exist_ok=True)
        (crates / name).write_bytes(content)


# The files that differ, are missing, or are made by no one.
def differing(crates, made):
    stored = stored_files(crates)
    return sorted(name for name in made | stored if stored.get(name) != made.get(name))


# What may befall a file: a byte at either end or in the middle, a byte more or less, or all of it.
def changes(content):
    for place in (0, len(content) // 2, len(content) - 1):
        yield content[:place] + bytes([content[place] ^ 1]) + content[place + 1 :]
    yield from (content + b"\n", content[:-1], b"")


# The control: the changes that the comparison does not notice, each made in a copy.
def unnoticed_changes(made):
    with tempfile.TemporaryDirectory() as folder:
        crates = Path(folder)
        write(crates, made)
        if differing(crates, made):
            yield "the copy itself"
        for name, content in made.items():
            for changed in changes(content):
                write(crates, {name: changed})
                if differing(crates, made) != [name]:
                    yield name
            (crates / name).unlink()
            if differing(crates, made) != [name]:
                yield f"{name}, missing"
            write(crates, {name: content})
        write(crates, {"bench/data/stray": b""})
        if differing(crates, made) != ["bench/data/stray"]:
            yield "a file that no one makes"


def main():
    made = made_files()
    if sys.argv[1:] != ["--check"]:
        write(CRATES, made)
        return
    complaints = [f"a change goes unnoticed: {name}" for name in unnoticed_changes(made)]
    complaints += [f"not as the model makes it: crates/{name}" for name in differing(CRATES, made)]
    print(*complaints, f"{len(made)} files, {len(complaints)} complaints", sep="\n")
    sys.exit(1 if complaints else 0)


if __name__ == "__main__":
    main()
