# Wrong models, each of which tests/model/check.py must notice, and a test program's cases too where CASES names them. Run: python3
# tests/model/mutants.py (status 0 if the model itself passes and every wrong one is noticed, 1 otherwise, with a line for each that is not).
import ast
import sys
from collections import Counter
from pathlib import Path

import chain
import chain_cases
import check
import check_conversion
import check_leaks
import check_methods
import check_page
import check_print
import check_selection
import conversion
import conversion_sheets
import count_sheets
import counts
import editions
import frame
import logged_cases
import methods
import model
import page
import sbox
import screening
import selection
import selection_cases
import sheets
from chain_mutants import CHAIN
from count_mutants import COUNTS
from edits import edited
from frame_mutants import FRAME
from method_mutants import BY_METHOD, LEAKING, METHODS
from model_mutants import MODEL
from page_mutants import PAGE
from print_mutants import CONVERSION, EDITIONS, PRINT
from screening_mutants import SCREENING
from selection_mutants import ALONE, SELECTION
from small_mutants import SMALL

# For each function, the edits of its text: a piece of it, and what takes its place.
SBOX = {
    "times": [("0x11B", "0x11D"), ("left & 256", "left & 128"), ("product ^= left", "product |= left")],
    "inverse": [("== 1", "== 2"), ("), 0)", "), 1)")],
    "affine": [("0x63", "0x62"), ("(0, 4, 5, 6, 7)", "(0, 1, 2, 3, 4)"), ("(0, 4, 5, 6, 7)", "(0, 4, 5, 6)")],
    "table": [("affine(inverse(byte))", "inverse(affine(byte))"), ("range(256)", "range(255)")],
    "printed": [("%02x", "%2x"), ("%02x", "%02X"), ('" ".join(row)', '"".join(row)')],
}

# Functions that the answers of a test program go through.
CALLED = ("METHODS", "scratch_length", "log_length", "drawn", "is_fit", "table_refusal", "mask_refusal", "scratch_refusal", "logged_call")
SELECTING = ("LOG_LENGTH", "ROWS", "OTHER_ROWS", "plain_refusal", "logged_refusal", "half", "run", "select", "plain_select")
METHOD_RUNS = ("recomputed", "run_method_2", "run_method_3", "run_method_5")

# For each module such functions, the program's cases, and what answers one: each wrong edit of the functions changes an answer, so no case
# can go unseen that alone notices one.
CASES = {
    "methods": [(METHOD_RUNS, logged_cases.cases, logged_cases.answer)],
    "editions": [(tuple(EDITIONS), conversion_sheets.cases, conversion_sheets.answer)],
    "model": [
        (CALLED, logged_cases.cases, logged_cases.answer),
        (("bench",), sheets.all_sheets, lambda text: model.bench(text)),
        (("sheet_call",), sheets.all_sheets, lambda text: model.sheet_call(text)),
    ],
    "page": [(tuple(PAGE), sheets.page_sheets, lambda text: page.page(text))],
    "conversion": [(tuple(CONVERSION), conversion_sheets.cases, conversion_sheets.answer)],
    "counts": [(("counts",), count_sheets.all_sheets, lambda text: counts.counts(text))],
    "chain": [(("following", "chain_refusal", "chained_call"), chain_cases.cases, chain_cases.answer)],
    "selection": [(SELECTING, selection_cases.cases, selection_cases.answer)],
}

# How many wrong edits of each module are tried on what checks it, on a program's cases and on groups alone: that one is left out is noticed
# here alone.
WAYS = ("checks", "cases", "groups")
TRIED = {
    "methods": (86, 86, 19),
    "editions": (57, 57, 3),
    "model": (356, 194, 0),
    "page": (154, 154, 15),
    "conversion": (34, 34, 6),
    "counts": (120, 26, 0),
    "chain": (130, 97, 0),
    "sbox": (13, 0, 0),
    "screening": (32, 0, 0),
    "frame": (117, 0, 0),
    "selection": (217, 197, 6),
    "sheets": (0, 0, 3),
}
WANTED = Counter({(module, way): number for module, numbers in TRIED.items() for way, number in zip(WAYS, numbers, strict=True)})


# The text of each function of a module, and of a constant that has edits.
def definitions(module, edits):
    source = Path(module.__file__).read_text()
    for node in ast.parse(source).body:
        names = [target.id for target in getattr(node, "targets", []) if target.id in edits]
        if isinstance(node, ast.FunctionDef):
            names = [node.name]
        yield from ((name, ast.get_source_segment(source, node)) for name in names)


# Whether some difference is found, or the search for one breaks off, with this definition in the place of the module's own. It counts as
# tried.
def noticed(module, name, text, differences, way, tried):
    tried[module.__name__, way] += 1
    wrong, right = compile(text, name, "exec"), getattr(module, name)
    try:
        exec(wrong, vars(module))
        return any(True for _ in differences())
    except Exception:
        return True
    finally:
        setattr(module, name, right)


# What searches a program's cases for an answer that is another than now.
def search(cases, answer):
    answers = [(case, answer(case)) for case in cases()]
    return lambda: (case for case, wanted in answers if answer(case) != wanted)


# What is wrong with the control of a module: it must pass as it is, and each of its functions must have edits, which are noticed.
def complaints(module, edits, tried):
    texts = dict(definitions(module, edits))
    differences = lambda: check.differences(module.__name__)
    if any(True for _ in differences()):
        yield "the module itself differs"
    changed = {}
    for names, cases, answer in CASES.get(module.__name__, []):
        changed |= dict.fromkeys(names, search(cases, answer))
    yield from (f"{name} has no edits" for name in texts if not edits.get(name))
    for name, pieces in edits.items():
        for old, new in pieces:
            wrong = edited(texts[name], old, new)
            if not noticed(module, name, wrong, differences, "checks", tried):
                yield f"{name}: {old!r} became {new!r}, and no check differs"
            if name in changed and not noticed(module, name, wrong, changed[name], "cases", tried):
                yield f"{name}: {old!r} became {new!r}, and no case's answer differs"


# Groups that are run alone: the module and the function of it that is edited, the group, and the edits that it must notice.
GROUPS = (
    *((selection, "run", getattr(check_selection, group), pieces) for group, pieces in ALONE.items()),
    (methods, "run_method_5", check_leaks.leaking, LEAKING),
    (methods, "recomputed", check_methods.by_hand, METHODS["recomputed"]),
    (editions, "print_line", check_print.sample, [("columns=NEW", "columns=OLD")]),
    (editions, "read_sheet", check_print.forms, [("> 256", "> 257"), ("> 256", "> 255")]),
    (page, "entry_lines", check_page.by_hand, [("line.ljust(WIDTH)", "line"), ("len(texts),", "len(texts) + 1,")]),
    (page, "entry_text", check_page.contents, [("% (at,", "% (at + 1,"), ("%6d%4d%6d", "%6d%-4d%6d")]),
    (page, "kind_lines", check_page.contents, [("map(kind_of, log)", "map(kind_of, log[1:])")]),
    (page, "kind_lines", check_page.laws, [("often[kind])", "often[kind] + 1)"), ("sorted(often)", "often"), ("%6d%10d", "%6d%8d")]),
    (page, "total_line", check_page.laws, [("len(log)", "(len(log) + 1)"), ("      %", "     0%"), ("%10d", "%9d")]),
    (page, "page", check_page.refusals, [("print_line(refusal)", f"print_line({other})") for other in ("1", "refusal % 12")]),
    (page, "page", check_page.as_bench, [("(refusal)", "(refusal, columns=4)"), ("*entry_lines(log), ", "")]),
    (sheets, "page_sheets", check_page.lengths, [("(5, 7)", "(5,)"), ("(5, 7)", "(7,)"), ("all_sheets()", "()")]),
    (conversion, "converted", check_conversion.sample, [("sheet(target", "sheet(source"), ("print_line(1)", "print_line(22)")]),
    (conversion, "converted", check_conversion.refused_elsewhere, [("> target.largest", "> 98"), ("case, table)", "case, table[:4])")]),
    (conversion, "converted", check_conversion.round_trips, [("case, table)", "case, table[:1])"), ("> target", "< target")]),
)


# The groups that do not notice, run alone, an edit that they must.
def blind_groups(tried):
    for module, name, group, pieces in GROUPS:
        text = dict(definitions(module, {}))[name]
        differences = lambda: (what for what, got, wanted in group() if got != wanted)
        for old, new in pieces:
            if not noticed(module, name, edited(text, old, new), differences, "groups", tried):
                yield f"{group.__name__} alone does not see that {old!r} of {name} became {new!r}"


# The numbers of tried edits that are other than those written down.
def miscounted(tried):
    for module, way in tried | WANTED:
        number, wanted = tried[module, way], WANTED[module, way]
        if number != wanted:
            yield f"{module}: {number} edits were tried on {way}, and not {wanted}"


# The control of the count: one edit less must be noticed, wherever one is wanted.
def uncounted():
    for each in +WANTED:
        if not any(True for _ in miscounted(WANTED - Counter([each]))):
            yield f"{each[0]}: one edit less on {each[1]} goes unnoticed"


def main():
    modules = (
        (methods, METHODS),
        (editions, EDITIONS),
        (model, SMALL | BY_METHOD | MODEL | PRINT),
        (page, PAGE),
        (conversion, CONVERSION),
        (counts, COUNTS),
        (chain, CHAIN),
        (sbox, SBOX),
        (screening, SCREENING),
        (frame, FRAME),
        (selection, SELECTION),
    )
    found = [] if [module.__name__ for module, _ in modules] == list(check.PARTS) else ["other modules are checked than are edited"]
    tried = Counter()
    for module, edits in modules:
        found += [f"{module.__name__}: {complaint}" for complaint in complaints(module, edits, tried)]
        print(f"{sum(map(len, edits.values()))} edits of {module.__name__}.py")
    found += [*blind_groups(tried), *miscounted(tried), *uncounted()]
    for complaint in found:
        print(complaint)
    sys.exit(1 if found else 0)


main()
