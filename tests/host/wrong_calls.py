# The control of tests/host/plain_call_test.c: wrong calls, each of which the group named beside it must notice. A wrong call is the
# reference with an edit, exported in the place of the archive's call; the reference that it is compared with may have the edit too, and
# then the test's own figures must notice it. Run: python3 tests/host/wrong_calls.py (status 0 if the unedited reference passes whole, also
# with the library's way to find out what is fit, and every wrong call is noticed; 1 otherwise, with a line for each that is not).
import signal
import subprocess
import sys
from pathlib import Path

import wrong_method_5
from controls import end_control
from wrong_call_edits import (
    CLEAN_CHECK,
    CLEAR,
    DIRTY,
    DIRTY_AS_FAR_AS_IT_GOES,
    FIRST_LINE,
    LAST_LINE,
    LENGTH_CHECK,
    LOOK_UP,
    MASKS_CHECKED,
    REFUSED,
    TABLE_CHECKED,
    before,
    check_before,
    looks_at,
    looks_at_joined,
    looks_if,
    place_cut,
    touches,
)
from wrong_tables import EVERY_TABLE, FIT_TABLES, OLD_RULE, OTHER_RULES, fit_by_periods

HOST = Path(__file__).resolve().parent
sys.path.insert(0, str(HOST.parent / "model"))
from edits import edited

COMPILE = ["cc", "-std=c99", "-O2", f"-I{HOST}", f"-I{HOST.parents[1] / 'include'}"]
TEST = ("plain_call_test", "bench_sheet", "scratch", "lent_pages", "pages", "fit_tables", "tables", "trial", "numbers", "groups")
# The copy that is called stands beside the reference that it is compared with.
RENAMED = "-Dreference_plain_call=wrong_plain_call"

NUMBERS = ("method", "n", "m", "x0", "r1", "r2", "s1", "s2", "r3", "b")
BENCH_SHEET = {
    "wrong share, method 2": ("return scratch[call.r3];", "return scratch[call.r3] ^ 1;"),
    "the other register": ("return registers[call.b];", "return registers[1 - call.b];"),
    "one fixed share": (LAST_LINE, "    return 2;\n"),
    "all refused": (FIRST_LINE, "    unsigned number = 2;\n"),
    **EVERY_TABLE,
    **OLD_RULE,
    **OTHER_RULES,
    "scratch untouched": before(LOOK_UP, "uint8_t other[512];", "scratch = other;"),
    "b ignored": before("    uint8_t registers[2]", "call.b = 0;"),
    "r3 ignored": before("    uint32_t r_prime", "call.r3 = 0;"),
    "the second mask left out": ("(call.table[place] ^ call.s1) ^ call.s2", "call.table[place] ^ call.s1"),
    "a byte past those that are needed": before(LAST_LINE, "scratch[needed(call)] ^= 1;"),
    "the byte before scratch": before(LAST_LINE, "scratch[-1] ^= 1;"),
    "the byte behind scratch": before(LAST_LINE, "scratch[scratch_length] ^= 1;"),
    "dirty scratch accepted": ("return 19;", "return 0;"),
    "the first byte of four not looked at": looks_at("scratch + 1, needed(call) - 1"),
    "the last byte of four not looked at": looks_at("scratch, needed(call) - 1"),
    "the byte behind four looked at": looks_at("scratch, needed(call) + (scratch_length > needed(call))"),
    "19 for a short scratch": check_before(LENGTH_CHECK, DIRTY_AS_FAR_AS_IT_GOES, 19),
    "a table entry": before(LAST_LINE, "((uint8_t *)call.table)[0] ^= 1;"),
    "the byte before the table": before(LAST_LINE, "((uint8_t *)call.table)[-1] ^= 1;"),
    "the byte behind the table": before(LAST_LINE, "((uint8_t *)call.table)[call.table_length] ^= 1;"),
}
NEIGHBOURS = {
    "10 for 11": ("return 11;", "return 10;"),
    "13 where scratch just suffices": ("scratch_length < needed", "scratch_length <= needed"),
    "b = 1 under method 2": ("call.method == 2 && call.b > 0", "call.method == 2 && call.b > 1"),
    "long tables accepted": ("call.table_length != entries", "call.table_length < entries"),
    "m up to n": ("call.m > 8", "call.m > call.n"),
    "m up to 7": ("call.m > 8", "call.m > 7"),
    "m up to 9": ("call.m > 8", "call.m > 9"),
    "m up to n or 4": ("call.m > 8", "call.m > (call.n > 4 ? call.n : 4)"),
    "x0 up to 255": ("call.x0 >= entries", "call.x0 >= 256"),
    "2^m allowed in the table": ("call.table[place] >= values", "call.table[place] > values"),
    "a share beside the refusal": ("number * 256", "number * 256 + 1"),
    "scratch written on refusal": before(REFUSED, "if (number != 0 && scratch_length > 0) { scratch[0] ^= 1; }"),
    "13 for 19": ("return 19;", "return 13;"),
    "14 for 19": ("return 19;", "return 14;"),
    "19 with one byte fewer": looks_at("scratch, needed(call) - 1"),
    "19 without the first byte": looks_at("scratch + 1, needed(call) - 1"),
    "19 with one byte more": looks_at("scratch, needed(call) + (scratch_length > needed(call))"),
    "19 by the whole scratch": looks_at("scratch, scratch_length"),
    "19 by the end of scratch": looks_at("scratch + scratch_length - needed(call), needed(call)"),
    "19 by 2^m bytes": looks_at("scratch, (size_t)1 << call.m"),
    "19 by every second byte": ("place < bytes; place++", "place < bytes; place += 2"),
    "19 by 1 alone": ("scratch[place] != 0", "scratch[place] == 1"),
    "19 by odd bytes": ("scratch[place] != 0", "scratch[place] % 2 != 0"),
    "19 by bytes below 128": ("scratch[place] != 0", "(int8_t)scratch[place] > 0"),
    "19 by bytes from 128 on": ("scratch[place] != 0", "scratch[place] >= 128"),
    "19 by the bytes' sum": looks_at_joined("+="),
    "19 by the bytes' exclusive or": looks_at_joined("^="),
    "19 under method 2 alone": looks_if("call.method == 2"),
    "19 under method 3 alone": looks_if("call.method == 3"),
    "19 under method 5 alone": looks_if("call.method == 5"),
    "19 under methods 2 and 3 alone": looks_if("call.method != 5"),
    "19 and the scratch cleared": before(REFUSED, f"if (number == 19) {{ {CLEAR} }}"),
    "widths as distances of a shift": before(FIRST_LINE, "call.n &= 31;"),
    **{f"{name} cut to 8 bits": before(FIRST_LINE, f"call.{name} &= 255;") for name in NUMBERS},
    **{f"{name} cut to 16 bits": before(FIRST_LINE, f"call.{name} &= 65535;") for name in ("method", "n", "m", "x0", "b")},
}
SEVERAL_FAULTS = {
    "3 before 2": check_before("    if (call.method != 2", "call.n < 1 || call.n > 8", 3),
    "4 before 3": check_before("    if (call.n < 1", "call.m < 1 || call.m > 8", 4),
    "5 before 4": check_before("    if (call.m < 1", "call.table_length != (size_t)1 << call.n", 5),
    "7 before 6": check_before(
        "    for (size_t place = 0; place < entries; place++) {\n        if (call.table[place] >=", "!fit(call.table, entries)", 7
    ),
    "7 before 5": check_before("    if (call.table_length", "call.table_length > entries && !fit(call.table, entries)", 7),
    "7 before 4": check_before("    if (call.m < 1", "call.table_length == (size_t)1 << call.n && !fit(call.table, call.table_length)", 7),
    "6 before 5": check_before("    if (call.table_length", "call.table[0] >= values", 6),
    "11 before 10": check_before("    if (call.x0 >=", "call.s1 >= values || call.s2 >= values", 11),
    "12 before 11": check_before("    if (call.s1 >=", "call.b > 1", 12),
    "13 before 12": check_before(MASKS_CHECKED, "scratch_length < needed(call)", 13),
    "19 before 13": check_before(LENGTH_CHECK, DIRTY_AS_FAR_AS_IT_GOES, 19),
    "19 before 12": (MASKS_CHECKED, MASKS_CHECKED + f"    if (number == 12 && {DIRTY}) {{ return 19; }}\n"),
    "19 before 10": check_before(MASKS_CHECKED, DIRTY, 19),
    "19 before 7": (TABLE_CHECKED, TABLE_CHECKED + f"    if (number == 7 && {DIRTY}) {{ return 19; }}\n"),
    "19 before 2": check_before(TABLE_CHECKED, DIRTY, 19),
    "10 before 7": (TABLE_CHECKED, TABLE_CHECKED + "    if (number == 7 && mask_refusal(call) == 10) { return 10; }\n"),
}
LONG_BUFFERS = {
    "table length cut to 8 bits": before(FIRST_LINE, "call.table_length &= 255;"),
    "table length cut to 16 bits": before(FIRST_LINE, "call.table_length &= 65535;"),
    "scratch length cut to 8 bits": before(FIRST_LINE, "scratch_length &= 255;"),
    "scratch length cut to 16 bits": before(FIRST_LINE, "scratch_length &= 65535;"),
    "place of a dirty byte cut to 8 bits": place_cut(256),
    "place of a dirty byte cut to 16 bits": place_cut(65536),
    "256 bytes looked at": looks_at("scratch, scratch_length < 256 ? scratch_length : 256"),
    "512 bytes looked at": looks_at("scratch, scratch_length < 512 ? scratch_length : 512"),
    "long scratch not looked at": looks_if("scratch_length <= 65536"),
    "all of scratch written": before(LOOK_UP, "for (size_t at = 0; at < scratch_length; at++) { scratch[at] = 0; }"),
}
SMALL_WIDTHS = {
    "one choice of masks": before(LAST_LINE, "share ^= call.n == 2 && call.r1 == 3 && call.r2 == 1 && call.r3 == 2 && call.s1 == 1;"),
    "one table": before(FIRST_LINE, "if (call.n == 2 && call.table[0] == 1 && call.table[1] == 0 && call.table[2] == 3) { return 0; }"),
    **OLD_RULE,
    **OTHER_RULES,
    "method 2 where b is 0": before(FIRST_LINE, "call.method = call.method == 3 && call.b == 0 ? 2 : call.method;"),
}
CALLS_IN_A_ROW = {
    "a call after an accepted one not checked": before(
        REFUSED, "static bool used;", "if (used && number == 19) { number = 0; }", "used = number == 0;"
    ),
    "dirty scratch cleared for the next call": before(REFUSED, f"if (number == 19) {{ {CLEAR} }}"),
    "method 3's bytes taken for clean": ("scratch[place] != 0", "scratch[place] > 1"),
    "scratch left clean": before(LAST_LINE, CLEAR),
}
# What can't be touched is not: the system stops these.
ENDS_OF_PAGES = {
    "the byte behind scratch read": before(LAST_LINE, touches("scratch[scratch_length]")),
    "the byte behind dirty scratch read": before(CLEAN_CHECK, touches("scratch[scratch_length]")),
    "the byte behind short scratch read": before(LENGTH_CHECK, touches("scratch[scratch_length]")),
    "two bytes of scratch an entry read": before(CLEAN_CHECK, touches("scratch[((size_t)2 << call.n) - 1]")),
    "the byte behind the table read": before(LAST_LINE, touches("call.table[call.table_length]")),
    "the table written": before(LAST_LINE, touches("call.table[0]", "= call.table[0]")),
}
RANDOM_CALLS = {
    "one dirty place at one width": before(CLEAN_CHECK, "if (call.n == 6 && scratch[37] && clean(scratch, 37)) { return 0; }"),
    "one x0 at one width": before(LAST_LINE, "share ^= call.n == 7 && call.x0 == 77;"),
    "one byte of a long scratch": before(LAST_LINE, "scratch[scratch_length > 700 ? 700 : 0] ^= scratch_length > 700;"),
}
WRONG_CALLS = {
    "bench_sheet": {**BENCH_SHEET, **wrong_method_5.BENCH_SHEET},
    "neighbours_of_refusals": {**NEIGHBOURS, **wrong_method_5.NEIGHBOURS},
    "several_faults_at_once": {**SEVERAL_FAULTS, **wrong_method_5.SEVERAL_FAULTS},
    "long_buffers": LONG_BUFFERS,
    "ends_of_pages": ENDS_OF_PAGES,
    "fit_tables": FIT_TABLES,
    "small_widths_whole": {**SMALL_WIDTHS, **wrong_method_5.SMALL_WIDTHS},
    "calls_in_a_row": {**CALLS_IN_A_ROW, **wrong_method_5.CALLS_IN_A_ROW},
    "random_calls": {**RANDOM_CALLS, **wrong_method_5.RANDOM_CALLS},
}
# Those that the reference is given too: the test's own figures, and the share joined with its masks, must notice them.
COMMON_FAULTS = {
    "bench_sheet": {
        "scratch cleared": before("    return registers[call.b];", "scratch[call.r3] = 0;"),
        "dirty scratch accepted": BENCH_SHEET["dirty scratch accepted"],
        **wrong_method_5.BENCH_SHEET,
        **EVERY_TABLE,
        **OLD_RULE,
        **OTHER_RULES,
    },
    "neighbours_of_refusals": {
        name: WRONG_CALLS["neighbours_of_refusals"][name]
        for name in (
            "10 for 11",
            "m up to n",
            "m up to 7",
            "m up to 9",
            "r3 not bounded",
            "two bytes an entry under every method",
            "scratch written on refusal",
            "13 for 19",
            "19 with one byte fewer",
            "19 with one byte more",
            "19 and the scratch cleared",
        )
    },
    "several_faults_at_once": {name: SEVERAL_FAULTS[name] for name in ("7 before 6", "13 before 12", "19 before 13", "19 before 12")},
    "long_buffers": {name: LONG_BUFFERS[name] for name in ("table length cut to 16 bits", "place of a dirty byte cut to 16 bits")},
    "fit_tables": {**OLD_RULE, **OTHER_RULES},
    "small_widths_whole": {name: OTHER_RULES[name] for name in ("unequal counts accepted", "unclosed tables accepted")},
    "calls_in_a_row": {**CALLS_IN_A_ROW, **wrong_method_5.CALLS_IN_A_ROW},
    "random_calls": {name: RANDOM_CALLS[name] for name in ("one x0 at one width",)},
}


def build(*words):
    subprocess.run([*COMPILE, *words], check=True, timeout=60)


def build_objects(folder):
    for name in (*TEST, "reference"):
        build("-c", HOST / f"{name}.c", "-o", folder / f"{name}.o")
    build(RENAMED, "-c", HOST / "wrong_call.c", "-o", folder / "wrong_call.o")


# The test program over a copy of the reference, run on a group, or on all. In a common fault the copy is also what it is compared with.
def run(folder, copy, *group, common=False):
    (folder / "copy.c").write_text(copy)
    build(RENAMED, "-c", folder / "copy.c", "-o", folder / "copy.o")
    compared = folder / ("copy.c" if common else "reference.o")
    objects = [folder / f"{name}.o" for name in (*TEST, "wrong_call", "copy")]
    build(*objects, compared, "-o", folder / "test")
    return subprocess.run([folder / "test", *group], capture_output=True, text=True, timeout=60)


# A wrong one makes a comparison come out ill, or is stopped by the system.
def noticed(done):
    return done.returncode == -signal.SIGSEGV or (done.returncode == 1 and "DIFFERS: " in done.stdout)


def complaints(folder):
    build_objects(folder)
    reference = (HOST / "reference.c").read_text()
    for right in (reference, edited(reference, *fit_by_periods())):
        if run(folder, right).returncode != 0:
            yield "the reference itself does not pass, or not by periods"
    for common, groups, number in ((False, WRONG_CALLS, 200), (True, COMMON_FAULTS, 72)):
        for group, calls in groups.items():
            for name, (old, new) in calls.items():
                done = run(folder, edited(reference, old, new), group, common=common)
                if not noticed(done):
                    yield f"{name}, {common=}: {group} does not notice it\n{done.stdout}"
        tried = sum(map(len, groups.values()))
        print(tried, "common faults" if common else "wrong calls")
        if tried != number:
            yield f"{tried} were tried, and not {number}"


end_control(complaints)
